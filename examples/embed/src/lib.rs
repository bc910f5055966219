//! Safe Rust over the two functions of `libkilntaupe_c.a`.

/// With what a script is played: the options of `kilntaupe play`.
#[repr(C)]
#[derive(Clone, Copy, Debug)]
pub struct Given {
    pub repos: u8,
    pub tries: u8,
    pub cache: u32,
    pub mob: u32,
}

impl Default for Given {
    fn default() -> Given {
        Given { repos: 1, tries: 16, cache: 64, mob: 1_048_576 }
    }
}

#[repr(C)]
#[derive(Default)]
struct Lengths {
    report: usize,
    image: usize,
}

// As crates/kilntaupe_c/src/lib.rt has them: a slice crosses as a pointer and a length, and the allocator takes no bytes.
unsafe extern "C" {
    fn kilntaupe_c_play_on(
        given: *const Given,
        script: *const u8,
        script_length: usize,
        image: *const u8,
        image_length: usize,
        report: *mut u8,
        report_room: usize,
        after: *mut u8,
        after_room: usize,
        lengths: *mut Lengths,
    ) -> u8;
}

/// What a run has come to: the status and the text of `kilntaupe play`.
#[derive(Clone, Debug, PartialEq, Eq)]
pub struct Run {
    pub status: u8,
    pub report: String,
}

/// A store in memory. `image` has all that its disks hold, to be kept wherever it is wanted.
#[derive(Clone, Default)]
pub struct Store {
    pub image: Vec<u8>,
}

impl Store {
    /// Plays a script on the store. One without bytes is new, and its first script has a setup.
    pub fn play(&mut self, given: &Given, script: &str) -> Run {
        let (mut report, mut after) = (vec![0u8; 1 << 16], vec![0u8; self.image.len() + (1 << 20)]);
        loop {
            let mut lengths = Lengths::default();
            // SAFETY: each pointer and length are those of one slice, which is borrowed for the call, and no two overlap.
            let status = unsafe {
                kilntaupe_c_play_on(
                    given, script.as_ptr(), script.len(), self.image.as_ptr(), self.image.len(),
                    report.as_mut_ptr(), report.len(), after.as_mut_ptr(), after.len(), &mut lengths,
                )
            };
            let has_room = lengths.report <= report.len() && lengths.image <= after.len();
            if !has_room {
                // The same run again, which comes to the same.
                report.resize(lengths.report.max(report.len()), 0);
                after.resize(lengths.image.max(after.len()), 0);
                continue;
            }
            report.truncate(lengths.report);
            after.truncate(lengths.image);
            if lengths.image > 0 {
                self.image = after;
            }
            return Run { status, report: String::from_utf8_lossy(&report).into_owned() };
        }
    }
}

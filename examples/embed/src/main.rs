//! Keeps a counter in a file: `embed FILE` makes it, and adds 1 each time. The new image takes the file's place in one step.

use embed::{Given, Store};
use std::fs::{self, File};
use std::io::Write;
use std::path::Path;
use std::process::ExitCode;

const FIRST: &str = "setup
free class Counter { int n; method int add(int k) { this.n = this.n + k; return this.n; } }
root visits = new Counter();
client 1 tx { print visits.add(1); }
";
const NEXT: &str = "client 1 tx { print visits.add(1); }\n";

/// Puts bytes into a file so that it has either what it had or all of them.
fn replace(path: &Path, bytes: &[u8]) -> std::io::Result<()> {
    let new = path.with_extension("new");
    let mut file = File::create(&new)?;
    file.write_all(bytes)?;
    file.sync_all()?;
    fs::rename(&new, path)?;
    let folder = path.parent().filter(|it| !it.as_os_str().is_empty()).unwrap_or(Path::new("."));
    File::open(folder)?.sync_all()
}

fn main() -> ExitCode {
    let Some(name) = std::env::args_os().nth(1) else {
        eprintln!("embed FILE");
        return ExitCode::from(2);
    };
    let path = Path::new(&name);
    let mut store = Store { image: fs::read(path).unwrap_or_default() };
    let script = if store.image.is_empty() { FIRST } else { NEXT };
    let run = store.play(&Given::default(), script);
    print!("{}", run.report);
    match replace(path, &store.image) {
        Ok(()) => ExitCode::from(run.status),
        Err(error) => {
            eprintln!("embed: {error}");
            ExitCode::from(6)
        }
    }
}

/* Kilntaupe as a library: crates/kilntaupe_c, built as libkilntaupe_c.a.
 *
 * A script is played on a store in memory. The functions take no handle: they read and write no file, and start no thread.
 * They call malloc, realloc and free. A call may take some 2 MB of stack. */
#ifndef KILNTAUPE_H
#define KILNTAUPE_H

#include <stddef.h>
#include <stdint.h>

/* With what a script is played: the options of `kilntaupe play`. */
struct kilntaupe_given {
    uint8_t repos;  /* how many repositories there are, 1 to 8 */
    uint8_t tries;  /* how many times an item is tried, 1 to 100; 16 is usual */
    uint32_t cache; /* how many pages a client holds between tries, 1 to 4096; 64 is usual */
    uint32_t mob;   /* how many bytes of objects a repository buffers, 1 to 16777216; 1048576 is usual */
};

/* How long a report and an image are, whether they had room or not. */
struct kilntaupe_lengths {
    size_t report;
    size_t image;
};

/* Plays a script on a new store in memory, which is let go of. The text that `kilntaupe play` would write goes into `report`, as much of
 * it as `report_room` bytes take. The answer is the status with which it would end; 2, too, where an option isn't in its range. */
uint8_t kilntaupe_c_play(const struct kilntaupe_given *given, const uint8_t *script, size_t script_length, uint8_t *report, size_t report_room,
                         struct kilntaupe_lengths *lengths);

/* The same on the store of an image, or on a new store where it has no bytes. The image of what the disks hold then goes into `after`. The
 * answer is 2, too, where the image is none of so many repositories. The blocks must not overlap. A run with the same arguments comes to
 * the same, so where there wasn't room enough it can be made again. */
uint8_t kilntaupe_c_play_on(const struct kilntaupe_given *given, const uint8_t *script, size_t script_length, const uint8_t *image, size_t image_length,
                            uint8_t *report, size_t report_room, uint8_t *after, size_t after_room, struct kilntaupe_lengths *lengths);

/* The same on disks and clocks that behave as `devices` says, to see what a store comes to where they fail. It has for each repository how many
 * numbers its clock gives, and these; then how many calls of its disks fail, and of each the number of its disk, 0 to 2 (the logs, then the pages),
 * and which call of that disk it is, counted from 1. All are numbers of eight bytes, the highest first. Behind its last number a clock gives that
 * again and again, and 0 where it has none. A call that fails changes nothing. Behind the image in `after` stand the calls of each disk: how many
 * there were, as eight bytes, and a letter for each: `r` it read, `l` told its length, `w` wrote, `s` synced, `c` was crashed and started again,
 * `f` failed. The answer is 2, too, where `devices` is none of so many repositories. An image may end behind any repository: those that are left
 * are new. */
uint8_t kilntaupe_c_play_with(const struct kilntaupe_given *given, const uint8_t *script, size_t script_length, const uint8_t *image,
                              size_t image_length, const uint8_t *devices, size_t devices_length, uint8_t *report, size_t report_room,
                              uint8_t *after, size_t after_room, struct kilntaupe_lengths *lengths);

#endif

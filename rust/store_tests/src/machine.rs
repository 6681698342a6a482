//! The state of the disk and the load of this computer.

use crate::scratch::Scratch;
use std::fs::File;
use std::io::{Seek, Write};
use std::path::Path;
use std::time::{Duration, Instant};

/// How many syncs are timed.
const SYNCS: usize = 201;

/// How long a sync takes in a folder, and how busy the computer is.
pub fn machine(folder: &Path) -> String {
    let load = std::fs::read_to_string("/proc/loadavg").unwrap_or_default();
    let load = load.split(' ').take(3).collect::<Vec<_>>().join(" ");
    let sync = sync(folder).as_micros();
    format!("A sync of a page takes {sync} µs, the median of {SYNCS}. The load before is {load}.")
}

/// How long the disk takes for a page, in a file that has its length already.
fn sync(folder: &Path) -> Duration {
    let scratch = Scratch::below(folder);
    let mut file = File::create(scratch.file("page")).expect("a file");
    let mut page = |round: usize| {
        file.rewind().and_then(|()| file.write_all(&[round as u8; 8_192])).expect("a page");
        let began = Instant::now();
        file.sync_data().expect("a sync");
        began.elapsed()
    };
    page(0);
    let mut times: Vec<Duration> = (0..SYNCS).map(page).collect();
    times.sort();
    times[SYNCS / 2]
}

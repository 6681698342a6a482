//! How many instructions a call takes, counted by callgrind: unlike a time, the number is the same at every placement.

use crate::measure::Candidate;
use std::arch::asm;
use std::collections::HashMap;
use std::ffi::CString;
use std::path::Path;

// The requests that valgrind and callgrind take, by valgrind.h and callgrind.h.
const RUNNING: usize = 0x1001;
const DUMP_AT: usize = 0x4354_0003;
const ZERO: usize = 0x4354_0001;

/// How many calls are counted together.
const CALLS: u32 = 4;

/// Asks valgrind for something; on a bare processor these instructions do nothing, and the answer is 0.
fn request(code: usize, argument: usize) -> usize {
    let arguments = [code, argument, 0, 0, 0, 0];
    let mut answer = 0;
    // SAFETY: four rotations by 128 bits in all leave rdi as it was, and the exchange leaves rbx. Valgrind sees the sequence, reads the
    // six numbers at rax and puts its answer into rdx.
    unsafe {
        asm!(
            "rol rdi, 3", "rol rdi, 13", "rol rdi, 61", "rol rdi, 51", "xchg rbx, rbx",
            in("rax") arguments.as_ptr(), inout("rdx") answer,
        );
    }
    answer
}

/// Whether valgrind runs this program.
pub fn can_count() -> bool {
    request(RUNNING, 0) != 0
}

/// Has callgrind write what some calls of each candidate take into a file of its own, by this name.
pub fn count(name: &str, candidate: &mut Candidate) {
    (candidate.run)(1);
    let name = CString::new(name).expect("a name has no zero");
    request(ZERO, 0);
    (candidate.run)(CALLS);
    request(DUMP_AT, name.as_ptr() as usize);
}

/// What one of callgrind's files says: the name that it was written for, and the instructions of one call.
fn counted(text: &str) -> Option<(String, u64)> {
    let after = |start: &str| text.lines().find_map(|line| line.strip_prefix(start));
    let name = after("desc: Trigger: Client Request: ")?;
    let total: u64 = after("summary: ").or(after("totals: "))?.trim().parse().ok()?;
    Some((name.into(), total / u64::from(CALLS)))
}

/// The instructions of a call, by name, from callgrind's files in a folder.
pub fn read(folder: &Path) -> std::io::Result<HashMap<String, u64>> {
    let texts = std::fs::read_dir(folder)?.map(|file| std::fs::read_to_string(file?.path()));
    Ok(texts.collect::<Result<Vec<_>, _>>()?.iter().filter_map(|text| counted(text)).collect())
}

#[cfg(test)]
mod tests {
    use super::*;

    #[test]
    fn a_file_of_callgrind() {
        let text = "version: 1\ndesc: Trigger: Client Request: full/check/library\nevents: Ir\nsummary: 4004\n\ntotals: 4004\n";
        assert_eq!(counted(text), Some(("full/check/library".into(), 1001)));
        assert_eq!(counted("desc: Trigger: Program termination\ntotals: 9\n"), None);
    }

    #[test]
    fn a_bare_processor_answers_nothing() {
        assert!(!can_count());
    }
}

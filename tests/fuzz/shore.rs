//! The proved store through its library (crate `capi`).

// The benchmark uses a part.
#![allow(dead_code)]

extern "C" {
    fn shore_run(
        script: *const u8,
        script_length: usize,
        report: *mut u8,
        report_length: usize,
        stopped: *mut u64,
    ) -> usize;
    fn shore_replay_board(
        table: *mut u8,
        table_length: usize,
        calls: *const u64,
        calls_length: usize,
        answers: *mut u64,
        answers_length: usize,
    ) -> usize;
    fn shore_replay_full(
        table: *mut u8,
        table_length: usize,
        calls: *const u64,
        calls_length: usize,
        answers: *mut u64,
        answers_length: usize,
    ) -> usize;
}

/// A script on a fresh store: the fill mark, and the line at which the report was full or 0.
pub fn run(script: &[u8], report: &mut [u8]) -> (usize, u64) {
    let mut stopped = u64::MAX;
    let (length, room) = (script.len(), report.len());
    let fill =
        unsafe { shore_run(script.as_ptr(), length, report.as_mut_ptr(), room, &mut stopped) };
    (fill, stopped)
}

/// A list of calls on a fresh store over the table: how many were made.
pub fn replay(full: bool, table: &mut [u8], calls: &[u64], answers: &mut [u64]) -> usize {
    let replay = if full { shore_replay_full } else { shore_replay_board };
    let (bytes, length, room) = (table.len(), calls.len(), answers.len());
    unsafe { replay(table.as_mut_ptr(), bytes, calls.as_ptr(), length, answers.as_mut_ptr(), room) }
}

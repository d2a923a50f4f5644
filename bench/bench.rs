//! The benchmark's runs, on the proved store's library or on the plain program.
//!
//!     bench script                             prints the mixed script
//!     bench report                             prints the proved store's report on it
//!     bench SIDE script TIMES                  runs the mixed script so often
//!     bench SIDE jobs K ABORTED OPEN TIMES     so many jobs of k loads and k stores each on the
//!                                              board book, of which one in ABORTED is aborted
//!                                              (0: none), beside OPEN other jobs
//!     bench SIDE refused OPEN TIMES            so many stores that are refused, since the last of
//!                                              OPEN jobs has a token there
//!
//! SIDE is `station`, `plain`, or `none`, which makes the list of calls and runs nothing. A run
//! prints the nanoseconds of each script, job or store.

#[path = "../tests/fuzz/generate.rs"]
mod generate;
#[path = "../tests/fuzz/shore.rs"]
mod shore;

use generate::Call;
use std::env;
use std::io::{self, Write};
use std::time::Instant;

const SCRIPT_BYTES: usize = 32_768;
const REPORT_BYTES: usize = 65_536;
const TABLE_BYTES: usize = 4_096;

const BEGIN: u64 = b'b' as u64;
const LOAD: u64 = b'l' as u64;
const STORE: u64 = b's' as u64;
const COMMIT: u64 = b'c' as u64;
const ABORT: u64 = b'a' as u64;

#[derive(Clone, Copy)]
enum Side {
    Station,
    Plain,
    None,
}

impl Side {
    fn run(self, script: &[u8], report: &mut [u8]) {
        match self {
            Side::Station => drop(shore::run(script, report)),
            Side::Plain => drop(plain::run_fresh(script, report)),
            Side::None => {}
        }
    }

    fn replay(self, table: &mut [u8], calls: &[u64], answers: &mut [u64]) -> usize {
        match self {
            Side::Station => shore::replay(false, table, calls, answers),
            Side::Plain => plain::replay(plain::BoardBook::new(), table, calls, answers),
            Side::None => calls.len() / 4,
        }
    }
}

/// Other jobs on threads 1 to 15, each with a token on a block of its own at the end of the table.
fn others(open: u64) -> impl Iterator<Item = Call> {
    (1..=open).flat_map(|thread| [[BEGIN, thread, 0, 0], [STORE, thread, 512 - 8 * thread, 1]])
}

/// Job after job on thread 0: a word in each of k blocks is loaded, then each is stored.
fn jobs(k: u64, aborted: u64, times: u64) -> impl Iterator<Item = Call> {
    (0..times).flat_map(move |job| {
        let address = move |step: u64| (step * 8 + job) % 256;
        let end = if aborted > 0 && job % aborted == 0 { ABORT } else { COMMIT };
        let loads = (0..k).map(move |step| [LOAD, 0, address(step), 0]);
        let stores = (0..k).map(move |step| [STORE, 0, address(step), job]);
        [[BEGIN, 0, 0, 0]].into_iter().chain(loads).chain(stores).chain([[end, 0, 0, 0]])
    })
}

/// Stores by thread 0 to a block where the last of the other jobs has a token, so that each is
/// refused.
fn refused(open: u64, times: u64) -> impl Iterator<Item = Call> {
    let reader = [LOAD, open, 0, 0];
    let stores = (0..times).map(|word| [STORE, 0, 0, word]);
    others(open).chain([reader, [BEGIN, 0, 0, 0]]).chain(stores)
}

/// The time of all calls of the list, on a fresh store.
fn replayed(side: Side, calls: impl Iterator<Item = Call>) -> f64 {
    let calls: Vec<u64> = calls.flatten().collect();
    // not zeros, so that its pages are there before the time is taken
    let mut answers = vec![1; calls.len()];
    let mut table = vec![0; TABLE_BYTES];
    let begun = Instant::now();
    let made = side.replay(&mut table, &calls, &mut answers);
    let time = begun.elapsed().as_nanos() as f64;
    assert_eq!(made, calls.len() / 4);
    time
}

fn scripts(side: Side, times: u64) -> f64 {
    let script = generate::mixed(SCRIPT_BYTES);
    let mut report = vec![0; REPORT_BYTES];
    let begun = Instant::now();
    for _ in 0..times {
        side.run(&script, &mut report);
    }
    begun.elapsed().as_nanos() as f64
}

fn report() -> io::Result<()> {
    let mut report = vec![0; REPORT_BYTES];
    let (fill, _) = shore::run(&generate::mixed(SCRIPT_BYTES), &mut report);
    io::stdout().write_all(&report[..fill])
}

fn main() -> io::Result<()> {
    let arguments: Vec<String> = env::args().skip(1).collect();
    let words: Vec<&str> = arguments.iter().map(String::as_str).collect();
    let figure = |text: &str| text.parse::<u64>().expect("a number");
    let side = |name: &str| match name {
        "station" => Side::Station,
        "plain" => Side::Plain,
        _ => Side::None,
    };
    let (time, times) = match words[..] {
        ["script"] => return io::stdout().write_all(&generate::mixed(SCRIPT_BYTES)),
        ["report"] => return report(),
        [name, "script", times] => (scripts(side(name), figure(times)), figure(times)),
        [name, "jobs", k, aborted, open, times] => {
            let calls = others(figure(open)).chain(jobs(figure(k), figure(aborted), figure(times)));
            (replayed(side(name), calls), figure(times))
        }
        [name, "refused", open, times] => {
            (replayed(side(name), refused(figure(open), figure(times))), figure(times))
        }
        _ => panic!("usage: see the head of bench.rs"),
    };
    println!("{:.1}", time / times as f64);
    Ok(())
}

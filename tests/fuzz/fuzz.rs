//! Runs scripts and lists of calls on the proved store and on the plain program, and ends with
//! status 1 at the first difference or crash.
//!
//!     fuzz SEED SECONDS [CASES]     stops at whichever comes first
//!
//! The cases run in a child, on its main thread, so that a crash there can be told with its case.

mod generate;
mod shore;

use generate::Random;
use std::fs::File;
use std::os::unix::fs::FileExt;
use std::process::{Command, ExitCode};
use std::time::{Duration, Instant};
use std::{env, fs, io};

const RECORD: &str = "fuzz.case";
const FAILED: u8 = 1;

#[derive(Default)]
struct Counts {
    scripts: u64,
    bytes: u64,
    lines: u64,
    lists: u64,
    calls: u64,
    granted: u64,
    refused: [u64; 15],
}

impl Counts {
    fn answer(&mut self, refusal: Option<u64>) {
        match refusal {
            None => self.granted += 1,
            Some(number) => self.refused[number as usize] += 1,
        }
    }

    fn rows(&mut self, rows: &[u8]) {
        for row in rows.split(|&byte| byte == b'\n').filter(|row| !row.is_empty()) {
            let mut fields = row.split(|&byte| byte == b' ').skip(1);
            let refusal = match fields.next() {
                Some(b"no") => {
                    fields.nth(1).map(|field| String::from_utf8_lossy(field).parse().unwrap_or(0))
                }
                _ => None,
            };
            self.lines += 1;
            self.answer(refusal);
        }
    }

    fn print(&self, cases: u64) {
        println!("fuzz: {cases} cases, no difference");
        println!(
            "fuzz: {} scripts, {} bytes, {} lines with a row",
            self.scripts, self.bytes, self.lines
        );
        println!(
            "fuzz: {} lists of calls, each on both books, {} calls made on each",
            self.lists, self.calls
        );
        println!("fuzz: {} granted; refused by {}", self.granted, self.refusals());
    }

    fn refusals(&self) -> String {
        let counts = self
            .refused
            .iter()
            .enumerate()
            .skip(1)
            .map(|(number, count)| format!("{number}: {count}"));
        counts.collect::<Vec<_>>().join(", ")
    }

    /// Whether every refusal occurred but 10, which no call can meet.
    fn all_refusals(&self) -> bool {
        (1..15).filter(|&number| number != 10).all(|number| self.refused[number] > 0)
            && self.refused[10] == 0
    }
}

/// What a run leaves: all bytes of its buffers, margins too, and its figures.
type Left = (Vec<u8>, Vec<u64>, Vec<u64>);

/// Bytes and words round a buffer, which nobody may touch.
const MARGIN: usize = 16;

fn inner<T>(buffer: &mut [T]) -> &mut [T] {
    let end = buffer.len() - MARGIN;
    &mut buffer[MARGIN..end]
}

enum Case {
    Script { script: Vec<u8>, report: Vec<u8> },
    Calls { table: Vec<u8>, calls: Vec<u64>, answers: Vec<u64> },
}

impl Case {
    fn new(seed: u64, number: u64) -> Case {
        let mut random = Random::new(seed, number);
        if random.one_in(2) {
            let script = generate::script(&mut random);
            let length = generate::report_length(&mut random, &script);
            return Case::Script { script, report: vec![random.next() as u8; length + 2 * MARGIN] };
        }
        let calls = generate::calls(&mut random);
        let room = if random.one_in(3) { random.index(calls.len() + 9) } else { calls.len() };
        let length = generate::table_length(&mut random);
        Case::Calls {
            table: random.bytes(length + 2 * MARGIN),
            calls,
            answers: random.words(room + 2 * MARGIN),
        }
    }

    fn proved(&self, full: bool) -> Left {
        match self {
            Case::Script { script, report } => {
                let mut report = report.clone();
                let (fill, stopped) = shore::run(script, inner(&mut report));
                (report, Vec::new(), vec![fill as u64, stopped])
            }
            Case::Calls { table, calls, answers } => {
                let (mut table, mut answers) = (table.clone(), answers.clone());
                let made = shore::replay(full, inner(&mut table), calls, inner(&mut answers));
                (table, answers, vec![made as u64])
            }
        }
    }

    fn plain(&self, full: bool) -> Left {
        match self {
            Case::Script { script, report } => {
                let mut report = report.clone();
                let run = plain::run_fresh(script, inner(&mut report));
                (report, Vec::new(), vec![run.fill as u64, run.stopped.unwrap_or(0)])
            }
            Case::Calls { table, calls, answers } => {
                let (mut table, mut answers) = (table.clone(), answers.clone());
                let (bytes, room) = (inner(&mut table), inner(&mut answers));
                let made = if full {
                    plain::replay(plain::FullBook::new(), bytes, calls, room)
                } else {
                    plain::replay(plain::BoardBook::new(), bytes, calls, room)
                };
                (table, answers, vec![made as u64])
            }
        }
    }

    fn count(&self, left: &Left, counts: &mut Counts) {
        match self {
            Case::Script { script, .. } => {
                let (fill, stopped) = (left.2[0] as usize, left.2[1]);
                counts.scripts += 1;
                counts.bytes += script.len() as u64;
                counts.rows(&left.0[MARGIN..MARGIN + fill]);
                if stopped > 0 {
                    counts.answer(Some(14));
                }
            }
            Case::Calls { .. } => {
                let made = left.2[0] as usize;
                counts.lists += 1;
                counts.calls += left.2[0];
                for answer in left.1[MARGIN..].chunks(4).take(made) {
                    counts.answer((answer[0] > 0).then_some(answer[1]));
                }
            }
        }
    }

    fn has_calls(&self) -> bool {
        matches!(self, Case::Calls { .. })
    }

    /// Writes what a case runs on, and answers the file's name.
    fn write(&self, seed: u64, number: u64) -> io::Result<String> {
        let name = format!("fuzz-{seed}-{number}");
        match self {
            Case::Script { script, report } => {
                let name = format!("{name}.script");
                fs::write(&name, script)?;
                println!("fuzz: the report has {} bytes", report.len() - 2 * MARGIN);
                Ok(name)
            }
            Case::Calls { table, calls, answers } => {
                let name = format!("{name}.calls");
                let lines = calls.chunks(4).map(|call| format!("{call:?}\n")).collect::<String>();
                fs::write(&name, lines)?;
                println!(
                    "fuzz: {} bytes of table, {} numbers of answers",
                    table.len() - 2 * MARGIN,
                    answers.len() - 2 * MARGIN
                );
                Ok(name)
            }
        }
    }
}

/// Whether two lists of answers differ in the release figures alone, and those lie as docs/RULES.md
/// says.
fn books_agree(board: &Left, full: &Left) -> bool {
    let made = board.2[0] as usize;
    let (board_answers, full_answers) = (board.1[MARGIN..].chunks(4), full.1[MARGIN..].chunks(4));
    let mut answers = board_answers.zip(full_answers).take(made);
    let alike = answers.all(|(one, other)| match (one, other) {
        ([0, 2, records, figure], [0, 2, same, held]) => {
            records == same && (*held..=2 * held).contains(figure)
        }
        _ => one == other,
    });
    alike && board.0 == full.0 && board.2 == full.2
}

fn tell(seed: u64, number: u64, what: &str) -> ExitCode {
    println!("fuzz: {what}: seed {seed}, case {number}");
    match Case::new(seed, number).write(seed, number) {
        Ok(name) => println!("fuzz: it stands in {name}"),
        Err(error) => println!("fuzz: it could not be written: {error}"),
    }
    ExitCode::from(FAILED)
}

/// The child: case after case, each noted in the record before it runs.
fn run(seed: u64, time: Duration, cases: u64) -> io::Result<ExitCode> {
    let record = File::create(RECORD)?;
    let begun = Instant::now();
    let mut counts = Counts::default();
    let mut number = 0;
    while number < cases && begun.elapsed() < time {
        record.write_all_at(&number.to_le_bytes(), 0)?;
        let case = Case::new(seed, number);
        let proved = case.proved(false);
        if proved != case.plain(false) {
            return Ok(tell(seed, number, "a difference"));
        }
        if case.has_calls() {
            let full = case.proved(true);
            if full != case.plain(true) {
                return Ok(tell(seed, number, "a difference on the full book"));
            }
            if !books_agree(&proved, &full) {
                return Ok(tell(seed, number, "a difference between the books"));
            }
        }
        case.count(&proved, &mut counts);
        number += 1;
    }
    counts.print(number);
    if number > 5_000 && !counts.all_refusals() {
        println!("fuzz: a refusal never occurred, or one that cannot");
        return Ok(ExitCode::from(FAILED));
    }
    Ok(ExitCode::SUCCESS)
}

fn watch(arguments: &[String], seed: u64) -> io::Result<ExitCode> {
    let status = Command::new(env::current_exe()?).args(arguments).arg("child").status()?;
    match status.code() {
        Some(0) => Ok(ExitCode::SUCCESS),
        Some(1) => Ok(ExitCode::from(FAILED)),
        _ => {
            let record = fs::read(RECORD)?;
            let number = record.try_into().map_or(0, u64::from_le_bytes);
            Ok(tell(seed, number, &format!("a crash ({status})")))
        }
    }
}

fn main() -> io::Result<ExitCode> {
    let mut arguments: Vec<String> = env::args().skip(1).collect();
    let child = arguments.pop_if(|last| last == "child").is_some();
    let figure = |place: usize, otherwise: u64| {
        arguments.get(place).map_or(Ok(otherwise), |text| text.parse())
    };
    let (Ok(seed), Ok(seconds), Ok(cases)) = (figure(0, 1), figure(1, 5), figure(2, u64::MAX))
    else {
        println!("usage: fuzz SEED SECONDS [CASES]");
        return Ok(ExitCode::from(2));
    };
    if child {
        return run(seed, Duration::from_secs(seconds), cases);
    }
    watch(&arguments, seed)
}

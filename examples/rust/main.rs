//! A buoy's half hour, from Rust: one job writes its block, another reads it, a third is put back.
//! Prints each answer and the block's words afterwards, then the report of a script.

/// The static library, in Rust's terms.
mod shore {
    use std::fmt;

    mod c {
        unsafe extern "C" {
            pub fn shore_run(
                script: *const u8,
                script_length: usize,
                report: *mut u8,
                report_length: usize,
                stopped: *mut u64,
            ) -> usize;
            pub fn shore_replay_board(
                table: *mut u8,
                table_length: usize,
                calls: *const u64,
                calls_length: usize,
                answers: *mut u64,
                answers_length: usize,
            ) -> usize;
            pub fn shore_replay_full(
                table: *mut u8,
                table_length: usize,
                calls: *const u64,
                calls_length: usize,
                answers: *mut u64,
                answers_length: usize,
            ) -> usize;
        }
    }

    #[derive(Clone, Copy)]
    pub enum Book {
        Board,
        Full,
    }

    /// What can be asked: threads, addresses and words in the order of the script's fields.
    #[derive(Clone, Copy)]
    pub enum Call {
        Begin(u64),
        Load(u64, u64),
        Store(u64, u64, u64),
        Commit(u64),
        Abort(u64),
    }

    impl Call {
        fn numbers(self) -> [u64; 4] {
            match self {
                Call::Begin(thread) => [b'b'.into(), thread, 0, 0],
                Call::Load(thread, address) => [b'l'.into(), thread, address, 0],
                Call::Store(thread, address, word) => [b's'.into(), thread, address, word],
                Call::Commit(thread) => [b'c'.into(), thread, 0, 0],
                Call::Abort(thread) => [b'a'.into(), thread, 0, 0],
            }
        }
    }

    pub enum Answer {
        Granted(Vec<u64>),
        Refused { layer: u64, number: u64, place: u64 },
    }

    impl From<[u64; 4]> for Answer {
        fn from([layer, number, first, second]: [u64; 4]) -> Answer {
            match (layer, number) {
                (0, 0) => Answer::Granted(vec![]),
                (0, 1) => Answer::Granted(vec![first]),
                (0, _) => Answer::Granted(vec![first, second]),
                (layer, number) => Answer::Refused {
                    layer,
                    number,
                    place: first,
                },
            }
        }
    }

    impl fmt::Display for Answer {
        fn fmt(&self, f: &mut fmt::Formatter<'_>) -> fmt::Result {
            match self {
                Answer::Granted(values) => {
                    write!(f, "granted")?;
                    values.iter().try_for_each(|value| write!(f, " {value}"))
                }
                Answer::Refused {
                    layer,
                    number,
                    place,
                } => {
                    let letter = u8::try_from(*layer).map_or('?', char::from);
                    write!(f, "refused, {letter} {number} {place}")
                }
            }
        }
    }

    /// Makes the calls on a fresh store over the whole blocks of the table: an answer for each.
    pub fn replay(book: Book, table: &mut [u8], calls: &[Call]) -> Vec<Answer> {
        let numbers: Vec<[u64; 4]> = calls.iter().map(|call| call.numbers()).collect();
        let numbers = numbers.as_flattened();
        let mut answers = vec![[0; 4]; calls.len()];
        let room = answers.as_flattened_mut();
        let shore_replay = match book {
            Book::Board => c::shore_replay_board,
            Book::Full => c::shore_replay_full,
        };
        // SAFETY: each pointer comes from a slice of its own, with that slice's length.
        let made = unsafe {
            shore_replay(
                table.as_mut_ptr(),
                table.len(),
                numbers.as_ptr(),
                numbers.len(),
                room.as_mut_ptr(),
                room.len(),
            )
        };
        answers.truncate(made);
        answers.into_iter().map(Answer::from).collect()
    }

    /// Runs a script: the rows in the report, and the number of the line at which it stopped early.
    pub fn run<'a>(script: &str, report: &'a mut [u8]) -> (&'a [u8], Option<u64>) {
        let mut stopped = 0;
        // SAFETY: each pointer comes from a slice or a variable of its own, with its length.
        let fill = unsafe {
            c::shore_run(
                script.as_ptr(),
                script.len(),
                report.as_mut_ptr(),
                report.len(),
                &mut stopped,
            )
        };
        (&report[..fill], (stopped != 0).then_some(stopped))
    }
}

use shore::{Book, Call};

/// Block 1 has the half hour's number, its wave height and its period.
const CALLS: [Call; 16] = [
    Call::Begin(1),
    Call::Store(1, 8, 17),
    Call::Store(1, 9, 812),
    Call::Store(1, 10, 640),
    Call::Commit(1),
    Call::Begin(2),
    Call::Load(2, 8),
    Call::Load(2, 9),
    // the next half hour comes in while the reader holds the block, and yields
    Call::Begin(1),
    Call::Store(1, 8, 18),
    Call::Abort(1),
    Call::Commit(2),
    // now it has the block, and is put back all the same
    Call::Begin(1),
    Call::Store(1, 8, 18),
    Call::Store(1, 9, 845),
    Call::Abort(1),
];

fn replay_half_hour(book: Book) {
    // two blocks, and five bytes that are no block
    let mut table = [0; 2 * 64 + 5];
    table[128..].fill(b'.');
    for answer in shore::replay(book, &mut table, &CALLS) {
        println!("{answer}");
    }
    let (words, _) = table[64..128].as_chunks::<8>();
    print!("block 1:");
    for word in words {
        print!(" {}", u64::from_be_bytes(*word));
    }
    println!();
    println!("behind: {}", String::from_utf8_lossy(&table[128..]));
}

fn run_script() {
    let mut report = [0; 192];
    let (rows, stopped) = shore::run("b 1\ns 1 8 17\nc 1\nb 2\nl 2 8\nc 2\nl 2 8\n", &mut report);
    print!("{}", String::from_utf8_lossy(rows));
    match stopped {
        Some(line) => println!("stopped at line {line}"),
        None => println!("run to its end"),
    }
}

fn main() {
    replay_half_hour(Book::Board);
    replay_half_hour(Book::Full);
    run_script();
}

//! The plain program with the station's limits, arguments, messages and statuses (docs/SCRIPT.md):
//! a script from standard input, its report to standard output.

use std::env;
use std::ffi::OsString;
use std::fs::File;
use std::io::{self, Read, Write};
use std::os::fd::AsFd;
use std::process::ExitCode;

const SCRIPT_BYTES: usize = 32_768;
const REPORT_BYTES: usize = 65_536;
const HELP: &str = include_str!("../help.txt");
const VERSION: &str = "station 0.1.0\n";

/// What stands on standard error behind the program's name. It is bytes, as an argument is.
type Complaint = Vec<u8>;

fn main() -> ExitCode {
    match answer_arguments() {
        Ok(()) => ExitCode::SUCCESS,
        Err(complaint) => {
            let line = [b"station: ", &complaint[..], b"\n"].concat();
            // Where this fails, too, the status is all that is left to say it.
            let _ = io::stderr().write_all(&line);
            ExitCode::FAILURE
        }
    }
}

fn answer_arguments() -> Result<(), Complaint> {
    let mut arguments = env::args_os().skip(1);
    let Some(first) = arguments.next() else {
        return run_input();
    };
    let text = match first.to_str() {
        Some("--help") => HELP,
        Some("--version") => VERSION,
        _ => return Err(unknown(first)),
    };
    match arguments.next() {
        Some(second) => Err(unknown(second)),
        None => print(text.as_bytes()),
    }
}

fn unknown(argument: OsString) -> Complaint {
    let shown = argument.as_encoded_bytes();
    [b"unknown argument \"", shown, b"\": it takes --help, --version or none"].concat()
}

fn run_input() -> Result<(), Complaint> {
    let script = read_script().map_err(failed("reading standard input"))?;
    let mut report = vec![0; REPORT_BYTES];
    let run = plain::run_fresh(&script, &mut report);
    print(&report[..run.fill])?;

    let mut left_out = Vec::new();
    if let Some(line) = run.stopped {
        left_out.push(format!(
            "line {line} was not run, nor any after it: \
             fewer than 64 of the report's {REPORT_BYTES} bytes were free"
        ));
    }
    if script.len() == SCRIPT_BYTES {
        left_out.push(format!(
            "{SCRIPT_BYTES} bytes were read, which is the most: \
             what may follow was not read, and the last line may be cut"
        ));
    }
    if left_out.is_empty() { Ok(()) } else { Err(left_out.join("; ").into_bytes()) }
}

fn failed(what: &'static str) -> impl Fn(io::Error) -> Complaint {
    move |error| format!("{what}: {error}").into_bytes()
}

/// Without a buffer, which would read ahead of the limit.
fn read_script() -> io::Result<Vec<u8>> {
    let mut script = Vec::new();
    file(io::stdin())?.take(SCRIPT_BYTES as u64).read_to_end(&mut script)?;
    Ok(script)
}

/// Without a buffer, so that no write fails later, unseen.
fn print(bytes: &[u8]) -> Result<(), Complaint> {
    let written = file(io::stdout()).and_then(|mut output| output.write_all(bytes));
    written.map_err(failed("writing standard output"))
}

fn file(stream: impl AsFd) -> io::Result<File> {
    stream.as_fd().try_clone_to_owned().map(File::from)
}

//! What the programs that compare another program with the oracle have in common: their arguments, how
//! they run the other program, and how they show the first difference.

use std::env;
use std::ffi::OsStr;
use std::io::{self, Write};
use std::os::unix::ffi::OsStrExt;
use std::process::{Command, ExitCode, Output, Stdio};
use std::thread;
use std::time::{Duration, Instant};

pub struct Request {
    pub program: String,
    pub seed: u64,
    pub count: u64,
}

/// Makes a comparison by the arguments `PROGRAM [--seed N] [--count M]`. It gives the number of cases
/// that agree, or says what differs.
pub fn compare_by_arguments(
    name: &str,
    count: u64,
    comparison: impl Fn(&Request) -> Result<usize, String>,
) -> ExitCode {
    let Some(request) = request(count) else {
        eprintln!("usage: {name} PROGRAM [--seed N] [--count M]");
        return ExitCode::from(2);
    };
    let start = Instant::now();
    match comparison(&request) {
        Ok(total) => {
            let seconds = start.elapsed().as_secs_f64();
            eprintln!("{name}: seed {}, {seconds:.1} s", request.seed);
            println!("{name}: {total} cases agree");
            ExitCode::SUCCESS
        }
        Err(what) => {
            println!("{name}: {what}");
            ExitCode::FAILURE
        }
    }
}

fn request(count: u64) -> Option<Request> {
    let (mut program, mut seed, mut count) = (None, 1, count);
    let mut arguments = env::args().skip(1);
    while let Some(argument) = arguments.next() {
        let mut number = || arguments.next().and_then(|n| n.parse().ok());
        match argument.as_str() {
            "--seed" => seed = number()?,
            "--count" => count = number()?,
            _ if program.is_none() && !argument.starts_with('-') => program = Some(argument),
            _ => return None,
        }
    }
    program.map(|program| Request {
        program,
        seed,
        count,
    })
}

/// How long a program has to read one part of its input before the next one comes.
const BETWEEN_PARTS: Duration = Duration::from_millis(100);

/// Writes one part after the other.
fn write_parts(mut to: impl Write, parts: &[&[u8]]) -> io::Result<()> {
    for (at, part) in parts.iter().enumerate() {
        if at > 0 {
            thread::sleep(BETWEEN_PARTS);
        }
        to.write_all(part)?;
    }
    Ok(())
}

/// What a program with these arguments prints for an input that arrives in these parts.
pub fn run(program: &str, arguments: &[&[u8]], parts: &[&[u8]]) -> Result<Output, String> {
    output(program, arguments, parts).map_err(|error| format!("{program}: {error}"))
}

fn output(program: &str, arguments: &[&[u8]], parts: &[&[u8]]) -> io::Result<Output> {
    let mut child = Command::new(program)
        .args(arguments.iter().map(|word| OsStr::from_bytes(word)))
        .stdin(Stdio::piped())
        .stdout(Stdio::piped())
        .stderr(Stdio::piped())
        .spawn()?;
    // An input is far smaller than a pipe, and a program may stop reading before its end.
    let written = child.stdin.take().map(|stdin| write_parts(stdin, parts));
    if let Some(Err(error)) = written {
        if error.kind() != io::ErrorKind::BrokenPipe {
            return Err(error);
        }
    }
    let mut output = child.wait_with_output()?;
    let status = output.status;
    if status.code().is_none() {
        output.stdout.extend(format!("({status})").into_bytes());
    }
    Ok(output)
}

/// Says where a text differs from the expected one, if it does.
pub fn same(expected: &str, printed: &[u8]) -> Result<(), String> {
    if printed == expected.as_bytes() {
        Ok(())
    } else {
        Err(difference(expected, &String::from_utf8_lossy(printed)))
    }
}

/// Likewise for what a program says on standard error.
pub fn same_words(expected: &str, said: &[u8]) -> Result<(), String> {
    same(expected, said).map_err(|what| format!("standard error, {what}"))
}

/// The first line in which two texts differ.
fn difference(expected: &str, printed: &str) -> String {
    let (mut left, mut right) = (expected.split('\n'), printed.split('\n'));
    let mut line = 1;
    loop {
        match (left.next(), right.next()) {
            (Some(a), Some(b)) if a == b => line += 1,
            (a, b) => {
                let show = |text: Option<&str>| match text {
                    Some(text) => format!("{:?}", text.chars().take(200).collect::<String>()),
                    None => "nothing".to_string(),
                };
                return format!(
                    "line {line}\n  expected: {}\n  printed:  {}",
                    show(a),
                    show(b)
                );
            }
        }
    }
}

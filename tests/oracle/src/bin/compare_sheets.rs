//! Runs a program on jobs, dimensions and captions, among them lines that arrive in two parts, and
//! compares the slab sheets or the refusal that it prints, byte for byte, with the oracle's. On standard
//! error it must say nothing.
//!
//!     compare-sheets PROGRAM [--seed N] [--count M]
//!
//! M is the number of random cases beside the fixed ones. The first case that differs is shown, and the
//! exit status is then 1.

use std::process::ExitCode;

use oracle::comparison::{compare_by_arguments, run, same, same_words, Request};
use oracle::random::Random;
use oracle::sheet;
use oracle::sheet_cases::{self, Asked};

/// Compares one case, whose line arrives in these parts, and says what differs.
fn compare(program: &str, asked: &Asked, parts: &[&[u8]]) -> Result<(), String> {
    let expected = sheet::answer(&asked.line, asked.number(), &asked.caption);
    let output = run(
        program,
        &[asked.dimension.as_bytes(), &asked.caption],
        parts,
    );
    output
        .and_then(|output| {
            same(&expected, &output.stdout)?;
            same_words("", &output.stderr)
        })
        .map_err(|what| format!("{asked}\n{what}"))
}

fn all_cases(request: &Request) -> Result<usize, String> {
    let mut random = Random::new(request.seed);
    let fixed = sheet_cases::fixed();
    let parted = sheet_cases::in_parts();
    for asked in &fixed {
        compare(&request.program, asked, &[&asked.line])?;
    }
    for (asked, at) in &parted {
        let (first, second) = asked.line.split_at(*at);
        compare(&request.program, asked, &[first, second])?;
    }
    for at in 0..request.count {
        let asked = sheet_cases::any(&mut random);
        compare(&request.program, &asked, &[&asked.line])
            .map_err(|what| format!("random case {} of seed {}: {what}", at + 1, request.seed))?;
    }
    Ok(parted.len() + fixed.len() + request.count as usize)
}

fn main() -> ExitCode {
    compare_by_arguments("compare-sheets", 600, all_cases)
}

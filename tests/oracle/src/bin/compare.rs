//! Runs a program on the inputs of document 01, on all short texts, on lines that arrive in two
//! parts, on random jobs and on damaged lines, and compares what it prints, byte for byte, with the
//! oracle's answer; likewise what it says on standard error. A printed plan is also looked at tile by
//! tile.
//!
//!     compare PROGRAM [--seed N] [--count M]
//!
//! M is the number of random cases beside the fixed ones; two of three are jobs, some of them on
//! crowded grids, the others damaged lines. The first case that differs is shown, and the exit status
//! is then 1.

use std::process::ExitCode;

use oracle::comparison::{compare_by_arguments, run, same, same_words, Request};
use oracle::plan::thicknesses;
use oracle::random::Random;
use oracle::{cases, cuts, inspect, numbers, print, refusal, text};

/// Compares one case, and says what differs.
fn compare(program: &str, parts: &[&[u8]], random: &mut Random) -> Result<(), String> {
    let input = &parts.concat();
    let output = run(program, &[], parts)?;
    let printed = String::from_utf8_lossy(&output.stdout);
    same(&print::answer(input), &output.stdout)?;
    same_words(&print::remark(input), &output.stderr)?;
    let planned = print::plan_of(input);
    if let Ok(plan) = &planned {
        let d = plan.dimensions();
        let lists = [plan.extents, plan.least, plan.weights];
        let [extents, least, weights] = lists.each_ref().map(|list| &list[..d]);
        inspect::inspect(plan.p, extents, least, weights, &printed, random)?;
    }
    match planned {
        Ok(_) | Err(refusal::NO_CUTS) => second_opinion(input),
        Err(_) => Ok(()),
    }
}

/// Where the oracle did not try all fitting cuts, its choice is checked by trying all divisors, if
/// these are not too many either.
fn second_opinion(input: &[u8]) -> Result<(), String> {
    let job = text::job(input).expect("a job that was read before");
    let (p, d, extents, weights) = (job.p, job.d, &job.extents, &job.weights);
    let least = &thicknesses(d, &job.least);
    let divisors = numbers::divisors(p).len() as u128;
    if cuts::fitting(extents, least) <= cuts::TRY_ALL_UP_TO || divisors.pow(d - 1) > 20_000 {
        return Ok(());
    }
    let first = cuts::cheapest(p, extents, least, weights);
    let second = cuts::by_divisors(p, extents, least, weights);
    if first == second {
        Ok(())
    } else {
        Err(format!(
            "the oracle's own ways differ: {first:?}, {second:?}"
        ))
    }
}

fn all_cases(request: &Request) -> Result<usize, String> {
    let mut random = Random::new(request.seed);
    let mut fixed = cases::fixed();
    fixed.extend(cases::short_texts());
    let parted = cases::in_parts();
    for [first, second] in &parted {
        compare(&request.program, &[first, second], &mut random).map_err(|what| {
            let (first, second) = (first.escape_ascii(), second.escape_ascii());
            format!("input \"{first}\" and then \"{second}\"\n{what}")
        })?;
    }
    let total = fixed.len() + request.count as usize;
    for at in 0..total {
        let input = match fixed.get(at) {
            Some(input) => input.clone(),
            None if random.once_in(3) => cases::damaged(&mut random),
            None if random.once_in(5) => cases::crowded(&mut random),
            None => cases::job(&mut random),
        };
        compare(&request.program, &[&input], &mut random).map_err(|what| {
            let shown = input.escape_ascii();
            format!(
                "case {} of seed {}: input \"{shown}\"\n{what}",
                at + 1,
                request.seed
            )
        })?;
    }
    Ok(parted.len() + total)
}

fn main() -> ExitCode {
    compare_by_arguments("compare", 5000, all_cases)
}

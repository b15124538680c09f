//! Inputs for the comparison: those of document 01, all short texts, random jobs, damaged lines.
//! Also random jobs for diagonal plans, which no text asks for.

use crate::cuts::elementary;
use crate::random::Random;

/// The grids and remarks of document 01, the limits of its ranges, jobs that fewer tiles decide
/// (document 02, f), jobs of the largest size, jobs with least thicknesses (document 02, g), and jobs
/// that are refused with 5 for other divisors of p too (document 02, j).
pub fn fixed() -> Vec<Vec<u8>> {
    let lines = [
        "4 3 8 8 8 1 1 1",
        "1 2 1 1 5 7",
        "2 2 2 2 0 0",
        "2 2 1 9 1 1",
        "4 3 1 3 9 1 1 1",
        "5 3 4 9 9 1 1 1",
        "6 3 9 9 9 1 1 1",
        "6 3 1 9 9 1 1 1",
        "6 3 9 9 9 1 1 100",
        "8 3 9 9 9 1 1 1",
        "4096 2 4096 4096 1 1",
        "4096 2 4096 4095 1 1",
        "4 6 1 1 1 1 1 1 1 1 1 1",
        "4 1 1 1",
        "4 0",
        "0 2 1 1 1 1",
        "4097 2 1 1 1 1",
        "4294967295 4294967295",
        "4 2 1000000 1000001 1 1",
        "4 2 0 0 1 1",
        "4 2 1000000 1000000 1 1",
        "4 3 9 9 9 0 0 0",
        "4 3 9 9 9 0 0 1",
        "12 3 12 12 12 0 0 0",
        "8 4 9 9 9 9 0 1 0 1",
        "30 3 99 99 99 1 1 1",
        "4096 5 1000000 1000000 1000000 1000000 1000000 4294967295 4294967295 4294967295 4294967295 4294967295",
        "4096 5 1000000 1000000 1000000 1000000 1000000 0 0 0 0 0",
        "3360 5 1000000 1000000 1000000 1000000 1000000 0 0 0 0 0",
        "4096 3 1000000 1000000 1000000 1 1 1",
        "4095 4 4095 4095 4095 4095 1 1 1 4294967295",
        "4093 2 4093 4093 4294967295 4294967295",
        "4093 5 1 4093 1 4093 1 1 2 3 4 5",
        "3360 5 1000000 1000000 1000000 1000000 1000000 1 10 100 1000 10000",
        "2520 5 1000000 1000000 1000000 1000000 1000000 0 0 1 1 1",
        "2 2 6 6 1 1 3 3",
        "2 2 6 5 1 1 3 3",
        "2 2 6 6 1 1 3",
        "2 2 6 6 1 1 3 3 3",
        "2 2 6 6 1 1 0 3",
        "2 2 6 6 1 1 3 0",
        "2 2 6 0 1 1 0 3",
        "2 2 1 9 1 1 3 0",
        "4 3 8 8 8 1 1 1 1 1 1",
        "4 3 8 8 8 1 1 1 1 1 5",
        "4 3 8 8 8 1 1 1 4 4 4",
        "4 3 8 8 8 1 1 1 5 2 2",
        "6 3 9 9 9 1 1 1 1 4 1",
        "36 3 40 40 40 1 1 1 6 6 6",
        "36 3 40 40 40 1 1 1 7 6 6",
        "36 3 40 40 40 1 1 1 20 2 2",
        "1 2 3 3 1 1 4 1",
        "1 2 3 3 1 1 3 3",
        "1 2 1000000 1000000 1 1 1000000 1000001",
        "2 2 8 8 1 1 2147483648 1",
        "2 2 8 8 1 1 1 4294967295",
        "4096 2 5000 5000 1 1 1048577 1",
        "4096 2 1000000 1000000 1 1 244 244",
        "4096 2 1000000 1000000 1 1 244 245",
        "4096 5 1000000 1000000 1000000 1000000 1000000 1 1 1 1 1 125000 125000 125000 125000 125000",
        "4096 5 1000000 1000000 1000000 1000000 1000000 1 1 1 1 1 125000 125001 125000 125000 125000",
        "1 5 1000000 1000000 1000000 1000000 1000000 4294967295 4294967295 4294967295 4294967295 4294967295 1000000 1000000 1000000 1000000 1000000",
        "2 5 9 9 9 9 9 1 1 1 1 1 1 1 1 1 1",
        "2 5 9 9 9 9 9 1 1 1 1 1 1 1 1 1 1 1",
        "2 6 9 9 9 9 9 9 1 1 1 1 1 1 0 0 0",
        "12 2 5 5 1 1",
        "12 2 5 5 0 4294967295",
        "12 2 5 5 1 1 1 1",
        "12 2 9 9 1 1",
        "12 2 12 12 1 1",
        "12 2 5 0 1 1",
        "30 3 5 5 5 1 1 1",
        "60 3 6 6 6 1 1 1",
        "3360 3 20 20 20 1 1 1",
        "4095 3 63 64 65 1 1 1",
        "2 2 3 3 1 1 4 1",
        "4096 5 1 1 1 1 1 1 1 1 1 1 2 2 2 2 2",
        "2520 4 50 50 50 50 1 1 1 1 3 3 3 3",
        "4093 5 4092 4092 4092 4092 4092 1 1 1 1 1",
    ];
    lines
        .iter()
        .map(|text| format!("{text}\n").into_bytes())
        .chain(longest())
        .collect()
}

/// The longest readable line, of 187 bytes, with one byte more and without: a program that reads
/// no further than the line cannot tell them apart.
fn longest() -> Vec<Vec<u8>> {
    let line = line(&[4_294_967_295; 17]);
    let longer = b" \n0".iter().map(|&byte| [&line[..], &[byte]].concat());
    longer.chain([line.clone()]).collect()
}

/// Inputs that arrive in two parts: the example, parted anywhere, and the longest line with one
/// byte more, which comes later.
pub fn in_parts() -> Vec<[Vec<u8>; 2]> {
    let part = |input: &[u8], at: usize| [input[..at].to_vec(), input[at..].to_vec()];
    let example = line(&[4, 3, 8, 8, 8, 1, 1, 1]);
    let longer = &longest()[0];
    (0..=example.len())
        .map(|at| part(&example, at))
        .chain([part(longer, longer.len() - 1)])
        .collect()
}

/// All texts of up to four of these bytes: what a reader meets first.
pub fn short_texts() -> Vec<Vec<u8>> {
    texts(b"01 \n-", 4)
}

/// All texts of these bytes, up to a length.
pub fn texts(bytes: &[u8], up_to: usize) -> Vec<Vec<u8>> {
    let mut all = vec![Vec::new()];
    let mut from = 0;
    for _ in 0..up_to {
        let to = all.len();
        for at in from..to {
            for &byte in bytes {
                all.push([&all[at][..], &[byte]].concat());
            }
        }
        from = to;
    }
    all
}

/// A job line: mostly jobs with an answer or refusal 5, some with refusals 1 to 4 and 13.
pub fn job(random: &mut Random) -> Vec<u8> {
    let mut numbers = match random.between(0, 9) {
        0..=4 => small_job(random),
        5 => tied_job(random),
        6..=7 => wide_job(random),
        _ => tight_job(random),
    };
    finished(random, &mut numbers)
}

/// The line of a job, in half of the cases with least thicknesses, now and then spoilt.
fn finished(random: &mut Random, numbers: &mut Vec<u64>) -> Vec<u8> {
    if random.once_in(2) {
        add_thicknesses(random, numbers);
    }
    if random.once_in(8) {
        spoil(random, numbers);
    }
    line(numbers)
}

/// A job line for a diagonal plan (document 02, c): mostly one that suits the layout, often just so or
/// failing by one, and some with refusals 1 to 4 and 13.
pub fn diagonal(random: &mut Random) -> Vec<u8> {
    let d = random.between(2, 3) as usize;
    let side = match (d, random.between(0, 2)) {
        (2, 0) => processors(random),
        (3, 0) => random.between(1, 8),
        _ => random.between(1, 64),
    };
    let most = side + *random.pick(&[0, 1, 9, 1000, 1_000_000 - side]);
    let mut p = side.pow(d as u32 - 1);
    let mut extents: Vec<u64> = (0..d).map(|_| random.between(side, most)).collect();
    let k = random.between(0, d as u64 - 1) as usize;
    match random.between(0, 11) {
        0 => extents[k] = side - 1,
        1 => p += 1,
        2 => p -= 1,
        3 => p = random.between(1, 4096),
        4 => extents.resize(random.between(4, 5) as usize, side),
        _ => (),
    }
    let weights = weights(random, extents.len());
    finished(random, &mut numbers(p, extents, weights))
}

/// A job line with little room for its processors (document 02, j): mostly refused with 5, for p alone
/// or for some or many of its divisors, else with an answer or one of refusals 1 to 4 and 13.
pub fn crowded(random: &mut Random) -> Vec<u8> {
    let d = random.between(2, 5) as usize;
    let p = match random.between(0, 3) {
        0 => processors(random),
        1 => random.between(2, 64),
        _ => *random.pick(&[24, 36, 48, 60, 72, 84, 90, 96, 120, 144, 180, 210, 240, 360]),
    };
    // As many slabs in all dimensions but one make p tiles or more, and one slab less does not.
    let side = (1..=p).find(|s| s.pow(d as u32 - 1) >= p).unwrap_or(p);
    let most = side + *random.pick(&[0, 1, side / 4, side / 2, side]);
    let low = *random.pick(&[1, side.div_ceil(2), side]);
    let extents = (0..d).map(|_| random.between(low, most)).collect();
    let weights = weights(random, d);
    finished(random, &mut numbers(p, extents, weights))
}

/// A grid so small that all its cuts can be tried; refusal 5 is common.
fn small_job(random: &mut Random) -> Vec<u64> {
    let d = random.between(2, 5) as usize;
    let p = match random.between(0, 3) {
        0 => random.between(1, 12),
        1 => *random.pick(&COMPOSITE),
        _ => random.between(1, 64),
    };
    let side = [150, 28, 12, 7][d - 2];
    let extents = (0..d).map(|_| random.between(1, side)).collect();
    let weights = weights(random, d);
    numbers(p, extents, weights)
}

const COMPOSITE: [u64; 15] = [4, 6, 8, 9, 12, 16, 18, 24, 27, 30, 32, 36, 48, 60, 64];

/// A job with weights 0 and 1, often all 0: many cuts cost the same, and fewer tiles decide
/// (document 02, f). All its cuts can be tried.
fn tied_job(random: &mut Random) -> Vec<u64> {
    let d = random.between(3, 5) as usize;
    let p = *random.pick(&COMPOSITE);
    let side = [28, 12, 7][d - 3];
    let extents = (0..d).map(|_| random.between(side / 2, side)).collect();
    let most = u64::from(!random.once_in(3));
    let weights = (0..d).map(|_| random.between(0, most)).collect();
    numbers(p, extents, weights)
}

/// Any p in a grid of any size.
fn wide_job(random: &mut Random) -> Vec<u64> {
    let d = random.between(2, 5) as usize;
    let p = processors(random);
    let most = *random.pick(&[20, 100, 4096, 1_000_000]);
    let extents = (0..d).map(|_| random.between(1, most)).collect();
    let weights = weights(random, d);
    numbers(p, extents, weights)
}

/// A grid in which some even cuts fit exactly or fail by one.
fn tight_job(random: &mut Random) -> Vec<u64> {
    let d = random.between(2, 5) as usize;
    let p = processors(random);
    let any: Vec<u32> = (0..d).map(|_| random.between(0, 99) as u32).collect();
    let (roomy, ones) = (vec![1_000_000; d], vec![1; d]);
    let cuts = elementary(p as u32, &roomy, &ones, &any).expect("a roomy grid has cuts");
    let mut extents: Vec<u64> = cuts.into_iter().map(u64::from).collect();
    let k = random.between(0, d as u64 - 1) as usize;
    match random.between(0, 3) {
        0 => extents[k] = (extents[k] - 1).max(1),
        1 => extents[k] += random.between(1, 9),
        2 => extents[k] *= 2,
        _ => (),
    }
    let weights = weights(random, d);
    numbers(p, extents, weights)
}

fn processors(random: &mut Random) -> u64 {
    if random.once_in(3) {
        *random.pick(&[
            720, 1024, 1260, 1680, 2187, 2310, 2520, 3360, 3600, 4032, 4095, 4096,
        ])
    } else {
        random.between(1, 4096)
    }
}

fn weights(random: &mut Random, d: usize) -> Vec<u64> {
    let kind = random.between(0, 5);
    (0..d)
        .map(|k| match kind {
            0 => 1,
            1 => random.between(0, 2),
            2 => random.between(0, 50),
            3 => random.between(0, 4_294_967_295),
            4 => *random.pick(&[0, 1, 4_294_967_295]),
            _ => 10u64.pow(k as u32),
        })
        .collect()
}

fn numbers(p: u64, extents: Vec<u64>, weights: Vec<u64>) -> Vec<u64> {
    let d = extents.len() as u64;
    [vec![p, d], extents, weights].concat()
}

/// Adds d least thicknesses (document 02, g) to a job without: ones, or some that need larger extents, or
/// some for the extents as they are.
fn add_thicknesses(random: &mut Random, numbers: &mut Vec<u64>) {
    let d = numbers[1] as usize;
    let kind = random.between(0, 7);
    for k in 2..2 + d {
        let thickness = match kind {
            0 => 1,
            1..=5 => thickened(random, &mut numbers[k]),
            _ => thickness_for(random, numbers[k]),
        };
        numbers.push(thickness);
    }
}

/// A least thickness, with the extent made larger so that as many slabs fit as it had elements: just so,
/// or with elements to spare. Once in a while one element is missing.
fn thickened(random: &mut Random, extent: &mut u64) -> u64 {
    let most = 1_000_000 / (*extent).max(1);
    let high = *random.pick(&[1, 4.min(most), 4.min(most), most]);
    let thickness = random.between(1, high);
    *extent *= thickness;
    match random.between(0, 15) {
        0 => *extent = extent.saturating_sub(1),
        1..=7 => *extent = (*extent + random.between(0, thickness - 1)).min(1_000_000),
        _ => (),
    }
    thickness
}

/// A least thickness, most often a small one, for an extent: also one that leaves the dimension uncut, and
/// one with which nothing fits.
fn thickness_for(random: &mut Random, extent: u64) -> u64 {
    match random.between(0, 31) {
        0 => extent + 1,
        1 => *random.pick(&[1_000_001, 2_147_483_648, 4_294_967_295]),
        2..=3 => extent.max(1),
        4..=7 => random.between(1, extent.max(1)),
        _ => random.between(1, 3),
    }
}

/// Makes one or two of refusals 1 to 4 and 13 likely.
fn spoil(random: &mut Random, numbers: &mut Vec<u64>) {
    for _ in 0..random.between(1, 2) {
        match random.between(0, 5) {
            0 => numbers[1] = *random.pick(&[0, 1, 2, 3, 4, 5, 6, 4_294_967_295]),
            1 => numbers[0] = *random.pick(&[0, 4097, 4_294_967_295]),
            2 if numbers.len() > 3 => {
                numbers.pop();
            }
            3 if numbers.len() < 17 => numbers.push(random.between(0, 9)),
            4 if numbers.len() > 3 => {
                // Among the thicknesses, if there are any.
                let from_last = random.between(1, (numbers.len() as u64 - 2).div_ceil(3));
                let at = numbers.len() - from_last as usize;
                numbers[at] = 0;
            }
            _ => {
                let at = random.between(2, (numbers.len() as u64 - 1).max(2)) as usize;
                if let Some(number) = numbers.get_mut(at) {
                    *number = *random.pick(&[0, 1_000_001, 4_294_967_295]);
                }
            }
        }
    }
}

fn line(numbers: &[u64]) -> Vec<u8> {
    let words: Vec<String> = numbers.iter().map(u64::to_string).collect();
    (words.join(" ") + "\n").into_bytes()
}

/// A line that a reader must look at closely: a job line, or any numbers, with some damage.
pub fn damaged(random: &mut Random) -> Vec<u8> {
    let mut text = if random.once_in(2) {
        job(random)
    } else {
        let count = random.between(1, 19);
        let any = |_| {
            let bits = random.between(0, 33);
            random.draw() & ((1 << bits) - 1)
        };
        line(&(0..count).map(any).collect::<Vec<u64>>())
    };
    for _ in 0..random.between(1, 2) {
        damage(random, &mut text);
    }
    text
}

fn damage(random: &mut Random, text: &mut Vec<u8>) {
    const BYTES: &[u8] = b"  \n\n0019-+.,\t\r\0x\xff";
    let at = random.between(0, text.len() as u64) as usize;
    let byte = *random.pick(BYTES);
    let words: [&[u8]; 6] = [
        b"4294967295",
        b"4294967296",
        b"42949672950",
        b"18446744073709551616",
        b"00",
        b" 01",
    ];
    match random.between(0, 7) {
        0 => text.insert(at, byte),
        1 if at < text.len() => {
            text.remove(at);
        }
        2 if at < text.len() => text[at] = byte,
        3 => text.truncate(at),
        4 => text.push(byte),
        5 => {
            let word = *random.pick(&words);
            text.splice(at..at, word.iter().copied());
        }
        6 => {
            text.pop();
        }
        _ => {
            let again = text.clone();
            text.extend(again);
        }
    }
}

#[cfg(test)]
mod tests {
    use super::*;
    use crate::cuts::{all_fitting, by_trying_all, cost, even, tiles};
    use crate::numbers::{divisors, prime_factors};
    use crate::plan::{Job, Plan};
    use crate::print::answer;
    use crate::refusal::NO_CUTS;
    use crate::text;
    use std::collections::BTreeMap;

    fn job_of(line: Vec<u8>) -> Job {
        text::job(&line).expect("a readable line")
    }

    /// How often each refusal, or a plan, comes out.
    fn outcomes(inputs: impl Iterator<Item = Vec<u8>>) -> BTreeMap<String, usize> {
        let mut counts = BTreeMap::new();
        for input in inputs {
            let text = answer(&input);
            let words: Vec<&str> = text.split_whitespace().take(2).collect();
            let kind = match words[..] {
                ["refused", number] => number.to_string(),
                _ => "plan".to_string(),
            };
            *counts.entry(kind).or_insert(0) += 1;
        }
        counts
    }

    #[test]
    fn jobs_meet_every_job_check() {
        let mut random = Random::new(3);
        let counts = outcomes((0..1500).map(|_| job(&mut random)));
        for kind in ["1", "2", "3", "4", "5", "13", "plan"] {
            assert!(
                counts.get(kind).is_some_and(|&count| count >= 10),
                "{kind}: {counts:?}"
            );
        }
        assert!(!counts.contains_key("10"));
    }

    /// Many of these jobs would be planned otherwise if the smaller first cut decided among equal
    /// costs, or if more tiles did.
    #[test]
    fn tiles_decide_tied_jobs() {
        let mut random = Random::new(11);
        let (mut not_first, mut not_most, mut planned) = (0, 0, 0);
        for _ in 0..300 {
            let job: Vec<u32> = tied_job(&mut random).iter().map(|&n| n as u32).collect();
            let (p, d) = (job[0], job[1] as usize);
            let (extents, weights) = job[2..].split_at(d);
            let ones = vec![1; d];
            let all = all_fitting(extents, &ones).filter(|cuts| even(p, cuts));
            let all: Vec<_> = all.map(|cuts| (cost(&cuts, weights), cuts)).collect();
            let Some((least, first)) = all.iter().min() else {
                continue;
            };
            let cheapest = all.iter().filter(|(cost, _)| cost == least);
            let most = cheapest.map(|(_, cuts)| tiles(cuts)).max().unwrap();
            let chosen = by_trying_all(p, extents, &ones, weights).expect("cuts");
            planned += 1;
            not_first += usize::from(chosen != *first);
            not_most += usize::from(tiles(&chosen) != most);
        }
        let counts = format!("{not_first}, {not_most} of {planned}");
        assert!(
            not_first >= 50 && not_most >= 100 && planned >= 150,
            "{counts}"
        );
    }

    /// How thicknesses decide jobs.
    #[derive(Debug, Default)]
    struct Decided {
        /// Planned, with a thickness above 1.
        planned: usize,
        /// Of these, some cut dimension has no element to spare.
        just_fitting: usize,
        /// Of these, other cuts would be chosen without thicknesses.
        moved: usize,
        /// Refused, and planned without thicknesses.
        refused: usize,
        /// Of these, planned if one extent had one element more.
        missing_one: usize,
    }

    impl Decided {
        fn note(&mut self, job: &Job) {
            if job.least.iter().all(|&t| t == 1) {
                return;
            }
            let thin = Job {
                least: Vec::new(),
                ..job.clone()
            };
            match (job.plan(), thin.plan()) {
                (Ok(plan), Ok(thin)) => {
                    self.planned += 1;
                    self.just_fitting += usize::from(just_fits(&plan));
                    self.moved += usize::from(plan.cuts != thin.cuts);
                }
                (Err(NO_CUTS), Ok(_)) => {
                    self.refused += 1;
                    self.missing_one += usize::from(one_more_fits(job));
                }
                _ => (),
            }
        }
    }

    fn just_fits(plan: &Plan) -> bool {
        (0..plan.dimensions()).any(|k| {
            let (b, t) = (plan.cuts[k], plan.least[k]);
            b > 1 && t > 1 && b * t == plan.extents[k]
        })
    }

    fn one_more_fits(job: &Job) -> bool {
        (0..job.extents.len()).any(|k| {
            let mut larger = job.clone();
            larger.extents[k] += 1;
            larger.plan().is_ok()
        })
    }

    #[test]
    fn thicknesses_decide_jobs() {
        let mut random = Random::new(14);
        let mut decided = Decided::default();
        for _ in 0..1500 {
            decided.note(&job_of(job(&mut random)));
        }
        assert!(decided.planned >= 200, "{decided:?}");
        assert!(decided.just_fitting >= 50, "{decided:?}");
        assert!(decided.moved >= 50, "{decided:?}");
        assert!(decided.refused >= 100, "{decided:?}");
        assert!(decided.missing_one >= 10, "{decided:?}");
    }

    #[test]
    fn the_longest_lines() {
        let lengths: Vec<usize> = longest().iter().map(Vec::len).collect();
        assert_eq!(lengths, [188, 188, 188, 187]);
    }

    #[test]
    fn jobs_for_diagonal_plans_meet_every_check() {
        let mut random = Random::new(10);
        let mut counts = BTreeMap::new();
        for _ in 0..3000 {
            let answer = job_of(diagonal(&mut random)).diagonal();
            let number = answer.map_or_else(|refusal| refusal.number, |_| 0);
            *counts.entry(number).or_insert(0) += 1;
        }
        assert!(counts.keys().eq(&[0, 1, 2, 3, 4, 5, 12, 13]), "{counts:?}");
        assert!(counts.values().all(|&count| count >= 10), "{counts:?}");
        assert!(counts[&0] >= 1000 && counts[&12] >= 100, "{counts:?}");
    }

    /// How a job of a crowded grid is answered, and which other answers would be wrong.
    fn crowded_outcomes(job: &Job) -> Vec<&'static str> {
        let answer = match job.smallest_refused() {
            Ok(Some(answer)) => answer,
            Ok(None) => return vec!["nothing to show"],
            Err(_) => return vec!["another refusal"],
        };
        let p = job.p;
        let refused = |p: u32| Job { p, ..job.clone() }.plan() == Err(NO_CUTS);
        let least_prime = prime_factors(p).first().map(|&(prime, _)| prime);
        let thin = Job {
            least: Vec::new(),
            ..job.clone()
        };
        let kinds = [
            ("1", answer == 1),
            ("between 1 and p", 1 < answer && answer < p),
            ("p", answer == p),
            ("not the least prime factor", Some(answer) != least_prime),
            (
                "a larger divisor is accepted",
                divisors(p).iter().any(|&x| x > answer && !refused(x)),
            ),
            (
                "a smaller number that does not divide p is refused",
                (1..answer.min(50)).any(refused),
            ),
            (
                "another without thicknesses",
                thin.smallest_refused() != Ok(Some(answer)),
            ),
        ];
        let holding = kinds.into_iter().filter(|&(_, holds)| holds);
        holding.map(|(kind, _)| kind).collect()
    }

    #[test]
    fn crowded_grids_show_divisors_of_every_kind() {
        let mut random = Random::new(15);
        let mut counts = BTreeMap::new();
        for _ in 0..1000 {
            for kind in crowded_outcomes(&job_of(crowded(&mut random))) {
                *counts.entry(kind).or_insert(0) += 1;
            }
        }
        assert_eq!(counts.len(), 9, "{counts:?}");
        assert!(counts.values().all(|&count| count >= 20), "{counts:?}");
        assert!(counts["between 1 and p"] >= 400, "{counts:?}");
    }

    #[test]
    fn jobs_of_crowded_grids_meet_every_job_check() {
        let mut random = Random::new(16);
        let counts = outcomes((0..3000).map(|_| crowded(&mut random)));
        assert!(
            counts.keys().eq(&["1", "13", "2", "3", "4", "5", "plan"]),
            "{counts:?}"
        );
        assert!(counts.values().all(|&count| count >= 10), "{counts:?}");
    }

    #[test]
    fn damage_mostly_shows() {
        let mut random = Random::new(4);
        let counts = outcomes((0..500).map(|_| damaged(&mut random)));
        assert!(counts["10"] >= 300, "{counts:?}");
    }
}

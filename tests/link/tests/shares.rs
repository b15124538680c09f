//! The smallest share of the machine that still won't fit, through the link (document 02, request j): "For such a job
//! the planner gives the smallest divisor of p for which the same job is refused with 5."

use std::collections::BTreeMap;

use link::calls::{plan, smallest_refused};
use link::plan_list::{CUTS, PLAN_LENGTH};
use link::questions::crowded_job;
use oracle::numbers::divisors;
use oracle::plan::Job;
use oracle::random::Random;

/// A job with weights of 1.
fn job(p: u32, extents: &[u32], least: &[u32]) -> Job {
    Job {
        p,
        d: extents.len() as u32,
        extents: extents.to_vec(),
        weights: vec![1; extents.len()],
        least: least.to_vec(),
    }
}

/// What the planner returns.
fn planned(job: &Job) -> u64 {
    let Job {
        p,
        d,
        extents,
        weights,
        least,
    } = job;
    plan(*p, *d, extents, weights, least, &mut [77; PLAN_LENGTH])
}

/// What the call returns, and what becomes of a list of 77.
type Told = (u64, [u32; 2]);

fn asked(job: &Job) -> Told {
    let Job {
        p,
        d,
        extents,
        weights,
        least,
    } = job;
    let mut answer = [77; 2];
    let returned = smallest_refused(*p, *d, extents, weights, least, &mut answer);
    (returned, answer)
}

const NOTHING: Told = (0, [0, 0]);

fn divisor(number: u32) -> Told {
    (0, [1, number])
}

#[test]
fn figures() {
    let figures: [(u32, &[u32], &[u32], Told); 19] = [
        (12, &[5, 5], &[], divisor(6)),
        (12, &[5, 5], &[1, 1], divisor(6)),
        (12, &[9, 9], &[], divisor(12)),
        (12, &[12, 12], &[], NOTHING),
        (12, &[1, 12], &[], divisor(2)),
        (4096, &[4096, 4095], &[], divisor(4096)),
        (4096, &[4096, 4096], &[], NOTHING),
        (4093, &[4092; 5], &[], divisor(4093)),
        (30, &[5, 5, 5], &[], divisor(6)),
        (60, &[6, 6, 6], &[], divisor(10)),
        (3360, &[20, 20, 20], &[], divisor(21)),
        (4095, &[63, 64, 65], &[], divisor(91)),
        (2, &[3, 3], &[4, 1], divisor(1)),
        (2, &[3, 3], &[3, 1], divisor(2)),
        (1, &[3, 3], &[1, u32::MAX], divisor(1)),
        (1, &[1, 1], &[], NOTHING),
        (2520, &[50; 4], &[3; 4], divisor(252)),
        (12, &[5, 0], &[], (4 | 2 << 32, [77; 2])),
        (12, &[5, 5], &[6, 0], (13 | 2 << 32, [77; 2])),
    ];
    for (p, extents, least, told) in figures {
        let job = job(p, extents, least);
        assert_eq!(asked(&job), told, "{job:?}");
    }
}

/// In two dimensions p cuts each way are needed, so that the answer is the least divisor above what fits. Dimensions
/// that cannot be cut change nothing.
#[test]
fn every_count_in_two_dimensions() {
    for p in 1..=4096 {
        let divisors = divisors(p);
        for most in [1, 2, 5, 31, 64, 100, 1000, 2048, 4095, 4096] {
            let above = divisors.iter().find(|&&x| x > most);
            let told = above.map_or(NOTHING, |&x| divisor(x));
            assert_eq!(asked(&job(p, &[most, 4096], &[])), told);
            assert_eq!(
                asked(&job(p, &[1_000_000, 3 * most + 2], &[244, 3])),
                told,
                "{p}, {most}"
            );
            let flat = [1, 4096, 1, most, 7];
            assert_eq!(asked(&job(p, &flat, &[1, 1, 1, 1, 4])), told, "{p}, {most}");
        }
    }
}

/// The largest cube in which a job is refused: from a roomy one on, each is smaller by one than the cuts of the last one
/// need.
fn too_small(p: u32, d: usize) -> u32 {
    let mut side = 1_000_000;
    loop {
        let mut list = [77; PLAN_LENGTH];
        let (extents, weights) = (vec![side; d], vec![1; d]);
        match plan(p, d as u32, &extents, &weights, &[], &mut list) {
            0 => side = list[CUTS..][..d].iter().max().expect("cuts") - 1,
            returned => {
                assert_eq!(returned, 5, "{p} on {extents:?}");
                return side;
            }
        }
    }
}

/// Every count on the largest cube that has too little room for it: the divisors before the answer are accepted.
#[test]
fn every_count_on_a_cube_too_small() {
    let mut larger_accepted = 0;
    for d in 2..=5 {
        for p in 2..=4096 {
            let side = too_small(p, d);
            let with = |x: u32| planned(&job(x, &vec![side; d], &[]));
            let divisors = divisors(p);
            let refused = |&&x: &&u32| with(x) == 5;
            let first = *divisors.iter().find(refused).expect("p is refused");
            let (extents, least) = (vec![7 * side + 6; d], vec![7; d]);
            assert_eq!(asked(&job(p, &vec![side; d], &[])), divisor(first));
            assert_eq!(asked(&job(p, &extents, &least)), divisor(first));
            let roomier = vec![side + 1; d];
            assert_eq!(asked(&job(p, &roomier, &[])), NOTHING, "{p}, {d}");
            larger_accepted += u32::from(divisors.iter().any(|&x| x > first && with(x) == 0));
        }
    }
    assert!(larger_accepted > 500, "{larger_accepted}");
}

/// What holds between the answer and the planner: it divides p and is refused with 5, each smaller divisor is accepted,
/// and each divisor of p that it divides is refused with 5. Where the planner accepts there is nothing to show, and its
/// other refusals come back.
#[test]
fn beside_the_planner() {
    let mut random = Random::new(1);
    let (mut seen, mut kinds) = (BTreeMap::new(), [0; 4]);
    for _ in 0..20_000 {
        let job = crowded_job(&mut random);
        let returned = planned(&job);
        *seen.entry(returned as u32).or_insert(0) += 1;
        match returned {
            0 => assert_eq!(asked(&job), NOTHING, "{job:?}"),
            5 => {
                let (returned, [found, answer]) = asked(&job);
                assert_eq!((returned, found), (0, 1), "{job:?}");
                assert!(answer >= 1 && job.p.is_multiple_of(answer), "{job:?}");
                let with = |p: u32| Job { p, ..job.clone() };
                for x in divisors(job.p) {
                    if x < answer {
                        assert_eq!(planned(&with(x)), 0, "{x}, {job:?}");
                        assert_eq!(asked(&with(x)), NOTHING, "{x}, {job:?}");
                    }
                    if x.is_multiple_of(answer) {
                        assert_eq!(planned(&with(x)), 5, "{x}, {job:?}");
                        assert_eq!(asked(&with(x)), divisor(answer), "{x}, {job:?}");
                    }
                }
                kinds[0] += u32::from(answer == 1);
                kinds[1] += u32::from(1 < answer && answer < job.p);
                kinds[2] += u32::from(answer == job.p);
                kinds[3] += u32::from(divisors(job.p).len() >= 20);
            }
            _ => assert_eq!(asked(&job), (returned, [77; 2]), "{job:?}"),
        }
    }
    assert!(seen.keys().eq(&[0, 1, 2, 3, 4, 5, 13]), "{seen:?}");
    assert!(seen.values().all(|&count| count >= 100), "{seen:?}");
    assert!(kinds.iter().all(|&count| count >= 300), "{kinds:?}");
}

/// Whether a job is refused with 5 does not depend on its weights, and no thicknesses are ones.
#[test]
fn other_weights_and_thicknesses_of_1() {
    let mut random = Random::new(2);
    let mut shown = 0;
    for _ in 0..20_000 {
        let mut job = crowded_job(&mut random);
        let told = asked(&job);
        let kind = random.between(0, 2);
        for weight in &mut job.weights {
            *weight = match kind {
                0 => 0,
                1 => u32::MAX,
                _ => random.draw() as u32,
            };
        }
        assert_eq!(asked(&job), told, "{job:?}");
        job.least = Vec::new();
        let none = asked(&job);
        job.least = vec![1; job.d.min(6) as usize];
        assert_eq!(asked(&job), none, "{job:?}");
        shown += u32::from(none.1[0] == 1);
    }
    assert!(shown > 5_000, "{shown}");
}

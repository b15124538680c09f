//! The jobs, plans and questions that are timed.

use crate::plan_list::{list_of, PlanList, PLAN_LENGTH};
use crate::subject::{Returned, SheetCall};
use link::questions::{
    crowded_job, hypercube, job_for_diagonal, lent, lent_to_page, lent_to_probes, page, plan_list,
    planned, probe_line,
};
pub use oracle::plan::Job;
use oracle::plan::{plan_job, Plan};
use oracle::random::Random;
use oracle::sheet_cases::caption;

/// One job for every p up to 4,096, all weights the same, on a roomy grid.
pub fn one_weight(d: u32, weight: u32) -> Vec<Job> {
    let job = |p| roomy(p, &vec![weight; d as usize]);
    (1..=4096).map(job).collect()
}

/// One job for every p up to 4,096, the weights and extents of many kinds.
pub fn other_weights(seed: u64, d: u32) -> Vec<Job> {
    let mut random = Random::new(seed);
    let job = |p| Job {
        p,
        d,
        weights: weights(&mut random, d),
        extents: extents(&mut random, p, d),
        least: Vec::new(),
    };
    (1..=4096).map(job).collect()
}

/// One job for every p up to 4,096 and every d, the weights and extents of many kinds.
pub fn mix(seed: u64) -> Vec<Job> {
    (2..=5).flat_map(|d| other_weights(seed, d)).collect()
}

/// Jobs without thicknesses, two for every p up to 4,096, and the same with thicknesses of 2 and 3, each extent as
/// many times as large. The same cuts fit in both.
pub fn thin_and_thick(seed: u64, d: u32) -> (Vec<Job>, Vec<Job>) {
    let mut thin = [one_weight(d, 1), other_weights(seed, d)].concat();
    for extent in thin.iter_mut().flat_map(|job| &mut job.extents) {
        // As roomy as a grid must be, so that three times as many elements are not too many.
        *extent = (*extent).min(300_000);
    }
    let mut random = Random::new(seed);
    let thickened = |job: &Job| {
        let least: Vec<u32> = (0..d).map(|_| random.between(2, 3) as u32).collect();
        Job {
            extents: job.extents.iter().zip(&least).map(|(n, t)| n * t).collect(),
            least,
            ..job.clone()
        }
    };
    let thick = thin.iter().map(thickened).collect();
    (thin, thick)
}

/// A job on a grid in which all cuts fit.
fn roomy(p: u32, weights: &[u32]) -> Job {
    Job {
        p,
        d: weights.len() as u32,
        extents: vec![1_000_000; weights.len()],
        weights: weights.to_vec(),
        least: Vec::new(),
    }
}

fn weights(random: &mut Random, d: u32) -> Vec<u32> {
    let kind = random.between(0, 6);
    let huge = random.between(0, u64::from(d) - 1) as u32;
    (0..d)
        .map(|k| match kind {
            0 => 0,
            1 => random.draw() as u32,
            2 => 10u32.pow(k),
            3 => 10u32.pow(d - 1 - k),
            4 if k == huge => u32::MAX,
            4 => 1,
            5 => u32::MAX,
            _ => random.between(0, 99) as u32,
        })
        .collect()
}

/// Roomy half of the time, else around the cuts of some plan, so that many barely fit or are refused.
fn extents(random: &mut Random, p: u32, d: u32) -> Vec<u32> {
    let roomy = vec![1_000_000; d as usize];
    if random.once_in(2) {
        return roomy;
    }
    let any: Vec<u32> = (0..d).map(|_| random.between(0, 999) as u32).collect();
    let ones = vec![1; d as usize];
    let cuts = oracle::cuts::elementary(p, &roomy, &ones, &any).expect("a roomy grid has cuts");
    let around = |b: u32| match random.between(0, 4) {
        0 => (b - 1).max(1),
        1 | 2 => b,
        3 => 2 * b,
        _ => 3 * b + 1,
    };
    cuts.into_iter().map(around).collect()
}

/// Jobs that take long in some way of planning: counts with many divisors, and weights that let a
/// search leave little out.
pub fn hard() -> Vec<Job> {
    let counts = [
        1680, 2520, 2640, 2880, 3024, 3240, 3360, 3600, 3696, 3780, 3840, 3960, 4032, 4080, 4096,
    ];
    let weights = [
        [1, 1, 1, 1, 1],
        [0, 0, 0, 0, 0],
        [1, 10, 100, 1000, 10_000],
        [10_000, 1000, 100, 10, 1],
        [0, 1, 1, 1, 43_003_125],
        [0, 0, 0, 1, 1],
        [0, 0, 1, 30_809, 1559],
        [0, 55, 58, 0, 1_762_324_234],
        [4, 4, 4, 13, 410_143],
        [u32::MAX; 5],
    ];
    let extents = [
        [1_000_000; 5],
        [1_000_000, 1_000_000, 1_000_000, 1_000_000, 1],
        [56, 84, 12, 10, 9],
        [29, 5, 14, 4, 3],
    ];
    let mut jobs = Vec::new();
    for p in counts {
        for weights in weights {
            for extents in extents {
                jobs.push(Job {
                    p,
                    d: 5,
                    extents: extents.to_vec(),
                    weights: weights.to_vec(),
                    least: Vec::new(),
                });
            }
        }
    }
    jobs
}

/// Three dimensions: the counts with most divisors.
pub fn three_dimensions() -> Vec<Job> {
    let counts = [1680, 2520, 3360, 3600, 3780, 3960, 4032];
    let weights = [[1, 1, 1], [1, 10, 100], [100, 10, 1], [3, 1000, 17]];
    let jobs = |p| weights.map(|weights| roomy(p, &weights));
    counts.into_iter().flat_map(jobs).collect()
}

/// The job whose printed plan is longest.
pub fn largest() -> Job {
    roomy(4096, &[1; 5])
}

/// Jobs with little room, most of them refused with 5, each with a list to lend.
pub fn any_shares(seed: u64, count: usize) -> Vec<(Job, Vec<u32>)> {
    let mut random = Random::new(seed);
    let job = |_| {
        let mut job = crowded_job(&mut random);
        if random.once_in(4) {
            thicken(&mut random, &mut job);
        }
        (job, lent(&mut random, 2))
    };
    (0..count).map(job).collect()
}

/// The job of request j.
pub fn small_share() -> Job {
    Job {
        p: 12,
        d: 2,
        extents: vec![5; 2],
        weights: vec![1; 2],
        least: Vec::new(),
    }
}

/// Jobs whose smallest refused share takes long to find: among the longest of a search over extents and weights, for
/// counts with many divisors and for 4,095 and 4,096. All are refused for p alone, so that every divisor is tried.
pub fn hard_shares() -> Vec<Job> {
    let four: [(u32, [u32; 4], [u32; 4]); 3] = [
        (2520, [314, 419, 59, 1], [0, 0, 96_352, 45_655]),
        (3360, [419, 167, 83, 1], [0, 0, 24_341, 53_729]),
        (3960, [329, 59, 329, 2], [0, 0, 1, 2_961_875]),
    ];
    let five: [(u32, [u32; 5], [u32; 5]); 13] = [
        (2520, [55, 419, 419, 1, 1], [0, 1, 1, 1, 43_003_125]),
        (2520, [209, 29, 209, 4, 1], [1, 10, 100, 1000, 10_000]),
        (3360, [239, 119, 239, 1, 1], [0, 0, 1, 0, 0]),
        (3360, [839, 55, 167, 1, 1], [0, 1, 1, 1, 43_003_125]),
        (3360, [139, 139, 139, 3, 1], [1, 10, 100, 10_000, 1000]),
        (3600, [1_000_000, 71, 59, 1, 1], [0, 0, 1, 1, 1]),
        (3780, [314, 89, 314, 1, 1], [0, 0, 1, 0, 0]),
        (3780, [209, 209, 209, 1, 1], [91, 64, 60, 85, 32]),
        (3960, [131, 131, 131, 5, 1], [1, 10, 100, 1000, 5000]),
        (4032, [335, 111, 167, 1, 1], [0, 0, 0, 41_699, 70_145]),
        (4080, [169, 339, 119, 3, 1], [1, 10, 100, 1000, 10_000]),
        (4095, [454, 818, 90, 2, 2], [1, 0, 21, 0, 0]),
        (4096, [1_000_000, 31, 255, 1, 1], [1, 10, 100, 1000, 10_000]),
    ];
    let job = |p, extents: &[u32], weights: &[u32]| Job {
        p,
        d: extents.len() as u32,
        extents: extents.to_vec(),
        weights: weights.to_vec(),
        least: Vec::new(),
    };
    let four = four.iter().map(|(p, e, w)| job(*p, e, w));
    let five = five.iter().map(|(p, e, w)| job(*p, e, w));
    four.chain(five).collect()
}

/// Jobs for diagonal plans, accepted and refused, each with a list to lend.
pub fn any_diagonals(seed: u64, count: usize) -> Vec<(Job, Vec<u32>)> {
    let mut random = Random::new(seed);
    let job = |_| {
        let mut job = job_for_diagonal(&mut random);
        if random.once_in(2) {
            thicken(&mut random, &mut job);
        }
        (job, lent(&mut random, PLAN_LENGTH))
    };
    (0..count).map(job).collect()
}

/// Gives a job other thicknesses: small ones, most often on a grid that is as many times as large or just too small for
/// that; once in a while one that is 0, as large as the extent or larger, or another number of them.
pub fn thicken(random: &mut Random, job: &mut Job) {
    job.least = job
        .extents
        .iter()
        .map(|_| random.between(1, 4) as u32)
        .collect();
    let Some(last) = job.least.len().checked_sub(1) else {
        return;
    };
    let k = random.between(0, last as u64) as usize;
    let extent = job.extents[k];
    match random.between(0, 9) {
        0 => job.least[k] = 0,
        1 => job.least[k] = *random.pick(&[extent, extent.saturating_add(1), 1 << 31, u32::MAX]),
        2 => job.least.resize(random.between(0, 6) as usize, 1),
        3..=4 => (),
        _ => {
            for (extent, thickness) in job.extents.iter_mut().zip(&job.least) {
                // An extent out of range stays as it is.
                *extent = extent
                    .saturating_mul(*thickness)
                    .min(1_000_000.max(*extent));
            }
            if random.once_in(4) {
                job.extents[k] = job.extents[k].saturating_sub(1);
            }
        }
    }
}

/// Jobs for 4,096 processors on the grids that diagonal plans just fit, with weights of many kinds.
pub fn diagonals(seed: u64, count: usize) -> Vec<(&'static str, Vec<Job>)> {
    let mut random = Random::new(seed);
    let mut jobs = |extents: &[u32]| {
        let d = extents.len() as u32;
        let job = |_| Job {
            p: 4096,
            d,
            extents: extents.to_vec(),
            weights: weights(&mut random, d),
            least: Vec::new(),
        };
        (0..count).map(job).collect()
    };
    vec![
        ("diagonal, 4096 on 64 64 64", jobs(&[64; 3])),
        ("diagonal, 4096 on 4096 4096", jobs(&[4096; 2])),
    ]
}

/// Questions about the hypercube layout, answered and refused: a count of processors, a position and a list to lend.
pub fn any_hypercubes(seed: u64, count: usize) -> Vec<(u32, Vec<u32>, Vec<u32>)> {
    let mut random = Random::new(seed);
    let question = |_| {
        let (p, position) = hypercube(&mut random);
        (p, position, lent(&mut random, 1))
    };
    (0..count).map(question).collect()
}

/// Positions of the hypercube layout of 4,096 processors, which has 64 slabs each way.
pub fn hypercube_positions(seed: u64, count: usize) -> Vec<[u32; 3]> {
    let mut random = Random::new(seed);
    let position = |_| [(); 3].map(|()| random.between(0, 63) as u32);
    (0..count).map(position).collect()
}

/// The job as the program reads it.
pub fn line(job: &Job) -> String {
    let numbers = [
        &[job.p, job.d],
        &job.extents[..],
        &job.weights[..],
        &job.least[..],
    ]
    .concat();
    let words: Vec<String> = numbers.iter().map(u32::to_string).collect();
    words.join(" ") + "\n"
}

/// A question of each kind about one plan, all to be answered.
pub struct Question {
    pub plan: PlanList,
    pub position: Vec<u32>,
    pub processor: u32,
    pub dimension: u32,
    pub up: bool,
    pub slab: u32,
    pub element: u32,
    pub tile: u32,
}

/// Questions about some plans of every d.
pub fn questions(seed: u64, count: usize) -> Vec<Question> {
    let mut random = Random::new(seed);
    let mut plans: Vec<Plan> = Vec::new();
    for p in [4, 30, 64, 360, 1000, 2520, 4096] {
        for d in 2..=5 {
            // A prime, so that elements are left over wherever the cut is above 1.
            let extents = vec![99_991; d];
            let weights: Vec<u32> = (0..d).map(|_| random.between(1, 9) as u32).collect();
            let plan = plan_job(p, d as u32, &extents, &weights, &[]);
            plans.push(plan.expect("a roomy grid has cuts"));
        }
    }
    (0..count)
        .map(|_| {
            let plan = random.pick(&plans).clone();
            let below = |random: &mut Random, n: u32| random.between(0, u64::from(n) - 1) as u32;
            let k = below(&mut random, plan.d) as usize;
            Question {
                plan: list_of(&plan),
                position: (0..plan.dimensions())
                    .map(|k| below(&mut random, plan.cuts[k]))
                    .collect(),
                processor: below(&mut random, plan.p),
                dimension: k as u32 + 1,
                up: random.once_in(2),
                slab: below(&mut random, plan.cuts[k]),
                element: below(&mut random, plan.extents[k]),
                tile: 1 + below(&mut random, plan.tiles() as u32),
            }
        })
        .collect()
}

/// A question about a probe line, answered or refused: a plan list, a dimension, the elements and a list to lend.
#[derive(Debug)]
pub struct Probes {
    pub plan: Vec<u32>,
    pub dimension: u32,
    pub line: Vec<u32>,
    pub lent: Vec<u32>,
}

/// Probe lines of some elements along dimensions of plans of all kinds.
pub fn any_probes(seed: u64, count: usize) -> Vec<Probes> {
    let mut random = Random::new(seed);
    let pool = planned(&mut random, 100);
    let question = |_| {
        let plan = plan_list(&mut random, &pool);
        let length = random.between(0, 20) as usize;
        let (dimension, line) = probe_line(&mut random, &plan, length);
        let lent = lent_to_probes(&mut random, length);
        Probes {
            plan,
            dimension,
            line,
            lent,
        }
    };
    (0..count).map(question).collect()
}

/// Probe lines along dimension 1 of a plan, all of the same length and to be answered.
pub struct ProbeLines {
    pub what: &'static str,
    pub plan: PlanList,
    pub lines: Vec<Vec<u32>>,
}

/// Lines of 1,000 probes and one of 100,000, anywhere in a dimension of 64 slabs and in one of 4,096; and of 300 in the
/// latter.
pub fn probe_lines(seed: u64) -> [ProbeLines; 5] {
    let mut random = Random::new(seed);
    [
        ("probe line of 1000, 64 slabs", 3, 100, 1_000),
        ("probe line of 100000, 64 slabs", 3, 1, 100_000),
        ("probe line of 300, 4096 slabs", 2, 300, 300),
        ("probe line of 1000, 4096 slabs", 2, 100, 1_000),
        ("probe line of 100000, 4096 slabs", 2, 1, 100_000),
    ]
    .map(|(what, d, lines, probes)| {
        // A prime, so that elements are left over.
        let extents = vec![999_983; d];
        let plan = plan_job(4096, d as u32, &extents, &vec![1; d], &[]);
        let plan = plan.expect("a roomy grid has cuts");
        let mut element = |_| random.between(0, u64::from(extents[0]) - 1) as u32;
        let mut line = |_| {
            let mut line: Vec<u32> = (0..probes).map(&mut element).collect();
            line.sort();
            line
        };
        ProbeLines {
            what,
            plan: list_of(&plan),
            lines: (0..lines).map(&mut line).collect(),
        }
    })
}

/// A page of a slab sheet, to be written or refused.
#[derive(Debug)]
pub struct Page {
    pub plan: Vec<u32>,
    pub dimension: u32,
    pub page: u32,
    pub caption: Vec<u8>,
}

impl Page {
    pub fn write(&self, call: SheetCall, sheet: &mut [u8]) -> Returned {
        call(&self.plan, self.dimension, self.page, &self.caption, sheet)
    }
}

/// Pages along dimensions of plans of all kinds, with captions of all kinds, each with a list to lend.
pub fn any_pages(seed: u64, count: usize) -> Vec<(Page, Vec<u8>)> {
    let mut random = Random::new(seed);
    let pool = planned(&mut random, 100);
    let question = |_| {
        let plan = plan_list(&mut random, &pool);
        let (dimension, page) = page(&mut random, &plan);
        let asked = Page {
            plan,
            dimension,
            page,
            caption: caption(&mut random),
        };
        (asked, lent_to_page(&mut random))
    };
    (0..count).map(question).collect()
}

/// Pages of planner's plans, to be written: full ones, one with 46 slabs and one with 4. The captions fill their
/// columns, and one is cut.
pub fn pages() -> [(&'static str, Page); 5] {
    let many = (4096, &[1_000_000, 4096][..]);
    let few = (4, &[10, 10][..]);
    let five = (4030, &[1_000_000; 5][..]);
    [
        ("slab sheet, 4096 slabs, page 81", many, 1, 81, 38),
        ("slab sheet, 4096 slabs, page 0", many, 1, 0, 38),
        ("slab sheet, 4 slabs", few, 1, 0, 38),
        ("slab sheet, 65 slabs, d = 5", five, 5, 0, 38),
        ("slab sheet, caption of 200", many, 1, 0, 200),
    ]
    .map(|(what, (p, extents), dimension, page, length)| {
        let weights = vec![1; extents.len()];
        let plan = plan_job(p, extents.len() as u32, extents, &weights, &[]);
        let letters = b"Casting 17, gate side, ".iter().cycle();
        let asked = Page {
            plan: list_of(&plan.expect("the grid has cuts")).to_vec(),
            dimension,
            page,
            caption: letters.take(length).copied().collect(),
        };
        (what, asked)
    })
}

/// A question to the timetable, to be answered.
pub struct Visit {
    pub plan: PlanList,
    pub dimension: u32,
    pub up: bool,
    pub step: u32,
    pub processor: u32,
}

/// Questions to the timetable. Its work grows with the rows of tiles in a slab, taken along the other dimension with
/// the most slabs: 64 of them where there are 64 slabs each way, and many more in the other plans.
pub fn sweeps() -> Vec<(&'static str, Vec<Visit>)> {
    let planned = |p, extents: &[u32], weights: &[u32]| {
        plan_job(p, extents.len() as u32, extents, weights, &[]).expect("the grid has cuts")
    };
    let cube = planned(4096, &[1000; 3], &[1; 3]);
    // The most rows that the planner's plans of three, four and five dimensions have in a slab, if the dimension swept
    // is cut: 2,048, 33,858 and 124,930.
    let three = planned(4096, &[2, 2048, 2048], &[1; 3]);
    let four = planned(3762, &[1000, 1000, 2, 1000], &[4, 6, 9, 5]);
    let five = planned(4030, &[250, 250, 250, 2, 250], &[1; 5]);
    // And if it is not cut: 257,985.
    let uncut = planned(4095, &[1, 100, 100, 100, 100], &[1; 5]);
    // 101,250, of even cuts that the planner never chooses: 2 45 45 2 45 are even too, and nowhere larger.
    let mut by_hand = by_hand(4050, &[25, 81, 81, 2, 50]);
    by_hand.extents = [250; 5];
    vec![
        ("timetable, cuts 64 64 64", visits(&cube, &[1, 2, 3])),
        ("timetable, cuts 2 2048 2048", visits(&three, &[1])),
        ("timetable, cuts 209 171 2 198", visits(&four, &[3])),
        ("timetable, cuts 25 81 81 2 50", visits(&by_hand, &[4])),
        ("timetable, cuts 31 62 65 2 65", visits(&five, &[4])),
        ("timetable, cuts 1 63 63 65 65", visits(&uncut, &[1])),
    ]
}

/// The first, a middle and the last step of a sweep each way, for some processors.
fn visits(plan: &Plan, dimensions: &[u32]) -> Vec<Visit> {
    let mut visits = Vec::new();
    for &dimension in dimensions {
        let cut = plan.cuts[dimension as usize - 1];
        let mut steps = vec![0, cut / 2, cut - 1];
        steps.dedup();
        for step in steps {
            for processor in [0, 1, plan.p / 2, plan.p - 1] {
                for up in [true, false] {
                    visits.push(Visit {
                        plan: list_of(plan),
                        dimension,
                        up,
                        step,
                        processor,
                    });
                }
            }
        }
    }
    visits
}

/// A plan whose chains are timed.
pub struct Chained {
    pub what: String,
    pub plan: PlanList,
    /// Is its ratio asked for?
    pub wanted: bool,
}

/// Plans of 16,777,216 tiles, and two smaller ones. The first dimensions of some have so few slabs that the lines of
/// tiles along them are short.
pub fn chained() -> Vec<Chained> {
    let planned = |p, extents: &[u32], weights: &[u32]| {
        plan_job(p, extents.len() as u32, extents, weights, &[]).expect("a roomy grid")
    };
    [
        (planned(4096, &[4096; 2], &[1; 2]), true),
        // Uncut in one dimension, since the other weights are nothing beside the first.
        (planned(4096, &[4096; 3], &[u32::MAX, 0, 0]), true),
        // Larger even cuts than the planner's own, with moduli and matrix by the same formulas.
        (by_hand(4096, &[2, 2048, 4096]), true),
        (by_hand(4096, &[256, 256, 256]), true),
        (by_hand(4096, &[16, 16, 16, 64, 64]), true),
        (by_hand(4096, &[2, 2, 1024, 4096]), false),
        (by_hand(4096, &[2, 2, 1, 2048, 2048]), false),
        (planned(4096, &[4096; 3], &[1; 3]), false),
        (planned(4, &[8; 3], &[1; 3]), false),
    ]
    .map(|(plan, wanted)| {
        let cuts = plan.cuts[..plan.dimensions()].iter();
        let words: Vec<String> = cuts.map(u32::to_string).collect();
        Chained {
            what: format!("chains, cuts {}", words.join(" ")),
            plan: list_of(&plan),
            wanted,
        }
    })
    .into()
}

/// A plan with these cuts, whatever they cost.
pub fn by_hand(p: u32, cuts: &[u32]) -> Plan {
    let d = cuts.len();
    let mut plan = plan_job(p, d as u32, &vec![4096; d], &vec![1; d], &[]).expect("a roomy grid");
    plan.cuts[..d].copy_from_slice(cuts);
    let moduli = oracle::matrix::moduli(p, cuts);
    for (i, row) in oracle::matrix::matrix(cuts, &moduli).iter().enumerate() {
        plan.matrix[i][..d].copy_from_slice(row);
    }
    plan.moduli[..d].copy_from_slice(&moduli);
    plan
}

/// Gives a plan thicknesses that fit, or, once in a while, one that does not.
#[cfg(test)]
pub fn thicken_plan(random: &mut Random, plan: &mut Plan) {
    let most = |k: usize| u64::from(plan.extents[k] / plan.cuts[k]);
    let d = plan.dimensions();
    let mut least: Vec<u32> = (0..d).map(|k| random.between(1, most(k)) as u32).collect();
    if random.once_in(20) {
        let k = random.between(0, d as u64 - 1) as usize;
        least[k] = *random.pick(&[0, most(k) as u32 + 1, u32::MAX]);
    }
    plan.least[..d].copy_from_slice(&least);
}

#[cfg(test)]
mod tests {
    use super::*;
    use crate::plan_list::{in_shape, tiles, CUTS, DIMENSIONS, PROCESSORS};
    use crate::planning::remembered;
    use crate::sheet::SHEET_LENGTH;
    use crate::subject::RIVAL;

    #[test]
    fn the_plans_with_chains_are_in_shape_and_even() {
        let all = chained();
        let names: Vec<&str> = all.iter().map(|asked| asked.what.as_str()).collect();
        let expected = [
            "4096 4096",
            "1 4096 4096",
            "2 2048 4096",
            "256 256 256",
            "16 16 16 64 64",
            "2 2 1024 4096",
            "2 2 1 2048 2048",
            "64 64 64",
            "2 2 2",
        ];
        assert_eq!(names, expected.map(|cuts| format!("chains, cuts {cuts}")));
        for (at, Chained { what, plan, wanted }) in all.iter().enumerate() {
            assert!(in_shape(plan), "{what}");
            assert_eq!(tiles(plan) == 16_777_216, at < 7, "{what}");
            assert_eq!(*wanted, at < 5, "{what}");
            for cut in &plan[CUTS..][..plan[DIMENSIONS] as usize] {
                assert_eq!(tiles(plan) / cut % plan[PROCESSORS], 0, "{what}");
            }
        }
    }

    /// Thin and thick jobs are cut alike, or refused alike.
    #[test]
    fn thick_jobs_are_cut_as_thin_ones() {
        let cuts = |job: &Job| {
            let plan = remembered(job.p, job.d, &job.extents, &job.weights, &job.least);
            plan.map(|list| list[CUTS..][..5].to_vec())
        };
        for d in 2..=5 {
            let (thin, thick) = thin_and_thick(1, d);
            let mut refused = 0;
            for (thin, thick) in thin.iter().zip(&thick) {
                let chosen = cuts(thin);
                assert_eq!(cuts(thick), chosen, "{thick:?}");
                assert!(chosen
                    .as_ref()
                    .err()
                    .is_none_or(|&refusal| refusal == (5, 0)));
                assert!(thin.least.is_empty());
                refused += u32::from(chosen.is_err());
            }
            let thicknesses = thick.iter().flat_map(|job| job.least.iter());
            let [twos, threes] = [2, 3].map(|n| thicknesses.clone().filter(|&&t| t == n).count());
            let all = thick.len() * d as usize;
            assert_eq!(twos + threes, all);
            assert!(twos > all / 3 && threes > all / 3, "{twos}, {threes}");
            assert!((300..3000).contains(&refused), "{refused}");
        }
    }

    #[test]
    fn the_sweeps_have_the_cuts_of_their_names_and_are_answered() {
        for (what, visits) in sweeps() {
            for visit in visits {
                let Visit {
                    plan,
                    dimension,
                    up,
                    step,
                    processor,
                } = visit;
                let cuts = plan[CUTS..][..plan[DIMENSIONS] as usize].iter();
                let words: Vec<String> = cuts.map(u32::to_string).collect();
                assert_eq!(what, format!("timetable, cuts {}", words.join(" ")));
                let told = (RIVAL.timetable)(&plan, dimension, up, step, processor, &mut [0; 8]);
                assert_eq!(told, Ok(()), "{what}");
            }
        }
    }

    #[test]
    fn the_probe_lines_are_as_named_and_are_answered() {
        for ProbeLines { what, plan, lines } in probe_lines(1) {
            let (probes, slabs) = (lines[0].len(), plan[CUTS]);
            assert_eq!(what, format!("probe line of {probes}, {slabs} slabs"));
            assert!(lines.len() * probes >= 90_000, "{what}");
            for line in &lines {
                let mut slabs = vec![7; probes];
                assert_eq!((RIVAL.slabs_of)(&plan, 1, line, &mut slabs), 0, "{what}");
            }
        }
    }

    #[test]
    fn the_pages_are_as_named_and_are_written() {
        let on_page = pages().map(|(what, asked)| {
            let mut sheet = [7; SHEET_LENGTH];
            assert_eq!(asked.write(RIVAL.slab_sheet, &mut sheet), 0, "{what}");
            let cut = asked.plan[CUTS + asked.dimension as usize - 1];
            let named = what.contains(&format!(" {cut} slabs")) || asked.caption.len() == 200;
            assert!(named, "{what}");
            let lines = sheet.chunks(73);
            lines.filter(|line| line[5] != b' ').count()
        });
        assert_eq!(on_page, [46, 50, 4, 50, 50]);
    }
}

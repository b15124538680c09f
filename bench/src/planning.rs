//! Planning in several ways.
//!
//! [`figure_2`] is the paper's own enumeration of elementary partitionings (source document 001,
//! section 5.2), each factor's distributions listed once and then combined in all ways;
//! [`figure_2_nested`] is the same with the paper's program run anew for every combination.
//! [`remembered`] chooses the cuts dimension after dimension and remembers its answers. All choose by
//! cost, then by the number of tiles, then by the smaller cut at the first dimension that differs.
//! [`fitting`] only says whether there are any to choose from. A cut fits if it is at most the extent
//! divided by the least thickness, rounded down.

use crate::plan_list::{
    COST_HIGH, COST_LOW, CUTS, DIMENSIONS, EXTENTS, LEAST, MATRIX, MODULI, PLAN_LENGTH, PROCESSORS,
    ROW_LENGTH, WEIGHTS,
};
use crate::subject::Planned;

mod figure_2;
mod fitting;
mod nested;
mod remembered;

pub use remembered::divisors;

/// What the choice of cuts depends on. Its lists have five places each, zero past d.
struct Job {
    p: u32,
    d: usize,
    weights: [u32; 5],
    /// The largest cut of each dimension that fits; 0 if none does.
    most: [u32; 5],
}

impl Job {
    /// The sum of b * w where no dimension is cut. Any cuts cost their sum of b * w less this, so
    /// that an enumeration takes it off once, at its end.
    fn uncut(&self) -> u64 {
        self.weights.iter().map(|&w| u64::from(w)).sum()
    }
}

type Cuts = [u32; 5];

/// The number of tiles.
#[inline]
fn tiles(cuts: &[u32]) -> u64 {
    cuts.iter().map(|&b| u64::from(b)).product()
}

/// Plans by the paper's enumeration.
pub fn figure_2(p: u32, d: u32, extents: &[u32], weights: &[u32], least: &[u32]) -> Planned {
    let job = check(p, d, extents, weights, least)?;
    finish(&job, extents, least, figure_2::cheapest(&job, false))
}

/// Plans by the paper's enumeration, leaving a combination as soon as it does not fit.
pub fn figure_2_leaving_early(
    p: u32,
    d: u32,
    extents: &[u32],
    weights: &[u32],
    least: &[u32],
) -> Planned {
    let job = check(p, d, extents, weights, least)?;
    finish(&job, extents, least, figure_2::cheapest(&job, true))
}

/// Plans by the paper's enumeration, the distributions of a factor made anew for each combination
/// of those before it.
pub fn figure_2_nested(p: u32, d: u32, extents: &[u32], weights: &[u32], least: &[u32]) -> Planned {
    let job = check(p, d, extents, weights, least)?;
    finish(&job, extents, least, nested::cheapest(&job))
}

/// Plans dimension after dimension with remembered answers.
pub fn remembered(p: u32, d: u32, extents: &[u32], weights: &[u32], least: &[u32]) -> Planned {
    let job = check(p, d, extents, weights, least)?;
    finish(&job, extents, least, remembered::cheapest(&job))
}

/// The refusals of planning alone.
pub fn fitting(
    p: u32,
    d: u32,
    extents: &[u32],
    weights: &[u32],
    least: &[u32],
) -> Result<(), (u32, u32)> {
    let job = check(p, d, extents, weights, least)?;
    if fitting::some_fit(&job) {
        Ok(())
    } else {
        Err((5, 0))
    }
}

/// Refusals 1 to 4 and 13. It becomes part of its callers, so that no job is moved.
#[inline(always)]
fn check(
    p: u32,
    d: u32,
    extents: &[u32],
    weights: &[u32],
    least: &[u32],
) -> Result<Job, (u32, u32)> {
    if !(2..=5).contains(&d) {
        return Err((1, 0));
    }
    if !(1..=4096).contains(&p) {
        return Err((2, 0));
    }
    let d = d as usize;
    let given = !least.is_empty();
    if extents.len() != d || weights.len() != d || given && least.len() != d {
        return Err((3, 0));
    }
    let mut job = Job {
        p,
        d,
        weights: [0; 5],
        most: [0; 5],
    };
    for k in 0..d {
        if !(1..=1_000_000).contains(&extents[k]) {
            return Err((4, k as u32 + 1));
        }
        job.weights[k] = weights[k];
        job.most[k] = extents[k];
    }
    if given {
        for k in 0..d {
            if least[k] == 0 {
                return Err((13, k as u32 + 1));
            }
            job.most[k] = extents[k] / least[k];
        }
    }
    Ok(job)
}

/// Refusal 5, or the plan of the chosen cuts: moduli and matrix.
fn finish(job: &Job, extents: &[u32], least: &[u32], chosen: Option<(u64, Cuts)>) -> Planned {
    let (cost, cuts) = chosen.ok_or((5, 0))?;
    let d = job.d;
    let mut plan = [0; PLAN_LENGTH];
    plan[DIMENSIONS] = d as u32;
    plan[PROCESSORS] = job.p;
    for k in 0..d {
        plan[EXTENTS + k] = extents[k];
        plan[LEAST + k] = if least.is_empty() { 1 } else { least[k] };
    }
    plan[WEIGHTS..][..5].copy_from_slice(&job.weights);
    plan[CUTS..][..5].copy_from_slice(&cuts);
    plan[COST_LOW] = cost as u32;
    plan[COST_HIGH] = (cost >> 32) as u32;
    let mut moduli = [0; 5];
    let mut left = job.p;
    for k in (0..d).rev() {
        moduli[k] = gcd(left, cuts[k]);
        left /= moduli[k];
    }
    plan[MODULI..][..5].copy_from_slice(&moduli);
    let mut rows = [[0i64; 5]; 5];
    for i in 0..d {
        rows[i][0] = 1;
        rows[i][i] = 1;
        let mut r = moduli[i];
        for j in (1..i).rev() {
            let t = r / gcd(r, cuts[j]);
            let finished = rows[j];
            for (entry, taken) in rows[i].iter_mut().zip(finished) {
                *entry -= i64::from(t) * taken;
            }
            r = gcd(t * moduli[j], r);
        }
    }
    for i in 0..d {
        for k in 0..d {
            let entry = rows[i][k].rem_euclid(i64::from(moduli[i]));
            plan[MATRIX + ROW_LENGTH * i + k] = entry as u32;
        }
    }
    Ok(plan)
}

fn gcd(mut a: u32, mut b: u32) -> u32 {
    while b != 0 {
        (a, b) = (b, a % b);
    }
    a
}

fn lcm(a: u32, b: u32) -> u32 {
    a / gcd(a, b) * b
}

/// The least prime factor of every count up to 4,096.
static LEAST_FACTOR: [u16; 4097] = least_prime_factors();

const fn least_prime_factors() -> [u16; 4097] {
    let mut least = [0; 4097];
    let mut n = 2;
    while n <= 4096 {
        if least[n] == 0 {
            let mut multiple = n;
            while multiple <= 4096 {
                if least[multiple] == 0 {
                    least[multiple] = n as u16;
                }
                multiple += n;
            }
        }
        n += 1;
    }
    least
}

#[cfg(test)]
mod tests {
    use super::*;
    use crate::jobs::thicken;
    use crate::plan_list::list_of;
    use crate::subject::PlanCall;
    use oracle::cases;
    use oracle::random::Random;
    use oracle::text;

    const WAYS: [PlanCall; 4] = [
        figure_2,
        figure_2_leaving_early,
        figure_2_nested,
        remembered,
    ];

    #[test]
    fn all_ways_plan_as_the_oracle_does() {
        let mut random = Random::new(12);
        let mut inputs = cases::fixed();
        inputs.extend((0..6000).map(|_| cases::job(&mut random)));
        // How often each refusal, or a plan, comes out of jobs without thicknesses and with them.
        let mut seen = [[0; 14]; 2];
        for input in inputs {
            let Ok(mut job) = text::job(&input) else {
                continue;
            };
            if random.once_in(3) {
                thicken(&mut random, &mut job);
            }
            let expected = match job.plan() {
                Ok(plan) => Ok(list_of(&plan)),
                Err(refusal) => Err((refusal.number, refusal.place as u32)),
            };
            for way in WAYS {
                let planned = way(job.p, job.d, &job.extents, &job.weights, &job.least);
                assert_eq!(planned, expected, "{job:?}");
            }
            let fitting = fitting(job.p, job.d, &job.extents, &job.weights, &job.least);
            assert_eq!(fitting, expected.map(|_| ()), "{job:?}");
            let number = expected.map_or_else(|(number, _)| number, |_| 0);
            seen[usize::from(!job.least.is_empty())][number as usize] += 1;
        }
        let met = |seen: [u32; 14], numbers: &[usize]| numbers.iter().all(|&n| seen[n] >= 5);
        assert!(met(seen[0], &[0, 1, 2, 3, 4, 5]), "{seen:?}");
        assert!(met(seen[1], &[0, 1, 2, 3, 4, 5, 13]), "{seen:?}");
        assert!(seen[1][0] > 1000, "{seen:?}");
    }

    /// The figures of request g, and the largest thicknesses.
    #[test]
    fn thicknesses() {
        let cuts = |p, extents: &[u32], least: &[u32]| {
            let ones = vec![1; extents.len()];
            let cuts = WAYS.map(|way| {
                let list = way(p, extents.len() as u32, extents, &ones, least)?;
                Ok(list[CUTS..][..extents.len()].to_vec())
            });
            assert!(cuts.iter().all(|other| *other == cuts[0]), "{cuts:?}");
            cuts[0].clone()
        };
        assert_eq!(cuts(2, &[6, 6], &[3, 3]), Ok(vec![2, 2]));
        assert_eq!(cuts(2, &[6, 5], &[3, 3]), Err((5, 0)));
        assert_eq!(cuts(4, &[8; 3], &[1, 1, 5]), Ok(vec![4, 4, 1]));
        assert_eq!(cuts(4, &[8; 3], &[5, 2, 2]), Ok(vec![1, 4, 4]));
        assert_eq!(cuts(6, &[9; 3], &[1, 4, 1]), Ok(vec![3, 2, 6]));
        assert_eq!(cuts(1, &[3, 3], &[4, 1]), Err((5, 0)));
        for d in 2..=5 {
            assert_eq!(cuts(1, &vec![1; d], &vec![u32::MAX; d]), Err((5, 0)));
            let most = vec![1_000_000; d];
            assert_eq!(cuts(1, &most, &most), Ok(vec![1; d]));
        }
        // Products that 32 bits would hold as 0 and as 4,096.
        assert_eq!(cuts(4096, &[4096; 2], &[1, 1 << 20]), Err((5, 0)));
        assert_eq!(cuts(4096, &[4096; 2], &[1, (1 << 20) + 1]), Err((5, 0)));
    }

    #[test]
    fn the_table_of_least_factors() {
        assert_eq!(LEAST_FACTOR[2..13], [2, 3, 2, 5, 2, 7, 2, 3, 2, 11, 2]);
        assert_eq!((LEAST_FACTOR[4093], LEAST_FACTOR[4087]), (4093, 61));
    }
}

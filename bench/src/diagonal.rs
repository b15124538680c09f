//! Diagonal plans over plain lists, by requests c and g of document 02, with their checks in their order: 1 for d, 2 for
//! p, 12 for p and d together, 3, 4 and 13 for the lists, 5 for the cuts, 9 for the answer list.

use crate::plan_list::{
    PlanList, COST_HIGH, COST_LOW, CUTS, DIMENSIONS, EXTENTS, KIND, LEAST, MATRIX, MODULI,
    PLAN_LENGTH, PROCESSORS, ROW_LENGTH, WEIGHTS,
};
use crate::subject::Returned;

/// The diagonal plan of a job; the answer is a plan list.
pub fn diagonal(
    p: u32,
    d: u32,
    extents: &[u32],
    weights: &[u32],
    least: &[u32],
    answer: &mut [u32],
) -> Returned {
    match side_of(p, d) {
        Ok(side) => laid(d as usize, p, side, extents, weights, least, answer),
        Err(refused) => refused,
    }
}

/// The same with code for each d, in which no loop is left.
pub fn diagonal_for_each_d(
    p: u32,
    d: u32,
    extents: &[u32],
    weights: &[u32],
    least: &[u32],
    answer: &mut [u32],
) -> Returned {
    match side_of(p, d) {
        Ok(side) if d == 2 => laid(2, p, side, extents, weights, least, answer),
        Ok(side) => laid(3, p, side, extents, weights, least, answer),
        Err(refused) => refused,
    }
}

/// Refusals 1, 2 and 12, or how many cuts there are each way.
#[inline]
fn side_of(p: u32, d: u32) -> Result<u32, Returned> {
    if !(2..=5).contains(&d) {
        return Err(1);
    }
    if !(1..=4096).contains(&p) {
        return Err(2);
    }
    match d {
        2 => Ok(p),
        3 => square_root(p).ok_or(12),
        _ => Err(12),
    }
}

/// The root of a square. Roots of squares come out exactly.
#[inline]
fn square_root(p: u32) -> Option<u32> {
    let root = f64::from(p).sqrt() as u32;
    (root * root == p).then_some(root)
}

/// The other refusals, or the plan. It becomes part of its caller, which may know d.
#[inline(always)]
fn laid(
    d: usize,
    p: u32,
    side: u32,
    extents: &[u32],
    weights: &[u32],
    least: &[u32],
    answer: &mut [u32],
) -> Returned {
    let given = !least.is_empty();
    if extents.len() != d || weights.len() != d || given && least.len() != d {
        return 3;
    }
    for (extent, place) in extents.iter().zip(1..) {
        if extent.wrapping_sub(1) >= 1_000_000 {
            return 4 | place << 32;
        }
    }
    if given {
        for (&thickness, place) in least.iter().zip(1..) {
            if thickness == 0 {
                return 13 | place << 32;
            }
        }
        for (&extent, &thickness) in extents.iter().zip(least) {
            if u64::from(side) * u64::from(thickness) > u64::from(extent) {
                return 5;
            }
        }
    } else if extents.iter().any(|&extent| side > extent) {
        return 5;
    }
    let Ok(list) = <&mut PlanList>::try_from(answer) else {
        return 9;
    };
    *list = [0; PLAN_LENGTH];
    list[DIMENSIONS] = d as u32;
    list[PROCESSORS] = p;
    list[KIND] = 1;
    put_dimensions(side, &extents[..d], &weights[..d], list);
    for k in 0..d {
        list[LEAST + k] = if given { least[k] } else { 1 };
    }
    put_matrix(d, side, list);
    0
}

/// What each dimension has, and the cost.
#[inline(always)]
fn put_dimensions(side: u32, extents: &[u32], weights: &[u32], list: &mut PlanList) {
    let mut cost = 0;
    for (k, (&extent, &weight)) in extents.iter().zip(weights).enumerate() {
        list[EXTENTS + k] = extent;
        list[WEIGHTS + k] = weight;
        list[CUTS + k] = side;
        list[MODULI + k] = side;
        cost += u64::from(side - 1) * u64::from(weight);
    }
    list[MODULI] = 1;
    list[COST_LOW] = cost as u32;
    list[COST_HIGH] = (cost >> 32) as u32;
}

/// Row 1 stays zero; row 2 has its 1 in column 1 and row 3 in column 2, and both have side - 1 in the last.
#[inline(always)]
fn put_matrix(d: usize, side: u32, list: &mut PlanList) {
    for k in 0..d - 1 {
        let row = MATRIX + ROW_LENGTH * (k + 1);
        list[row + k] = 1 % side;
        list[row + d - 1] = side - 1;
    }
}

#[cfg(test)]
mod tests {
    use super::*;
    use crate::jobs::{thicken, Job};
    use crate::plan_list::list_of;
    use link::questions::{job_for_diagonal, lent};
    use oracle::random::Random;

    /// What the oracle leaves in a list of so many places.
    fn expected(job: &Job, places: usize) -> Result<PlanList, Returned> {
        let plan = job
            .diagonal()
            .map_err(|refusal| u64::from(refusal.number) | (refusal.place as u64) << 32)?;
        if places == PLAN_LENGTH {
            Ok(list_of(&plan))
        } else {
            Err(9)
        }
    }

    #[test]
    fn plans_as_the_oracle_lays_them() {
        let mut random = Random::new(16);
        let mut seen = [0; 14];
        let mut thick = 0;
        for _ in 0..40_000 {
            let mut job = job_for_diagonal(&mut random);
            if random.once_in(2) {
                thicken(&mut random, &mut job);
            }
            let before = lent(&mut random, PLAN_LENGTH);
            let expected = match expected(&job, before.len()) {
                Ok(list) => (0, list.to_vec()),
                Err(refused) => (refused, before.clone()),
            };
            let [extents, weights, least] = [&job.extents, &job.weights, &job.least];
            for rival in [diagonal, diagonal_for_each_d] {
                let mut answer = before.clone();
                let returned = rival(job.p, job.d, extents, weights, least, &mut answer);
                assert_eq!((returned, answer), expected, "{job:?}");
            }
            seen[expected.0 as u32 as usize] += 1;
            thick += u32::from(expected.0 == 0 && job.least.iter().any(|&t| t > 1));
        }
        let met = [0, 1, 2, 3, 4, 5, 9, 12, 13];
        assert!(met.iter().all(|&n| seen[n] > 100), "{seen:?}");
        assert!(thick > 1000, "{thick}");
    }

    #[test]
    fn every_root() {
        for p in 1..=4096 {
            assert_eq!(square_root(p), (1..=64).find(|s| s * s == p));
        }
    }
}

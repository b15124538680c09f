//! Jobs, plans, and when a plan is out of shape.

use crate::cuts;
use crate::matrix;
use crate::refusal::{self, Refusal};

/// "A plan holds d, p, extents, weights, cuts, cost, moduli, matrix. Places past d are zero in the
/// planner's answer and are never read." With it "a kind field: 0 for the planner's, 1 for diagonal"
/// (document 02, c), and "a least thickness for each dimension" (document 02, g).
#[derive(Clone, Debug, PartialEq, Eq)]
pub struct Plan {
    pub d: u32,
    pub p: u32,
    pub extents: [u32; 5],
    pub weights: [u32; 5],
    pub cuts: [u32; 5],
    pub cost: u64,
    pub moduli: [u32; 5],
    pub matrix: [[u32; 5]; 5],
    pub kind: u32,
    pub least: [u32; 5],
}

/// The kind of the planner's plans.
pub const PLANNERS: u32 = 0;
/// The kind of diagonal plans.
pub const DIAGONAL: u32 = 1;

/// What a planner is given. The list of least thicknesses may be empty.
#[derive(Clone, Debug, PartialEq, Eq)]
pub struct Job {
    pub p: u32,
    pub d: u32,
    pub extents: Vec<u32>,
    pub weights: Vec<u32>,
    pub least: Vec<u32>,
}

impl Job {
    pub fn plan(&self) -> Result<Plan, Refusal> {
        plan_job(self.p, self.d, &self.extents, &self.weights, &self.least)
    }
}

/// A job becomes a plan, or is refused with the first number of the table that applies.
pub fn plan_job(
    p: u32,
    d: u32,
    extents: &[u32],
    weights: &[u32],
    least: &[u32],
) -> Result<Plan, Refusal> {
    check_counts(p, d)?;
    check_lists(d, extents, weights, least)?;
    let least = thicknesses(d, least);
    let chosen = cuts::cheapest(p, extents, &least, weights).ok_or(refusal::NO_CUTS)?;
    let moduli = matrix::moduli(p, &chosen);
    let rows = matrix::matrix(&chosen, &moduli);
    Ok(Plan {
        d,
        p,
        extents: padded(extents),
        weights: padded(weights),
        cuts: padded(&chosen),
        cost: cuts::cost(&chosen, weights),
        moduli: padded(&moduli),
        matrix: padded_rows(&rows),
        kind: PLANNERS,
        least: padded(&least),
    })
}

/// Refusals 1 and 2, in this order.
pub fn check_counts(p: u32, d: u32) -> Result<(), Refusal> {
    if !refusal::dimensions_in_range(d) {
        return Err(refusal::DIMENSIONS);
    }
    if !refusal::processors_in_range(p) {
        return Err(refusal::PROCESSORS);
    }
    Ok(())
}

/// Refusals 3, 4 and 13, in this order: "13 [...] after 4 and before 5; refusal 3 covers a thickness
/// list that is neither empty nor d long" (document 02, g).
pub fn check_lists(d: u32, extents: &[u32], weights: &[u32], least: &[u32]) -> Result<(), Refusal> {
    let d = d as usize;
    if extents.len() != d || weights.len() != d || !(least.is_empty() || least.len() == d) {
        return Err(refusal::LENGTHS);
    }
    if let Some(k) = extents.iter().position(|&n| !refusal::extent_in_range(n)) {
        return Err(Refusal::at(refusal::EXTENT, k + 1));
    }
    match least.iter().position(|&t| t == 0) {
        Some(k) => Err(Refusal::at(refusal::THICKNESS, k + 1)),
        None => Ok(()),
    }
}

/// "A job and a plan gain a least thickness for each dimension, 1 where none is given" (document 02,
/// g): d of them.
pub fn thicknesses(d: u32, given: &[u32]) -> Vec<u32> {
    if given.is_empty() {
        vec![1; d as usize]
    } else {
        given.to_vec()
    }
}

/// "Places past d are zero in the planner's answer."
pub fn padded(list: &[u32]) -> [u32; 5] {
    let mut places = [0; 5];
    places[..list.len()].copy_from_slice(list);
    places
}

/// A matrix of d rows of d entries, likewise.
pub fn padded_rows(rows: &[Vec<u32>]) -> [[u32; 5]; 5] {
    let mut places = [[0; 5]; 5];
    for (place, row) in places.iter_mut().zip(rows) {
        *place = padded(row);
    }
    places
}

impl Plan {
    /// d as a count of places. Only to be asked of a plan in shape.
    pub fn dimensions(&self) -> usize {
        self.d as usize
    }

    /// "tiles = b1 * ... * bd".
    pub fn tiles(&self) -> u128 {
        let cuts = &self.cuts[..self.dimensions()];
        cuts.iter().map(|&b| u128::from(b)).product()
    }

    /// Refusal 6: "A plan is out of shape if d, p or an extent is out of range, a cut is 0 or above
    /// its extent or above 4,096, there are more than 16,777,216 tiles, a modulus is 0, the moduli
    /// don't multiply to p, or a matrix entry is not below its row's modulus." Also "a kind above 1 is
    /// a 6" (document 02, c), and "A plan that breaks the rule", that cuts times least thicknesses are
    /// at most the extents, "or holds a thickness of 0 is a 6" (document 02, g).
    pub fn check_shape(&self) -> Result<(), Refusal> {
        if self.in_shape() {
            Ok(())
        } else {
            Err(refusal::SHAPE)
        }
    }

    fn in_shape(&self) -> bool {
        if !refusal::dimensions_in_range(self.d) {
            return false;
        }
        let d = self.dimensions();
        let moduli = &self.moduli[..d];
        // Nothing if it has more than 128 bits.
        let multiplied = moduli
            .iter()
            .try_fold(1u128, |product, &m| product.checked_mul(u128::from(m)));
        refusal::processors_in_range(self.p)
            && (0..d).all(|k| refusal::extent_in_range(self.extents[k]))
            && (0..d).all(|k| 1 <= self.cuts[k] && self.cuts[k] <= self.extents[k].min(4096))
            && self.tiles() <= 16_777_216
            && moduli.iter().all(|&m| m != 0)
            && multiplied == Some(u128::from(self.p))
            && (0..d).all(|i| self.matrix[i][..d].iter().all(|&entry| entry < moduli[i]))
            && self.kind <= 1
            && self.least[..d].iter().all(|&t| t != 0)
            && cuts::fit(&self.cuts[..d], &self.extents[..d], &self.least[..d])
    }

    /// Refusal 7, and the dimension's place counted from 0.
    pub fn check_dimension(&self, dimension: u32) -> Result<usize, Refusal> {
        if 1 <= dimension && dimension <= self.d {
            Ok(dimension as usize - 1)
        } else {
            Err(refusal::DIMENSION)
        }
    }

    /// Refusal 8 for a position: d coordinates, each below its cut.
    pub fn check_position(&self, position: &[u32]) -> Result<(), Refusal> {
        let inside = position.iter().zip(&self.cuts).all(|(i, b)| i < b);
        if position.len() == self.dimensions() && inside {
            Ok(())
        } else {
            Err(refusal::RANGE)
        }
    }
}

/// Refusal 8 for one number: it must be below a limit.
pub fn check_below(number: u32, limit: u128) -> Result<(), Refusal> {
    if u128::from(number) < limit {
        Ok(())
    } else {
        Err(refusal::RANGE)
    }
}

#[cfg(test)]
mod tests {
    use super::*;
    use crate::random::Random;

    /// A line of "Grids to try", whose costs drop by the sum of the weights (document 02, a).
    fn grid(p: u32, extents: &[u32], weights: &[u32]) -> Result<Plan, Refusal> {
        plan_job(p, extents.len() as u32, extents, weights, &[])
    }

    /// A grid with weights of 1 and these least thicknesses.
    fn thick(p: u32, extents: &[u32], least: &[u32]) -> Result<Plan, Refusal> {
        let weights = vec![1; extents.len()];
        plan_job(p, extents.len() as u32, extents, &weights, least)
    }

    #[test]
    fn grids_to_try() {
        let plan = grid(1, &[1, 1], &[5, 7]).unwrap();
        assert_eq!((plan.cuts, plan.cost), ([1, 1, 0, 0, 0], 0));
        let plan = grid(2, &[2, 2], &[0, 0]).unwrap();
        assert_eq!((plan.cuts, plan.cost), ([2, 2, 0, 0, 0], 0));
        assert_eq!(plan.matrix[1], [1, 1, 0, 0, 0]);
        assert_eq!(grid(2, &[1, 9], &[1, 1]), Err(refusal::NO_CUTS));
        let plan = grid(4, &[8, 8, 8], &[1, 1, 1]).unwrap();
        assert_eq!((plan.cuts, plan.cost), ([2, 2, 2, 0, 0], 3));
        assert_eq!(grid(4, &[1, 3, 9], &[1, 1, 1]), Err(refusal::NO_CUTS));
        let plan = grid(5, &[4, 9, 9], &[1, 1, 1]).unwrap();
        assert_eq!((plan.cuts, plan.cost), ([1, 5, 5, 0, 0], 8));
        assert_eq!(plan.matrix[2], [0, 4, 1, 0, 0]);
        let plan = grid(6, &[9, 9, 9], &[1, 1, 1]).unwrap();
        assert_eq!((plan.cuts, plan.cost), ([2, 3, 6, 0, 0], 8));
        assert_eq!(plan.moduli, [1, 1, 6, 0, 0]);
        assert_eq!(plan.matrix[2], [5, 4, 1, 0, 0]);
        let plan = grid(6, &[1, 9, 9], &[1, 1, 1]).unwrap();
        assert_eq!((plan.cuts, plan.cost), ([1, 6, 6, 0, 0], 10));
        let plan = grid(6, &[9, 9, 9], &[1, 1, 100]).unwrap();
        assert_eq!((plan.cuts, plan.cost), ([6, 6, 1, 0, 0], 10));
        assert_eq!(plan.moduli, [1, 6, 1, 0, 0]);
        let plan = grid(8, &[9, 9, 9], &[1, 1, 1]).unwrap();
        assert_eq!((plan.cuts, plan.cost), ([2, 4, 4, 0, 0], 7));
        assert_eq!(plan.moduli, [1, 2, 4, 0, 0]);
        assert_eq!(plan.matrix[2], [0, 3, 1, 0, 0]);
        let plan = grid(4096, &[4096, 4096], &[1, 1]).unwrap();
        assert_eq!((plan.tiles(), plan.cost), (16_777_216, 8190));
        assert_eq!(grid(4096, &[4096, 4095], &[1, 1]), Err(refusal::NO_CUTS));
    }

    #[test]
    fn costs_of_many_processors() {
        let plan = grid(4093, &[1_000_000; 5], &[u32::MAX; 5]).unwrap();
        assert_eq!(plan.cuts, [1, 1, 1, 4093, 4093]);
        assert_eq!(plan.cost, 35_150_012_342_280);
        let plan = grid(4096, &[1_000_000; 5], &[u32::MAX; 5]).unwrap();
        assert_eq!((plan.cuts, plan.cost), ([8; 5], 150_323_855_325));
    }

    #[test]
    fn a_lone_processor_costs_nothing() {
        let lists = [[0; 5], [1; 5], [5, 7, 0, 1, u32::MAX], [u32::MAX; 5]];
        for weights in lists {
            for d in 2..=5 {
                for n in [1, 7, 1_000_000] {
                    let plan = grid(1, &vec![n; d], &weights[..d]).unwrap();
                    assert_eq!((plan.tiles(), plan.cost), (1, 0), "{plan:?}");
                }
            }
        }
    }

    #[test]
    fn job_checks_in_table_order() {
        let job = |p, d, extents: &[u32], weights: &[u32]| {
            let refused = plan_job(p, d, extents, weights, &[]);
            let thick = plan_job(p, d, extents, weights, &vec![1; d as usize]);
            assert_eq!(thick, refused);
            refused
        };
        assert_eq!(job(0, 6, &[], &[]), Err(refusal::DIMENSIONS));
        assert_eq!(job(0, 2, &[], &[]), Err(refusal::PROCESSORS));
        assert_eq!(job(4097, 2, &[1], &[]), Err(refusal::PROCESSORS));
        assert_eq!(job(4, 2, &[0, 0, 0], &[1, 1]), Err(refusal::LENGTHS));
        assert_eq!(job(4, 2, &[0, 0], &[1, 1, 1]), Err(refusal::LENGTHS));
        assert_eq!(job(4, 2, &[0, 0], &[1, 1]), Err(Refusal::at(4, 1)));
        assert_eq!(job(4, 2, &[1, 1_000_001], &[1, 1]), Err(Refusal::at(4, 2)));
        assert_eq!(job(4, 2, &[1, 1], &[1, 1]), Err(refusal::NO_CUTS));
    }

    /// "13, a thickness of 0 in a job, with the first such dimension as place, after 4 and before 5;
    /// refusal 3 covers a thickness list that is neither empty nor d long."
    #[test]
    fn checks_of_thicknesses() {
        assert_eq!(
            plan_job(4, 6, &[9; 6], &[1; 6], &[0; 6]),
            Err(refusal::DIMENSIONS)
        );
        assert_eq!(thick(0, &[9, 9], &[0, 0]), Err(refusal::PROCESSORS));
        for length in [1, 3, 4, 5, 6] {
            for t in [0, 1] {
                let refused = thick(2, &[0, 0], &vec![t; length]);
                assert_eq!(refused, Err(refusal::LENGTHS), "{length}");
            }
        }
        assert_eq!(thick(2, &[6, 6], &[3]), Err(refusal::LENGTHS));
        assert_eq!(thick(2, &[6, 0], &[0, 3]), Err(Refusal::at(4, 2)));
        assert_eq!(thick(2, &[6, 6], &[0, 3]), Err(Refusal::at(13, 1)));
        assert_eq!(thick(2, &[6, 6], &[3, 0]), Err(Refusal::at(13, 2)));
        assert_eq!(thick(2, &[6, 6], &[0, 0]), Err(Refusal::at(13, 1)));
        assert_eq!(thick(2, &[1, 9], &[1, 0]), Err(Refusal::at(13, 2)));
        assert_eq!(
            thick(9, &[1; 5], &[u32::MAX, 1, 1, 1, 0]),
            Err(Refusal::at(13, 5))
        );
        assert_eq!(thick(2, &[6, 5], &[3, 3]), Err(refusal::NO_CUTS));
        // Also for a lone processor.
        assert_eq!(thick(1, &[3, 3], &[4, 1]), Err(refusal::NO_CUTS));
        assert_eq!(
            thick(1, &[1_000_000; 5], &[u32::MAX; 5]),
            Err(refusal::NO_CUTS)
        );
    }

    /// The figures of request g, and others.
    #[test]
    fn thicknesses_move_cuts() {
        let figures = [
            (2, vec![6, 6], vec![3, 3], vec![2, 2], 2),
            (4, vec![8; 3], vec![1, 1, 5], vec![4, 4, 1], 6),
            (4, vec![8; 3], vec![4, 4, 4], vec![2, 2, 2], 3),
            (4, vec![8; 3], vec![5, 2, 2], vec![1, 4, 4], 6),
            (6, vec![9; 3], vec![1, 4, 1], vec![3, 2, 6], 8),
            (36, vec![40; 3], vec![6, 6, 6], vec![6, 6, 6], 15),
            (36, vec![40; 3], vec![20, 2, 2], vec![2, 18, 18], 35),
            (1, vec![1_000_000; 2], vec![1_000_000; 2], vec![1, 1], 0),
        ];
        for (p, extents, least, cuts, cost) in figures {
            let plan = thick(p, &extents, &least).unwrap();
            assert_eq!((plan.cuts, plan.cost), (padded(&cuts), cost));
            assert_eq!(plan.least, padded(&least));
            assert_eq!(plan.check_shape(), Ok(()));
        }
        assert_eq!(thick(36, &[40; 3], &[7, 6, 6]), Err(refusal::NO_CUTS));
        assert_eq!(
            thick(1, &[1_000_000; 2], &[1_000_000, 1_000_001]),
            Err(refusal::NO_CUTS)
        );
        // 4,096 slabs of 244 elements, and 576 elements more.
        assert!(thick(4096, &[1_000_000, 4096], &[244, 1]).is_ok());
        assert_eq!(
            thick(4096, &[1_000_000, 4096], &[245, 1]),
            Err(refusal::NO_CUTS)
        );
    }

    /// "A least thickness for each dimension, 1 where none is given."
    #[test]
    fn an_empty_list_is_a_list_of_ones() {
        let mut random = Random::new(13);
        let mut planned = 0;
        for _ in 0..2000 {
            let d = random.between(2, 5) as usize;
            let p = random.between(1, 64) as u32;
            let extents: Vec<u32> = (0..d).map(|_| random.between(1, 30) as u32).collect();
            let weights: Vec<u32> = (0..d).map(|_| random.between(0, 3) as u32).collect();
            let none = plan_job(p, d as u32, &extents, &weights, &[]);
            let ones = plan_job(p, d as u32, &extents, &weights, &vec![1; d]);
            assert_eq!(none, ones);
            if let Ok(plan) = none {
                assert_eq!(plan.least, padded(&vec![1; d]));
                planned += 1;
            }
        }
        assert!(planned >= 500, "{planned}");
    }

    #[test]
    fn plans_are_in_shape_and_damage_is_seen() {
        let plan = grid(8, &[9, 9, 9], &[1, 1, 1]).unwrap();
        assert_eq!((plan.kind, plan.check_shape()), (0, Ok(())));
        let damage: [fn(&mut Plan); 28] = [
            |plan| plan.d = 1,
            |plan| plan.d = 6,
            |plan| plan.p = 0,
            |plan| plan.p = 4097,
            |plan| plan.extents[1] = 0,
            |plan| plan.extents[2] = 1_000_001,
            |plan| plan.cuts[0] = 0,
            |plan| plan.cuts[2] = 10,
            |plan| (plan.cuts[0], plan.extents[0]) = (4097, 5000),
            |plan| (plan.cuts, plan.extents) = ([4096, 4096, 2, 0, 0], [5000; 5]),
            |plan| plan.moduli[0] = 0,
            |plan| plan.moduli[1] = 3,
            |plan| (plan.d, plan.moduli) = (5, [u32::MAX; 5]),
            |plan| plan.matrix[0][0] = 1,
            |plan| plan.matrix[1][2] = 2,
            |plan| plan.matrix[2][2] = 4,
            |plan| plan.kind = 2,
            |plan| plan.kind = 3,
            |plan| plan.kind = u32::MAX,
            |plan| plan.least[0] = 0,
            |plan| plan.least[2] = 0,
            |plan| plan.least[0] = 5,
            |plan| plan.least[1] = 3,
            |plan| plan.least[2] = u32::MAX,
            |plan| (plan.extents[1], plan.least[1]) = (11, 3),
            // Products that 32 bits do not hold: 2 to the power 32, and 4,096 more.
            |plan| plan.least[0] = 1 << 31,
            |plan| plan.least[1] = 1 << 30,
            |plan| {
                (plan.cuts, plan.extents) = ([1, 4096, 1, 0, 0], [5000; 5]);
                plan.least[1] = 1_048_577;
            },
        ];
        for change in damage {
            let mut changed = plan.clone();
            change(&mut changed);
            assert_eq!(changed.check_shape(), Err(refusal::SHAPE), "{changed:?}");
        }
    }

    #[test]
    fn what_the_shape_leaves_free() {
        let plan = grid(8, &[9, 9, 9], &[1, 1, 1]).unwrap();
        let free: [fn(&mut Plan); 10] = [
            |plan| plan.cost = 77,
            |plan| plan.weights = [u32::MAX; 5],
            |plan| (plan.cuts[3], plan.extents[4], plan.moduli[3]) = (9, 9, 9),
            |plan| (plan.matrix[0][3], plan.matrix[4][0]) = (99, 99),
            |plan| (plan.cuts, plan.extents) = ([4096, 4096, 1, 0, 0], [5000; 5]),
            |plan| plan.kind = 1,
            |plan| plan.least = [4, 2, 2, 0, u32::MAX],
            |plan| (plan.extents[1], plan.least[1]) = (12, 3),
            |plan| (plan.cuts[0], plan.least[0]) = (1, 9),
            |plan| {
                (plan.cuts, plan.extents) = ([1, 4096, 1, 0, 0], [1_000_000; 5]);
                plan.least = [1_000_000, 244, 1_000_000, 0, 0];
            },
        ];
        for change in free {
            let mut changed = plan.clone();
            change(&mut changed);
            assert_eq!(changed.check_shape(), Ok(()), "{changed:?}");
        }
    }
}

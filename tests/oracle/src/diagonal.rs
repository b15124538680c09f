//! Diagonal plans (document 02, request c; source document 001, section 2).

use crate::cuts;
use crate::plan::{
    check_counts, check_lists, padded, padded_rows, thicknesses, Job, Plan, DIAGONAL,
};
use crate::refusal::{self, Refusal};

impl Job {
    pub fn diagonal(&self) -> Result<Plan, Refusal> {
        diagonal_job(self.p, self.d, &self.extents, &self.weights, &self.least)
    }
}

/// A job becomes a diagonal plan: "For d = 2 there are p cuts each way and the owner is (i1 - i2)
/// modulo p. For d = 3 and p = s*s there are s cuts each way, and the owner is
/// ((i1 - i3) modulo s)*s + ((i2 - i3) modulo s)." Refusals 1, 2, 12, 3, 4, 13 and 5, in this order:
/// "12, p or d doesn't suit the layout, after 2 and before 3; a cut above its extent stays a 5". Cuts
/// fit as they do "for the planner, for diagonal plans and for any rival" (document 02, g).
pub fn diagonal_job(
    p: u32,
    d: u32,
    extents: &[u32],
    weights: &[u32],
    least: &[u32],
) -> Result<Plan, Refusal> {
    check_counts(p, d)?;
    let side = cuts_each_way(p, d).ok_or(refusal::LAYOUT)?;
    check_lists(d, extents, weights, least)?;
    let least = thicknesses(d, least);
    let chosen = vec![side; d as usize];
    if !cuts::fit(&chosen, extents, &least) {
        return Err(refusal::NO_CUTS);
    }
    let moduli = moduli(d, side);
    let rows = rows(d, side, &moduli);
    Ok(Plan {
        d,
        p,
        extents: padded(extents),
        weights: padded(weights),
        cuts: padded(&chosen),
        cost: cuts::cost(&chosen, weights),
        moduli: padded(&moduli),
        matrix: padded_rows(&rows),
        kind: DIAGONAL,
        least: padded(&least),
    })
}

/// "For d = 2 there are p cuts each way. [...] For d = 3 and p = s*s there are s cuts each way"; for
/// no other d, and for d = 3 and no other p, is there a diagonal layout. 64 times 64 is the largest p.
fn cuts_each_way(p: u32, d: u32) -> Option<u32> {
    match d {
        2 => Some(p),
        3 => (1..=64).find(|s| s * s == p),
        _ => None,
    }
}

/// "Their moduli are 1 p and 1 s s."
fn moduli(d: u32, side: u32) -> Vec<u32> {
    match d {
        2 => vec![1, side],
        _ => vec![1, side, side],
    }
}

/// "Row 1 is zero; row 2 is 1 p-1 for d = 2; for d = 3, row 2 is 1 0 s-1 and row 3 is 0 1 s-1, each
/// entry reduced modulo its row's modulus."
fn rows(d: u32, side: u32, moduli: &[u32]) -> Vec<Vec<u32>> {
    let rows = match d {
        2 => vec![vec![0, 0], vec![1, side - 1]],
        _ => vec![vec![0, 0, 0], vec![1, 0, side - 1], vec![0, 1, side - 1]],
    };
    let reduced = |(row, m): (Vec<u32>, &u32)| row.iter().map(|entry| entry % m).collect();
    rows.into_iter().zip(moduli).map(reduced).collect()
}

#[cfg(test)]
mod tests {
    use super::*;
    use crate::cases;
    use crate::cuts::even;
    use crate::neighbours::neighbour;
    use crate::owners::owner;
    use crate::random::Random;
    use crate::text;
    use crate::tiles::{position_of, step_from};

    fn grid(p: u32, extents: &[u32], weights: &[u32]) -> Result<Plan, Refusal> {
        diagonal_job(p, extents.len() as u32, extents, weights, &[])
    }

    /// A grid with weights of 1 and these least thicknesses.
    fn thick(p: u32, extents: &[u32], least: &[u32]) -> Result<Plan, Refusal> {
        let weights = vec![1; extents.len()];
        diagonal_job(p, extents.len() as u32, extents, &weights, least)
    }

    /// The plan with the fewest elements of d dimensions and this many cuts each way.
    fn smallest(d: usize, side: u32) -> Plan {
        let p = side.pow(d as u32 - 1);
        grid(p, &vec![side; d], &vec![1; d]).unwrap()
    }

    fn positions(plan: &Plan) -> impl Iterator<Item = Vec<u32>> + '_ {
        (1..=plan.tiles() as u32).map(|tile| position_of(plan, tile))
    }

    /// The owners of all tiles, the first dimension running fastest.
    fn owners(plan: &Plan) -> Vec<u32> {
        positions(plan)
            .map(|position| owner(plan, &position).unwrap())
            .collect()
    }

    /// Every field, with zeros past d.
    #[test]
    fn three_on_9_9() {
        let plan = Plan {
            d: 2,
            p: 3,
            extents: [9, 9, 0, 0, 0],
            weights: [1, 1, 0, 0, 0],
            cuts: [3, 3, 0, 0, 0],
            cost: 4,
            moduli: [1, 3, 0, 0, 0],
            matrix: [[0; 5], [1, 2, 0, 0, 0], [0; 5], [0; 5], [0; 5]],
            kind: 1,
            least: [1, 1, 0, 0, 0],
        };
        assert_eq!(owners(&plan), [0, 1, 2, 2, 0, 1, 1, 2, 0]);
        assert_eq!(grid(3, &[9, 9], &[1, 1]).as_ref(), Ok(&plan));
        let thicker = Plan {
            least: [2, 3, 0, 0, 0],
            ..plan
        };
        assert_eq!(thick(3, &[9, 9], &[2, 3]), Ok(thicker));
    }

    #[test]
    fn four_on_8_8_8() {
        let plan = Plan {
            d: 3,
            p: 4,
            extents: [8, 8, 8, 0, 0],
            weights: [1, 1, 1, 0, 0],
            cuts: [2, 2, 2, 0, 0],
            cost: 3,
            moduli: [1, 2, 2, 0, 0],
            matrix: [[0; 5], [1, 0, 1, 0, 0], [0, 1, 1, 0, 0], [0; 5], [0; 5]],
            kind: 1,
            least: [1, 1, 1, 0, 0],
        };
        assert_eq!(owners(&plan), [0, 2, 1, 3, 3, 1, 2, 0]);
        assert_eq!(grid(4, &[8; 3], &[1; 3]), Ok(plan));
    }

    /// Modulo 1 every entry is 0.
    #[test]
    fn a_lone_processor() {
        for d in [2, 3] {
            for extent in [1, 1_000_000] {
                let plan = grid(1, &vec![extent; d], &vec![u32::MAX; d]).unwrap();
                assert_eq!((plan.tiles(), plan.cost, plan.kind), (1, 0, 1));
                assert_eq!(plan.matrix, [[0; 5]; 5]);
                assert_eq!(plan.moduli[..d], vec![1; d]);
                assert_eq!(owners(&plan), [0]);
            }
        }
    }

    #[test]
    fn costs() {
        assert_eq!(grid(9, &[9; 3], &[1, 2, 3]).unwrap().cost, 12);
        assert_eq!(grid(4096, &[64; 3], &[1; 3]).unwrap().cost, 189);
        let plan = grid(4096, &[1_000_000; 2], &[u32::MAX; 2]).unwrap();
        assert_eq!(
            (plan.cuts[..2].to_vec(), plan.tiles()),
            (vec![4096; 2], 16_777_216)
        );
        assert_eq!(plan.cost, 35_175_782_146_050);
    }

    /// The layout of the first figure of source document 001, by the formula of its section 2: the first
    /// two planes for 16 processors.
    #[test]
    fn the_papers_figure_of_sixteen_processors() {
        let plan = grid(16, &[4; 3], &[1; 3]).unwrap();
        let plane = |i3: u32| -> Vec<u32> {
            let at = |tile: u32| owner(&plan, &[tile / 4, tile % 4, i3]).unwrap();
            (0..16).map(at).collect()
        };
        assert!(plane(0).into_iter().eq(0..16));
        assert_eq!(
            plane(1),
            [15, 12, 13, 14, 3, 0, 1, 2, 7, 4, 5, 6, 11, 8, 9, 10]
        );
    }

    #[test]
    fn job_checks_in_order() {
        // 1 before 2 before 12 before 3 before 4 before 5.
        let job = |p, d, extents: &[u32], weights: &[u32]| {
            let refused = diagonal_job(p, d, extents, weights, &[]);
            let zeros = diagonal_job(p, d, extents, weights, &vec![0; d as usize]);
            assert_eq!(zeros, refused);
            refused
        };
        assert_eq!(job(0, 6, &[], &[]), Err(refusal::DIMENSIONS));
        assert_eq!(job(5, 1, &[], &[]), Err(refusal::DIMENSIONS));
        assert_eq!(job(0, 4, &[], &[]), Err(refusal::PROCESSORS));
        assert_eq!(job(4097, 3, &[0], &[]), Err(refusal::PROCESSORS));
        assert_eq!(job(5, 3, &[0, 0], &[]), Err(refusal::LAYOUT));
        assert_eq!(job(16, 4, &[0], &[1; 9]), Err(refusal::LAYOUT));
        assert_eq!(job(4, 3, &[0; 2], &[1; 3]), Err(refusal::LENGTHS));
        assert_eq!(job(4, 3, &[0; 3], &[1; 4]), Err(refusal::LENGTHS));
        assert_eq!(job(7, 2, &[0; 3], &[1; 2]), Err(refusal::LENGTHS));
        assert_eq!(job(8, 2, &[9, 0], &[1; 2]), Err(Refusal::at(4, 2)));
        assert_eq!(grid(4, &[1, 0, 0], &[1; 3]), Err(Refusal::at(4, 2)));
        assert_eq!(grid(8, &[9, 0], &[1; 2]), Err(Refusal::at(4, 2)));
        assert_eq!(grid(8, &[7, 1_000_001], &[1; 2]), Err(Refusal::at(4, 2)));
        assert_eq!(grid(4096, &[64, 64, 63], &[1; 3]), Err(refusal::NO_CUTS));
        assert_eq!(grid(8, &[7, 9], &[1; 2]), Err(refusal::NO_CUTS));
        assert_eq!(grid(6, &[9; 3], &[1; 3]), Err(refusal::LAYOUT));
        assert_eq!(grid(4, &[8; 4], &[1; 4]), Err(refusal::LAYOUT));
        assert_eq!(grid(1, &[1; 5], &[1; 5]), Err(refusal::LAYOUT));
    }

    /// "13, a thickness of 0 in a job [...] after 4 and before 5; refusal 3 covers a thickness list that
    /// is neither empty nor d long", and 12 comes before 3.
    #[test]
    fn checks_of_thicknesses() {
        for length in [1, 2, 4, 5, 6] {
            let list = vec![0; length];
            assert_eq!(thick(5, &[0; 3], &list), Err(refusal::LAYOUT));
            assert_eq!(thick(4, &[0; 3], &list), Err(refusal::LENGTHS));
        }
        assert_eq!(thick(4, &[0, 8, 8], &[0; 3]), Err(Refusal::at(4, 1)));
        assert_eq!(thick(4, &[8; 3], &[0; 3]), Err(Refusal::at(13, 1)));
        assert_eq!(thick(4, &[8; 3], &[1, 1, 0]), Err(Refusal::at(13, 3)));
        assert_eq!(thick(4, &[8, 1, 8], &[9, 0, 1]), Err(Refusal::at(13, 2)));
        assert_eq!(thick(4, &[8; 3], &[1, 1, 5]), Err(refusal::NO_CUTS));
        assert_eq!(thick(1, &[8; 2], &[9, 1]), Err(refusal::NO_CUTS));
        assert_eq!(thick(2, &[8; 2], &[1, 1 << 31]), Err(refusal::NO_CUTS));
        assert_eq!(
            thick(4096, &[5000; 2], &[1_048_577, 1]),
            Err(refusal::NO_CUTS)
        );
        assert_eq!(thick(4, &[8; 3], &[4; 3]).map(|plan| plan.cost), Ok(3));
    }

    /// "A least thickness for each dimension, 1 where none is given."
    #[test]
    fn an_empty_list_is_a_list_of_ones() {
        for (d, sides) in [(2, 1..=64), (3, 1..=64)] {
            for plan in sides.map(|side| smallest(d, side)) {
                let ones = vec![1; d];
                assert_eq!(plan.least, padded(&ones));
                assert_eq!(thick(plan.p, &plan.extents[..d], &ones), Ok(plan));
            }
        }
    }

    /// "For d = 3 and p = s*s": of all counts just the squares.
    #[test]
    fn squares_suit_three_dimensions() {
        let squares: Vec<u32> = (1..=64).map(|s| s * s).collect();
        for p in 1..=4096 {
            let roomy = |d: usize| grid(p, &vec![4096; d], &vec![1; d]);
            let three = roomy(3).map(|plan| plan.p);
            let suits = squares.contains(&p);
            assert_eq!(three, if suits { Ok(p) } else { Err(refusal::LAYOUT) });
            assert_eq!(roomy(2).map(|plan| plan.p), Ok(p));
            assert_eq!(roomy(4), Err(refusal::LAYOUT));
            assert_eq!(roomy(5), Err(refusal::LAYOUT));
        }
    }

    /// The last cut that fits, and each extent one too small for it.
    #[test]
    fn a_cut_above_its_extent() {
        for (d, sides) in [(2, 1..=300), (3, 1..=64)] {
            for side in sides {
                let plan = smallest(d, side);
                assert_eq!(plan.check_shape(), Ok(()));
                for k in (0..d).filter(|_| side > 1) {
                    let mut extents = vec![side; d];
                    extents[k] = side - 1;
                    let refused = grid(plan.p, &extents, &vec![1; d]);
                    assert_eq!(refused, Err(refusal::NO_CUTS));
                }
                // Likewise with slabs of 1, 2 and 3 elements and no fewer.
                let least = [1, 2, 3];
                let extents: Vec<u32> = least[..d].iter().map(|t| t * side).collect();
                let plan = thick(plan.p, &extents, &least[..d]).unwrap();
                assert_eq!(plan.check_shape(), Ok(()));
                for k in 1..d {
                    let mut extents = extents.clone();
                    extents[k] -= 1;
                    let refused = thick(plan.p, &extents, &least[..d]);
                    assert_eq!(refused, Err(refusal::NO_CUTS));
                }
            }
        }
    }

    /// The remainder of a whole number, from 0 to m - 1.
    fn modulo(number: i64, m: u32) -> u32 {
        number.rem_euclid(i64::from(m)) as u32
    }

    /// "The owner is (i1 - i2) modulo p", and "the owner is ((i1 - i3) modulo s)*s + ((i2 - i3)
    /// modulo s)".
    fn by_formula(plan: &Plan, position: &[u32]) -> u32 {
        let i: Vec<i64> = position.iter().copied().map(i64::from).collect();
        let side = plan.cuts[0];
        match plan.d {
            2 => modulo(i[0] - i[1], plan.p),
            _ => modulo(i[0] - i[2], side) * side + modulo(i[1] - i[2], side),
        }
    }

    #[test]
    fn owners_by_the_formulas() {
        for (d, sides) in [(2, 1..=128), (3, 1..=32)] {
            for plan in sides.map(|side| smallest(d, side)) {
                for position in positions(&plan) {
                    let expected = by_formula(&plan, &position);
                    assert_eq!(owner(&plan, &position), Ok(expected), "{plan:?}");
                }
            }
        }
        let mut random = Random::new(8);
        for plan in [smallest(2, 4096), smallest(2, 4093), smallest(3, 64)] {
            for _ in 0..20_000 {
                let tile = random.between(1, plan.tiles() as u64) as u32;
                let position = position_of(&plan, tile);
                let expected = by_formula(&plan, &position);
                assert_eq!(owner(&plan, &position), Ok(expected), "{plan:?}");
            }
        }
    }

    /// "Diagonal plans are shown even": cuts that are even, and every processor owns exactly
    /// tiles / (bk * p) tiles of every slab.
    #[test]
    fn shares_of_every_slab() {
        for (d, sides) in [(2, 1..=100), (3, 1..=24)] {
            for plan in sides.map(|side| smallest(d, side)) {
                assert!(even(plan.p, &plan.cuts[..d]));
                for k in 0..d {
                    let bk = plan.cuts[k];
                    let mut owned = vec![vec![0; plan.p as usize]; bk as usize];
                    for position in positions(&plan) {
                        let q = owner(&plan, &position).unwrap();
                        owned[position[k] as usize][q as usize] += 1;
                    }
                    let share = plan.tiles() / u128::from(bk * plan.p);
                    assert!(owned.concat().iter().all(|&n| n == share), "{plan:?}");
                }
            }
        }
    }

    /// The owner across a face is the neighbour.
    #[test]
    fn neighbours_across_faces() {
        for plan in [
            smallest(2, 1),
            smallest(2, 7),
            smallest(3, 1),
            smallest(3, 5),
        ] {
            for position in positions(&plan) {
                let q = owner(&plan, &position).unwrap();
                for k in 0..plan.dimensions() {
                    for up in [false, true] {
                        let Some(next) = step_from(&plan, &position, k, up) else {
                            continue;
                        };
                        let theirs = owner(&plan, &next).unwrap();
                        let told = neighbour(&plan, q, k as u32 + 1, up);
                        assert_eq!(told, Ok(Some(theirs)), "{plan:?}");
                    }
                }
            }
        }
    }

    /// "Never cheaper than the planner's", which accepts every job that this accepts: its cuts are
    /// even and fit.
    #[test]
    fn the_planner_accepts_and_costs_no_more() {
        let mut random = Random::new(9);
        let (mut equal, mut dearer) = (0, 0);
        for _ in 0..10_000 {
            let job = text::job(&cases::diagonal(&mut random)).expect("a readable line");
            let Ok(diagonal) = job.diagonal() else {
                continue;
            };
            let planned = job.plan().expect("the planner accepts");
            assert_eq!((planned.kind, diagonal.kind), (0, 1));
            assert_eq!(planned.least, diagonal.least);
            assert!(planned.cost <= diagonal.cost, "{diagonal:?}");
            match job.d {
                // No other even cuts of two dimensions are as small.
                2 => assert_eq!(planned.cuts, diagonal.cuts),
                _ if planned.cost == diagonal.cost => equal += 1,
                _ => dearer += 1,
            }
        }
        assert!(equal >= 1000 && dearer >= 200, "{equal}, {dearer}");
    }
}

//! Tile numbers and positions ("Tiles, slabs, chains"; document 02, i).

use crate::plan::Plan;
use crate::refusal::{self, Refusal};

/// The number of the tile at a position.
pub fn number(plan: &Plan, position: &[u32]) -> Result<u32, Refusal> {
    plan.check_shape()?;
    plan.check_position(position)?;
    Ok(number_at(plan, position))
}

/// "A tile's number is now 1 + i1 + b1*(i2 + b2*(i3 + ...))."
pub fn number_at(plan: &Plan, position: &[u32]) -> u32 {
    let steps = plan.cuts.iter().zip(position);
    1 + steps.rev().fold(0, |inner, (b, i)| i + b * inner)
}

/// The position one step on, or `None` for "edge", if that step leaves the grid.
pub fn step(
    plan: &Plan,
    position: &[u32],
    dimension: u32,
    up: bool,
) -> Result<Option<Vec<u32>>, Refusal> {
    plan.check_shape()?;
    let k = plan.check_dimension(dimension)?;
    plan.check_position(position)?;
    Ok(step_from(plan, position, k, up))
}

/// A step from a position inside the grid.
pub fn step_from(plan: &Plan, position: &[u32], k: usize, up: bool) -> Option<Vec<u32>> {
    let moved = if up {
        position[k] + 1
    } else {
        position[k].checked_sub(1)?
    };
    let mut next = position.to_vec();
    next[k] = moved;
    (moved < plan.cuts[k]).then_some(next)
}

/// "A tile number gives its position."
pub fn position(plan: &Plan, tile: u32) -> Result<Vec<u32>, Refusal> {
    plan.check_shape()?;
    if tile == 0 || u128::from(tile) > plan.tiles() {
        return Err(refusal::RANGE);
    }
    Ok(position_of(plan, tile))
}

/// "And the position of a number follows": that of a tile of the grid.
pub fn position_of(plan: &Plan, tile: u32) -> Vec<u32> {
    let mut left = tile - 1;
    let mut position = vec![0; plan.dimensions()];
    for (i, b) in position.iter_mut().zip(plan.cuts) {
        *i = left % b;
        left /= b;
    }
    position
}

#[cfg(test)]
mod tests {
    use super::*;
    use crate::owners::owner;
    use crate::plan::{padded, plan_job};

    /// The plan of a lone processor with these cuts.
    fn cut(cuts: &[u32]) -> Plan {
        let ones = vec![1; cuts.len()];
        let mut plan = plan_job(1, cuts.len() as u32, cuts, &ones, &[]).unwrap();
        plan.cuts = padded(cuts);
        plan
    }

    /// Every tile of grids with and without uncut dimensions, "with the first axis fastest".
    #[test]
    fn numbers_and_positions_are_inverse() {
        for cuts in [
            &[2, 3][..],
            &[5, 1],
            &[1, 5],
            &[1, 1],
            &[2, 3, 6],
            &[4, 1, 7],
            &[1, 5, 3],
            &[5, 2, 4, 3],
            &[1, 4, 1, 3],
            &[2, 3, 4, 5, 6],
            &[3, 1, 7, 1, 2],
            &[1, 1, 2, 5, 1],
        ] {
            let plan = cut(cuts);
            // Uncut past d.
            let b = |k: usize| cuts.get(k - 1).copied().unwrap_or(1);
            let mut expected = 1;
            for i5 in 0..b(5) {
                for i4 in 0..b(4) {
                    for i3 in 0..b(3) {
                        for i2 in 0..b(2) {
                            for i1 in 0..b(1) {
                                let here = &[i1, i2, i3, i4, i5][..cuts.len()];
                                assert_eq!(number(&plan, here), Ok(expected));
                                assert_eq!(position(&plan, expected), Ok(here.to_vec()));
                                expected += 1;
                            }
                        }
                    }
                }
            }
            assert_eq!(u128::from(expected), plan.tiles() + 1);
        }
    }

    #[test]
    fn figures() {
        let plan = plan_job(6, 3, &[9; 3], &[1; 3], &[]).unwrap();
        for (tile, at) in [(2, [1, 0, 0]), (24, [1, 2, 3]), (31, [0, 0, 5])] {
            assert_eq!(number(&plan, &at), Ok(tile));
            assert_eq!(position(&plan, tile), Ok(at.to_vec()));
        }
        // The largest grids: the last tile, and the last of the first row.
        for (cuts, row) in [
            (&[4096, 4096][..], 4096),
            (&[1, 4096, 4096], 1),
            (&[2, 2, 1, 2048, 2048], 2),
        ] {
            let plan = cut(cuts);
            let mut at: Vec<u32> = cuts.iter().map(|b| b - 1).collect();
            assert_eq!(number(&plan, &at), Ok(16_777_216));
            assert_eq!(position(&plan, 16_777_216), Ok(at.clone()));
            at[1..].fill(0);
            assert_eq!(number(&plan, &at), Ok(row));
        }
    }

    /// "Owners don't move, since they come from positions": those of 6 on 9 9 9 are by row 3, 5 4 1, as
    /// with the former numbers 1 + (i1*b2 + i2)*b3 + i3.
    #[test]
    fn owners_do_not_move() {
        let plan = plan_job(6, 3, &[9; 3], &[1; 3], &[]).unwrap();
        let former = |i: &[u32]| 1 + (i[0] * 3 + i[1]) * 6 + i[2];
        for tile in 1..=36 {
            let at = position(&plan, tile).unwrap();
            let processor = (5 * at[0] + 4 * at[1] + at[2]) % 6;
            assert_eq!(owner(&plan, &at), Ok(processor));
            assert_eq!(former(&at) == tile, tile == 1 || tile == 36);
        }
        let at = [1, 2, 3];
        assert_eq!((former(&at), number(&plan, &at)), (34, Ok(24)));
        assert_eq!(owner(&plan, &at), Ok(4));
    }

    #[test]
    fn steps_end_at_the_edge() {
        let plan = plan_job(6, 3, &[9; 3], &[1; 3], &[]).unwrap();
        assert_eq!(step(&plan, &[0, 1, 5], 2, true), Ok(Some(vec![0, 2, 5])));
        assert_eq!(step(&plan, &[0, 1, 5], 2, false), Ok(Some(vec![0, 0, 5])));
        assert_eq!(step(&plan, &[0, 1, 5], 3, true), Ok(None));
        assert_eq!(step(&plan, &[0, 1, 5], 1, false), Ok(None));
    }

    #[test]
    fn refusals_in_order() {
        let mut plan = plan_job(6, 3, &[9; 3], &[1; 3], &[]).unwrap();
        assert_eq!(number(&plan, &[0, 3, 0]), Err(refusal::RANGE));
        assert_eq!(position(&plan, 0), Err(refusal::RANGE));
        assert_eq!(position(&plan, 37), Err(refusal::RANGE));
        assert_eq!(step(&plan, &[0, 3, 0], 4, true), Err(refusal::DIMENSION));
        assert_eq!(step(&plan, &[0, 3, 0], 3, true), Err(refusal::RANGE));
        plan.cuts[0] = 0;
        assert_eq!(step(&plan, &[0, 3, 0], 4, true), Err(refusal::SHAPE));
        assert_eq!(position(&plan, 0), Err(refusal::SHAPE));
    }
}

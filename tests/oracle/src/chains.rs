//! Chains ("Tiles, slabs, chains"; document 02, e). "Lowest" and "next higher" mean the numbers of
//! document 02, i.

use crate::owners::owner_of;
use crate::plan::Plan;
use crate::refusal::{self, Refusal};
use crate::tiles::position_of;

/// Fills the two lent lists: "The first, of p places, holds each processor's lowest tile, zero if it
/// has none. The second, of one place a tile, holds the owner's next higher tile; zero ends the
/// chain." Refused with 6 or 9, the lists keep their contents.
pub fn chains(plan: &Plan, heads: &mut [u32], nexts: &mut [u32]) -> Result<(), Refusal> {
    check(plan, heads, nexts)?;
    let mut owned: Vec<Vec<u32>> = vec![Vec::new(); heads.len()];
    for tile in 1..=nexts.len() as u32 {
        let owner = owner_of(plan, &position_of(plan, tile));
        owned[owner as usize].push(tile);
    }
    for (head, tiles) in heads.iter_mut().zip(&owned) {
        *head = tiles.first().copied().unwrap_or(0);
        for (at, &tile) in tiles.iter().enumerate() {
            nexts[tile as usize - 1] = tiles.get(at + 1).copied().unwrap_or(0);
        }
    }
    Ok(())
}

fn check(plan: &Plan, heads: &[u32], nexts: &[u32]) -> Result<(), Refusal> {
    plan.check_shape()?;
    if heads.len() != plan.p as usize || nexts.len() as u128 != plan.tiles() {
        return Err(refusal::LIST);
    }
    Ok(())
}

/// The same lists, filled as request e has it: "the chain call visits the highest tile first".
/// `visited` is told each tile right after its visit, with the two lists as they then are; before the
/// first visit it is told the number of tiles plus one.
pub fn chains_in_stages(
    plan: &Plan,
    heads: &mut [u32],
    nexts: &mut [u32],
    mut visited: impl FnMut(u32, &[u32], &[u32]),
) -> Result<(), Refusal> {
    check(plan, heads, nexts)?;
    heads.fill(0);
    visited(nexts.len() as u32 + 1, heads, nexts);
    for tile in (1..=nexts.len() as u32).rev() {
        let owner = owner_of(plan, &position_of(plan, tile));
        let head = &mut heads[owner as usize];
        nexts[tile as usize - 1] = *head;
        *head = tile;
        visited(tile, heads, nexts);
    }
    Ok(())
}

#[cfg(test)]
mod tests {
    use super::*;
    use crate::diagonal::diagonal_job;
    use crate::plan::plan_job;

    fn owners(plan: &Plan) -> Vec<u32> {
        let tiles = 1..=plan.tiles() as u32;
        tiles
            .map(|tile| owner_of(plan, &position_of(plan, tile)))
            .collect()
    }

    /// The lowest tile from `from` on that is one processor's, zero if none.
    fn lowest(owners: &[u32], processor: u32, from: u32) -> u32 {
        (from..=owners.len() as u32)
            .find(|&tile| owners[tile as usize - 1] == processor)
            .unwrap_or(0)
    }

    /// The two lists when the tiles from `lowest_visited` on are visited: "the first list holds each
    /// processor's lowest tile among those visited, zero if none; the second holds, for each visited
    /// tile, its owner's next higher tile, zero if none; and places of tiles not yet visited hold what
    /// was lent."
    fn stage(p: u32, owners: &[u32], lowest_visited: u32, lent: &[u32]) -> (Vec<u32>, Vec<u32>) {
        let heads = (0..p).map(|processor| lowest(owners, processor, lowest_visited));
        let nexts = (1..=owners.len() as u32).map(|tile| match tile < lowest_visited {
            true => lent[tile as usize - 1],
            false => lowest(owners, owners[tile as usize - 1], tile + 1),
        });
        (heads.collect(), nexts.collect())
    }

    /// Fills the chains of a plan, and holds every stage to `stage`.
    fn check_stages(plan: &Plan) {
        let owners = owners(plan);
        let lent: Vec<u32> = (0..owners.len() as u32).map(|i| 7 + 11 * i).collect();
        let (mut heads, mut nexts) = (vec![9; plan.p as usize], lent.clone());
        let mut next = owners.len() as u32 + 1;
        chains_in_stages(plan, &mut heads, &mut nexts, |tile, heads, nexts| {
            assert_eq!(tile, next);
            next -= 1;
            let (expected_heads, expected_nexts) = stage(plan.p, &owners, tile, &lent);
            assert_eq!((heads, nexts), (&expected_heads[..], &expected_nexts[..]));
        })
        .unwrap();
        assert_eq!(next, 0);
        // From the processors' lists of tiles.
        let mut whole = (vec![8; plan.p as usize], vec![8; owners.len()]);
        chains(plan, &mut whole.0, &mut whole.1).unwrap();
        assert_eq!((heads, nexts), whole);
    }

    #[test]
    fn stages_of_plans() {
        for (p, extents) in [
            (1, vec![5, 5]),
            (4, vec![8, 8, 8]),
            (5, vec![9, 9, 9]),
            (6, vec![9, 9, 9]),
            (12, vec![8, 8, 8, 8]),
        ] {
            let ones = vec![1; extents.len()];
            check_stages(&plan_job(p, extents.len() as u32, &extents, &ones, &[]).unwrap());
        }
        check_stages(&diagonal_job(9, 3, &[9; 3], &[1; 3], &[]).unwrap());
        // Owners by another matrix: processors without a tile, and with neighbouring tiles.
        let mut plan = plan_job(6, 3, &[9; 3], &[1; 3], &[]).unwrap();
        for row in [[2, 1, 0, 0, 0], [5, 0, 3, 0, 0], [0; 5]] {
            plan.matrix[2] = row;
            check_stages(&plan);
        }
    }

    #[test]
    fn stages_of_the_first_example() {
        let plan = plan_job(4, 3, &[8; 3], &[1; 3], &[]).unwrap();
        let (mut heads, mut nexts) = ([9; 4], [7; 8]);
        let mut stages = Vec::new();
        chains_in_stages(&plan, &mut heads, &mut nexts, |tile, heads, nexts| {
            stages.push((tile, heads.to_vec(), nexts.to_vec()));
        })
        .unwrap();
        for (tile, heads, nexts) in [
            (9, [0, 0, 0, 0], [7, 7, 7, 7, 7, 7, 7, 7]),
            (8, [8, 0, 0, 0], [7, 7, 7, 7, 7, 7, 7, 0]),
            (5, [8, 5, 7, 6], [7, 7, 7, 7, 0, 0, 0, 0]),
            (3, [8, 4, 7, 3], [7, 7, 6, 5, 0, 0, 0, 0]),
            (1, [1, 4, 2, 3], [8, 7, 6, 5, 0, 0, 0, 0]),
        ] {
            let stage = (tile, heads.to_vec(), nexts.to_vec());
            assert_eq!(stages[9 - tile as usize], stage);
        }
    }

    /// The two lists of a plan.
    fn lists(plan: &Plan) -> (Vec<u32>, Vec<u32>) {
        let mut lists = (vec![9; plan.p as usize], vec![9; plan.tiles() as usize]);
        chains(plan, &mut lists.0, &mut lists.1).unwrap();
        lists
    }

    /// "For 8 8 8 on 4 the chain heads become 1 4 2 3, and the nexts are 8 7 6 5 0 0 0 0 as before." The
    /// former numbers had other heads for each of these grids, and for 6 on 9 9 9 other nexts.
    #[test]
    fn figures() {
        let grid = |p, extents: [u32; 3]| plan_job(p, 3, &extents, &[1; 3], &[]).unwrap();
        let (heads, nexts) = lists(&grid(4, [8; 3]));
        assert_eq!(heads, [1, 4, 2, 3]);
        assert_eq!(nexts, [8, 7, 6, 5, 0, 0, 0, 0]);
        let (heads, nexts) = lists(&grid(6, [9; 3]));
        assert_eq!(heads, [1, 6, 5, 4, 3, 2]);
        assert_eq!(nexts[..12], [8, 9, 10, 11, 12, 7, 14, 15, 16, 17, 18, 13]);
        assert_eq!(nexts[24..], [32, 33, 34, 35, 36, 31, 0, 0, 0, 0, 0, 0]);
        let (heads, nexts) = lists(&grid(5, [4, 9, 9]));
        assert_eq!(heads, [1, 5, 4, 3, 2]);
        assert_eq!(nexts[..10], [7, 8, 9, 10, 6, 12, 13, 14, 15, 11]);
        let (heads, nexts) = lists(&diagonal_job(3, 2, &[9; 2], &[1; 2], &[]).unwrap());
        assert_eq!(heads, [1, 2, 3]);
        assert_eq!(nexts, [5, 6, 4, 8, 9, 7, 0, 0, 0]);
    }

    #[test]
    fn refused_lists_keep_their_contents() {
        let plan = plan_job(4, 3, &[8; 3], &[1; 3], &[]).unwrap();
        let (mut heads, mut nexts) = ([9; 4], [9; 7]);
        assert_eq!(chains(&plan, &mut heads, &mut nexts), Err(refusal::LIST));
        assert_eq!((heads, nexts), ([9; 4], [9; 7]));
        assert_eq!(chains(&plan, &mut [0; 5], &mut [0; 8]), Err(refusal::LIST));
    }

    #[test]
    fn a_processor_without_tiles_has_head_zero() {
        let mut plan = plan_job(4, 2, &[8; 2], &[1; 2], &[]).unwrap();
        plan.matrix[1] = [0; 5];
        let (mut heads, mut nexts) = ([9; 4], [9; 16]);
        chains(&plan, &mut heads, &mut nexts).unwrap();
        assert_eq!(heads, [1, 0, 0, 0]);
        assert_eq!(nexts[14..], [16, 0]);
    }
}

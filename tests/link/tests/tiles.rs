//! Tile numbers and chains through the link (document 02, request i): "A tile's number is now 1 + i1 + b1*(i2 + b2*(i3 +
//! ...)), and the position of a number follows."

use link::calls::{chains, diagonal, owner, plan, tile_number, tile_position};
use link::plan_list::{list_of, PlanList, DIMENSIONS, PLAN_LENGTH};
use oracle::matrix;
use oracle::owners::owner_of;
use oracle::plan::{padded, padded_rows, Plan, PLANNERS};
use oracle::random::Random;

/// The list of the planner's plan of a grid with weights of 1.
fn grid(p: u32, extents: &[u32]) -> PlanList {
    let (d, ones) = (extents.len() as u32, vec![1; extents.len()]);
    let mut list = [77; PLAN_LENGTH];
    assert_eq!(plan(p, d, extents, &ones, &[], &mut list), 0);
    list
}

/// The plan with these cuts, by document 01's moduli and matrix, on a grid of as few elements as can be.
fn cut(p: u32, cuts: &[u32]) -> Plan {
    let moduli = matrix::moduli(p, cuts);
    Plan {
        d: cuts.len() as u32,
        p,
        extents: padded(cuts),
        weights: [0; 5],
        cuts: padded(cuts),
        cost: 0,
        moduli: padded(&moduli),
        matrix: padded_rows(&matrix::matrix(cuts, &moduli)),
        kind: PLANNERS,
        least: padded(&vec![1; cuts.len()]),
    }
}

fn number(list: &PlanList, position: &[u32]) -> u32 {
    let mut answer = [77];
    assert_eq!(tile_number(list, position, &mut answer), 0, "{list:?}");
    answer[0]
}

fn position(list: &PlanList, tile: u32) -> Vec<u32> {
    let mut answer = vec![77; list[DIMENSIONS] as usize];
    assert_eq!(tile_position(list, tile, &mut answer), 0, "{list:?}");
    answer
}

/// The next position "with the first axis fastest"; from the last one, the first.
fn go_on(position: &mut [u32], cuts: &[u32]) {
    for (i, &b) in position.iter_mut().zip(cuts) {
        *i += 1;
        if *i < b {
            return;
        }
        *i = 0;
    }
}

/// Every tile of grids with and without uncut dimensions.
#[test]
fn the_first_axis_runs_fastest() {
    for cuts in [
        &[7, 4][..],
        &[1, 9],
        &[9, 1],
        &[1, 1],
        &[2, 3, 6],
        &[6, 1, 5],
        &[1, 5, 4],
        &[5, 2, 4, 3],
        &[1, 7, 1, 3],
        &[2, 3, 4, 5, 6],
        &[3, 1, 7, 1, 2],
        &[1, 1, 2, 5, 1],
    ] {
        let list = list_of(&cut(1, cuts));
        let mut here = vec![0; cuts.len()];
        for tile in 1..=cuts.iter().product() {
            assert_eq!(number(&list, &here), tile, "{cuts:?}");
            assert_eq!(position(&list, tile), here, "{cuts:?}");
            go_on(&mut here, cuts);
        }
        assert_eq!(here, vec![0; cuts.len()]);
    }
}

/// The lists of a plan list.
fn chains_of(list: &PlanList, p: usize, tiles: usize) -> (Vec<u32>, Vec<u32>) {
    let (mut heads, mut nexts) = (vec![77; p], vec![77; tiles]);
    assert_eq!(chains(list, &mut heads, &mut nexts), 0, "{list:?}");
    (heads, nexts)
}

/// "For 8 8 8 on 4 the chain heads become 1 4 2 3, and the nexts are 8 7 6 5 0 0 0 0 as before." And other grids, one with
/// cuts that all differ, one in which dimension 1 is uncut, and one of the diagonal layout.
#[test]
fn figures() {
    let (heads, nexts) = chains_of(&grid(4, &[8; 3]), 4, 8);
    assert_eq!(heads, [1, 4, 2, 3]);
    assert_eq!(nexts, [8, 7, 6, 5, 0, 0, 0, 0]);
    let list = grid(6, &[9; 3]);
    for (tile, here) in [(2, [1, 0, 0]), (24, [1, 2, 3]), (31, [0, 0, 5])] {
        assert_eq!(number(&list, &here), tile);
        assert_eq!(position(&list, tile), here);
    }
    let (heads, nexts) = chains_of(&list, 6, 36);
    assert_eq!(heads, [1, 6, 5, 4, 3, 2]);
    assert_eq!(nexts[..12], [8, 9, 10, 11, 12, 7, 14, 15, 16, 17, 18, 13]);
    assert_eq!(nexts[24..], [32, 33, 34, 35, 36, 31, 0, 0, 0, 0, 0, 0]);
    let (heads, nexts) = chains_of(&grid(5, &[4, 9, 9]), 5, 25);
    assert_eq!(heads, [1, 5, 4, 3, 2]);
    assert_eq!(nexts[..10], [7, 8, 9, 10, 6, 12, 13, 14, 15, 11]);
    let mut list = [77; PLAN_LENGTH];
    assert_eq!(diagonal(3, 2, &[9; 2], &[1; 2], &[], &mut list), 0);
    let (heads, nexts) = chains_of(&list, 3, 9);
    assert_eq!(heads, [1, 2, 3]);
    assert_eq!(nexts, [5, 6, 4, 8, 9, 7, 0, 0, 0]);
}

/// "Owners don't move, since they come from positions": those of 6 on 9 9 9 are by row 3, 5 4 1, as with the former
/// numbers 1 + (i1*b2 + i2)*b3 + i3.
#[test]
fn owners_do_not_move() {
    let list = grid(6, &[9; 3]);
    for former in 0..36 {
        let here = [former / 18, former / 6 % 3, former % 6];
        let mut answer = [77];
        assert_eq!(owner(&list, &here, &mut answer), 0);
        assert_eq!(answer[0], (5 * here[0] + 4 * here[1] + here[2]) % 6);
        let moved = number(&list, &here) != former + 1;
        assert_eq!(moved, 0 < former && former < 35, "{here:?}");
    }
}

/// The two lists of a plan, from a walk up all tiles that keeps each processor's highest tile so far.
fn expected(plan: &Plan) -> (Vec<u32>, Vec<u32>) {
    let mut heads = vec![0; plan.p as usize];
    let mut nexts = vec![0; plan.tiles() as usize];
    let mut highest = vec![0; heads.len()];
    let mut here = vec![0; plan.dimensions()];
    for tile in 1..=nexts.len() as u32 {
        let q = owner_of(plan, &here) as usize;
        match highest[q] {
            0 => heads[q] = tile,
            before => nexts[before as usize - 1] = tile,
        }
        highest[q] = tile;
        go_on(&mut here, &plan.cuts);
    }
    (heads, nexts)
}

/// The largest plans, with the owners of document 01's matrix, and with those of another: some processors then have no
/// tile, others many side by side.
#[test]
fn chains_of_the_largest_plans() {
    let mut random = Random::new(1);
    for (p, cuts) in [
        (4096, &[4096, 4096][..]),
        (4096, &[1, 4096, 4096]),
        (4096, &[2, 2048, 4096]),
        (4095, &[4095, 3, 1365]),
        (4096, &[256, 256, 256]),
        (4096, &[16, 16, 16, 64, 64]),
        (4096, &[2, 2, 1, 2048, 2048]),
    ] {
        let mut plan = cut(p, cuts);
        for by_hand in [false, true] {
            if by_hand {
                for (row, &m) in plan.matrix.iter_mut().zip(&plan.moduli[..cuts.len()]) {
                    row.fill_with(|| random.between(0, u64::from(m) - 1) as u32);
                }
            }
            let told = chains_of(&list_of(&plan), p as usize, plan.tiles() as usize);
            assert!(told == expected(&plan), "{plan:?}");
        }
    }
}

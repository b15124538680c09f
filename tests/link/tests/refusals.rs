//! Every refusal through the link, in the order of document 01's table and of document 02, and what a refusal leaves
//! alone.

use link::calls::{
    chains, diagonal, hypercube_owner, neighbour, owner, plan, slab, slab_of, slab_sheet, slabs_of,
    smallest_refused, step, tile_number, tile_position, timetable,
};
use link::compared::JobCall;
use link::plan_list::{
    PlanList, COST_HIGH, COST_LOW, CUTS, DIMENSIONS, EXTENTS, KIND, LEAST, MATRIX, MODULI,
    PLAN_LENGTH, PROCESSORS, ROW_LENGTH, WEIGHTS,
};

/// The plan of 4 processors on a grid of 8 by 8 by 8: cuts 2 2 2.
fn planned() -> PlanList {
    let mut list = [7; PLAN_LENGTH];
    assert_eq!(plan(4, 3, &[8; 3], &[1; 3], &[], &mut list), 0);
    list
}

/// The diagonal plan of the same job.
fn planned_diagonally() -> PlanList {
    let mut list = [7; PLAN_LENGTH];
    assert_eq!(diagonal(4, 3, &[8; 3], &[1; 3], &[], &mut list), 0);
    list
}

/// Checks that a call with this answer list returns this and leaves the list as it was.
fn refused<const N: usize>(expected: u64, call: impl FnOnce(&mut [u32]) -> u64) {
    let mut answer = [77; N];
    assert_eq!(call(&mut answer), expected);
    assert_eq!(answer, [77; N]);
}

/// How many bytes a page of a slab sheet has.
const PAGE: usize = 3650;

/// The same for a call that writes a page.
fn no_page<const N: usize>(expected: u64, call: impl FnOnce(&mut [u8]) -> u64) {
    let mut sheet = [77; N];
    assert_eq!(call(&mut sheet), expected);
    assert_eq!(sheet, [77; N]);
}

#[test]
fn jobs() {
    refused::<PLAN_LENGTH>(1, |list| plan(0, 6, &[], &[], &[], list));
    refused::<PLAN_LENGTH>(1, |list| plan(0, 1, &[], &[], &[], list));
    refused::<PLAN_LENGTH>(2, |list| plan(0, 2, &[], &[], &[], list));
    refused::<PLAN_LENGTH>(2, |list| plan(4097, 5, &[1], &[], &[], list));
    refused::<PLAN_LENGTH>(3, |list| plan(1, 2, &[0; 3], &[0; 2], &[], list));
    refused::<PLAN_LENGTH>(3, |list| plan(1, 2, &[0; 2], &[0; 1], &[], list));
    refused::<PLAN_LENGTH>(4 | 1 << 32, |list| plan(1, 2, &[0, 0], &[0; 2], &[], list));
    refused::<PLAN_LENGTH>(4 | 2 << 32, |list| {
        plan(1, 2, &[1, 1_000_001], &[0; 2], &[], list)
    });
    refused::<PLAN_LENGTH>(4 | 5 << 32, |list| {
        plan(1, 5, &[1, 1, 1, 1, 0], &[0; 5], &[], list)
    });
    refused::<PLAN_LENGTH>(5, |list| plan(2, 2, &[1, 9], &[1; 2], &[], list));
    refused::<{ PLAN_LENGTH - 1 }>(5, |list| plan(4, 3, &[1, 3, 9], &[1; 3], &[], list));
    refused::<{ PLAN_LENGTH - 1 }>(9, |list| plan(4, 3, &[8; 3], &[1; 3], &[], list));
    refused::<{ PLAN_LENGTH + 1 }>(9, |list| plan(4, 3, &[8; 3], &[1; 3], &[], list));
    refused::<0>(9, |list| plan(4, 3, &[8; 3], &[1; 3], &[], list));
}

/// "12, p or d doesn't suit the layout, after 2 and before 3; a cut above its extent stays a 5."
#[test]
fn jobs_for_diagonal_plans() {
    refused::<PLAN_LENGTH>(1, |list| diagonal(0, 6, &[], &[], &[], list));
    refused::<PLAN_LENGTH>(1, |list| diagonal(0, 1, &[], &[], &[], list));
    refused::<0>(1, |list| diagonal(5, u32::MAX, &[], &[], &[], list));
    refused::<PLAN_LENGTH>(2, |list| diagonal(0, 4, &[], &[], &[], list));
    refused::<PLAN_LENGTH>(2, |list| diagonal(4097, 3, &[8; 3], &[1; 3], &[], list));
    refused::<0>(2, |list| diagonal(u32::MAX, 2, &[0; 2], &[1; 2], &[], list));
    for d in [4, 5] {
        for p in [1, 4, 16, 4096] {
            let (extents, weights) = (vec![4096; d], vec![1; d]);
            refused::<PLAN_LENGTH>(12, |list| {
                diagonal(p, d as u32, &extents, &weights, &[], list)
            });
            refused::<0>(12, |list| diagonal(p, d as u32, &[0], &weights, &[], list));
        }
    }
    for p in [2, 3, 5, 6, 8, 10, 15, 17, 24, 4095] {
        refused::<PLAN_LENGTH>(12, |list| diagonal(p, 3, &[4096; 3], &[1; 3], &[], list));
        refused::<PLAN_LENGTH>(12, |list| diagonal(p, 3, &[0; 2], &[1; 3], &[], list));
        refused::<0>(12, |list| diagonal(p, 3, &[0; 3], &[], &[], list));
    }
    refused::<PLAN_LENGTH>(3, |list| diagonal(4, 3, &[0; 2], &[1; 3], &[], list));
    refused::<PLAN_LENGTH>(3, |list| diagonal(4, 3, &[0; 3], &[1; 2], &[], list));
    refused::<PLAN_LENGTH>(3, |list| diagonal(6, 2, &[0; 3], &[1; 2], &[], list));
    refused::<0>(3, |list| diagonal(6, 2, &[0; 2], &[1; 3], &[], list));
    refused::<PLAN_LENGTH>(4 | 2 << 32, |list| {
        diagonal(8, 2, &[9, 0], &[1; 2], &[], list)
    });
    refused::<PLAN_LENGTH>(4 | 2 << 32, |list| {
        diagonal(8, 2, &[7, 1_000_001], &[1; 2], &[], list)
    });
    refused::<0>(4 | 3 << 32, |list| {
        diagonal(4, 3, &[1, 1, 0], &[1; 3], &[], list)
    });
    refused::<PLAN_LENGTH>(5, |list| {
        diagonal(4096, 3, &[64, 64, 63], &[1; 3], &[], list)
    });
    refused::<PLAN_LENGTH>(5, |list| diagonal(8, 2, &[7, 9], &[0; 2], &[], list));
    // The planner has 1 4 4 for it.
    refused::<PLAN_LENGTH>(5, |list| diagonal(4, 3, &[1, 4, 4], &[1; 3], &[], list));
    refused::<0>(5, |list| diagonal(4, 3, &[8, 8, 1], &[1; 3], &[], list));
    refused::<{ PLAN_LENGTH - 1 }>(9, |list| diagonal(4, 3, &[8; 3], &[1; 3], &[], list));
    refused::<{ PLAN_LENGTH + 1 }>(9, |list| diagonal(4, 3, &[8; 3], &[1; 3], &[], list));
    refused::<0>(9, |list| diagonal(4, 3, &[8; 3], &[1; 3], &[], list));
}

/// "13, a thickness of 0 in a job, with the first such dimension as place, after 4 and before 5; refusal 3 covers a
/// thickness list that is neither empty nor d long."
#[test]
fn jobs_with_thicknesses() {
    let calls: [JobCall; 2] = [plan, diagonal];
    for call in calls {
        refused::<PLAN_LENGTH>(1, |list| call(2, 6, &[6; 6], &[1; 6], &[0; 6], list));
        refused::<PLAN_LENGTH>(2, |list| call(0, 2, &[6; 2], &[1; 2], &[0; 2], list));
        for length in [1, 3, 4, 5, 6] {
            let least = vec![0; length];
            refused::<PLAN_LENGTH>(3, |list| call(2, 2, &[0; 2], &[1; 2], &least, list));
            refused::<PLAN_LENGTH>(3, |list| call(2, 2, &[6; 2], &[1; 2], &least, list));
            refused::<0>(3, |list| call(2, 2, &[6; 2], &[1; 2], &least, list));
        }
        let grid = |extents: [u32; 2], least: [u32; 2]| {
            move |list: &mut [u32]| call(2, 2, &extents, &[1; 2], &least, list)
        };
        refused::<PLAN_LENGTH>(4 | 2 << 32, grid([6, 0], [0, 3]));
        refused::<0>(4 | 1 << 32, grid([1_000_001, 6], [0, 0]));
        refused::<PLAN_LENGTH>(13 | 1 << 32, grid([6, 6], [0, 3]));
        refused::<PLAN_LENGTH>(13 | 2 << 32, grid([6, 6], [3, 0]));
        refused::<PLAN_LENGTH>(13 | 1 << 32, grid([6, 6], [0, 0]));
        refused::<PLAN_LENGTH>(13 | 2 << 32, grid([1, 9], [1, 0]));
        refused::<0>(13 | 2 << 32, grid([1, 9], [u32::MAX, 0]));
        refused::<PLAN_LENGTH>(5, grid([6, 5], [3, 3]));
        refused::<PLAN_LENGTH>(5, grid([5, 6], [3, 3]));
        refused::<0>(5, grid([6, 5], [3, 3]));
        // Two times the thickness is 2 to the power 32, and just below 2 to the power 33.
        refused::<PLAN_LENGTH>(5, grid([6, 6], [1, 1 << 31]));
        refused::<PLAN_LENGTH>(5, grid([6, 6], [u32::MAX, 1]));
        refused::<0>(9, grid([6, 6], [3, 3]));
        refused::<LEAST>(9, grid([6, 6], [3, 3]));
        // A lone processor, and as many as there may be; the product is 4,096 more than 2 to the power 32.
        refused::<PLAN_LENGTH>(5, |list| call(1, 2, &[3; 2], &[1; 2], &[4, 1], list));
        let least = [1_048_577, 1];
        refused::<PLAN_LENGTH>(5, |list| call(4096, 2, &[5000; 2], &[1; 2], &least, list));
    }
    refused::<PLAN_LENGTH>(13 | 5 << 32, |list| {
        plan(9, 5, &[1; 5], &[1; 5], &[2, 2, 2, 2, 0], list)
    });
    refused::<PLAN_LENGTH>(5, |list| plan(36, 3, &[40; 3], &[1; 3], &[7, 6, 6], list));
    // 12 before 3 and 13.
    for length in 1..=6 {
        let least = vec![0; length];
        refused::<PLAN_LENGTH>(12, |list| diagonal(5, 3, &[0; 3], &[1; 3], &least, list));
        refused::<0>(12, |list| diagonal(4, 4, &[8; 4], &[1; 4], &least, list));
    }
    // The planner has 4 4 1 for it.
    refused::<PLAN_LENGTH>(5, |list| diagonal(4, 3, &[8; 3], &[1; 3], &[1, 1, 5], list));
}

/// "Other refusals come back as before": 1, 2, 3, 4 and 13, each where all later ones apply too and each without them.
/// No 5 comes back.
#[test]
fn jobs_for_smallest_refused_divisors() {
    let call = smallest_refused;
    for d in [0, 1, 6, u32::MAX] {
        refused::<0>(1, |answer| call(0, d, &[], &[], &[0], answer));
        refused::<2>(1, |answer| call(12, d, &[5; 2], &[1; 2], &[], answer));
    }
    for p in [0, 4097, u32::MAX] {
        refused::<0>(2, |answer| call(p, 2, &[0], &[], &[0], answer));
        refused::<2>(2, |answer| call(p, 2, &[5; 2], &[1; 2], &[], answer));
    }
    for length in [0, 1, 3, 5] {
        let (zeros, ones) = (vec![0; length], vec![1; length]);
        refused::<0>(3, |answer| call(12, 2, &zeros, &[1; 2], &[0; 2], answer));
        refused::<2>(3, |answer| call(12, 2, &ones, &[1; 2], &[], answer));
        refused::<0>(3, |answer| call(12, 2, &[0; 2], &ones, &[0; 2], answer));
        refused::<2>(3, |answer| call(12, 2, &[5; 2], &ones, &[], answer));
    }
    for length in [1, 3, 4, 5, 6] {
        let (zeros, ones) = (vec![0; length], vec![1; length]);
        refused::<0>(3, |answer| call(12, 2, &[0; 2], &[1; 2], &zeros, answer));
        refused::<2>(3, |answer| call(12, 2, &[5; 2], &[1; 2], &ones, answer));
    }
    let grid = |extents: [u32; 2], least: [u32; 2]| {
        move |answer: &mut [u32]| call(12, 2, &extents, &[1; 2], &least, answer)
    };
    refused::<0>(4 | 1 << 32, grid([0, 0], [0, 0]));
    refused::<2>(4 | 1 << 32, grid([1_000_001, 5], [1, 1]));
    refused::<0>(4 | 2 << 32, grid([5, 0], [0, 0]));
    refused::<2>(4 | 2 << 32, grid([5, 0], [1, 1]));
    refused::<0>(13 | 1 << 32, grid([5, 5], [0, 0]));
    refused::<2>(13 | 1 << 32, grid([12, 12], [0, 1]));
    refused::<0>(13 | 2 << 32, grid([5, 5], [6, 0]));
    refused::<2>(13 | 2 << 32, grid([12, 12], [1, 0]));
    let least = [1, 1, 1, 1, 0];
    refused::<2>(13 | 5 << 32, |answer| {
        call(7, 5, &[1; 5], &[1; 5], &least, answer)
    });
}

/// A wrong length is a 9 after all of these, where there is a divisor to show and where there is nothing.
#[test]
fn answer_lists_for_smallest_refused_divisors() {
    for (extents, least) in [
        ([5, 5], [1, 1]),
        ([9, 9], [1, 1]),
        ([9, 9], [1, 10]),
        ([12, 12], [1, 1]),
        ([24, 25], [2, 2]),
    ] {
        for least in [&least[..], &[]] {
            let call =
                |answer: &mut [u32]| smallest_refused(12, 2, &extents, &[1; 2], least, answer);
            refused::<0>(9, call);
            refused::<1>(9, call);
            refused::<3>(9, call);
            refused::<PLAN_LENGTH>(9, call);
            assert_eq!(call(&mut [77; 2]), 0, "{extents:?}, {least:?}");
        }
    }
}

/// "p = 4 to the power e with e from 0 to 6 [...]: three dimensions of 2 to the power e slabs."
#[test]
fn hypercube_questions() {
    for p in [0, 4097, 16384, u32::MAX] {
        refused::<1>(2, |answer| hypercube_owner(p, &[0; 3], answer));
        refused::<0>(2, |answer| hypercube_owner(p, &[], answer));
    }
    for p in [2, 3, 5, 8, 32, 128, 512, 2048, 4095] {
        refused::<1>(12, |answer| hypercube_owner(p, &[0; 3], answer));
        refused::<0>(12, |answer| hypercube_owner(p, &[u32::MAX; 4], answer));
    }
    for e in 0..=6 {
        let (p, slabs) = (4u32.pow(e), 2u32.pow(e));
        for number in [slabs, slabs + 1, u32::MAX] {
            for k in 0..3 {
                let mut position = [slabs - 1; 3];
                position[k] = number;
                refused::<1>(8, |answer| hypercube_owner(p, &position, answer));
                refused::<0>(8, |answer| hypercube_owner(p, &position, answer));
            }
        }
        for position in [&[0; 5][..], &[0; 4], &[0; 2], &[0], &[]] {
            refused::<1>(8, |answer| hypercube_owner(p, position, answer));
            refused::<0>(8, |answer| hypercube_owner(p, position, answer));
        }
        refused::<0>(9, |answer| hypercube_owner(p, &[slabs - 1; 3], answer));
        refused::<2>(9, |answer| hypercube_owner(p, &[slabs - 1; 3], answer));
        refused::<3>(9, |answer| hypercube_owner(p, &[0; 3], answer));
    }
}

/// Checks that every question about this plan list is refused with 6.
fn no_plan(list: &[u32]) {
    refused::<1>(6, |answer| owner(list, &[0; 3], answer));
    refused::<2>(6, |answer| neighbour(list, 0, 1, 1, answer));
    refused::<2>(6, |answer| slab(list, 1, 0, answer));
    refused::<1>(6, |answer| slab_of(list, 1, 0, answer));
    refused::<3>(6, |slabs| slabs_of(list, 1, &[0, 1], slabs));
    refused::<0>(6, |slabs| slabs_of(list, 1, &[], slabs));
    refused::<1>(6, |slabs| slabs_of(list, 0, &[9, 0], slabs));
    no_page::<PAGE>(6, |sheet| slab_sheet(list, 1, 0, b"caption", sheet));
    no_page::<0>(6, |sheet| slab_sheet(list, 0, 9, b"", sheet));
    refused::<1>(6, |answer| tile_number(list, &[0; 3], answer));
    refused::<3>(6, |answer| tile_position(list, 1, answer));
    refused::<4>(6, |answer| step(list, &[0; 3], 1, 1, answer));
    refused::<8>(6, |answer| timetable(list, 1, 1, 0, 0, answer));
    refused::<0>(6, |answer| timetable(list, 0, 1, 9, 9, answer));
    refused::<4>(6, |heads| chains(list, heads, &mut [0; 8]));
    refused::<8>(6, |nexts| chains(list, &mut [0; 4], nexts));
}

/// Among them lists of 49 places, as they were before they had a kind, and of 50, before they had thicknesses.
#[test]
fn plan_lists_of_another_length() {
    assert_eq!((KIND, LEAST, PLAN_LENGTH), (49, 50, 55));
    for list in [planned(), planned_diagonally()] {
        let longer = [list.to_vec(), vec![0]].concat();
        for length in [0, KIND, LEAST, PLAN_LENGTH - 1, PLAN_LENGTH + 1] {
            no_plan(&longer[..length]);
        }
    }
}

#[test]
fn plans_out_of_shape() {
    // d, p, an extent, a cut below and above its range, a modulus, the moduli's product, an entry, the kind, a least
    // thickness of 0 and above what the slabs have, also where twice the thickness is 2 to the power 32
    let damage = [
        (DIMENSIONS, 1),
        (DIMENSIONS, 6),
        (PROCESSORS, 0),
        (PROCESSORS, 4097),
        (PROCESSORS, 5),
        (EXTENTS, 0),
        (EXTENTS, 1),
        (EXTENTS + 2, 1_000_001),
        (CUTS, 0),
        (CUTS + 1, 9),
        (CUTS + 2, 4097),
        (MODULI, 0),
        (MODULI + 1, 4),
        (MATRIX, 1),
        (MATRIX + ROW_LENGTH + 2, 2),
        (MATRIX + 2 * ROW_LENGTH + 2, 2),
        (KIND, 2),
        (KIND, 3),
        (KIND, u32::MAX),
        (LEAST, 0),
        (LEAST + 1, 0),
        (LEAST + 2, 0),
        (LEAST, 5),
        (LEAST + 1, 1 << 31),
        (LEAST + 2, u32::MAX),
    ];
    for (place, number) in damage {
        for mut list in [planned(), planned_diagonally()] {
            list[place] = number;
            no_plan(&list);
        }
    }
}

/// "A plan that breaks the rule or holds a thickness of 0 is a 6"; one that keeps it is answered, whatever the places
/// past d hold.
#[test]
fn thicknesses_of_plans_made_by_hand() {
    // Extents, cuts and thicknesses of three dimensions, and whether they go together.
    let cases = [
        ([8, 8, 8], [2, 2, 2], [4, 4, 4], true),
        ([8, 8, 8], [2, 2, 2], [4, 5, 4], false),
        ([8, 8, 7], [2, 2, 2], [4, 4, 4], false),
        ([8, 8, 8], [1, 1, 8], [8, 8, 1], true),
        ([8, 8, 8], [1, 1, 8], [8, 9, 1], false),
        ([8, 8, 8], [1, 1, 8], [1, 8, 8], false),
        ([9, 9, 9], [1, 2, 4], [9, 4, 2], true),
        ([9, 9, 9], [1, 2, 4], [9, 4, 3], false),
        ([1_000_000, 1, 1], [4096, 1, 1], [244, 1, 1], true),
        ([1_000_000, 1, 1], [4096, 1, 1], [245, 1, 1], false),
        ([999_423, 1, 1], [4096, 1, 1], [244, 1, 1], false),
        ([1_000_000, 1, 1], [1, 1, 1], [1_000_000, 1, 1], true),
        ([1_000_000, 1, 1], [1, 1, 1], [1_000_001, 1, 1], false),
        // 4,096 * 1,048,577 is 4,096 more than 2 to the power 32.
        ([5000, 1, 1], [4096, 1, 1], [1_048_577, 1, 1], false),
        ([5000, 1, 1], [4096, 1, 1], [1_048_576, 1, 1], false),
        ([5000, 1, 1], [4096, 1, 1], [u32::MAX, 1, 1], false),
        ([5000, 1, 1], [1, 1, 1], [1, 0, 1], false),
    ];
    for (extents, cuts, least, right) in cases {
        for past in [0, 1, u32::MAX] {
            let mut list = planned();
            list[EXTENTS..][..3].copy_from_slice(&extents);
            list[CUTS..][..3].copy_from_slice(&cuts);
            list[LEAST..].fill(past);
            list[LEAST..][..3].copy_from_slice(&least);
            if right {
                let mut one = [77];
                assert_eq!((owner(&list, &[0; 3], &mut one), one), (0, [0]));
                assert_eq!((slab_of(&list, 1, 0, &mut one), one), (0, [0]));
            } else {
                no_plan(&list);
            }
        }
    }
}

#[test]
fn seven_before_eight_before_nine() {
    let list = planned();
    for dimension in [0, 4, u32::MAX] {
        refused::<0>(7, |answer| neighbour(&list, 4, dimension, 1, answer));
        refused::<0>(7, |answer| slab(&list, dimension, 2, answer));
        refused::<0>(7, |answer| slab_of(&list, dimension, 8, answer));
        refused::<0>(7, |answer| step(&list, &[2; 4], dimension, 1, answer));
    }
    for number in [8, u32::MAX] {
        refused::<0>(8, |answer| neighbour(&list, number, 3, 0, answer));
        refused::<0>(8, |answer| slab(&list, 3, number, answer));
        refused::<0>(8, |answer| slab_of(&list, 3, number, answer));
        refused::<0>(8, |answer| owner(&list, &[0, number, 0], answer));
        refused::<0>(8, |answer| tile_number(&list, &[0, number, 0], answer));
        refused::<0>(8, |answer| step(&list, &[0, number, 0], 2, 0, answer));
    }
    for position in [&[0; 5][..], &[0; 4], &[0; 2], &[]] {
        refused::<0>(8, |answer| owner(&list, position, answer));
        refused::<0>(8, |answer| tile_number(&list, position, answer));
        refused::<0>(8, |answer| step(&list, position, 3, 1, answer));
    }
    for tile in [0, 9, u32::MAX] {
        refused::<0>(8, |answer| tile_position(&list, tile, answer));
    }
    refused::<0>(9, |answer| owner(&list, &[1, 1, 1], answer));
    refused::<2>(9, |answer| owner(&list, &[1, 1, 1], answer));
    refused::<1>(9, |answer| neighbour(&list, 3, 3, 0, answer));
    refused::<3>(9, |answer| neighbour(&list, 3, 3, 0, answer));
    refused::<1>(9, |answer| slab(&list, 1, 1, answer));
    refused::<3>(9, |answer| slab(&list, 1, 1, answer));
    refused::<0>(9, |answer| slab_of(&list, 1, 7, answer));
    refused::<2>(9, |answer| slab_of(&list, 1, 7, answer));
    refused::<0>(9, |answer| tile_number(&list, &[1, 1, 1], answer));
    refused::<2>(9, |answer| tile_number(&list, &[1, 1, 1], answer));
    refused::<2>(9, |answer| tile_position(&list, 8, answer));
    refused::<4>(9, |answer| tile_position(&list, 8, answer));
    refused::<3>(9, |answer| step(&list, &[1, 1, 1], 3, 0, answer));
    refused::<5>(9, |answer| step(&list, &[1, 1, 1], 3, 1, answer));
    refused::<3>(9, |heads| chains(&list, heads, &mut [0; 8]));
    refused::<5>(9, |heads| chains(&list, heads, &mut [0; 8]));
    refused::<7>(9, |nexts| chains(&list, &mut [0; 4], nexts));
    refused::<9>(9, |nexts| chains(&list, &mut [0; 4], nexts));
}

/// "An element out of range is an 8": wherever it stands, also as the only one, and in a line that falls; after 7.
#[test]
fn probes_out_of_range() {
    let list = planned();
    for elements in [&[][..], &[0], &[0, 7, 7], &[7, 0], &[8, 0]] {
        for dimension in [0, 4, 5, u32::MAX] {
            refused::<3>(7, |slabs| slabs_of(&list, dimension, elements, slabs));
            refused::<0>(7, |slabs| slabs_of(&list, dimension, elements, slabs));
        }
    }
    for number in [8, 9, 1 << 31, u32::MAX] {
        for at in 0..5 {
            for mut elements in [[1, 2, 2, 3, 7], [7, 3, 2, 2, 1]] {
                elements[at] = number;
                refused::<0>(8, |slabs| slabs_of(&list, 3, &elements, slabs));
                refused::<4>(8, |slabs| slabs_of(&list, 3, &elements, slabs));
                refused::<5>(8, |slabs| slabs_of(&list, 3, &elements, slabs));
                refused::<9>(8, |slabs| slabs_of(&list, 3, &elements, slabs));
            }
        }
        refused::<0>(8, |slabs| slabs_of(&list, 3, &[number], slabs));
        refused::<1>(8, |slabs| slabs_of(&list, 3, &[number], slabs));
    }
}

/// "14, an element smaller than the one before, with the place of the first such counted from 1, after 9; [...] a
/// second list shorter than the first is a 9."
#[test]
fn probe_lines_that_fall() {
    let list = planned();
    for elements in [[1, 2, 2, 3, 7], [7, 3, 2, 2, 1], [7; 5]] {
        refused::<0>(9, |slabs| slabs_of(&list, 3, &elements, slabs));
        refused::<1>(9, |slabs| slabs_of(&list, 3, &elements, slabs));
        refused::<4>(9, |slabs| slabs_of(&list, 3, &elements, slabs));
    }
    refused::<0>(9, |slabs| slabs_of(&list, 3, &[0], slabs));
    // Each element but the first may be smaller, also where later ones are too.
    for place in 2..=5 {
        let at = place as usize - 1;
        let mut once = [1, 2, 2, 3, 7];
        once[at] = once[at - 1] - 1;
        let mut further = once;
        further[at..].fill(0);
        for elements in [once, further] {
            let fall = 14 | place << 32;
            refused::<5>(fall, |slabs| slabs_of(&list, 3, &elements, slabs));
            refused::<6>(fall, |slabs| slabs_of(&list, 3, &elements, slabs));
        }
    }
}

/// Whatever is wrong with a probe line, the first of 6, 7, 8, 9 and 14 is returned, and the list keeps its contents.
#[test]
fn six_before_seven_before_eight_before_nine_before_fourteen() {
    const REFUSALS: [u64; 5] = [6, 7, 8, 9, 14 | 3 << 32];
    for chosen in 1..1 << REFUSALS.len() {
        let wrong = [0, 1, 2, 3, 4].map(|at| chosen >> at & 1 == 1);
        let mut list = planned();
        if wrong[0] {
            list[KIND] = 2;
        }
        let dimension = if wrong[1] { 4 } else { 3 };
        let last = if wrong[2] { 8 } else { 7 };
        let third = if wrong[4] { 3 } else { 5 };
        let elements = [0, 4, third, 6, last];
        let first = wrong.iter().position(|&is| is).expect("something is wrong");
        if wrong[3] {
            refused::<4>(REFUSALS[first], |slabs| {
                slabs_of(&list, dimension, &elements, slabs)
            });
        } else {
            refused::<7>(REFUSALS[first], |slabs| {
                slabs_of(&list, dimension, &elements, slabs)
            });
        }
    }
    let mut slabs = [77; 7];
    assert_eq!(slabs_of(&planned(), 3, &[0, 4, 5, 6, 7], &mut slabs), 0);
    assert_eq!(slabs, [0, 1, 1, 1, 1, 77, 77]);
}

/// "A page past the one with the last slab is an 8, and a list of another length is a 9", after 7.
#[test]
fn pages_of_slab_sheets() {
    for list in [planned(), planned_diagonally(), grid(50, &[50, 99])] {
        for caption in [&b""[..], b"caption", &[0; 100]] {
            for dimension in [0, list[DIMENSIONS] + 1, u32::MAX] {
                for page in [0, 1, u32::MAX] {
                    let ask = |sheet: &mut [u8]| slab_sheet(&list, dimension, page, caption, sheet);
                    no_page::<PAGE>(7, ask);
                    no_page::<0>(7, ask);
                }
            }
            // Fifty times the last two is 25 times 2 to the power 32, and just less.
            for page in [1, 2, 50, 1 << 31, (1 << 31) - 1, u32::MAX] {
                let ask = |sheet: &mut [u8]| slab_sheet(&list, 2, page, caption, sheet);
                no_page::<PAGE>(8, ask);
                no_page::<0>(8, ask);
                no_page::<{ PAGE + 1 }>(8, ask);
            }
            let ask = |sheet: &mut [u8]| slab_sheet(&list, 2, 0, caption, sheet);
            no_page::<0>(9, ask);
            no_page::<1>(9, ask);
            no_page::<73>(9, ask);
            no_page::<{ PAGE - 1 }>(9, ask);
            no_page::<{ PAGE + 1 }>(9, ask);
            no_page::<{ 2 * PAGE }>(9, ask);
            no_page::<65536>(9, ask);
            assert_eq!(ask(&mut [77; PAGE]), 0);
        }
    }
}

/// Whatever is wrong with a question about a page, the first of 6, 7, 8 and 9 is returned, and the list keeps its
/// contents.
#[test]
fn six_before_seven_before_eight_before_nine() {
    const REFUSALS: [u64; 4] = [6, 7, 8, 9];
    for chosen in 1..1 << REFUSALS.len() {
        let wrong = [0, 1, 2, 3].map(|at| chosen >> at & 1 == 1);
        let mut list = planned();
        if wrong[0] {
            list[KIND] = 2;
        }
        let dimension = if wrong[1] { 4 } else { 3 };
        let page = if wrong[2] { 1 } else { 0 };
        let first = wrong.iter().position(|&is| is).expect("something is wrong");
        let ask = |sheet: &mut [u8]| slab_sheet(&list, dimension, page, b"caption", sheet);
        if wrong[3] {
            no_page::<{ PAGE - 1 }>(REFUSALS[first], ask);
        } else {
            no_page::<PAGE>(REFUSALS[first], ask);
        }
        // A plan list that is too short or too long is a 6 too.
        for length in [0, PLAN_LENGTH - 1, PLAN_LENGTH + 1] {
            let mut other = list.to_vec();
            other.resize(length, 0);
            no_page::<PAGE>(6, |sheet| slab_sheet(&other, dimension, page, b"", sheet));
        }
    }
}

/// The plan of a grid whose weights are 1.
fn grid(p: u32, extents: &[u32]) -> PlanList {
    let mut list = [7; PLAN_LENGTH];
    let (d, weights) = (extents.len(), vec![1; extents.len()]);
    assert_eq!(plan(p, d as u32, extents, &weights, &[], &mut list), 0);
    list
}

/// "11, the product of the other extents is above 4,294,967,295, after 7 and before 8; a step not below bk is an 8."
#[test]
fn seven_before_eleven_before_eight_before_nine() {
    // Cuts 1 2 2; the product of the first two extents is 4,294,967,296.
    let list = grid(2, &[65536, 65536, 2]);
    for up in [0, 1, u32::MAX] {
        for dimension in [0, 4, u32::MAX] {
            refused::<0>(7, |answer| timetable(&list, dimension, up, 2, 2, answer));
            refused::<8>(7, |answer| timetable(&list, dimension, up, 0, 0, answer));
        }
        for number in [2, u32::MAX] {
            refused::<0>(11, |answer| timetable(&list, 3, up, number, 0, answer));
            refused::<0>(11, |answer| timetable(&list, 3, up, 0, number, answer));
            refused::<0>(8, |answer| timetable(&list, 2, up, number, 0, answer));
            refused::<0>(8, |answer| timetable(&list, 2, up, 0, number, answer));
            refused::<8>(8, |answer| timetable(&list, 2, up, number, 0, answer));
            refused::<8>(8, |answer| timetable(&list, 2, up, 0, number, answer));
        }
        refused::<8>(11, |answer| timetable(&list, 3, up, 0, 0, answer));
        refused::<0>(8, |answer| timetable(&list, 1, up, 1, 0, answer));
        refused::<0>(9, |answer| timetable(&list, 2, up, 1, 1, answer));
        refused::<7>(9, |answer| timetable(&list, 2, up, 1, 1, answer));
        refused::<9>(9, |answer| timetable(&list, 2, up, 1, 1, answer));
        refused::<16>(9, |answer| timetable(&list, 2, up, 1, 1, answer));
    }
}

/// Extents at the limit of refusal 11, and products that 32, 64 and 96 bits do not hold.
#[test]
fn the_product_of_the_other_extents() {
    let sent = |list: &PlanList| {
        let mut answer = [77; 8];
        assert_eq!(timetable(list, 3, 1, 0, 0, &mut answer), 0);
        answer[2..5].to_vec()
    };
    assert_eq!(sent(&grid(2, &[65535, 65537, 2])), [1, 1, 2_147_516_415]);
    assert_eq!(sent(&grid(2, &[1_000_000, 4294, 2])), [1, 1, 2_147_000_000]);
    let over: [&[u32]; 5] = [
        &[65536, 65536, 2],
        &[1_000_000, 4295, 2],
        &[1_000_000, 1_000_000, 2],
        &[65536, 65536, 2, 65536, 65536],
        &[1_000_000, 1_000_000, 2, 1_000_000, 1_000_000],
    ];
    for extents in over {
        let list = grid(2, extents);
        refused::<8>(11, |answer| timetable(&list, 3, 1, 0, 0, answer));
    }
    // Of an uncut dimension too; of a lone processor too.
    let list = grid(2, &[1, 65536, 65536]);
    assert_eq!(list[CUTS], 1);
    refused::<8>(11, |answer| timetable(&list, 1, 1, 0, 0, answer));
    let list = grid(1, &[65536, 65536, 65536]);
    refused::<8>(11, |answer| timetable(&list, 2, 0, 0, 0, answer));
}

#[test]
fn answers_of_the_first_example() {
    let list = planned();
    assert_eq!(
        list[..20],
        [3, 4, 8, 8, 8, 0, 0, 1, 1, 1, 0, 0, 2, 2, 2, 0, 0, 3, 0, 1]
    );
    assert_eq!(list[KIND..], [0, 1, 1, 1, 0, 0]);
    let mut one = [77];
    assert_eq!((owner(&list, &[1, 0, 0], &mut one), one), (0, [2]));
    let mut two = [77; 2];
    assert_eq!((neighbour(&list, 0, 2, 1, &mut two), two), (0, [1, 3]));
    assert_eq!((slab(&list, 3, 1, &mut two), two), (0, [4, 8]));
    assert_eq!((slab_of(&list, 3, 3, &mut one), one), (0, [0]));
    assert_eq!((slabs_of(&list, 3, &[3, 4], &mut two), two), (0, [0, 1]));
    let mut sheet = [77; PAGE];
    assert_eq!(slab_sheet(&list, 3, 0, b"Casting 17", &mut sheet), 0);
    let second = b"     1        4        8        1 Casting 17                            \n";
    assert_eq!(&sheet[73..146], second);
    assert_eq!((tile_number(&list, &[0, 1, 1], &mut one), one), (0, [7]));
    let mut three = [77; 3];
    assert_eq!((tile_position(&list, 7, &mut three), three), (0, [0, 1, 1]));
    let mut four = [77; 4];
    assert_eq!(
        (step(&list, &[1, 0, 1], 2, 1, &mut four), four),
        (0, [1, 1, 1, 1])
    );
    assert_eq!(
        (step(&list, &[1, 0, 1], 1, 1, &mut four), four),
        (0, [0; 4])
    );
    let mut eight = [77; 8];
    assert_eq!(
        (timetable(&list, 1, 1, 0, 3, &mut eight), eight),
        (0, [0, 1, 1, 1, 16, 0, 0, 0])
    );
    assert_eq!(
        (timetable(&list, 1, 0, 1, 3, &mut eight), eight),
        (0, [0, 1, 0, 0, 0, 1, 1, 16])
    );
    let (mut heads, mut nexts) = ([77; 4], [77; 8]);
    assert_eq!(chains(&list, &mut heads, &mut nexts), 0);
    assert_eq!((heads, nexts), ([1, 4, 2, 3], [8, 7, 6, 5, 0, 0, 0, 0]));
}

/// "With p = 2 and thickness 3 both ways, 6 6 is cut 2 2", and other plans that a thickness moves.
#[test]
fn plans_with_thicknesses() {
    let mut list = [77; PLAN_LENGTH];
    assert_eq!(plan(2, 2, &[6, 6], &[1, 1], &[3, 3], &mut list), 0);
    let mut expected = [0; PLAN_LENGTH];
    expected[..4].copy_from_slice(&[2, 2, 6, 6]);
    expected[WEIGHTS..][..2].copy_from_slice(&[1, 1]);
    expected[CUTS..][..2].copy_from_slice(&[2, 2]);
    expected[COST_LOW] = 2;
    expected[MODULI..][..2].copy_from_slice(&[1, 2]);
    expected[MATRIX + ROW_LENGTH..][..2].copy_from_slice(&[1, 1]);
    expected[LEAST..][..2].copy_from_slice(&[3, 3]);
    assert_eq!(list, expected);

    let figures = [
        (4, [8; 3], [1, 1, 5], [4, 4, 1], 6),
        (4, [8; 3], [4, 4, 4], [2, 2, 2], 3),
        (4, [8; 3], [5, 2, 2], [1, 4, 4], 6),
        (6, [9; 3], [1, 4, 1], [3, 2, 6], 8),
        (36, [40; 3], [6, 6, 6], [6, 6, 6], 15),
        (36, [40; 3], [20, 2, 2], [2, 18, 18], 35),
    ];
    for (p, extents, least, cuts, cost) in figures {
        assert_eq!(plan(p, 3, &extents, &[1; 3], &least, &mut list), 0);
        assert_eq!(list[CUTS..][..3], cuts);
        assert_eq!((list[COST_LOW], list[COST_HIGH]), (cost, 0));
        assert_eq!(list[LEAST..], [least[0], least[1], least[2], 0, 0]);
    }
}

/// "For p = 12 on a grid of 5 by 5 with unit thicknesses, the answer is 6."
#[test]
fn smallest_refused_divisors() {
    let mut two = [77; 2];
    let twelve = |extents: &[u32], least: &[u32], answer: &mut [u32]| {
        smallest_refused(12, 2, extents, &[1; 2], least, answer)
    };
    assert_eq!((twelve(&[5, 5], &[], &mut two), two), (0, [1, 6]));
    assert_eq!((twelve(&[12, 12], &[], &mut two), two), (0, [0, 0]));
    assert_eq!((twelve(&[5, 5], &[1, 1], &mut two), two), (0, [1, 6]));
    assert_eq!((twelve(&[9, 9], &[], &mut two), two), (0, [1, 12]));
    assert_eq!((twelve(&[9, 9], &[1, 10], &mut two), two), (0, [1, 1]));
}

#[test]
fn an_uncut_dimension_has_no_neighbour() {
    let mut list = [0; PLAN_LENGTH];
    assert_eq!(plan(5, 3, &[4, 9, 9], &[1; 3], &[], &mut list), 0);
    let mut two = [77; 2];
    assert_eq!((neighbour(&list, 4, 1, 0, &mut two), two), (0, [0, 0]));
    let (mut eight, told) = ([77; 8], [0, 5, 0, 0, 0, 0, 0, 0]);
    assert_eq!((timetable(&list, 1, 0, 0, 4, &mut eight), eight), (0, told));
}

#[test]
fn answers_of_the_first_diagonal_plan() {
    let list = planned_diagonally();
    // As the planner's but for the matrix and the kind.
    let mut expected = planned();
    expected[MATRIX + ROW_LENGTH..][..3].copy_from_slice(&[1, 0, 1]);
    expected[MATRIX + 2 * ROW_LENGTH..][..3].copy_from_slice(&[0, 1, 1]);
    expected[KIND] = 1;
    assert_eq!(list, expected);
    let mut one = [77];
    for (tile, processor) in [0, 2, 1, 3, 3, 1, 2, 0].into_iter().enumerate() {
        let mut position = [77; 3];
        assert_eq!(tile_position(&list, tile as u32 + 1, &mut position), 0);
        assert_eq!((owner(&list, &position, &mut one), one), (0, [processor]));
    }
    let mut two = [77; 2];
    assert_eq!((neighbour(&list, 0, 3, 1, &mut two), two), (0, [1, 3]));
    assert_eq!((neighbour(&list, 0, 2, 0, &mut two), two), (0, [1, 1]));
    assert_eq!((slab(&list, 3, 1, &mut two), two), (0, [4, 8]));
    assert_eq!((slab_of(&list, 3, 3, &mut one), one), (0, [0]));
    let mut eight = [77; 8];
    assert_eq!(
        (timetable(&list, 3, 1, 0, 2, &mut eight), eight),
        (0, [0, 1, 1, 1, 16, 0, 0, 0])
    );
    let (mut heads, mut nexts) = ([77; 4], [77; 8]);
    assert_eq!(chains(&list, &mut heads, &mut nexts), 0);
    assert_eq!((heads, nexts), ([1, 3, 2, 4], [8, 7, 6, 5, 0, 0, 0, 0]));
}

#[test]
fn diagonal_plans() {
    let mut list = [77; PLAN_LENGTH];
    assert_eq!(diagonal(3, 2, &[9, 9], &[1, 1], &[], &mut list), 0);
    let mut expected = [0; PLAN_LENGTH];
    expected[..4].copy_from_slice(&[2, 3, 9, 9]);
    expected[WEIGHTS..][..2].copy_from_slice(&[1, 1]);
    expected[CUTS..][..2].copy_from_slice(&[3, 3]);
    expected[COST_LOW] = 4;
    expected[MODULI..][..2].copy_from_slice(&[1, 3]);
    expected[MATRIX + ROW_LENGTH..][..2].copy_from_slice(&[1, 2]);
    expected[KIND] = 1;
    expected[LEAST..][..2].copy_from_slice(&[1, 1]);
    assert_eq!(list, expected);
    assert_eq!(diagonal(3, 2, &[9, 9], &[1, 1], &[3, 2], &mut list), 0);
    expected[LEAST..][..2].copy_from_slice(&[3, 2]);
    assert_eq!(list, expected);

    // Modulo 1 every entry is 0.
    assert_eq!(diagonal(1, 2, &[1, 1], &[5, 7], &[], &mut list), 0);
    let mut expected = [0; PLAN_LENGTH];
    expected[..4].copy_from_slice(&[2, 1, 1, 1]);
    expected[WEIGHTS..][..2].copy_from_slice(&[5, 7]);
    expected[CUTS..][..2].copy_from_slice(&[1, 1]);
    expected[MODULI..][..2].copy_from_slice(&[1, 1]);
    expected[KIND] = 1;
    expected[LEAST..][..2].copy_from_slice(&[1, 1]);
    assert_eq!(list, expected);

    assert_eq!(diagonal(9, 3, &[9; 3], &[1, 2, 3], &[], &mut list), 0);
    assert_eq!((list[COST_LOW], list[COST_HIGH]), (12, 0));
    assert_eq!(diagonal(4096, 3, &[64; 3], &[1; 3], &[], &mut list), 0);
    assert_eq!((list[COST_LOW], list[COST_HIGH]), (189, 0));
    // 2 * 4095 * 4,294,967,295
    let most = [u32::MAX; 2];
    assert_eq!(diagonal(4096, 2, &[4096; 2], &most, &[], &mut list), 0);
    assert_eq!((list[COST_LOW], list[COST_HIGH]), (4_294_959_106, 8189));
}

#[test]
fn hypercube_owners() {
    let figures = [
        (1, [0, 0, 0], 0),
        (4, [1, 0, 1], 2),
        (16, [3, 0, 2], 13),
        (16, [1, 2, 3], 4),
        (64, [5, 6, 7], 62),
        (4096, [63, 63, 63], 2145),
        (4096, [0, 0, 63], 2080),
    ];
    for (p, position, processor) in figures {
        let mut one = [77];
        let returned = hypercube_owner(p, &position, &mut one);
        assert_eq!((returned, one), (0, [processor]), "{p}, {position:?}");
    }
}

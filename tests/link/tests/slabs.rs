//! Slabs and their elements through the link (document 02, request d): "the first (n modulo b) slabs have one element
//! more than the others." And "Slabs no thinner than the stencil" (request g).

use link::calls::{diagonal, plan, slab, slab_of};
use link::compared::JobCall;
use link::plan_list::{list_of, PlanList, CUTS, DIMENSIONS, LEAST, PLAN_LENGTH};
use link::questions::{job, job_for_diagonal, made_by_hand};
use oracle::plan::Job;
use oracle::random::Random;

/// A plan with b slabs along dimension 1, which has n elements.
fn cut(n: u32, b: u32) -> PlanList {
    let mut list = [7; PLAN_LENGTH];
    assert_eq!(plan(b, 2, &[n, b], &[1; 2], &[], &mut list), 0);
    assert_eq!(list[CUTS..CUTS + 2], [b, b]);
    list
}

/// A slab's first element and the one after its last.
fn ends(list: &PlanList, s: u32) -> [u32; 2] {
    let mut answer = [77; 2];
    assert_eq!(slab(list, 1, s, &mut answer), 0);
    answer
}

fn slab_holding(list: &PlanList, element: u32) -> u32 {
    let mut answer = [77];
    assert_eq!(slab_of(list, 1, element, &mut answer), 0);
    answer[0]
}

/// "Ten elements in 4 slabs now start at 0, 3, 6, 8, and element 5 moves to slab 1."
#[test]
fn ten_elements_in_four_slabs() {
    let list = cut(10, 4);
    let edges = [0, 1, 2, 3].map(|s| ends(&list, s));
    assert_eq!(edges, [[0, 3], [3, 6], [6, 8], [8, 10]]);
    let slabs: Vec<u32> = (0..10)
        .map(|element| slab_holding(&list, element))
        .collect();
    assert_eq!(slabs, [0, 0, 0, 1, 1, 1, 2, 2, 3, 3]);
}

/// Every slab of every cut of extents to 60: where it starts and ends, and that each of its elements is said to be in it.
#[test]
fn every_cut_of_small_extents() {
    for n in 1..=60 {
        for b in 1..=n {
            let list = cut(n, b);
            let mut next = 0;
            for s in 0..b {
                let thickness = if s < n % b { n / b + 1 } else { n / b };
                assert_eq!(ends(&list, s), [next, next + thickness], "{n} in {b}");
                for element in next..next + thickness {
                    assert_eq!(slab_holding(&list, element), s, "{n} in {b}");
                }
                next += thickness;
            }
            assert_eq!(next, n);
        }
    }
}

/// 1,000,000 is 4,096 times 244, and 576 more.
#[test]
fn the_most_elements_in_the_most_slabs() {
    let list = cut(1_000_000, 4096);
    assert_eq!(ends(&list, 0), [0, 245]);
    assert_eq!(ends(&list, 1), [245, 490]);
    assert_eq!(ends(&list, 575), [140_875, 141_120]);
    assert_eq!(ends(&list, 576), [141_120, 141_364]);
    assert_eq!(ends(&list, 4094), [999_512, 999_756]);
    assert_eq!(ends(&list, 4095), [999_756, 1_000_000]);
    let mut next = 0;
    for s in 0..4096 {
        let after = next + if s < 576 { 245 } else { 244 };
        assert_eq!(ends(&list, s), [next, after]);
        for element in [next, after - 1] {
            assert_eq!(slab_holding(&list, element), s);
        }
        next = after;
    }
    assert_eq!(next, 1_000_000);
}

/// The fewest elements that a slab of the dimension at place k has.
fn thinnest(list: &PlanList, k: usize) -> u32 {
    let slabs = (0..list[CUTS + k]).map(|s| {
        let mut answer = [77; 2];
        assert_eq!(slab(list, k as u32 + 1, s, &mut answer), 0, "{list:?}");
        answer[1] - answer[0]
    });
    slabs.min().expect("a slab")
}

/// Checks that every slab of these plans is as thick as asked, and that a plan is a 6 just if more is asked than its
/// slabs have. Often enough, more than 1 is asked of a cut dimension.
fn check_thicknesses(lists: impl Iterator<Item = PlanList>) {
    let mut thick = 0;
    for list in lists {
        for k in 0..list[DIMENSIONS] as usize {
            let thinnest = thinnest(&list, k);
            assert!(thinnest >= list[LEAST + k], "{list:?}");
            for (thickness, returned) in [(thinnest, 0), (thinnest + 1, 6)] {
                let mut changed = list;
                changed[LEAST + k] = thickness;
                assert_eq!(slab(&changed, 1, 0, &mut [77; 2]), returned, "{changed:?}");
            }
            thick += u32::from(list[LEAST + k] > 1 && list[CUTS + k] > 1);
        }
    }
    assert!(thick > 400, "{thick}");
}

/// The plan of a job by one of the two planning calls, with the thicknesses of the job.
fn planned(planner: JobCall, job: Job) -> Option<PlanList> {
    let mut list = [77; PLAN_LENGTH];
    let (extents, weights, least) = (&job.extents, &job.weights, &job.least);
    if planner(job.p, job.d, extents, weights, least, &mut list) != 0 {
        return None;
    }
    assert_eq!(list[LEAST..][..least.len()], *least);
    Some(list)
}

#[test]
fn slabs_of_plans_are_as_thick_as_asked() {
    let mut random = Random::new(1);
    let jobs = (0..3_000).map(|_| job(&mut random));
    check_thicknesses(jobs.filter_map(|job| planned(plan, job)));
}

#[test]
fn slabs_of_diagonal_plans_are_as_thick_as_asked() {
    let mut random = Random::new(2);
    let jobs = (0..3_000).map(|_| job_for_diagonal(&mut random));
    check_thicknesses(jobs.filter_map(|job| planned(diagonal, job)));
}

#[test]
fn slabs_of_plans_made_by_hand_are_as_thick_as_asked() {
    let mut random = Random::new(3);
    check_thicknesses((0..2_000).map(|_| list_of(&made_by_hand(&mut random))));
}

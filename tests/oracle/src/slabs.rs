//! Slabs and their elements ("Tiles, slabs, chains"; document 02, request d).

use crate::plan::{check_below, Plan};
use crate::refusal::Refusal;

/// The first element of a slab and the one after its last.
pub fn elements(plan: &Plan, dimension: u32, slab: u32) -> Result<(u32, u32), Refusal> {
    plan.check_shape()?;
    let k = plan.check_dimension(dimension)?;
    check_below(slab, u128::from(plan.cuts[k]))?;
    Ok((start(plan, k, slab), start(plan, k, slab + 1)))
}

/// The first element of a slab: it comes after all elements of the slabs before it.
pub fn start(plan: &Plan, k: usize, slab: u32) -> u32 {
    (0..slab).map(|before| thickness(plan, k, before)).sum()
}

/// How many elements a slab has.
pub fn thickness(plan: &Plan, k: usize, slab: u32) -> u32 {
    thickness_of(plan.extents[k], plan.cuts[k], slab)
}

/// How many elements a slab has, of n in b slabs: "the first (n modulo b) slabs have one element more
/// than the others."
pub fn thickness_of(n: u32, b: u32, slab: u32) -> u32 {
    if slab < n % b {
        n / b + 1
    } else {
        n / b
    }
}

/// The slab of an element: the one whose elements it is among, found by going through the slabs.
pub fn slab_of(plan: &Plan, dimension: u32, element: u32) -> Result<u32, Refusal> {
    plan.check_shape()?;
    let k = plan.check_dimension(dimension)?;
    check_below(element, u128::from(plan.extents[k]))?;
    let mut next = 0;
    let slab = (0..plan.cuts[k]).find(|&s| {
        let first = next;
        next += thickness(plan, k, s);
        (first..next).contains(&element)
    });
    Ok(slab.expect("the slabs of a dimension cover it"))
}

#[cfg(test)]
mod tests {
    use super::*;
    use crate::cuts::fit;
    use crate::plan::plan_job;
    use crate::refusal;

    #[test]
    fn ten_elements_in_four_slabs() {
        let plan = plan_job(4, 2, &[10, 5], &[1, 1], &[]).unwrap();
        let starts: Vec<u32> = (0..4).map(|s| elements(&plan, 1, s).unwrap().0).collect();
        assert_eq!(starts, [0, 3, 6, 8]);
        assert_eq!(elements(&plan, 1, 3), Ok((8, 10)));
        let slabs: Vec<u32> = (0..10).map(|e| slab_of(&plan, 1, e).unwrap()).collect();
        assert_eq!(slabs, [0, 0, 0, 1, 1, 1, 2, 2, 3, 3]);
    }

    #[test]
    fn no_slab_is_empty() {
        let plan = plan_job(4, 2, &[10, 5], &[1, 1], &[]).unwrap();
        let sizes: Vec<u32> = (0..4)
            .map(|s| elements(&plan, 2, s).unwrap())
            .map(|(from, to)| to - from)
            .collect();
        assert_eq!(sizes, [2, 1, 1, 1]);
    }

    /// "Slabs no thinner than the stencil" (document 02, g): bk times the least thickness is at most nk
    /// just if every slab has that many elements.
    #[test]
    fn slabs_are_as_thick_as_asked_just_if_cuts_fit() {
        for n in 1..=40 {
            for b in 1..=n {
                for t in 1..=n + 1 {
                    let thick = (0..b).all(|slab| thickness_of(n, b, slab) >= t);
                    assert_eq!(fit(&[b], &[n], &[t]), thick, "{n} in {b}, {t}");
                }
            }
        }
    }

    /// 1,000,000 is 4,096 times 244 and 576 more.
    #[test]
    fn the_most_elements_in_the_most_slabs() {
        let plan = plan_job(4096, 2, &[1_000_000, 4096], &[1, 1], &[]).unwrap();
        assert_eq!(plan.cuts[..2], [4096, 4096]);
        let ends = |slab| elements(&plan, 1, slab).unwrap();
        assert_eq!((ends(0), ends(1)), ((0, 245), (245, 490)));
        assert_eq!(ends(575), (140_875, 141_120));
        assert_eq!(ends(576), (141_120, 141_364));
        assert_eq!(ends(4094), (999_512, 999_756));
        assert_eq!(ends(4095), (999_756, 1_000_000));
        let figures = [
            (141_119, 575),
            (141_120, 576),
            (141_364, 577),
            (999_999, 4095),
        ];
        for (element, slab) in figures {
            assert_eq!(slab_of(&plan, 1, element), Ok(slab));
        }
    }

    #[test]
    fn refusals_in_order() {
        let mut plan = plan_job(4, 2, &[10, 5], &[1, 1], &[]).unwrap();
        assert_eq!(elements(&plan, 1, 4), Err(refusal::RANGE));
        assert_eq!(elements(&plan, 3, 4), Err(refusal::DIMENSION));
        assert_eq!(slab_of(&plan, 2, 5), Err(refusal::RANGE));
        assert_eq!(slab_of(&plan, 0, 5), Err(refusal::DIMENSION));
        plan.matrix[1][0] = 4;
        assert_eq!(slab_of(&plan, 0, 5), Err(refusal::SHAPE));
    }
}

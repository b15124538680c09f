//! Slabs of a whole probe line over plain lists, by request h of document 02, with its checks in their order: 6 for the
//! plan, 7 for the dimension, 8 for the elements, 9 for the list of slabs, 14 for the order of the elements.

use crate::plan_list::{checked, dimension_at, CUTS, EXTENTS};
use crate::subject::Returned;

/// One pass along the elements; the end of the slab moves on with them.
pub fn slabs_of(plan: &[u32], dimension: u32, elements: &[u32], slabs: &mut [u32]) -> Returned {
    let (extent, cut) = match checked_line(plan, dimension, elements, slabs.len()) {
        Ok(checked) => checked,
        Err(refused) => return refused,
    };
    let (thin, more) = (extent / cut, extent % cut);
    let mut slab = 0;
    let mut after = thin + u32::from(more > 0);
    for (place, &element) in slabs.iter_mut().zip(elements) {
        while after <= element {
            slab += 1;
            after += thin + u32::from(slab < more);
        }
        *place = slab;
    }
    0
}

/// A division for each element. It needs no order, and takes as long for many slabs as for few.
pub fn slabs_by_division(
    plan: &[u32],
    dimension: u32,
    elements: &[u32],
    slabs: &mut [u32],
) -> Returned {
    let (extent, cut) = match checked_line(plan, dimension, elements, slabs.len()) {
        Ok(checked) => checked,
        Err(refused) => return refused,
    };
    let (thin, more) = (extent / cut, extent % cut);
    let behind = more * (thin + 1);
    for (place, &element) in slabs.iter_mut().zip(elements) {
        *place = if element < behind {
            element / (thin + 1)
        } else {
            more + (element - behind) / thin
        };
    }
    0
}

/// All checks of a line for which so many places are lent: the extent and the cut of its dimension, or what the call
/// returns.
#[inline]
fn checked_line(
    plan: &[u32],
    dimension: u32,
    elements: &[u32],
    places: usize,
) -> Result<(u32, u32), Returned> {
    let plan = checked(plan)?;
    let k = dimension_at(plan, dimension)?;
    let (extent, cut) = (plan[EXTENTS + k], plan[CUTS + k]);
    // The largest element is found faster than the first that is too large.
    let largest = elements.iter().fold(0, |largest, &n| n.max(largest));
    if largest >= extent {
        return Err(8);
    }
    if places < elements.len() {
        return Err(9);
    }
    if !elements.is_sorted() {
        return Err(fall(elements));
    }
    Ok((extent, cut))
}

/// Refusal 14, with the place of the first element that is smaller than the one before.
#[cold]
fn fall(elements: &[u32]) -> Returned {
    let pairs = elements.windows(2);
    let rising = pairs.take_while(|pair| pair[0] <= pair[1]).count();
    14 | (rising as u64 + 2) << 32
}

#[cfg(test)]
mod tests {
    use super::*;
    use crate::jobs::any_probes;
    use crate::plan_list::list_of;
    use crate::subject::ProbeCall;
    use link::plan_list::plan_of;
    use oracle::plan::plan_job;
    use oracle::refusal;

    const BOTH: [ProbeCall; 2] = [slabs_of, slabs_by_division];

    #[test]
    fn answers_as_the_oracle_gives_them() {
        let mut seen = [0; 15];
        for asked in any_probes(18, 40_000) {
            let mut after = asked.lent.clone();
            let told = plan_of(&asked.plan).ok_or(refusal::SHAPE).and_then(|plan| {
                let line = &asked.line;
                oracle::probes::slabs_of(&plan, asked.dimension, line, &mut after)
            });
            let number = told.map_or_else(|refusal| refusal.number, |()| 0);
            let place = told.map_or_else(|refusal| refusal.place, |()| 0);
            let expected = u64::from(number) | (place as u64) << 32;
            for call in BOTH {
                let mut slabs = asked.lent.clone();
                let returned = call(&asked.plan, asked.dimension, &asked.line, &mut slabs);
                assert_eq!((returned, &slabs), (expected, &after), "{asked:?}");
            }
            seen[number as usize] += 1;
        }
        let numbers = [0, 6, 7, 8, 9, 14];
        assert!(numbers.iter().all(|&n| seen[n] > 500), "{seen:?}");
    }

    #[test]
    fn ten_elements_in_four_slabs() {
        let list = list_of(&plan_job(4, 2, &[10, 10], &[1, 1], &[]).unwrap());
        for call in BOTH {
            let mut slabs = [9; 9];
            assert_eq!(call(&list, 1, &[5, 3, 2], &mut slabs), 14 | 2 << 32);
            assert_eq!(call(&list, 1, &[1, 2, 2, 1, 0], &mut slabs), 14 | 4 << 32);
            assert_eq!(call(&list, 1, &[5, 10, 3], &mut slabs), 8);
            assert_eq!(call(&list, 1, &[3, 2, 10], &mut slabs[..1]), 8);
            assert_eq!(call(&list, 1, &[5, 3], &mut slabs[..1]), 9);
            assert_eq!(call(&list, 1, &[], &mut slabs), 0);
            assert_eq!(slabs, [9; 9]);
            assert_eq!(call(&list, 1, &[0, 2, 3, 5, 5, 6, 9], &mut slabs), 0);
            assert_eq!(slabs, [0, 0, 1, 1, 1, 2, 3, 9, 9]);
        }
    }
}

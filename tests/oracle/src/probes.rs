//! Slabs of a whole probe line (document 02, request h).

use crate::plan::{check_below, Plan};
use crate::refusal::{self, Refusal};
use crate::slabs::slab_of;

/// "A call takes a rising list of element numbers of one dimension, equal neighbours allowed, and
/// writes the slab of each into a second list [...]. Each answer equals that of the single question,
/// and an empty list is accepted. Places of the second list past the first one's length keep their
/// contents." Refused with 6, 7, 8, 9 or 14, the second list keeps all of its contents.
pub fn slabs_of(
    plan: &Plan,
    dimension: u32,
    elements: &[u32],
    slabs: &mut [u32],
) -> Result<(), Refusal> {
    check(plan, dimension, elements, slabs.len())?;
    for (place, &element) in elements.iter().enumerate() {
        slabs[place] = slab_of(plan, dimension, element)?;
    }
    Ok(())
}

/// "14, an element smaller than the one before, with the place of the first such counted from 1, after
/// 9; an element out of range is an 8 and a second list shorter than the first is a 9."
fn check(plan: &Plan, dimension: u32, elements: &[u32], places: usize) -> Result<(), Refusal> {
    plan.check_shape()?;
    let k = plan.check_dimension(dimension)?;
    for &element in elements {
        check_below(element, u128::from(plan.extents[k]))?;
    }
    if places < elements.len() {
        return Err(refusal::LIST);
    }
    match first_fall(elements) {
        Some(place) => Err(Refusal::at(refusal::NOT_RISING, place)),
        None => Ok(()),
    }
}

/// The place of the first element that is smaller than the one before, counted from 1.
fn first_fall(elements: &[u32]) -> Option<usize> {
    let element = |place: usize| elements[place - 1];
    (2..=elements.len()).find(|&place| element(place) < element(place - 1))
}

#[cfg(test)]
mod tests {
    use super::*;
    use crate::diagonal::diagonal_job;
    use crate::plan::plan_job;
    use crate::slabs::thickness;

    /// Ten elements in 4 slabs, which start at 0, 3, 6, 8.
    fn ten_in_four() -> Plan {
        let plan = plan_job(4, 2, &[10, 10], &[1, 1], &[]).unwrap();
        assert_eq!(plan.cuts[..2], [4, 4]);
        plan
    }

    /// What is answered, and what a list of so many nines then holds.
    fn asked(elements: &[u32], places: usize) -> (Result<(), Refusal>, Vec<u32>) {
        let mut slabs = vec![9; places];
        (slabs_of(&ten_in_four(), 1, elements, &mut slabs), slabs)
    }

    fn answered(elements: &[u32], places: usize, slabs: &[u32]) {
        assert_eq!(asked(elements, places), (Ok(()), slabs.to_vec()));
    }

    fn refused(elements: &[u32], places: usize, refusal: Refusal) {
        assert_eq!(asked(elements, places), (Err(refusal), vec![9; places]));
    }

    fn fall(place: usize) -> Refusal {
        Refusal::at(14, place)
    }

    #[test]
    fn slabs_at_the_front_and_the_rest_as_it_was() {
        let elements = [0, 2, 3, 5, 5, 6, 9];
        answered(&elements, 7, &[0, 0, 1, 1, 1, 2, 3]);
        answered(&elements, 9, &[0, 0, 1, 1, 1, 2, 3, 9, 9]);
        answered(&[0, 0, 9, 9], 4, &[0, 0, 3, 3]);
        answered(&[7], 3, &[2, 9, 9]);
        let all: Vec<u32> = (0..10).collect();
        answered(&all, 10, &[0, 0, 0, 1, 1, 1, 2, 2, 3, 3]);
    }

    /// "Equal neighbours allowed", however many.
    #[test]
    fn equal_neighbours() {
        for element in 0..10 {
            let slab = slab_of(&ten_in_four(), 1, element).unwrap();
            answered(&[element; 5], 5, &[slab; 5]);
        }
    }

    /// "An empty list is accepted", and nothing is written.
    #[test]
    fn the_empty_list() {
        for places in 0..4 {
            answered(&[], places, &vec![9; places]);
        }
    }

    /// "14, an element smaller than the one before, with the place of the first such counted from 1".
    #[test]
    fn the_first_fall() {
        refused(&[5, 3, 2], 3, fall(2));
        refused(&[1, 2, 2, 1, 0], 5, fall(4));
        refused(&[1, 2, 2, 1, 0], 9, fall(4));
        refused(&[1, 0], 2, fall(2));
        refused(&[0, 9, 0, 9, 0], 5, fall(3));
        refused(&[0, 1, 2, 3, 4, 5, 6, 7, 9, 8], 10, fall(10));
        // Two elements of one slab, and one that is larger than some before but not than the last.
        refused(&[3, 5, 4], 3, fall(3));
        refused(&[4, 8, 6, 7], 4, fall(3));
    }

    /// "14 [...] after 9; an element out of range is an 8 and a second list shorter than the first is a
    /// 9": 8 before 9 before 14, wherever the element stands.
    #[test]
    fn eight_before_nine_before_fourteen() {
        refused(&[5, 10, 3], 3, refusal::RANGE);
        refused(&[3, 2, 10], 3, refusal::RANGE);
        refused(&[3, 2, 10], 1, refusal::RANGE);
        refused(&[10, 2, 3], 0, refusal::RANGE);
        refused(&[0, 5, u32::MAX], 3, refusal::RANGE);
        refused(&[10], 1, refusal::RANGE);
        refused(&[5, 3], 1, refusal::LIST);
        refused(&[3, 5], 1, refusal::LIST);
        refused(&[0], 0, refusal::LIST);
        refused(&[5, 3], 2, fall(2));
        answered(&[3, 5], 2, &[1, 1]);
    }

    #[test]
    fn six_before_seven_before_all_others() {
        let mut plan = ten_in_four();
        let mut slabs = [9; 2];
        for elements in [&[][..], &[10], &[0, 1, 2], &[5, 3]] {
            for dimension in [0, 3, u32::MAX] {
                let told = slabs_of(&plan, dimension, elements, &mut slabs);
                assert_eq!(told, Err(refusal::DIMENSION));
            }
        }
        plan.kind = 2;
        for elements in [&[][..], &[10], &[0, 1, 2], &[5, 3]] {
            for dimension in 0..=3 {
                let told = slabs_of(&plan, dimension, elements, &mut slabs);
                assert_eq!(told, Err(refusal::SHAPE));
            }
        }
        assert_eq!(slabs, [9; 2]);
    }

    /// Every element of every dimension, each twice, in plans of either kind, with a dimension that is
    /// uncut and one that has as many slabs as elements: the slabs in order, each twice for each of its
    /// elements.
    #[test]
    fn every_element_of_every_dimension() {
        let diagonal = diagonal_job(9, 3, &[11, 7, 9], &[1; 3], &[]).unwrap();
        let mut by_hand = diagonal.clone();
        by_hand.cuts = [3, 1, 9, 0, 0];
        for plan in [diagonal, by_hand, ten_in_four()] {
            for k in 0..plan.dimensions() {
                let elements: Vec<u32> = (0..2 * plan.extents[k]).map(|n| n / 2).collect();
                let mut slabs = vec![77; elements.len()];
                assert_eq!(slabs_of(&plan, k as u32 + 1, &elements, &mut slabs), Ok(()));
                let twice = |s| vec![s; 2 * thickness(&plan, k, s) as usize];
                let expected: Vec<u32> = (0..plan.cuts[k]).flat_map(twice).collect();
                assert_eq!(slabs, expected, "{plan:?}");
            }
        }
    }
}

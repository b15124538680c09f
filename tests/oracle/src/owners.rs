//! The owner of a position ("Owners").

use crate::plan::{check_below, Plan};
use crate::refusal::Refusal;

/// The owner question: refusals 6 and 8, else the processor's number.
pub fn owner(plan: &Plan, position: &[u32]) -> Result<u32, Refusal> {
    plan.check_shape()?;
    plan.check_position(position)?;
    Ok(owner_of(plan, position))
}

/// The owner of a position inside the grid of a plan in shape.
pub fn owner_of(plan: &Plan, position: &[u32]) -> u32 {
    let coordinates: Vec<u32> = (0..plan.dimensions())
        .map(|i| {
            let row = plan.matrix[i].iter().zip(position);
            let sum: u64 = row.map(|(&x, &y)| u64::from(x) * u64::from(y)).sum();
            (sum % u64::from(plan.moduli[i])) as u32
        })
        .collect();
    number_of(plan, &coordinates)
}

/// "Its number is found by starting at 0 and, for i = 1 to d, multiplying by mi and adding ci."
pub fn number_of(plan: &Plan, coordinates: &[u32]) -> u32 {
    let digits = plan.moduli.iter().zip(coordinates);
    digits.fold(0, |number, (m, c)| number * m + c)
}

/// The coordinates of a processor: the digits of its number, the last one first.
pub fn coordinates_of(plan: &Plan, processor: u32) -> Vec<u32> {
    let mut left = processor;
    let mut coordinates = vec![0; plan.dimensions()];
    for i in (0..plan.dimensions()).rev() {
        coordinates[i] = left % plan.moduli[i];
        left /= plan.moduli[i];
    }
    coordinates
}

/// Refusal 8 for a processor number.
pub fn check_processor(plan: &Plan, processor: u32) -> Result<(), Refusal> {
    check_below(processor, u128::from(plan.p))
}

#[cfg(test)]
mod tests {
    use super::*;
    use crate::plan::plan_job;
    use crate::refusal;

    #[test]
    fn numbers_and_coordinates_are_inverse() {
        let plan = plan_job(360, 4, &[99; 4], &[1, 2, 3, 4], &[]).unwrap();
        for q in 0..plan.p {
            assert_eq!(number_of(&plan, &coordinates_of(&plan, q)), q);
        }
    }

    #[test]
    fn refusals_in_order() {
        let mut plan = plan_job(4, 3, &[8; 3], &[1; 3], &[]).unwrap();
        assert_eq!(owner(&plan, &[1, 1, 1]), Ok(0));
        assert_eq!(owner(&plan, &[0, 1]), Err(refusal::RANGE));
        assert_eq!(owner(&plan, &[0, 1, 0, 0]), Err(refusal::RANGE));
        assert_eq!(owner(&plan, &[0, 2, 0]), Err(refusal::RANGE));
        plan.p = 0;
        assert_eq!(owner(&plan, &[0, 1]), Err(refusal::SHAPE));
    }
}

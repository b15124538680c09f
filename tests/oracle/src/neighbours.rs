//! The neighbour of a processor ("Owners").

use crate::owners::{check_processor, coordinates_of, number_of};
use crate::plan::Plan;
use crate::refusal::Refusal;

/// The neighbour question: refusals 6, 7 and 8, else a processor, or `None` for "no neighbour".
pub fn neighbour(
    plan: &Plan,
    processor: u32,
    dimension: u32,
    up: bool,
) -> Result<Option<u32>, Refusal> {
    plan.check_shape()?;
    let k = plan.check_dimension(dimension)?;
    check_processor(plan, processor)?;
    Ok(neighbour_of(plan, processor, k, up))
}

/// "The neighbour of processor q along k, upward, has q's coordinates plus column k, each modulo mi;
/// downward, minus. If bk = 1 the answer is "no neighbour", and in no other case."
pub fn neighbour_of(plan: &Plan, processor: u32, k: usize, up: bool) -> Option<u32> {
    if plan.cuts[k] == 1 {
        return None;
    }
    let mut coordinates = coordinates_of(plan, processor);
    for (i, c) in coordinates.iter_mut().enumerate() {
        let m = i64::from(plan.moduli[i]);
        let step = i64::from(plan.matrix[i][k]);
        let moved = i64::from(*c) + if up { step } else { -step };
        *c = moved.rem_euclid(m) as u32;
    }
    Some(number_of(plan, &coordinates))
}

#[cfg(test)]
mod tests {
    use super::*;
    use crate::plan::plan_job;
    use crate::refusal;

    #[test]
    fn up_and_down_are_inverse() {
        let plan = plan_job(360, 4, &[99; 4], &[1, 2, 3, 4], &[]).unwrap();
        for q in 0..plan.p {
            for k in (0..4).filter(|&k| plan.cuts[k] > 1) {
                let above = neighbour_of(&plan, q, k, true).unwrap();
                assert_eq!(neighbour_of(&plan, above, k, false), Some(q));
            }
        }
    }

    #[test]
    fn refusals_in_order() {
        let mut plan = plan_job(6, 3, &[9; 3], &[1, 1, 100], &[]).unwrap();
        assert_eq!(neighbour(&plan, 0, 1, true), Ok(Some(1)));
        assert_eq!(neighbour(&plan, 0, 1, false), Ok(Some(5)));
        assert_eq!(neighbour(&plan, 0, 3, true), Ok(None));
        assert_eq!(neighbour(&plan, 6, 3, true), Err(refusal::RANGE));
        assert_eq!(neighbour(&plan, 6, 0, true), Err(refusal::DIMENSION));
        assert_eq!(neighbour(&plan, 6, 4, false), Err(refusal::DIMENSION));
        plan.moduli[2] = 0;
        assert_eq!(neighbour(&plan, 6, 4, false), Err(refusal::SHAPE));
    }
}

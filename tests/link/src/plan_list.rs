//! Plan lists: their places, named as in include/multipartition.h, and how a plan is written to one and
//! read from one.

use oracle::plan::Plan;

pub const DIMENSIONS: usize = 0;
pub const PROCESSORS: usize = 1;
pub const EXTENTS: usize = 2;
pub const WEIGHTS: usize = 7;
pub const CUTS: usize = 12;
pub const COST_LOW: usize = 17;
pub const COST_HIGH: usize = 18;
pub const MODULI: usize = 19;
pub const MATRIX: usize = 24;
pub const KIND: usize = 49;
pub const LEAST: usize = 50;
pub const PLAN_LENGTH: usize = 55;
pub const ROW_LENGTH: usize = 5;

pub type PlanList = [u32; PLAN_LENGTH];

/// The list of a plan.
pub fn list_of(plan: &Plan) -> PlanList {
    let mut list = [0; PLAN_LENGTH];
    list[DIMENSIONS] = plan.d;
    list[PROCESSORS] = plan.p;
    list[EXTENTS..][..5].copy_from_slice(&plan.extents);
    list[WEIGHTS..][..5].copy_from_slice(&plan.weights);
    list[CUTS..][..5].copy_from_slice(&plan.cuts);
    list[COST_LOW] = plan.cost as u32;
    list[COST_HIGH] = (plan.cost >> 32) as u32;
    list[MODULI..][..5].copy_from_slice(&plan.moduli);
    for (i, row) in plan.matrix.iter().enumerate() {
        list[MATRIX + i * ROW_LENGTH..][..ROW_LENGTH].copy_from_slice(row);
    }
    list[KIND] = plan.kind;
    list[LEAST..][..5].copy_from_slice(&plan.least);
    list
}

/// The plan of a list of the right length.
pub fn plan_of(list: &[u32]) -> Option<Plan> {
    let list: &PlanList = list.try_into().ok()?;
    let five = |at: usize| [0, 1, 2, 3, 4].map(|k| list[at + k]);
    Some(Plan {
        d: list[DIMENSIONS],
        p: list[PROCESSORS],
        extents: five(EXTENTS),
        weights: five(WEIGHTS),
        cuts: five(CUTS),
        cost: u64::from(list[COST_LOW]) | u64::from(list[COST_HIGH]) << 32,
        moduli: five(MODULI),
        matrix: [0, 1, 2, 3, 4].map(|i| five(MATRIX + i * ROW_LENGTH)),
        kind: list[KIND],
        least: five(LEAST),
    })
}

#[cfg(test)]
mod tests {
    use super::*;

    #[test]
    fn a_list_of_a_plan_is_read_as_that_plan() {
        let list: PlanList = std::array::from_fn(|n| u32::MAX - n as u32);
        assert_eq!(list_of(&plan_of(&list).unwrap()), list);
        assert_eq!(plan_of(&list[1..]), None);
    }
}

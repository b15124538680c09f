//! What the rivals ask of a plan list: its length, its shape, its dimensions, its tiles. Its places are named in tests/link.

pub use link::plan_list::{
    list_of, PlanList, COST_HIGH, COST_LOW, CUTS, DIMENSIONS, EXTENTS, KIND, LEAST, MATRIX, MODULI,
    PLAN_LENGTH, PROCESSORS, ROW_LENGTH, WEIGHTS,
};

/// Refusal 6: the list as an array of the right length, in shape.
#[inline]
pub fn checked(list: &[u32]) -> Result<&PlanList, u32> {
    let list: Option<&PlanList> = list.try_into().ok();
    list.filter(|plan| in_shape(plan)).ok_or(6)
}

/// Refusal 7, and the dimension's place counted from 0.
#[inline]
pub fn dimension_at(plan: &PlanList, dimension: u32) -> Result<usize, u32> {
    if 1 <= dimension && dimension <= plan[DIMENSIONS] {
        Ok(dimension as usize - 1)
    } else {
        Err(7)
    }
}

/// Is the plan in shape?
#[inline]
pub fn in_shape(plan: &PlanList) -> bool {
    let d = plan[DIMENSIONS] as usize;
    if !(2..=5).contains(&d) || !(1..=4096).contains(&plan[PROCESSORS]) || plan[KIND] > 1 {
        return false;
    }
    let mut fine = true;
    let mut tiles = 1u64;
    let mut processors = 1u64;
    for k in 0..d {
        let extent = plan[EXTENTS + k];
        let cut = plan[CUTS + k];
        let modulus = plan[MODULI + k];
        // How many elements the slabs need. If that is 1 to the extent, then cut, thickness and extent are not 0, and the
        // cut is not above the extent. One comparison does for such a range.
        let needed = u64::from(cut) * u64::from(plan[LEAST + k]);
        fine &= needed.wrapping_sub(1) < u64::from(extent);
        fine &= extent <= 1_000_000;
        fine &= cut <= 4096;
        // At most 4096 to the fifth while the cuts are fine; a modulus is not above p.
        tiles = tiles.wrapping_mul(u64::from(cut));
        fine &= modulus.wrapping_sub(1) < plan[PROCESSORS];
        processors = processors.wrapping_mul(u64::from(modulus));
        let row = &plan[MATRIX + ROW_LENGTH * k..][..ROW_LENGTH];
        for &entry in &row[..d] {
            fine &= entry < modulus;
        }
    }
    fine & (tiles <= 16_777_216) & (processors == u64::from(plan[PROCESSORS]))
}

/// The number of tiles of a plan in shape.
#[inline]
pub fn tiles(plan: &PlanList) -> u32 {
    plan[CUTS..][..plan[DIMENSIONS] as usize].iter().product()
}

#[cfg(test)]
mod tests {
    use super::*;
    use oracle::plan::{plan_job, Plan};
    use oracle::random::Random;

    /// A plan with some of its numbers changed, most often still near the limits of its shape.
    pub fn changed(plan: &Plan, random: &mut Random) -> Plan {
        let mut plan = plan.clone();
        for _ in 0..random.between(0, 2) {
            let k = random.between(0, 4) as usize;
            let j = random.between(0, 4) as usize;
            let any = *random.pick(&[0, 1, 2, 4, 4096, 4097, 1_000_000, 1_000_001, u32::MAX]);
            let most = plan.extents[k] / plan.cuts[k].max(1);
            // Times the cut it has more than 32 bits, and what 32 of them hold may be small.
            let wide = u32::MAX / plan.cuts[k].max(1);
            match random.between(0, 8) {
                0 => plan.d = random.between(0, 7) as u32,
                1 => plan.p = any,
                2 => plan.extents[k] = any,
                3 => plan.cuts[k] = any,
                4 => plan.moduli[k] = any,
                5 => plan.kind = any,
                6 => plan.least[k] = any,
                7 => {
                    let larger = [most, wide].map(|n| n.wrapping_add(1));
                    plan.least[k] = *random.pick(&[most, larger[0], larger[1]]);
                }
                _ => plan.matrix[k][j] = random.between(0, 9) as u32,
            }
        }
        plan
    }

    #[test]
    fn shape_as_the_oracle_sees_it() {
        let mut random = Random::new(11);
        let mut seen = [0; 2];
        for _ in 0..20_000 {
            let p = random.between(1, 40) as u32;
            let d = random.between(2, 5) as u32;
            let least = (0..d).map(|_| random.between(1, 3) as u32);
            let least: Vec<u32> = least.collect();
            let [extents, weights] = [[120; 5], [1; 5]];
            let [extents, weights] = [&extents[..d as usize], &weights[..d as usize]];
            let plan = plan_job(p, d, extents, weights, &least).unwrap();
            let plan = changed(&plan, &mut random);
            let expected = plan.check_shape().is_ok();
            assert_eq!(in_shape(&list_of(&plan)), expected, "{plan:?}");
            seen[usize::from(expected)] += 1;
        }
        assert!(seen[0] > 3000 && seen[1] > 3000, "{seen:?}");
    }
}

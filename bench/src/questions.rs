//! The questions over plain lists, with the checks of document 01 in its order: 6 for the plan, 7 for the
//! dimension, 8 for the other numbers, 9 for the answer list.

use crate::plan_list::{
    checked, dimension_at, tiles, PlanList, CUTS, DIMENSIONS, EXTENTS, MATRIX, MODULI, PROCESSORS,
    ROW_LENGTH,
};
use crate::subject::Told;

/// Refusal 8 for a position: d coordinates, each below its cut.
#[inline]
fn check_position(plan: &PlanList, position: &[u32]) -> Told {
    let d = plan[DIMENSIONS] as usize;
    if position.len() != d {
        return Err(8);
    }
    for k in 0..d {
        if position[k] >= plan[CUTS + k] {
            return Err(8);
        }
    }
    Ok(())
}

/// The owner of a position; the answer is one number.
pub fn owner(plan: &[u32], position: &[u32], answer: &mut [u32]) -> Told {
    let plan = checked(plan)?;
    check_position(plan, position)?;
    let [processor] = answer else {
        return Err(9);
    };
    let d = plan[DIMENSIONS] as usize;
    let mut number = 0;
    for i in 0..d {
        let row = &plan[MATRIX + ROW_LENGTH * i..][..ROW_LENGTH];
        // Five products of numbers below 4,096.
        let mut sum = 0u32;
        for k in 0..d {
            sum += row[k] * position[k];
        }
        let modulus = plan[MODULI + i];
        number = number * modulus + sum % modulus;
    }
    *processor = number;
    Ok(())
}

/// The neighbour of a processor; the answer is 1 and the processor, or 0 0 for "no neighbour".
pub fn neighbour(
    plan: &[u32],
    processor: u32,
    dimension: u32,
    up: bool,
    answer: &mut [u32],
) -> Told {
    let plan = checked(plan)?;
    let k = dimension_at(plan, dimension)?;
    if processor >= plan[PROCESSORS] {
        return Err(8);
    }
    let [found, next] = answer else {
        return Err(9);
    };
    if plan[CUTS + k] == 1 {
        (*found, *next) = (0, 0);
        return Ok(());
    }
    let mut left = processor;
    let mut worth = 1;
    let mut number = 0;
    for i in (0..plan[DIMENSIONS] as usize).rev() {
        let modulus = plan[MODULI + i];
        let c = left % modulus;
        left /= modulus;
        let column = plan[MATRIX + ROW_LENGTH * i + k];
        let step = if up { column } else { modulus - column };
        let moved = c + step;
        let moved = if moved >= modulus {
            moved - modulus
        } else {
            moved
        };
        number += moved * worth;
        worth *= modulus;
    }
    (*found, *next) = (1, number);
    Ok(())
}

/// A slab's first element and the one after its last.
pub fn slab(plan: &[u32], dimension: u32, slab: u32, answer: &mut [u32]) -> Told {
    let plan = checked(plan)?;
    let k = dimension_at(plan, dimension)?;
    let (extent, cut) = (plan[EXTENTS + k], plan[CUTS + k]);
    if slab >= cut {
        return Err(8);
    }
    let [first, after] = answer else {
        return Err(9);
    };
    let (thin, more) = (extent / cut, extent % cut);
    let start = |s: u32| s * thin + s.min(more);
    (*first, *after) = (start(slab), start(slab + 1));
    Ok(())
}

/// The slab of an element.
pub fn slab_of(plan: &[u32], dimension: u32, element: u32, answer: &mut [u32]) -> Told {
    let plan = checked(plan)?;
    let k = dimension_at(plan, dimension)?;
    let (extent, cut) = (plan[EXTENTS + k], plan[CUTS + k]);
    if element >= extent {
        return Err(8);
    }
    let [slab] = answer else {
        return Err(9);
    };
    // The first slabs have one element more, as far as there are elements left over.
    let (thin, more) = (extent / cut, extent % cut);
    let behind = more * (thin + 1);
    *slab = if element < behind {
        element / (thin + 1)
    } else {
        more + (element - behind) / thin
    };
    Ok(())
}

/// The number of the tile at a position; the first dimension runs fastest.
pub fn tile_number(plan: &[u32], position: &[u32], answer: &mut [u32]) -> Told {
    let plan = checked(plan)?;
    check_position(plan, position)?;
    let [tile] = answer else {
        return Err(9);
    };
    let mut before = 0;
    for k in (0..plan[DIMENSIONS] as usize).rev() {
        before = before * plan[CUTS + k] + position[k];
    }
    *tile = before + 1;
    Ok(())
}

/// The position of a tile.
pub fn tile_position(plan: &[u32], tile: u32, answer: &mut [u32]) -> Told {
    let plan = checked(plan)?;
    let mut before = tile.wrapping_sub(1);
    if before >= tiles(plan) {
        return Err(8);
    }
    let d = plan[DIMENSIONS] as usize;
    if answer.len() != d {
        return Err(9);
    }
    for k in 0..d {
        let cut = plan[CUTS + k];
        answer[k] = before % cut;
        before /= cut;
    }
    Ok(())
}

/// The position one step on: 1 and the position, or zeros at the edge.
pub fn step(plan: &[u32], position: &[u32], dimension: u32, up: bool, answer: &mut [u32]) -> Told {
    let plan = checked(plan)?;
    let k = dimension_at(plan, dimension)?;
    check_position(plan, position)?;
    let Some((inside, moved)) = answer.split_first_mut() else {
        return Err(9);
    };
    if moved.len() != position.len() {
        return Err(9);
    }
    // Below 0 is far above the cut.
    let coordinate = if up {
        position[k] + 1
    } else {
        position[k].wrapping_sub(1)
    };
    if coordinate < plan[CUTS + k] {
        *inside = 1;
        moved.copy_from_slice(position);
        moved[k] = coordinate;
    } else {
        *inside = 0;
        moved.fill(0);
    }
    Ok(())
}

#[cfg(test)]
mod tests {
    use super::*;
    use crate::jobs::thicken_plan;
    use crate::plan_list::{list_of, LEAST};
    use oracle::plan::{plan_job, Plan};
    use oracle::random::Random;
    use oracle::refusal::Refusal;
    use oracle::{neighbours, owners, slabs, tiles};

    fn any_plan(random: &mut Random) -> Plan {
        let d = random.between(2, 5) as usize;
        let p = random.between(1, 60) as u32;
        let extents: Vec<u32> = (0..d).map(|_| random.between(60, 200) as u32).collect();
        let weights: Vec<u32> = (0..d).map(|_| random.between(0, 9) as u32).collect();
        let mut plan = plan_job(p, d as u32, &extents, &weights, &[]).unwrap();
        if random.once_in(2) {
            thicken_plan(random, &mut plan);
        }
        if random.once_in(10) {
            plan.p += 1;
        }
        // A hand-made plan in shape.
        if random.once_in(2) {
            for i in 0..d {
                for k in 0..d {
                    plan.matrix[i][k] = random.between(0, u64::from(plan.moduli[i]) - 1) as u32;
                }
            }
        }
        plan
    }

    /// The call's answer in a list of so many places is the expected one.
    fn same(
        places: usize,
        call: impl FnOnce(&mut [u32]) -> Told,
        expected: Result<Vec<u32>, Refusal>,
    ) {
        let mut answer = vec![7; places];
        let told = call(&mut answer);
        match expected {
            Ok(numbers) => assert_eq!((told, answer), (Ok(()), numbers)),
            Err(refusal) => assert_eq!((told, answer), (Err(refusal.number), vec![7; places])),
        }
    }

    #[test]
    fn answers_as_the_oracle_gives_them() {
        let mut random = Random::new(13);
        for _ in 0..20_000 {
            let plan = any_plan(&mut random);
            let list = list_of(&plan);
            let d = plan.d as usize;
            let length = if random.once_in(20) { d - 1 } else { d };
            let position: Vec<u32> = (0..length)
                .map(|k| random.between(0, u64::from(plan.cuts[k])) as u32)
                .collect();
            let dimension = random.between(0, d as u64 + 1) as u32;
            let processor = random.between(0, u64::from(plan.p)) as u32;
            let up = random.once_in(2);
            let number = random.between(0, 60) as u32;
            let element = random.between(0, 200) as u32;
            let tile = random.between(0, plan.tiles() as u64 + 1) as u32;
            same(
                1,
                |answer| owner(&list, &position, answer),
                owners::owner(&plan, &position).map(|q| vec![q]),
            );
            same(
                2,
                |answer| neighbour(&list, processor, dimension, up, answer),
                neighbours::neighbour(&plan, processor, dimension, up)
                    .map(|next| next.map_or(vec![0, 0], |q| vec![1, q])),
            );
            same(
                2,
                |answer| slab(&list, dimension, number, answer),
                slabs::elements(&plan, dimension, number).map(|(first, after)| vec![first, after]),
            );
            same(
                1,
                |answer| slab_of(&list, dimension, element, answer),
                slabs::slab_of(&plan, dimension, element).map(|s| vec![s]),
            );
            same(
                1,
                |answer| tile_number(&list, &position, answer),
                tiles::number(&plan, &position).map(|t| vec![t]),
            );
            same(
                d,
                |answer| tile_position(&list, tile, answer),
                tiles::position(&plan, tile),
            );
            same(
                1 + d,
                |answer| step(&list, &position, dimension, up, answer),
                tiles::step(&plan, &position, dimension, up)
                    .map(|moved| moved.map_or(vec![0; 1 + d], |at| [vec![1], at].concat())),
            );
        }
    }

    #[test]
    fn lists_of_another_length() {
        let list = list_of(&plan_job(4, 3, &[8; 3], &[1; 3], &[]).unwrap());
        assert_eq!(owner(&list[1..], &[0, 0, 0], &mut [0]), Err(6));
        assert_eq!(owner(&list[..LEAST], &[0, 0, 0], &mut [0]), Err(6));
        assert_eq!(owner(&list, &[0, 0, 0], &mut [0; 2]), Err(9));
        assert_eq!(neighbour(&list, 4, 1, true, &mut [0]), Err(8));
        assert_eq!(neighbour(&list, 3, 1, true, &mut [0]), Err(9));
        assert_eq!(slab(&list, 1, 0, &mut [0]), Err(9));
        assert_eq!(slab_of(&list, 1, 0, &mut []), Err(9));
        assert_eq!(tile_number(&list, &[0, 0, 0], &mut []), Err(9));
        assert_eq!(tile_position(&list, 8, &mut [0; 4]), Err(9));
        assert_eq!(step(&list, &[0, 0, 0], 3, true, &mut []), Err(9));
        assert_eq!(step(&list, &[0, 0, 0], 3, true, &mut [0; 3]), Err(9));
    }
}

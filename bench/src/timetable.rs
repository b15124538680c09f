//! The sweep timetable over plain lists, with the checks of request b in its order: 6 for the plan, 7 for the
//! dimension, 11 for the other extents, 8 for the step and the processor, 9 for the answer list.
//!
//! The tiles of a slab are not looked at one by one. They lie in rows along the other dimension with the most
//! slabs, and what the processor has of a row depends only on who owns the row's first tile: a table holds it
//! for every such owner. The first tiles in turn lie in lines along the dimension with the most slabs of those
//! left. The owner of a line's first tile is found by the formula, every other as the upward neighbour of the
//! one before, so that no neighbour costs a division.

use crate::plan_list::{
    checked, dimension_at, PlanList, CUTS, DIMENSIONS, EXTENTS, MATRIX, MODULI, PROCESSORS,
    ROW_LENGTH,
};
use crate::subject::Told;

/// How many places the answer has.
pub const PLACES: usize = 8;

/// What a processor does at a step of a sweep; the answer is the slab, the tiles, then 1, to whom and the length
/// if it sends, else 0 0 0, and the same with from whom if it receives.
pub fn timetable(
    plan: &[u32],
    dimension: u32,
    up: bool,
    step: u32,
    processor: u32,
    answer: &mut [u32],
) -> Told {
    let plan = checked(plan)?;
    let k = dimension_at(plan, dimension)?;
    check_face(plan, k)?;
    let cut = plan[CUTS + k];
    if step >= cut || processor >= plan[PROCESSORS] {
        return Err(8);
    }
    let Ok(answer) = <&mut [u32; PLACES]>::try_from(answer) else {
        return Err(9);
    };
    let slab = if up { step } else { cut - 1 - step };
    let owners = Owners::new(plan);
    let own = owners.coordinates_of(processor);
    let (tiles, length) = share(plan, &owners, k, slab, &own);
    let message = |there: bool, up: bool| {
        if there {
            let mut other = own;
            owners.advance(&mut other, &owners.shift(k, up));
            [1, owners.number(&other), length]
        } else {
            [0; 3]
        }
    };
    // Nothing is sent after the last step, and nothing received before the first.
    let [sends, to, sent] = message(step + 1 < cut, up);
    let [receives, from, received] = message(step > 0, !up);
    *answer = [slab, tiles, sends, to, sent, receives, from, received];
    Ok(())
}

/// Refusal 11: the product of the other extents has more than 32 bits.
#[inline]
fn check_face(plan: &PlanList, k: usize) -> Told {
    let mut face = 1;
    for j in (0..plan[DIMENSIONS] as usize).filter(|&j| j != k) {
        // Below 2^32 times 1,000,000.
        face *= u64::from(plan[EXTENTS + j]);
        if face > u64::from(u32::MAX) {
            return Err(11);
        }
    }
    Ok(())
}

/// A processor's coordinates, one for each modulus; 0 past the dimensions.
type Coordinates = [u32; 5];

/// Moduli and matrix, with modulus 1 and column 0 past the dimensions, so that every loop has five turns.
struct Owners {
    moduli: [u32; 5],
    /// Column after column.
    columns: [[u32; 5]; 5],
}

impl Owners {
    #[inline]
    fn new(plan: &PlanList) -> Owners {
        let d = plan[DIMENSIONS] as usize;
        let mut owners = Owners {
            moduli: [1; 5],
            columns: [[0; 5]; 5],
        };
        for i in 0..d {
            owners.moduli[i] = plan[MODULI + i];
            for k in 0..d {
                owners.columns[k][i] = plan[MATRIX + ROW_LENGTH * i + k];
            }
        }
        owners
    }

    #[inline]
    fn coordinates_of(&self, processor: u32) -> Coordinates {
        let mut left = processor;
        let mut coordinates = [0; 5];
        for i in (0..5).rev() {
            coordinates[i] = left % self.moduli[i];
            left /= self.moduli[i];
        }
        coordinates
    }

    /// The coordinates of the owner of a position, which has zeros past the dimensions.
    #[inline]
    fn coordinates_at(&self, position: &[u32; 5]) -> Coordinates {
        std::array::from_fn(|i| {
            // Five products of numbers below 4,096.
            let products = (0..5).map(|k| self.columns[k][i] * position[k]);
            products.sum::<u32>() % self.moduli[i]
        })
    }

    #[inline]
    fn number(&self, coordinates: &Coordinates) -> u32 {
        let places = self.moduli.iter().zip(coordinates);
        places.fold(0, |number, (modulus, c)| number * modulus + c)
    }

    /// What one step along a dimension adds to the coordinates: the column, or what it lacks to the moduli.
    #[inline]
    fn shift(&self, k: usize, up: bool) -> Coordinates {
        let column = self.columns[k];
        std::array::from_fn(|i| {
            if up {
                column[i]
            } else {
                self.moduli[i] - column[i]
            }
        })
    }

    /// One step on: a shift is at most the modulus, so one subtraction does.
    #[inline]
    fn advance(&self, coordinates: &mut Coordinates, shift: &Coordinates) {
        for i in 0..5 {
            let moved = coordinates[i] + shift[i];
            let modulus = self.moduli[i];
            coordinates[i] = if moved >= modulus {
                moved - modulus
            } else {
                moved
            };
        }
    }
}

/// How many elements each slab of a dimension holds, from slab 0 on.
#[inline]
fn thicknesses(plan: &PlanList, k: usize) -> impl Iterator<Item = u32> {
    let (extent, cut) = (plan[EXTENTS + k], plan[CUTS + k]);
    let (thin, more) = (extent / cut, extent % cut);
    (0..cut).map(move |slab| thin + u32::from(slab < more))
}

/// How many elements one slab holds.
#[inline]
fn thickness(plan: &PlanList, k: usize, slab: u32) -> u32 {
    let (extent, cut) = (plan[EXTENTS + k], plan[CUTS + k]);
    extent / cut + u32::from(slab < extent % cut)
}

/// Of the dimensions left, the first of those with the most slabs.
#[inline]
fn longest(plan: &PlanList, left: &[bool; 5]) -> Option<usize> {
    let mut found = None;
    let mut most = 0;
    for k in 0..plan[DIMENSIONS] as usize {
        if left[k] && plan[CUTS + k] > most {
            most = plan[CUTS + k];
            found = Some(k);
        }
    }
    found
}

/// How many tiles of a slab the processor with these coordinates has, and the sum of their faces, which is at
/// most the product of the other extents.
fn share(plan: &PlanList, owners: &Owners, k: usize, slab: u32, own: &Coordinates) -> (u32, u32) {
    let mut left = [true; 5];
    left[k] = false;
    let j = longest(plan, &left).expect("there are two dimensions or more");
    left[j] = false;

    // What the processor has of a row along j, by the owner of the row's first tile.
    let mut weights = [0u32; 4096];
    let mut counts = [0u32; 4096];
    let down = owners.shift(j, false);
    let mut owner = *own;
    for thickness in thicknesses(plan, j) {
        let q = owners.number(&owner) as usize;
        weights[q] += thickness;
        counts[q] += 1;
        owners.advance(&mut owner, &down);
    }

    // The first tiles of the rows.
    let mut position = [0; 5];
    position[k] = slab;
    let Some(c) = longest(plan, &left) else {
        let q = owners.number(&owners.coordinates_at(&position)) as usize;
        return (counts[q], weights[q]);
    };
    left[c] = false;
    let step = owners.shift(c, true);
    let (mut tiles, mut faces) = (0, 0);
    loop {
        let mut shared = 1;
        for i in (0..plan[DIMENSIONS] as usize).filter(|&i| left[i]) {
            shared *= thickness(plan, i, position[i]);
        }
        let mut owner = owners.coordinates_at(&position);
        for thickness in thicknesses(plan, c) {
            let q = owners.number(&owner) as usize;
            tiles += counts[q];
            faces += shared * thickness * weights[q];
            owners.advance(&mut owner, &step);
        }
        if !next_row(plan, &left, &mut position) {
            return (tiles, faces);
        }
    }
}

/// The next position of the dimensions left, the last running fastest; false past the last.
#[inline]
fn next_row(plan: &PlanList, left: &[bool; 5], position: &mut [u32; 5]) -> bool {
    for k in (0..plan[DIMENSIONS] as usize).rev().filter(|&k| left[k]) {
        position[k] += 1;
        if position[k] < plan[CUTS + k] {
            return true;
        }
        position[k] = 0;
    }
    false
}

#[cfg(test)]
mod tests {
    use super::*;
    use crate::jobs::thicken_plan;
    use crate::plan_list::list_of;
    use oracle::plan::{plan_job, Plan};
    use oracle::random::Random;
    use oracle::refusal::Refusal;
    use oracle::timetable::{visit, Message};

    /// A plan of a few hundred tiles at most, often changed by hand but always in shape, or with one processor
    /// too many or a thickness that does not fit.
    fn any_plan(random: &mut Random) -> Plan {
        let d = random.between(2, 5) as usize;
        let p = random.between(1, [30, 30, 12, 6][d - 2]) as u32;
        let most = if random.once_in(8) { 2000 } else { 60 };
        let extents: Vec<u32> = (0..d).map(|_| random.between(30, most) as u32).collect();
        let weights: Vec<u32> = (0..d).map(|_| random.between(0, 9) as u32).collect();
        let mut plan = plan_job(p, d as u32, &extents, &weights, &[]).unwrap();
        if random.once_in(4) {
            let most = [20, 8, 5, 3][d - 2];
            plan.cuts[..d].fill_with(|| random.between(1, most) as u32);
        }
        if random.once_in(4) {
            plan.moduli[..d].rotate_left(1);
        }
        let any_rows = random.once_in(2);
        for i in 0..d {
            for k in 0..d {
                if any_rows {
                    plan.matrix[i][k] = random.draw() as u32;
                }
                plan.matrix[i][k] %= plan.moduli[i];
            }
        }
        if random.once_in(2) {
            thicken_plan(random, &mut plan);
        }
        if random.once_in(20) {
            plan.p += 1;
        }
        plan
    }

    fn expected(
        plan: &Plan,
        dimension: u32,
        up: bool,
        step: u32,
        processor: u32,
    ) -> Result<Vec<u32>, Refusal> {
        let visit = visit(plan, dimension, up, step, processor)?;
        let [sends, expects] = [visit.sends, visit.expects].map(|message| match message {
            Some(Message { processor, length }) => [1, processor, length],
            None => [0; 3],
        });
        Ok([&[visit.slab, visit.tiles][..], &sends, &expects].concat())
    }

    #[test]
    fn answers_as_the_oracle_gives_them() {
        let mut random = Random::new(15);
        let mut seen = [0; 12];
        for _ in 0..20_000 {
            let plan = any_plan(&mut random);
            let dimension = match random.between(0, 9) {
                0 => random.between(0, 6),
                _ => random.between(1, u64::from(plan.d)),
            } as u32;
            let k = dimension.clamp(1, plan.d) as usize - 1;
            let up = random.once_in(2);
            let step = random.between(0, u64::from(plan.cuts[k])) as u32;
            let processor = random.between(0, u64::from(plan.p)) as u32;
            let mut answer = [7; PLACES];
            let told = timetable(&list_of(&plan), dimension, up, step, processor, &mut answer);
            let number = match expected(&plan, dimension, up, step, processor) {
                Ok(numbers) => {
                    assert_eq!((told, &answer[..]), (Ok(()), &numbers[..]), "{plan:?}");
                    0
                }
                Err(Refusal { number, .. }) => {
                    assert_eq!((told, answer), (Err(number), [7; PLACES]), "{plan:?}");
                    number
                }
            };
            seen[number as usize] += 1;
        }
        assert!([0, 6, 7, 8, 11].iter().all(|&n| seen[n] > 100), "{seen:?}");
    }

    #[test]
    fn lists_of_another_length() {
        let list = list_of(&plan_job(4, 3, &[8; 3], &[1; 3], &[]).unwrap());
        let mut answer = [7; PLACES + 1];
        for length in [0, 1, PLACES - 1, PLACES + 1] {
            let lent = &mut answer[..length];
            assert_eq!(timetable(&list, 1, true, 0, 3, lent), Err(9));
            assert_eq!(timetable(&list, 1, true, 0, 4, lent), Err(8));
            assert_eq!(timetable(&list, 1, true, 2, 3, lent), Err(8));
            assert_eq!(timetable(&list[1..], 1, true, 0, 3, lent), Err(6));
        }
        assert_eq!(answer, [7; PLACES + 1]);
    }

    #[test]
    fn the_largest_product() {
        let first = |extents: [u32; 3]| {
            let list = list_of(&plan_job(2, 3, &extents, &[1; 3], &[]).unwrap());
            let mut answer = [0; PLACES];
            timetable(&list, 3, true, 0, 0, &mut answer).map(|()| answer)
        };
        let sent = |length| Ok([0, 1, 1, 1, length, 0, 0, 0]);
        assert_eq!(first([65_536, 65_536, 2]), Err(11));
        assert_eq!(first([65_535, 65_537, 2]), sent(2_147_516_415));
        assert_eq!(first([1_000_000, 4295, 2]), Err(11));
        assert_eq!(first([1_000_000, 4294, 2]), sent(2_147_000_000));
    }
}

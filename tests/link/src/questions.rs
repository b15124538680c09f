//! Random jobs, plan lists and questions, many of them damaged.

use oracle::plan::{Job, Plan};
use oracle::random::Random;
use oracle::{cases, sheet, sheet_cases, text};

use crate::plan_list::{
    list_of, plan_of, CUTS, DIMENSIONS, EXTENTS, KIND, LEAST, MATRIX, MODULI, PLAN_LENGTH,
    PROCESSORS, ROW_LENGTH,
};

#[derive(Clone, Debug)]
pub enum Question {
    Owner {
        position: Vec<u32>,
    },
    Neighbour {
        processor: u32,
        dimension: u32,
        up: u32,
    },
    Slab {
        dimension: u32,
        slab: u32,
    },
    SlabOf {
        dimension: u32,
        element: u32,
    },
    TileNumber {
        position: Vec<u32>,
    },
    TilePosition {
        tile: u32,
    },
    Step {
        position: Vec<u32>,
        dimension: u32,
        up: u32,
    },
    Timetable {
        dimension: u32,
        up: u32,
        step: u32,
        processor: u32,
    },
}

impl Question {
    /// How many places the answer has, with so many dimensions.
    pub fn places(&self, d: usize) -> usize {
        match self {
            Question::Owner { .. } | Question::SlabOf { .. } | Question::TileNumber { .. } => 1,
            Question::Neighbour { .. } | Question::Slab { .. } => 2,
            Question::TilePosition { .. } => d,
            Question::Step { .. } => 1 + d,
            Question::Timetable { .. } => 8,
        }
    }

    /// The numbers that the header says the call may return.
    pub fn returns(&self) -> &'static [u32] {
        match self {
            Question::Owner { .. }
            | Question::TileNumber { .. }
            | Question::TilePosition { .. } => &[0, 6, 8, 9],
            Question::Timetable { .. } => &[0, 6, 7, 8, 9, 11],
            _ => &[0, 6, 7, 8, 9],
        }
    }

    /// The position that goes with the question, if one does.
    pub fn position(&self) -> &[u32] {
        match self {
            Question::Owner { position }
            | Question::TileNumber { position }
            | Question::Step { position, .. } => position,
            _ => &[],
        }
    }
}

/// Numbers at and beside the limits of document 01.
const EDGES: [u32; 14] = [
    0,
    1,
    2,
    3,
    5,
    6,
    4095,
    4096,
    4097,
    999_999,
    1_000_000,
    1_000_001,
    1 << 31,
    u32::MAX,
];

/// A number to put in place of `old`: beside it, at a limit, or any.
fn another(random: &mut Random, old: u32) -> u32 {
    match random.between(0, 5) {
        0 => old.wrapping_add(1),
        1 => old.wrapping_sub(1),
        2 => random.draw() as u32,
        _ => *random.pick(&EDGES),
    }
}

/// A number below `limit`, or, once in a while, one that is not.
fn mostly_below(random: &mut Random, limit: u32) -> u32 {
    if limit == 0 || random.once_in(12) {
        another(random, limit)
    } else {
        random.between(0, u64::from(limit) - 1) as u32
    }
}

pub fn any_numbers(random: &mut Random, count: usize) -> Vec<u32> {
    (0..count).map(|_| random.draw() as u32).collect()
}

/// A job of the comparison of printed plans, as lists.
pub fn job(random: &mut Random) -> Job {
    let line = cases::job(random);
    job_of(random, &line)
}

/// A job for a diagonal plan; one in four is made for the planner.
pub fn job_for_diagonal(random: &mut Random) -> Job {
    if random.once_in(4) {
        job(random)
    } else {
        let line = cases::diagonal(random);
        job_of(random, &line)
    }
}

/// A job with little room for its processors; one in four is any job.
pub fn crowded_job(random: &mut Random) -> Job {
    if random.once_in(4) {
        job(random)
    } else {
        let line = cases::crowded(random);
        job_of(random, &line)
    }
}

/// The job of a line, or, once in a while, with one of its lists made shorter or longer.
fn job_of(random: &mut Random, line: &[u8]) -> Job {
    let mut job = text::job(line).expect("a readable line");
    if random.once_in(24) {
        let length = random.between(0, 7) as usize;
        let list = match random.between(0, 2) {
            0 => &mut job.extents,
            1 => &mut job.weights,
            _ => &mut job.least,
        };
        list.resize(length, random.between(0, 2) as u32);
    }
    job
}

/// Plans of random jobs.
pub fn planned(random: &mut Random, count: usize) -> Vec<Plan> {
    let jobs = std::iter::repeat_with(|| job(random));
    jobs.filter_map(|job| job.plan().ok()).take(count).collect()
}

/// Diagonal plans of random jobs.
pub fn diagonals(random: &mut Random, count: usize) -> Vec<Plan> {
    let jobs = std::iter::repeat_with(|| job_for_diagonal(random));
    let plans = jobs.filter_map(|job| job.diagonal().ok());
    plans.take(count).collect()
}

/// A count of processors and a position for the hypercube question, or, once in a while, a count that does not suit it, a
/// coordinate too large or another number of coordinates.
pub fn hypercube(random: &mut Random) -> (u32, Vec<u32>) {
    let e = random.between(0, 6) as u32;
    let p = match random.between(0, 15) {
        0 => *random.pick(&[0, 2, 8, 4097, u32::MAX]),
        1 => another(random, 4u32.pow(e)),
        _ => 4u32.pow(e),
    };
    let mut position: Vec<u32> = (0..3).map(|_| mostly_below(random, 2u32.pow(e))).collect();
    if random.once_in(12) {
        position.resize(random.between(0, 7) as usize, 0);
    }
    (p, position)
}

/// A number from 1 to `most`, small more often than not.
fn factor(random: &mut Random, most: u64) -> u64 {
    let high = if random.once_in(3) { most } else { most.min(9) };
    random.between(1, high)
}

/// A plan in shape that no planner made: any cuts, any moduli that multiply to p, any matrix, either kind, any least
/// thicknesses that the slabs have, often as large as can be, and anything in the places past d.
pub fn made_by_hand(random: &mut Random) -> Plan {
    let d = random.between(2, 5) as usize;
    let mut list = any_numbers(random, PLAN_LENGTH);
    let (mut p, mut tiles) = (1, 1);
    for k in 0..d {
        let modulus = factor(random, 4096 / p);
        let cut = factor(random, 4096.min(16_777_216 / tiles));
        let extent = cut + factor(random, 1_000_001 - cut) - 1;
        let most = extent / cut;
        let any = factor(random, most);
        let thickness = *random.pick(&[1, any, most]);
        p *= modulus;
        tiles *= cut;
        list[EXTENTS + k] = extent as u32;
        list[CUTS + k] = cut as u32;
        list[MODULI + k] = modulus as u32;
        list[LEAST + k] = thickness as u32;
        for j in 0..d {
            list[MATRIX + k * ROW_LENGTH + j] = random.between(0, modulus - 1) as u32;
        }
    }
    list[DIMENSIONS] = d as u32;
    list[PROCESSORS] = p as u32;
    list[KIND] = random.between(0, 1) as u32;
    plan_of(&list).expect("a list of the right length")
}

/// The list of a plan of the pool, or of one made by hand, as it is or damaged.
pub fn plan_list(random: &mut Random, pool: &[Plan]) -> Vec<u32> {
    let mut list = if random.once_in(2) {
        list_of(random.pick(pool)).to_vec()
    } else {
        list_of(&made_by_hand(random)).to_vec()
    };
    match random.between(0, 17) {
        0..=8 => (),
        9..=13 => {
            for _ in 0..random.between(1, 3) {
                let at = random.between(0, PLAN_LENGTH as u64 - 1) as usize;
                list[at] = another(random, list[at]);
            }
        }
        14 => list = any_numbers(random, PLAN_LENGTH),
        // "A kind above 1 is a 6."
        15 => list[KIND] = *random.pick(&[2, 3, u32::MAX]),
        16 => change_thickness(random, &mut list),
        _ => {
            let length = *random.pick(&[
                0,
                1,
                MATRIX,
                // How long a list was before it had a kind, and before it had thicknesses.
                KIND,
                LEAST,
                PLAN_LENGTH + 1,
                2 * PLAN_LENGTH,
            ]);
            list.resize(length, 1);
        }
    }
    list
}

/// Changes a least thickness of a list in order: "A plan that breaks the rule or holds a thickness of 0 is a 6". It
/// becomes 0, or what just fits, or one too thick, or huge; also so huge that its product with the cut has 33 bits, of
/// which the lower 32 are below the cut.
fn change_thickness(random: &mut Random, list: &mut [u32]) {
    let k = random.between(0, u64::from(list[DIMENSIONS]) - 1) as usize;
    let (extent, cut) = (list[EXTENTS + k], list[CUTS + k]);
    let most = extent / cut;
    let wrapped = (1u64 << 32).div_ceil(u64::from(cut));
    let wrapped = u32::try_from(wrapped).unwrap_or(u32::MAX);
    list[LEAST + k] = *random.pick(&[0, most, most, most + 1, wrapped, u32::MAX]);
}

/// The number at a place of a list that may be too short.
fn place(list: &[u32], at: usize) -> u32 {
    list.get(at).copied().unwrap_or(3)
}

/// How many dimensions a list says that it has, or as many as fit in a list that says too many.
pub fn dimensions(list: &[u32]) -> usize {
    place(list, DIMENSIONS).min(6) as usize
}

/// A position in the grid of a list, or, once in a while, one of another length or with a coordinate too large.
fn position(random: &mut Random, list: &[u32]) -> Vec<u32> {
    let mut position: Vec<u32> = (0..dimensions(list))
        .map(|k| mostly_below(random, place(list, CUTS + k)))
        .collect();
    if random.once_in(24) {
        position.resize(random.between(0, 7) as usize, 0);
    }
    position
}

/// A tile of a list, or, once in a while, none: as likely one of the lowest or the highest as any other.
fn tile(random: &mut Random, list: &[u32]) -> u32 {
    let cuts = (0..dimensions(list)).map(|k| place(list, CUTS + k));
    let tiles = cuts.fold(1, u32::wrapping_mul);
    match random.between(0, 3) {
        0 => random.between(0, 3) as u32,
        1 => tiles
            .wrapping_sub(random.between(0, 3) as u32)
            .wrapping_add(1),
        _ => mostly_below(random, tiles).wrapping_add(1),
    }
}

/// How many tiles each slab of the dimension at place k has.
pub fn tiles_in_slab(plan: &Plan, k: usize) -> u128 {
    let others = (0..plan.dimensions()).filter(|&j| j != k);
    others.map(|j| u128::from(plan.cuts[j])).product()
}

/// Whether the slabs of the dimension at place k have few enough tiles to look at each of them. A list out of order
/// asks for no such look.
fn few_tiles(list: &[u32], k: usize) -> bool {
    let in_shape = plan_of(list).filter(|plan| plan.check_shape().is_ok());
    in_shape.is_none_or(|plan| tiles_in_slab(&plan, k) <= 500)
}

/// Changes an extent other than that at place k, if it can be, so that the product of these extents is as large as
/// refusal 11 allows, or just too large.
pub fn move_to_limit(random: &mut Random, plan: &mut Plan, k: usize) {
    let d = plan.dimensions();
    let j = (k + random.between(1, d as u64 - 1) as usize) % d;
    let rest = (0..d).filter(|&i| i != j && i != k);
    let product: u128 = rest.map(|i| u128::from(plan.extents[i])).product();
    let extent = u128::from(u32::MAX) / product + u128::from(random.between(0, 1));
    let fits = u128::from(plan.cuts[j]) * u128::from(plan.least[j]) <= extent;
    if fits && extent <= 1_000_000 {
        plan.extents[j] = extent as u32;
    }
}

/// A question about the timetable of the plan of a list.
pub fn timetable(random: &mut Random, list: &[u32], dimension: u32) -> Question {
    let k = place_of(dimension);
    Question::Timetable {
        dimension,
        up: up(random),
        step: mostly_below(random, place(list, CUTS + k)),
        processor: mostly_below(random, place(list, PROCESSORS)),
    }
}

/// The place of a dimension, counted from 0; any place for one that there is not.
fn place_of(dimension: u32) -> usize {
    (dimension as usize).clamp(1, 5) - 1
}

/// A dimension of a list, or, once in a while, none of it.
fn dimension(random: &mut Random, list: &[u32]) -> u32 {
    let d = dimensions(list) as u32;
    if random.once_in(12) {
        another(random, d)
    } else {
        random.between(1, u64::from(d.max(1))) as u32
    }
}

/// A direction: down, or one of the numbers that say up.
fn up(random: &mut Random) -> u32 {
    *random.pick(&[0, 0, 1, 1, 2, u32::MAX])
}

/// A question about the plan of a list, as if the list were in order.
pub fn question(random: &mut Random, list: &[u32]) -> Question {
    let dimension = dimension(random, list);
    let k = place_of(dimension);
    let up = up(random);
    match random.between(0, 7) {
        0 => Question::Owner {
            position: position(random, list),
        },
        1 => Question::Neighbour {
            processor: mostly_below(random, place(list, PROCESSORS)),
            dimension,
            up,
        },
        2 => Question::Slab {
            dimension,
            slab: mostly_below(random, place(list, CUTS + k)),
        },
        3 => Question::SlabOf {
            dimension,
            element: mostly_below(random, place(list, EXTENTS + k)),
        },
        4 => Question::TileNumber {
            position: position(random, list),
        },
        5 => Question::TilePosition {
            tile: tile(random, list),
        },
        6 if few_tiles(list, k) => timetable(random, list, dimension),
        _ => Question::Step {
            position: position(random, list),
            dimension,
            up,
        },
    }
}

/// A list to lend for an answer of so many places, most often of that length.
pub fn lent(random: &mut Random, places: usize) -> Vec<u32> {
    let length = if random.once_in(16) {
        *random.pick(&[0, 1, 2, 3, places + 1])
    } else {
        places
    };
    any_numbers(random, length)
}

/// A dimension of a list and a probe line of so many elements along it, as if the list were in order. Most lines rise;
/// of the others one element is smaller than the one before or out of range, or both are found.
pub fn probe_line(random: &mut Random, list: &[u32], length: usize) -> (u32, Vec<u32>) {
    let dimension = dimension(random, list);
    let k = place_of(dimension);
    let extent = place(list, EXTENTS + k).clamp(1, 1_000_000);
    let cut = place(list, CUTS + k).clamp(1, extent);
    let mut elements = rising(random, extent, cut, length);
    if random.once_in(3) {
        lower(random, &mut elements);
    }
    if length > 0 && random.once_in(6) {
        let at = random.between(0, length as u64 - 1) as usize;
        elements[at] = *random.pick(&[extent, extent + 1, 1 << 31, u32::MAX]);
    }
    (dimension, elements)
}

/// Elements of a dimension that rise: anywhere in it, or just beside an edge between two of its slabs, or at its ends.
/// The latter have many equal neighbours.
fn rising(random: &mut Random, extent: u32, cut: u32, length: usize) -> Vec<u32> {
    let slab = random.between(0, u64::from(cut)) as u32;
    let edge = slab * (extent / cut) + slab.min(extent % cut);
    let kind = random.between(0, 2);
    let mut elements: Vec<u32> = (0..length)
        .map(|_| match kind {
            0 => random.between(0, u64::from(extent) - 1) as u32,
            1 => (edge + random.between(0, 4) as u32).saturating_sub(2),
            _ => *random.pick(&[0, 1, extent - 1]),
        })
        .map(|element| element.min(extent - 1))
        .collect();
    elements.sort();
    elements
}

/// Makes an element smaller than the one before, if that is not 0: half of the time the last one.
fn lower(random: &mut Random, elements: &mut [u32]) {
    let Some(last @ 1..) = elements.len().checked_sub(1) else {
        return;
    };
    let any = random.between(1, last as u64) as usize;
    let at = *random.pick(&[any, last]);
    if let Some(most) = elements[at - 1].checked_sub(1) {
        let less = random.between(0, u64::from(most)) as u32;
        elements[at] = *random.pick(&[less, most]);
    }
}

/// A list to lend for the slabs of so many elements: as long, longer or, once in a while, shorter.
pub fn lent_to_probes(random: &mut Random, count: usize) -> Vec<u32> {
    let length = match random.between(0, 9) {
        0..=3 => count,
        4..=5 => count + 1,
        6..=7 => count + random.between(2, 9) as usize,
        8 => random.between(0, count as u64) as usize,
        _ => count.saturating_sub(1),
    };
    any_numbers(random, length)
}

/// A dimension of a list and a page of its sheet, as if the list were in order: most often one that there is.
pub fn page(random: &mut Random, list: &[u32]) -> (u32, u32) {
    let dimension = dimension(random, list);
    let slabs = place(list, CUTS + place_of(dimension));
    (dimension, sheet_cases::page(random, slabs.min(4096)))
}

/// A list to lend for a page, most often of its length.
pub fn lent_to_page(random: &mut Random) -> Vec<u8> {
    let length = if random.once_in(8) {
        *random.pick(&[
            0,
            1,
            72,
            73,
            sheet::LENGTH - 1,
            sheet::LENGTH + 1,
            2 * sheet::LENGTH,
        ])
    } else {
        sheet::LENGTH
    };
    (0..length).map(|_| random.draw() as u8).collect()
}

#[cfg(test)]
mod tests {
    use super::*;

    #[test]
    fn plans_made_by_hand_are_in_shape() {
        let mut random = Random::new(1);
        for _ in 0..20_000 {
            let plan = made_by_hand(&mut random);
            assert_eq!(plan.check_shape(), Ok(()), "{plan:?}");
        }
    }

    #[test]
    fn changed_thicknesses() {
        let mut random = Random::new(2);
        let (mut fits, mut too_thick, mut wrapped) = (0, 0, 0);
        for _ in 0..20_000 {
            let mut list = list_of(&made_by_hand(&mut random));
            change_thickness(&mut random, &mut list);
            let plan = plan_of(&list).expect("a list of the right length");
            let product = |k: usize| u64::from(plan.cuts[k]) * u64::from(plan.least[k]);
            let over = (0..plan.dimensions()).find(|&k| product(k) > u64::from(plan.extents[k]));
            match over {
                None => fits += u32::from(plan.check_shape().is_ok()),
                Some(k) if product(k) as u32 <= plan.extents[k] => wrapped += 1,
                Some(_) => too_thick += 1,
            }
        }
        let counts = [fits, too_thick, wrapped];
        assert!(counts.iter().all(|&count| count > 2_000), "{counts:?}");
    }

    /// Lines that rise, with and without equal neighbours, that fall, and that leave the dimension.
    #[test]
    fn probe_lines() {
        let mut random = Random::new(3);
        let (mut strictly, mut equal, mut falls, mut outside) = (0, 0, 0, 0);
        for _ in 0..20_000 {
            let plan = made_by_hand(&mut random);
            let length = random.between(2, 9) as usize;
            let (dimension, elements) = probe_line(&mut random, &list_of(&plan), length);
            assert_eq!(elements.len(), length);
            let Ok(k) = plan.check_dimension(dimension) else {
                continue;
            };
            let neighbours = || elements.windows(2);
            if elements.iter().any(|&element| element >= plan.extents[k]) {
                outside += 1;
            } else if neighbours().any(|pair| pair[0] > pair[1]) {
                falls += 1;
            } else if neighbours().any(|pair| pair[0] == pair[1]) {
                equal += 1;
            } else {
                strictly += 1;
            }
        }
        let counts = [strictly, equal, falls, outside];
        assert!(counts.iter().all(|&count| count > 2_000), "{counts:?}");
    }
}

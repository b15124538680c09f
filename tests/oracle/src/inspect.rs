//! Checks on a printed plan that do not ask how it was made.
//!
//! The plan is read back from the printed lines and then looked at tile by tile: do the cuts fit, are
//! they even, is the cost theirs; is every slab as thick as asked; does every processor own
//! tiles / (bk * p) tiles of every slab; do tiles with a common face have different owners; is the owner
//! across a face the printed neighbour.

use crate::cuts::{cost, even, fit};
use crate::random::Random;
use crate::slabs::thickness_of;

/// What the lines of a printed plan say.
#[derive(Debug)]
pub struct Printed {
    pub p: u64,
    pub d: usize,
    pub cuts: Vec<u32>,
    pub cost: u64,
    pub moduli: Vec<u64>,
    pub rows: Vec<Vec<u64>>,
    /// For each dimension the upward neighbours, or nothing where `none` is printed.
    pub up: Vec<Option<Vec<u64>>>,
}

/// Reads the lines back, or says what is wrong with them.
pub fn parse(text: &str) -> Result<Printed, String> {
    let mut lines = text.lines();
    let mut next = |word: &str| -> Result<Vec<&str>, String> {
        let line = lines.next().ok_or(format!("no line `{word}`"))?;
        let mut words = line.split(' ');
        if words.next() != Some(word) {
            return Err(format!("`{line}` where a line `{word}` belongs"));
        }
        Ok(words.collect())
    };
    let first = numbers(&next("plan")?)?;
    let [p, d] = first[..] else {
        return Err("line `plan` has not two numbers".to_string());
    };
    let d = d as usize;
    let cuts = numbers_of(&next("cuts")?, d)?;
    let cost = numbers_of(&next("cost")?, 1)?[0];
    let moduli = numbers_of(&next("mod")?, d)?;
    let mut rows = Vec::new();
    for _ in 0..d {
        rows.push(numbers_of(&next("row")?, d)?);
    }
    let mut up = Vec::new();
    for k in 1..=d {
        let words = next("up")?;
        if words.first() != Some(&k.to_string().as_str()) {
            return Err(format!("line `up {k}` is missing"));
        }
        up.push(match words[1..] {
            ["none"] => None,
            ref above => Some(numbers_of(above, p as usize)?),
        });
    }
    if lines.next().is_some() {
        return Err("lines follow the last".to_string());
    }
    Ok(Printed {
        p,
        d,
        cuts: cuts.iter().map(|&b| b as u32).collect(),
        cost,
        moduli,
        rows,
        up,
    })
}

fn numbers(words: &[&str]) -> Result<Vec<u64>, String> {
    let number = |word: &&str| word.parse().map_err(|_| format!("`{word}` is no number"));
    words.iter().map(number).collect()
}

fn numbers_of(words: &[&str], count: usize) -> Result<Vec<u64>, String> {
    let numbers = numbers(words)?;
    if numbers.len() == count {
        Ok(numbers)
    } else {
        Err(format!("{} numbers in place of {count}", numbers.len()))
    }
}

/// Up to this many tiles all of them are looked at; of a larger grid only some.
const ALL_TILES_UP_TO: u64 = 30_000;

/// Looks at a printed plan for a job with d least thicknesses, or says what is wrong with it.
pub fn inspect(
    p: u32,
    extents: &[u32],
    least: &[u32],
    weights: &[u32],
    text: &str,
    random: &mut Random,
) -> Result<(), String> {
    let plan = parse(text)?;
    let ensure = |holds: bool, what: &str| holds.then_some(()).ok_or(what.to_string());
    ensure(plan.p == u64::from(p), "another p")?;
    ensure(plan.d == extents.len(), "another d")?;
    ensure(fit(&plan.cuts, extents, least), "cuts do not fit")?;
    ensure(even(p, &plan.cuts), "cuts are not even")?;
    for (k, &b) in plan.cuts.iter().enumerate() {
        let thick = |slab| thickness_of(extents[k], b, slab) >= least[k];
        ensure((0..b).all(thick), "a slab is thinner than asked")?;
    }
    ensure(
        plan.cost == cost(&plan.cuts, weights),
        "the cost is not that of the cuts",
    )?;
    ensure(
        plan.moduli.iter().product::<u64>() == plan.p,
        "the moduli do not multiply to p",
    )?;
    for (row, m) in plan.rows.iter().zip(&plan.moduli) {
        ensure(
            row.iter().all(|entry| entry < m),
            "a row is not reduced by its modulus",
        )?;
    }
    for (k, above) in plan.up.iter().enumerate() {
        ensure(
            above.is_none() == (plan.cuts[k] == 1),
            "`none` and an uncut dimension do not go together",
        )?;
    }
    let tiles: u64 = plan.cuts.iter().map(|&b| u64::from(b)).product();
    if tiles <= ALL_TILES_UP_TO {
        let mut counts = Counts::new(&plan);
        for tile in 0..tiles {
            let position = position(&plan, tile);
            counts.add(&position, owner(&plan, &position));
            check_faces(&plan, &position)?;
        }
        counts.check(&plan, tiles)
    } else {
        (0..1000).try_for_each(|_| {
            let tile = random.between(0, tiles - 1);
            check_faces(&plan, &position(&plan, tile))
        })
    }
}

/// The position of the tile that comes after `tile` others.
fn position(plan: &Printed, tile: u64) -> Vec<u64> {
    let mut left = tile;
    let mut position = vec![0; plan.d];
    for (i, &b) in position.iter_mut().zip(&plan.cuts) {
        *i = left % u64::from(b);
        left /= u64::from(b);
    }
    position
}

/// The owner by the printed rows and moduli.
fn owner(plan: &Printed, position: &[u64]) -> u64 {
    let mut number = 0;
    for (row, m) in plan.rows.iter().zip(&plan.moduli) {
        let sum: u64 = row.iter().zip(position).map(|(x, y)| x * y).sum();
        number = number * m + sum % m;
    }
    number
}

/// The faces above a tile: other owners, and those that the printed neighbours say.
fn check_faces(plan: &Printed, position: &[u64]) -> Result<(), String> {
    let mine = owner(plan, position);
    for k in 0..plan.d {
        if position[k] + 1 == u64::from(plan.cuts[k]) {
            continue;
        }
        let mut above = position.to_vec();
        above[k] += 1;
        let theirs = owner(plan, &above);
        if mine == theirs {
            return Err(format!(
                "{position:?} and {above:?} both belong to processor {mine}"
            ));
        }
        let neighbours = plan.up[k]
            .as_ref()
            .ok_or("a face along an uncut dimension")?;
        let told = neighbours[mine as usize];
        if told != theirs {
            return Err(format!(
                "{above:?} belongs to {theirs}, but the neighbour of {mine} up {} is {told}",
                k + 1
            ));
        }
    }
    Ok(())
}

/// How many tiles each processor owns in each slab of each dimension.
struct Counts {
    owned: Vec<Vec<Vec<u64>>>,
}

impl Counts {
    fn new(plan: &Printed) -> Counts {
        let none = vec![0; plan.p as usize];
        let slabs = |&b: &u32| vec![none.clone(); b as usize];
        Counts {
            owned: plan.cuts.iter().map(slabs).collect(),
        }
    }

    fn add(&mut self, position: &[u64], owner: u64) {
        for (slabs, &slab) in self.owned.iter_mut().zip(position) {
            slabs[slab as usize][owner as usize] += 1;
        }
    }

    /// "In ours every processor owns exactly tiles / (bk * p) tiles of each slab of dimension k."
    fn check(&self, plan: &Printed, tiles: u64) -> Result<(), String> {
        for (k, slabs) in self.owned.iter().enumerate() {
            let share = tiles / (u64::from(plan.cuts[k]) * plan.p);
            for (slab, owned) in slabs.iter().enumerate() {
                if let Some(q) = owned.iter().position(|&count| count != share) {
                    return Err(format!(
                        "processor {q} owns {} tiles of slab {slab} of dimension {}, not {share}",
                        owned[q],
                        k + 1
                    ));
                }
            }
        }
        Ok(())
    }
}

#[cfg(test)]
mod tests {
    use super::*;
    use crate::diagonal::diagonal_job;
    use crate::print::{answer, printed};

    fn look(text: &str) -> Result<(), String> {
        inspect(8, &[9; 3], &[1; 3], &[1; 3], text, &mut Random::new(1))
    }

    #[test]
    fn a_right_plan_passes() {
        assert_eq!(look(&answer(b"8 3 9 9 9 1 1 1\n")), Ok(()));
    }

    /// "Slabs no thinner than the stencil" (document 02, g).
    #[test]
    fn slabs_as_thick_as_asked_pass() {
        let text = answer(b"8 3 9 9 9 1 1 1 4 2 2\n");
        let look = |least: &[u32]| {
            let (extents, weights) = ([9; 3], [1; 3]);
            inspect(8, &extents, least, &weights, &text, &mut Random::new(1))
        };
        assert_eq!(look(&[4, 2, 2]), Ok(()));
        for least in [[5, 2, 2], [4, 3, 2], [4, 2, 3], [1, 1, u32::MAX]] {
            assert!(look(&least).is_err(), "{least:?}");
        }
    }

    #[test]
    fn diagonal_plans_pass() {
        let mut random = Random::new(2);
        for (d, sides) in [(2, 1..=170), (3, 1..=30)] {
            for side in sides {
                let p = u32::pow(side, d - 1);
                let lists = [[2 * side + side % 3; 3], [1, 2, 1], [5, 0, 7]];
                let [extents, least, weights] = lists.each_ref().map(|list| &list[..d as usize]);
                let plan = diagonal_job(p, d, extents, weights, least).unwrap();
                let looked = inspect(p, extents, least, weights, &printed(&plan), &mut random);
                assert_eq!(looked, Ok(()), "{plan:?}");
            }
        }
    }

    #[test]
    fn wrong_plans_are_seen() {
        let right = answer(b"8 3 9 9 9 1 1 1\n");
        let changes = [
            ("cuts 2 4 4", "cuts 4 4 4"),
            ("cuts 2 4 4", "cuts 2 4 2"),
            ("cuts 2 4 4", "cuts 16 4 4"),
            ("cost 7", "cost 8"),
            ("mod 1 2 4", "mod 1 4 2"),
            ("mod 1 2 4", "mod 1 2 2"),
            ("row 1 1 0", "row 1 0 0"),
            ("row 0 3 1", "row 1 3 1"),
            ("row 0 3 1", "row 0 4 1"),
            ("row 0 3 1\n", ""),
            ("up 1 ", "up 2 "),
        ];
        for (old, new) in changes {
            assert!(right.contains(old), "{old}");
            assert!(look(&right.replace(old, new)).is_err(), "{new}");
        }
        let cut = right.lines().take(9).collect::<Vec<_>>().join("\n");
        assert!(look(&cut).is_err());
        assert!(look(&(right + "\nmore")).is_err());
    }

    #[test]
    fn the_first_test_on_the_row_gives_a_whole_slab_away() {
        // As printed in 001, figure 3: p = 2 with cuts 2 2 and row 2 equal to 0 1.
        let text = "plan 2 2\ncuts 2 2\ncost 0\nmod 1 2\nrow 0 0\nrow 0 1\nup 1 0 1\nup 2 1 0\n";
        let looked = inspect(2, &[2, 2], &[1, 1], &[0, 0], text, &mut Random::new(1));
        assert!(looked.is_err());
    }
}

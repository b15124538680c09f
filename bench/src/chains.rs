//! Chains without a division for each tile.
//!
//! Tiles are visited from the highest down: a tile's next is what its owner's head was, and the tile becomes the
//! head. Owners come from the plan as lines within lines: along a line every tile's owner is one and the same step
//! from the owner before it.
//!
//! [`chains`] visits every tile so, in the quickest of four ways that the plan allows:
//!
//! - runs: the owners along the fastest line count down or up, so that runs of heads are copied and renumbered;
//! - stays: the fastest line has one owner, whose head is kept at hand;
//! - fours: the owners of four neighbouring tiles are kept, and each is replaced by its neighbour in a table, so that
//!   no look-up waits for the one before; four along a line, or two by two where the fastest line has two tiles;
//! - singles: one owner is kept.
//!
//! [`chains_by_slabs`] leaves the same lists in the end, but visits the two highest slabs only. In the others a tile's
//! next is one slab below the next of the tile one slab above, and heads are moved once.

use crate::plan_list::{
    checked, tiles, PlanList, CUTS, DIMENSIONS, MATRIX, MODULI, PROCESSORS, ROW_LENGTH,
};
use crate::subject::Told;

/// Tile by tile, the quickest way.
pub fn chains(plan: &[u32], heads: &mut [u32], nexts: &mut [u32]) -> Told {
    let grid = Grid::new(checked_lists(plan, heads, nexts)?);
    heads.fill(0);
    grid.visit(0, heads, nexts);
    Ok(())
}

/// The two highest slabs of the slowest dimension that is cut; the others from the slab above.
pub fn chains_by_slabs(plan: &[u32], heads: &mut [u32], nexts: &mut [u32]) -> Told {
    let mut grid = Grid::new(checked_lists(plan, heads, nexts)?);
    heads.fill(0);
    let slabs = grid.lines.last().map_or(1, |line| line.length);
    if slabs > 2 {
        let slab = nexts.len() / slabs;
        let below = nexts.len() - 2 * slab;
        grid.lines.last_mut().unwrap().length = 2;
        grid.visit(below, heads, &mut nexts[below..]);
        // Does every processor have a tile in the lower one, and so in every slab?
        let inside = below as u32 + 1..=(below + slab) as u32;
        if heads.iter().all(|head| inside.contains(head)) {
            copy_down(slab, below, nexts);
            grid.move_heads(slabs - 2, below, heads);
            return Ok(());
        }
        grid.lines.last_mut().unwrap().length = slabs;
        heads.fill(0);
    }
    grid.visit(0, heads, nexts);
    Ok(())
}

fn checked_lists<'a>(plan: &'a [u32], heads: &[u32], nexts: &[u32]) -> Result<&'a PlanList, u32> {
    let plan = checked(plan)?;
    if heads.len() != plan[PROCESSORS] as usize || nexts.len() != tiles(plan) as usize {
        return Err(9);
    }
    Ok(plan)
}

/// The nexts of each slab below the place `end`, from those of the slab above it.
fn copy_down(slab: usize, end: usize, nexts: &mut [u32]) {
    let mut end = end;
    while end > 0 {
        let (below, above) = nexts.split_at_mut(end);
        end -= slab;
        for (next, above) in below[end..].iter_mut().zip(&above[..slab]).rev() {
            *next = above - slab as u32;
        }
    }
}

/// What a step up adds to each coordinate of the owner.
type Step = [u32; 5];

struct Line {
    length: usize,
    step: Step,
}

/// A plan's tiles as lines within lines, the fastest first.
struct Grid<'a> {
    moduli: &'a [u32],
    /// Uncut dimensions have no line; a dimension whose steps carry on those along the line before it lengthens that.
    lines: Vec<Line>,
    /// Who owns the highest tile.
    owner: u16,
}

/// A line above the one that is being visited, with each processor's downward neighbour along it.
struct Outer {
    length: usize,
    down: Vec<u16>,
}

impl Outer {
    const NONE: Outer = Outer {
        length: 1,
        down: Vec::new(),
    };
}

impl<'a> Grid<'a> {
    fn new(plan: &'a PlanList) -> Grid<'a> {
        let d = plan[DIMENSIONS] as usize;
        let moduli = &plan[MODULI..][..d];
        let mut lines: Vec<Line> = Vec::with_capacity(d);
        let mut highest = [0; 5];
        for k in 0..d {
            let length = plan[CUTS + k] as usize;
            let mut step = [0; 5];
            for i in 0..d {
                step[i] = plan[MATRIX + ROW_LENGTH * i + k];
                highest[i] += step[i] * (length as u32 - 1);
            }
            match lines.last_mut() {
                _ if length == 1 => (),
                Some(line) if times(moduli, &line.step, line.length) == step => {
                    line.length *= length;
                }
                _ => lines.push(Line { length, step }),
            }
        }
        let owner = moduli
            .iter()
            .zip(highest)
            .fold(0, |q, (m, c)| q * m + c % m);
        Grid {
            moduli,
            lines,
            owner: owner as u16,
        }
    }

    /// Visits the tiles that have these nexts; there are `before` tiles below them.
    fn visit(&self, before: usize, heads: &mut [u32], nexts: &mut [u32]) {
        if let Some(up) = self.counts() {
            self.runs(up, before, heads, nexts);
        } else if self.stays_put() {
            self.stays(before, heads, nexts);
        } else if let Some(fours) = self.in_fours() {
            self.fours(&fours, before, heads, nexts);
        } else {
            self.singles(before, heads, nexts);
        }
    }

    /// Each processor's downward neighbour by a step.
    fn down(&self, step: &Step) -> Vec<u16> {
        let processors = self.moduli.iter().product::<u32>();
        let mut table = Vec::with_capacity(processors as usize);
        table.push(0);
        // The table for the first coordinates, then for one more.
        let mut fewer = Vec::with_capacity(table.capacity());
        for (&modulus, &step) in self.moduli.iter().zip(step) {
            if modulus > 1 {
                std::mem::swap(&mut table, &mut fewer);
                table.clear();
                for &q in &fewer {
                    let zero = q * modulus as u16;
                    let wrapped = zero + (modulus - step) as u16;
                    table.extend(wrapped..zero + modulus as u16);
                    table.extend(zero..wrapped);
                }
            }
        }
        table
    }

    /// The lines from one on, with their tables.
    fn outer(&self, from: usize) -> Vec<Outer> {
        let outer = |line: &Line| Outer {
            length: line.length,
            down: self.down(&line.step),
        };
        self.lines[from.min(self.lines.len())..]
            .iter()
            .map(outer)
            .collect()
    }

    /// Goes through pieces of the tiles from the highest down: `visit` gets the owner of a piece's highest tile, that
    /// tile, and the piece's nexts.
    fn pieces(
        &self,
        length: usize,
        outer: &[Outer],
        before: usize,
        nexts: &mut [u32],
        mut visit: impl FnMut(u16, u32, &mut [u32]),
    ) {
        let (first, outer) = match outer {
            [first, outer @ ..] => (first, outer),
            [] => (&Outer::NONE, outer),
        };
        let mut left = [0; 4];
        for (left, line) in left.iter_mut().zip(outer) {
            *left = line.length;
        }
        // For each line past the first the owner of the highest tile at the present place along it.
        let mut owners = [self.owner; 4];
        let mut tile = before + nexts.len();
        for pieces in nexts.rchunks_exact_mut(first.length * length) {
            let mut owner = owners[0];
            for piece in pieces.rchunks_exact_mut(length) {
                visit(owner, tile as u32, piece);
                tile -= length;
                owner = first.down.get(usize::from(owner)).map_or(0, |&q| q);
            }
            for (k, line) in outer.iter().enumerate() {
                left[k] -= 1;
                if left[k] > 0 {
                    let owner = line.down[usize::from(owners[k])];
                    owners[..=k].fill(owner);
                    break;
                }
                left[k] = line.length;
            }
        }
    }

    fn singles(&self, before: usize, heads: &mut [u32], nexts: &mut [u32]) {
        let (length, down) = match self.lines.first() {
            Some(line) => (line.length, self.down(&line.step)),
            None => (1, vec![0; heads.len()]),
        };
        let outer = self.outer(1);
        self.pieces(length, &outer, before, nexts, |owner, tile, piece| {
            let mut q = usize::from(owner);
            let mut tile = tile;
            for next in piece.iter_mut().rev() {
                *next = heads[q];
                heads[q] = tile;
                q = usize::from(down[q]);
                tile -= 1;
            }
        });
    }
}

/// How the tiles are visited in fours.
struct Fours {
    /// From the highest tile of four to the three others.
    others: [Step; 3],
    /// From four to the next four.
    step: Step,
    /// The tiles that are visited so without a break, and how many lines they fill.
    length: usize,
    lines: usize,
}

impl Grid<'_> {
    fn in_fours(&self) -> Option<Fours> {
        let plus = |a: &Step, b: &Step| sum(self.moduli, a, b);
        let fours = match &self.lines[..] {
            [a, ..] if a.length % 4 == 0 => {
                let two = plus(&a.step, &a.step);
                Fours {
                    others: [a.step, two, plus(&two, &a.step)],
                    step: plus(&two, &two),
                    length: a.length,
                    lines: 1,
                }
            }
            [a, b, rest @ ..] if a.length == 2 && b.length % 2 == 0 => {
                let (step, length, lines) = match rest {
                    [c, ..] if b.length == 2 => (c.step, 4 * c.length, 3),
                    _ => (plus(&b.step, &b.step), 2 * b.length, 2),
                };
                Fours {
                    others: [a.step, b.step, plus(&a.step, &b.step)],
                    step,
                    length,
                    lines,
                }
            }
            _ => return None,
        };
        Some(fours)
    }

    fn fours(&self, fours: &Fours, before: usize, heads: &mut [u32], nexts: &mut [u32]) {
        let others = [0, 1, 2].map(|i| self.down(&fours.others[i]));
        let down = self.down(&fours.step);
        let outer = self.outer(fours.lines);
        self.pieces(fours.length, &outer, before, nexts, |owner, tile, piece| {
            let mut a = usize::from(owner);
            let [mut b, mut c, mut d] = [0, 1, 2].map(|i: usize| usize::from(others[i][a]));
            let mut tile = tile;
            for four in piece.rchunks_exact_mut(4) {
                four[3] = heads[a];
                heads[a] = tile;
                a = usize::from(down[a]);
                four[2] = heads[b];
                heads[b] = tile - 1;
                b = usize::from(down[b]);
                four[1] = heads[c];
                heads[c] = tile - 2;
                c = usize::from(down[c]);
                four[0] = heads[d];
                heads[d] = tile - 3;
                d = usize::from(down[d]);
                tile -= 4;
            }
        });
    }

    /// Does a step up along the fastest line add one to the owner's number (true), or take one (false), but where the
    /// last coordinate wraps? Not asked of lines so short that runs do not pay.
    fn counts(&self) -> Option<bool> {
        let line = self.lines.first().filter(|line| line.length >= SHORTEST)?;
        let last = self.moduli.iter().rposition(|&modulus| modulus > 1)?;
        let modulus = self.moduli[last];
        let alone = line.step[..last].iter().all(|&c| c == 0);
        match line.step[last] {
            _ if !alone || (modulus as usize) < SHORTEST => None,
            1 => Some(true),
            c if c == modulus - 1 => Some(false),
            _ => None,
        }
    }

    /// Has the fastest line one owner, and is it long enough for that to pay?
    fn stays_put(&self) -> bool {
        let line = self.lines.first();
        line.is_some_and(|line| line.length > 4 && line.step == [0; 5])
    }

    fn stays(&self, before: usize, heads: &mut [u32], nexts: &mut [u32]) {
        let length = self.lines[0].length;
        let outer = self.outer(1);
        self.pieces(length, &outer, before, nexts, |owner, tile, piece| {
            let head = &mut heads[usize::from(owner)];
            let (mut above, mut tile) = (*head, tile);
            for next in piece.iter_mut().rev() {
                *next = above;
                above = tile;
                tile -= 1;
            }
            *head = above;
        });
    }

    fn runs(&self, up: bool, before: usize, heads: &mut [u32], nexts: &mut [u32]) {
        let modulus = self.moduli.iter().rfind(|&&modulus| modulus > 1);
        let modulus = modulus.map_or(1, |&modulus| modulus as usize);
        let length = self.lines[0].length;
        let outer = self.outer(1);
        self.pieces(length, &outer, before, nexts, |owner, tile, piece| {
            let mut at = usize::from(owner) % modulus;
            // The heads of those whose numbers differ in the last coordinate alone.
            let heads = &mut heads[usize::from(owner) - at..][..modulus];
            let (mut piece, mut tile) = (piece, tile);
            while !piece.is_empty() {
                let run = if up { at + 1 } else { modulus - at }.min(piece.len());
                let (rest, nexts) = piece.split_at_mut(piece.len() - run);
                if up {
                    for (head, next) in heads[at + 1 - run..=at].iter_mut().zip(nexts).rev() {
                        *next = *head;
                        *head = tile;
                        tile -= 1;
                    }
                    at = modulus - 1;
                } else {
                    for (head, next) in heads[at..].iter_mut().zip(nexts.iter_mut().rev()) {
                        *next = *head;
                        *head = tile;
                        tile -= 1;
                    }
                    at = 0;
                }
                piece = rest;
            }
        });
    }

    /// Moves heads down by some steps along the slowest line, which are so many tiles.
    fn move_heads(&self, steps: usize, tiles: usize, heads: &mut [u32]) {
        let Some(line) = self.lines.last() else {
            return;
        };
        let down = self.down(&times(self.moduli, &line.step, steps));
        let above = heads.to_vec();
        for (q, head) in down.iter().zip(above) {
            heads[usize::from(*q)] = head - tiles as u32;
        }
    }
}

/// The shortest lines whose runs pay.
const SHORTEST: usize = 16;

/// One step, then the other.
fn sum(moduli: &[u32], a: &Step, b: &Step) -> Step {
    let mut sum = [0; 5];
    for (i, modulus) in moduli.iter().enumerate() {
        sum[i] = (a[i] + b[i]) % modulus;
    }
    sum
}

/// A step several times.
fn times(moduli: &[u32], step: &Step, times: usize) -> Step {
    let mut product = [0; 5];
    for (i, &modulus) in moduli.iter().enumerate() {
        product[i] = (times % modulus as usize) as u32 * step[i] % modulus;
    }
    product
}

#[cfg(test)]
mod tests {
    use super::*;
    use crate::plan_list::list_of;
    use oracle::plan::{plan_job, Plan};
    use oracle::random::Random;

    /// A plan of the planner's, or one in shape with other rows or other cuts.
    fn any_plan(random: &mut Random) -> Plan {
        let d = random.between(2, 5) as usize;
        let p = random.between(1, 40) as u32;
        let weights: Vec<u32> = (0..d).map(|_| random.between(0, 9) as u32).collect();
        let mut plan = plan_job(p, d as u32, &vec![120; d], &weights, &[]).unwrap();
        if random.once_in(3) {
            for i in 0..d {
                let most = u64::from(plan.moduli[i]) - 1;
                for k in 0..d {
                    // Steps of one up and down are found more often, and none.
                    let any = random.between(0, most);
                    plan.matrix[i][k] = *random.pick(&[0, 1.min(most), most, any]) as u32;
                }
            }
        }
        if random.once_in(3) {
            let most = [120, 24, 8, 6][d - 2];
            let any = random.between(1, most) as u32;
            plan.cuts[..d].fill_with(|| *random.pick(&[1, 2, 4, any]));
        }
        // As thick as may be.
        if random.once_in(2) {
            for k in 0..d {
                plan.least[k] = plan.extents[k] / plan.cuts[k];
            }
        }
        plan
    }

    #[test]
    fn all_ways_leave_the_oracles_lists() {
        let mut random = Random::new(14);
        let [mut runs, mut stays, mut fours, mut slabs] = [0; 4];
        for _ in 0..6000 {
            let plan = any_plan(&mut random);
            let list = list_of(&plan);
            let lent = (vec![7; plan.p as usize], vec![7; plan.tiles() as usize]);
            let mut expected = lent.clone();
            oracle::chains::chains(&plan, &mut expected.0, &mut expected.1).unwrap();
            for call in [chains, chains_by_slabs] {
                let mut lists = lent.clone();
                assert_eq!(call(&list, &mut lists.0, &mut lists.1), Ok(()));
                assert_eq!(lists, expected, "{plan:?}");
            }
            let grid = Grid::new(&list);
            let visited = |visit: &dyn Fn(&mut [u32], &mut [u32])| {
                let mut lists = lent.clone();
                lists.0.fill(0);
                visit(&mut lists.0, &mut lists.1);
                assert_eq!(lists, expected, "{plan:?}");
            };
            visited(&|heads, nexts| grid.singles(0, heads, nexts));
            if let Some(ways) = grid.in_fours() {
                visited(&|heads, nexts| grid.fours(&ways, 0, heads, nexts));
                fours += 1;
            }
            if grid.stays_put() {
                visited(&|heads, nexts| grid.stays(0, heads, nexts));
                stays += 1;
            }
            if let Some(up) = grid.counts() {
                visited(&|heads, nexts| grid.runs(up, 0, heads, nexts));
                runs += 1;
            }
            if let Some(line) = grid.lines.last() {
                let slab = plan.tiles() as u32 / line.length as u32;
                slabs += u32::from(expected.0.iter().all(|head| (1..=slab).contains(head)));
            }
        }
        let seen = [runs, stays, fours, slabs];
        assert!(seen.iter().all(|&times| times > 300), "{seen:?}");
    }

    #[test]
    fn the_ways_of_plans_like_the_timed_ones() {
        for (p, cuts, merged, up) in [
            (64, &[64, 64][..], 2, Some(true)),
            (64, &[1, 64, 64], 2, Some(false)),
            (64, &[2, 32, 64], 2, Some(false)),
            (64, &[2, 2, 16, 64], 4, None),
            (64, &[2, 2, 1, 32, 32], 4, None),
            (256, &[64, 64, 64], 3, None),
            (256, &[8, 8, 8, 16, 16], 5, None),
        ] {
            let list = list_of(&crate::jobs::by_hand(p, cuts));
            let grid = Grid::new(&list);
            assert_eq!((grid.lines.len(), grid.counts()), (merged, up), "{cuts:?}");
            assert!(grid.in_fours().is_some(), "{cuts:?}");
            assert_eq!(grid.stays_put(), cuts[0] == 8, "{cuts:?}");
        }
    }

    #[test]
    fn refused_lists_keep_their_contents() {
        let list = list_of(&plan_job(4, 3, &[8; 3], &[1; 3], &[]).unwrap());
        for call in [chains, chains_by_slabs] {
            let (mut heads, mut nexts) = ([7; 4], [7; 9]);
            assert_eq!(call(&list, &mut heads, &mut nexts), Err(9));
            assert_eq!(call(&list, &mut heads[1..], &mut nexts[1..]), Err(9));
            assert_eq!(call(&list[1..], &mut heads, &mut nexts), Err(6));
            assert_eq!((heads, nexts), ([7; 4], [7; 9]));
        }
    }
}

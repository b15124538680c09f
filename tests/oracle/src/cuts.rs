//! "Choosing the cuts": what even, fitting and cheapest mean, and three ways to find the answer.
//!
//! [`by_trying_all`] is the definition. [`by_divisors`] and [`elementary`] try fewer cuts and are
//! checked against it; they serve where all fitting cuts are too many to try.

use crate::numbers::{divisors, gcd, lcm, prime_factors};

/// "Cuts are even if p divides the product of all cuts but bk, for every k."
pub fn even(p: u32, cuts: &[u32]) -> bool {
    (0..cuts.len()).all(|k| product_without(k, cuts).is_multiple_of(u128::from(p)))
}

fn product_without(k: usize, cuts: &[u32]) -> u128 {
    let others = cuts.iter().enumerate().filter(|&(j, _)| j != k);
    others.map(|(_, &b)| u128::from(b)).product()
}

/// "They fit if 1 <= bk <= nk for every k", and "Cuts fit only if bk times the least thickness of k is
/// at most nk" (document 02, g). The least thicknesses are as many as the cuts, "none of them 0".
pub fn fit(cuts: &[u32], extents: &[u32], least: &[u32]) -> bool {
    let mut dimensions = cuts.iter().zip(extents).zip(least);
    dimensions.all(|((&b, &n), &t)| cut_fits(u128::from(b), n, t))
}

fn cut_fits(b: u128, n: u32, t: u32) -> bool {
    1 <= b && b * u128::from(t) <= u128::from(n)
}

/// "Each dimension now costs (bk - 1) * wk" (document 02, a). To be asked of cuts of 1 or more.
pub fn cost(cuts: &[u32], weights: &[u32]) -> u64 {
    let parts = cuts.iter().zip(weights);
    parts.map(|(&b, &w)| u64::from(b - 1) * u64::from(w)).sum()
}

/// The number of tiles.
pub fn tiles(cuts: &[u32]) -> u128 {
    cuts.iter().map(|&b| u128::from(b)).product()
}

/// The cheapest cuts seen so far; "Ties in cost now go to the smaller number of tiles, and after
/// that to the smaller cut at the first dimension that differs" (document 02, f).
struct Cheapest<'a> {
    weights: &'a [u32],
    found: Option<(u64, u128, Vec<u32>)>,
}

impl<'a> Cheapest<'a> {
    fn among(weights: &'a [u32]) -> Cheapest<'a> {
        Cheapest {
            weights,
            found: None,
        }
    }

    fn consider(&mut self, cuts: &[u32]) {
        let (cost, tiles) = (cost(cuts, self.weights), tiles(cuts));
        let better = match &self.found {
            None => true,
            Some((least, fewest, best)) => (cost, tiles, cuts) < (*least, *fewest, &best[..]),
        };
        if better {
            self.found = Some((cost, tiles, cuts.to_vec()));
        }
    }

    fn cuts(self) -> Option<Vec<u32>> {
        self.found.map(|(_, _, cuts)| cuts)
    }
}

/// How many cut vectors fit: bk is at most nk divided by the least thickness, rounded down.
pub fn fitting(extents: &[u32], least: &[u32]) -> u128 {
    let most = extents.iter().zip(least).map(|(n, t)| n / t);
    most.map(u128::from).product()
}

/// The answer by its definition: of all fitting cuts, the cheapest even ones.
pub fn by_trying_all(p: u32, extents: &[u32], least: &[u32], weights: &[u32]) -> Option<Vec<u32>> {
    let mut cheapest = Cheapest::among(weights);
    let mut cuts = vec![1; extents.len()];
    if !fit(&cuts, extents, least) {
        return None;
    }
    loop {
        if even(p, &cuts) {
            cheapest.consider(&cuts);
        }
        // The next vector, the last dimension running fastest.
        let higher = |k: usize| cut_fits(u128::from(cuts[k]) + 1, extents[k], least[k]);
        let Some(k) = (0..cuts.len()).rev().find(|&k| higher(k)) else {
            return cheapest.cuts();
        };
        cuts[k] += 1;
        cuts[k + 1..].fill(1);
    }
}

/// The answer by trying all divisors of p in every dimension but the last.
///
/// Replacing a cut by its common divisor with p keeps cuts even and makes none larger, so only
/// divisors of p need be tried; and once the others are chosen, the last cut must be a multiple of
/// what each product still lacks, so the least common multiple of these is the only one to try.
pub fn by_divisors(p: u32, extents: &[u32], least: &[u32], weights: &[u32]) -> Option<Vec<u32>> {
    let mut cheapest = Cheapest::among(weights);
    let mut chosen = Vec::new();
    choose_divisors(p, &divisors(p), extents, least, &mut chosen, &mut cheapest);
    cheapest.cuts()
}

fn choose_divisors(
    p: u32,
    divisors: &[u32],
    extents: &[u32],
    least: &[u32],
    chosen: &mut Vec<u32>,
    cheapest: &mut Cheapest,
) {
    let k = chosen.len();
    let fits = |b: u128| cut_fits(b, extents[k], least[k]);
    if k + 1 < extents.len() {
        for &b in divisors.iter().filter(|&&b| fits(u128::from(b))) {
            chosen.push(b);
            choose_divisors(p, divisors, extents, least, chosen, cheapest);
            chosen.pop();
        }
        return;
    }
    let p = u128::from(p);
    let all: u128 = chosen.iter().map(|&b| u128::from(b)).product();
    if !all.is_multiple_of(p) {
        return;
    }
    let lacking = (0..k).map(|j| p / gcd(p, product_without(j, chosen)));
    let last = lacking.fold(1, lcm);
    if fits(last) {
        chosen.push(last as u32);
        cheapest.consider(chosen);
        chosen.pop();
    }
}

/// The answer by the paper's own way (source document 001, section 5.2): all elementary
/// partitionings, which are those of its Lemma 2.
///
/// Taking one factor out of cuts that Lemma 2 rules out leaves even cuts, none larger and one
/// smaller, so that they still fit, cost no more and have fewer tiles; so the cuts chosen are
/// elementary.
pub fn elementary(p: u32, extents: &[u32], least: &[u32], weights: &[u32]) -> Option<Vec<u32>> {
    let d = extents.len();
    let choices: Vec<Vec<Vec<u32>>> = prime_factors(p)
        .into_iter()
        .map(|(prime, times)| {
            let bins = partitions(times, d);
            let powers = |bin: Vec<u32>| bin.into_iter().map(|i| prime.pow(i)).collect();
            bins.into_iter().map(powers).collect()
        })
        .collect();
    let mut cheapest = Cheapest::among(weights);
    combine(&choices, extents, least, vec![1; d], &mut cheapest);
    cheapest.cuts()
}

/// Multiplies one choice for each factor into the cuts, in all ways.
fn combine(
    choices: &[Vec<Vec<u32>>],
    extents: &[u32],
    least: &[u32],
    cuts: Vec<u32>,
    cheapest: &mut Cheapest,
) {
    if !fit(&cuts, extents, least) {
        return;
    }
    let Some((first, rest)) = choices.split_first() else {
        cheapest.consider(&cuts);
        return;
    };
    for powers in first {
        let product = cuts.iter().zip(powers).map(|(b, f)| b * f).collect();
        combine(rest, extents, least, product, cheapest);
    }
}

/// `Partitions` of Figure 2: all ways to put r + m equal factors into d bins, each bin holding at
/// most m and at least two bins holding m, for every possible m.
pub fn partitions(r: u32, d: usize) -> Vec<Vec<u32>> {
    let (r, d) = (i64::from(r), d as i64);
    let mut all = Vec::new();
    for m in (r + d - 2) / (d - 1)..=r {
        fill_bins(r + m, m, 2, d, &mut Vec::new(), &mut all);
    }
    all
}

/// `P` of Figure 2: n factors into the remaining bins, at most m in each, m in at least c of them.
fn fill_bins(n: i64, m: i64, c: i64, bins: i64, chosen: &mut Vec<u32>, all: &mut Vec<Vec<u32>>) {
    if bins == 1 {
        chosen.push(n as u32);
        all.push(chosen.clone());
        chosen.pop();
        return;
    }
    for i in 0.max(n - (bins - 1) * m)..=(m - 1).min(n - c * m) {
        chosen.push(i as u32);
        fill_bins(n - i, m, c, bins - 1, chosen, all);
        chosen.pop();
    }
    if n >= m {
        chosen.push(m as u32);
        fill_bins(n - m, m, 0.max(c - 1), bins - 1, chosen, all);
        chosen.pop();
    }
}

/// Up to this many fitting cut vectors all of them are tried.
pub const TRY_ALL_UP_TO: u128 = 30_000;

/// The planner's choice: by the definition where the grid is small enough, else by the paper's
/// enumeration.
pub fn cheapest(p: u32, extents: &[u32], least: &[u32], weights: &[u32]) -> Option<Vec<u32>> {
    if fitting(extents, least) <= TRY_ALL_UP_TO {
        by_trying_all(p, extents, least, weights)
    } else {
        elementary(p, extents, least, weights)
    }
}

/// All fitting cuts, the first dimension running fastest: of all with 1 <= bk <= nk, those that fit.
#[cfg(test)]
pub fn all_fitting<'a>(
    extents: &'a [u32],
    least: &'a [u32],
) -> impl Iterator<Item = Vec<u32>> + 'a {
    let vectors: u128 = extents.iter().map(|&n| u128::from(n)).product();
    let all = (0..vectors).map(|mut left| -> Vec<u32> {
        let cut = |&n: &u32| {
            let b = 1 + (left % u128::from(n)) as u32;
            left /= u128::from(n);
            b
        };
        extents.iter().map(cut).collect()
    });
    all.filter(|cuts| fit(cuts, extents, least))
}

#[cfg(test)]
mod tests {
    use super::*;
    use crate::plan::Job;
    use crate::random::Random;

    #[test]
    fn evenness_is_of_all_but_one() {
        assert!(even(4, &[2, 2, 2]));
        assert!(even(1, &[1, 1]));
        // p divides the number of tiles, which is not enough.
        assert!(!even(4, &[2, 2, 1]));
        assert!(!even(6, &[2, 3, 1]));
        assert!(even(6, &[2, 3, 6]));
    }

    #[test]
    fn cheapest_even_cuts_that_do_not_fit_are_not_the_end() {
        assert_eq!(
            by_trying_all(6, &[9, 9, 9], &[1; 3], &[1, 1, 1]),
            Some(vec![2, 3, 6])
        );
        assert_eq!(
            by_trying_all(6, &[1, 9, 9], &[1; 3], &[1, 1, 1]),
            Some(vec![1, 6, 6])
        );
        assert_eq!(by_trying_all(2, &[1, 9], &[1; 2], &[1, 1]), None);
    }

    /// "That job becomes 2 2 2", and others that a tie in cost decides.
    #[test]
    fn ties_go_to_fewer_tiles() {
        for (p, extents, weights, cuts) in [
            (4, vec![9; 3], vec![0; 3], vec![2, 2, 2]),
            (4, vec![9; 3], vec![0, 0, 1], vec![4, 4, 1]),
            (12, vec![20; 3], vec![0; 3], vec![2, 6, 6]),
            (36, vec![40; 3], vec![0; 3], vec![6, 6, 6]),
            (8, vec![9; 4], vec![0; 4], vec![2, 2, 2, 2]),
            (8, vec![9; 4], vec![0, 1, 0, 1], vec![8, 1, 8, 1]),
        ] {
            let ones = vec![1; extents.len()];
            assert_eq!(by_trying_all(p, &extents, &ones, &weights), Some(cuts));
        }
        for (p, d, cuts) in [
            (16, 5, vec![2, 2, 2, 2, 2]),
            (4096, 5, vec![8, 8, 8, 8, 8]),
            (3360, 5, vec![1, 2, 4, 420, 420]),
        ] {
            let (extents, ones, weights) = (vec![1_000_000; d], vec![1; d], vec![0; d]);
            assert_eq!(elementary(p, &extents, &ones, &weights), Some(cuts));
        }
    }

    #[test]
    fn ties_in_tiles_go_to_the_first_smaller_cut() {
        assert_eq!(
            by_trying_all(6, &[9, 9, 9], &[1; 3], &[1, 1, 1]),
            Some(vec![2, 3, 6])
        );
        assert_eq!(
            by_trying_all(6, &[9, 9, 9], &[1; 3], &[0, 0, 0]),
            Some(vec![1, 6, 6])
        );
        assert_eq!(
            by_trying_all(30, &[30, 30, 30], &[1; 3], &[0, 0, 0]),
            Some(vec![1, 30, 30])
        );
    }

    #[test]
    fn figure_2_keeps_its_conditions() {
        for d in 2..=5 {
            for r in 1..=12 {
                let all = partitions(r, d);
                assert!(!all.is_empty());
                for bins in &all {
                    let m = *bins.iter().max().unwrap();
                    assert_eq!(bins.iter().sum::<u32>(), r + m);
                    assert!(bins.iter().filter(|&&i| i == m).count() >= 2);
                }
                let mut distinct = all.clone();
                distinct.sort();
                distinct.dedup();
                assert_eq!(distinct.len(), all.len());
            }
        }
        assert_eq!(
            partitions(1, 3),
            [vec![0, 1, 1], vec![1, 0, 1], vec![1, 1, 0]]
        );
    }

    /// A job, some of its weights 0, on a grid so small that all its cuts can be tried. Thicknesses are
    /// all 1, or small, or one of them is anything up to one too large.
    fn small_job(random: &mut Random) -> Job {
        let d = random.between(2, 5) as usize;
        let most = *random.pick(&[12, 36]);
        let p = random.between(1, most) as u32;
        let side = [120, 25, 10, 7][d - 2];
        let extents: Vec<u32> = (0..d).map(|_| random.between(1, side) as u32).collect();
        let most = *random.pick(&[1, 1, 2, 3]);
        let mut least: Vec<u32> = (0..d).map(|_| random.between(1, most) as u32).collect();
        if random.once_in(4) {
            let k = random.between(0, d as u64 - 1) as usize;
            least[k] = random.between(1, u64::from(extents[k]) + 1) as u32;
        }
        let weights = (0..d).map(|_| random.between(0, 5) as u32).collect();
        Job {
            p,
            d: d as u32,
            extents,
            weights,
            least,
        }
    }

    #[test]
    fn three_ways_agree_on_small_grids() {
        let mut random = Random::new(1);
        let (mut refused, mut thin, mut thick) = (0, 0, 0);
        for _ in 0..2000 {
            let Job {
                p,
                extents,
                weights,
                least,
                ..
            } = small_job(&mut random);
            let all = by_trying_all(p, &extents, &least, &weights);
            let context = format!("{p} on {extents:?}, {least:?}, by {weights:?}");
            assert_eq!(by_divisors(p, &extents, &least, &weights), all, "{context}");
            assert_eq!(elementary(p, &extents, &least, &weights), all, "{context}");
            match all {
                None => refused += 1,
                Some(_) if least.iter().all(|&t| t == 1) => thin += 1,
                Some(_) => thick += 1,
            }
        }
        let counts = [refused, thin, thick];
        assert!(counts.iter().all(|&count| count >= 300), "{counts:?}");
    }

    /// The cost before request a of document 02: b1*w1 + ... + bd*wd.
    fn former_cost(cuts: &[u32], weights: &[u32]) -> u64 {
        let parts = cuts.iter().zip(weights);
        parts.map(|(&b, &w)| u64::from(b) * u64::from(w)).sum()
    }

    /// "The chosen cuts don't move, since the sum drops by the same amount for all of them." Here all
    /// cuts up to the extents are gone through.
    #[test]
    fn the_former_cost_chooses_the_same_cuts() {
        let mut random = Random::new(5);
        for _ in 0..2000 {
            let Job {
                p,
                extents,
                weights,
                least,
                ..
            } = small_job(&mut random);
            let all = all_fitting(&extents, &least).filter(|cuts| even(p, cuts));
            let former = all.map(|cuts| (former_cost(&cuts, &weights), tiles(&cuts), cuts));
            let chosen = by_trying_all(p, &extents, &least, &weights);
            let dropped: u64 = weights.iter().map(|&w| u64::from(w)).sum();
            assert_eq!(
                chosen.map(|cuts| (cost(&cuts, &weights) + dropped, tiles(&cuts), cuts)),
                former.min(),
                "{p} on {extents:?}, {least:?}, by {weights:?}"
            );
        }
    }

    /// "Cuts fit only if bk times the least thickness of k is at most nk."
    #[test]
    fn cuts_that_just_fit_and_cuts_one_too_many() {
        assert!(fit(&[2, 2], &[6, 6], &[3, 3]));
        assert!(!fit(&[2, 2], &[6, 5], &[3, 3]));
        assert!(!fit(&[1, 0], &[6, 6], &[1, 1]));
        // Not the thickness of another dimension.
        assert!(fit(&[4, 4, 1], &[8, 8, 8], &[1, 1, 5]));
        assert!(!fit(&[4, 4, 1], &[8, 8, 8], &[1, 5, 1]));
        // Products that 32 bits do not hold: 2 to the power 32, and 4,096 more.
        assert!(!fit(&[2, 1], &[9, 9], &[1 << 31, 1]));
        assert!(!fit(&[4096, 1], &[5000, 9], &[1_048_577, 1]));
        assert!(!fit(&[4096, 1], &[1_000_000, 9], &[u32::MAX, 1]));
        for n in 1..=40 {
            for t in 1..=41 {
                let fits = |b: &u32| fit(&[1, *b], &[1, n], &[1, t]);
                let most = (1..=n).filter(fits).max().unwrap_or(0);
                assert_eq!(most, n / t, "{n} in slabs of {t}");
                assert!(!fits(&(most + 1)));
            }
        }
    }

    #[test]
    fn as_many_fit_as_are_found() {
        let mut random = Random::new(12);
        for _ in 0..200 {
            let Job { extents, least, .. } = small_job(&mut random);
            let found = all_fitting(&extents, &least).count() as u128;
            assert_eq!(fitting(&extents, &least), found, "{extents:?}, {least:?}");
        }
    }

    /// Cuts that request g names, and others that a least thickness moves.
    #[test]
    fn thicknesses_move_cuts() {
        for (p, extents, least, cuts) in [
            (2, vec![6, 6], vec![3, 3], Some(vec![2, 2])),
            (2, vec![6, 5], vec![3, 3], None),
            (4, vec![8; 3], vec![1, 1, 5], Some(vec![4, 4, 1])),
            (4, vec![8; 3], vec![4, 4, 4], Some(vec![2, 2, 2])),
            (4, vec![8; 3], vec![5, 2, 2], Some(vec![1, 4, 4])),
            (6, vec![9; 3], vec![1, 4, 1], Some(vec![3, 2, 6])),
            (36, vec![40; 3], vec![6, 6, 6], Some(vec![6, 6, 6])),
            (36, vec![40; 3], vec![7, 6, 6], None),
            (36, vec![40; 3], vec![20, 2, 2], Some(vec![2, 18, 18])),
            (1, vec![3, 3], vec![4, 1], None),
            (1, vec![3, 3], vec![3, 3], Some(vec![1, 1])),
            (1, vec![3, 3], vec![1, u32::MAX], None),
        ] {
            let ones = vec![1; extents.len()];
            for way in [by_trying_all, by_divisors, elementary, cheapest] {
                let chosen = way(p, &extents, &least, &ones);
                assert_eq!(chosen, cuts, "{p} on {extents:?}, {least:?}");
            }
        }
    }

    #[test]
    fn divisors_and_elementary_agree_on_large_grids() {
        let mut random = Random::new(2);
        let mut found = 0;
        for _ in 0..300 {
            let d = random.between(2, 4) as usize;
            let p = random.between(1, 4096) as u32;
            let most = *random.pick(&[1, 1, 3, 3000]);
            let least: Vec<u32> = (0..d).map(|_| random.between(1, most) as u32).collect();
            let extent = |t: &u32| t * random.between(1, 300) as u32 + t / 2;
            let extents: Vec<u32> = least.iter().map(extent).collect();
            let weights: Vec<u32> = (0..d).map(|_| random.draw() as u32).collect();
            let chosen = elementary(p, &extents, &least, &weights);
            found += usize::from(chosen.is_some());
            assert_eq!(
                chosen,
                by_divisors(p, &extents, &least, &weights),
                "{p} on {extents:?}, {least:?}, by {weights:?}"
            );
        }
        assert!(found >= 50, "{found}");
        let weights = [3, 1, 4, 1, 5];
        for least in [[1; 5], [1, 2, 3, 4, 5]] {
            assert_eq!(
                elementary(360, &[99; 5], &least, &weights),
                by_divisors(360, &[99; 5], &least, &weights)
            );
        }
    }
}

//! The owner question of the hypercube layout over plain lists, by request c of document 02, with its checks in their
//! order: 2 for p, 12 for p and the layout, 8 for the position, 9 for the answer list.

use crate::subject::Returned;

/// The owner of a position; the answer is one number.
pub fn owner(p: u32, position: &[u32], answer: &mut [u32]) -> Returned {
    if !(1..=4096).contains(&p) {
        return 2;
    }
    // A power of four has one bit, with an even number of zeros below it.
    let zeros = p.trailing_zeros();
    if !p.is_power_of_two() || !zeros.is_multiple_of(2) {
        return 12;
    }
    let e = zeros / 2;
    let side = 1 << e;
    let &[i1, i2, i3] = position else {
        return 8;
    };
    if (i1 >= side) | (i2 >= side) | (i3 >= side) {
        return 8;
    }
    let [processor] = answer else {
        return 9;
    };
    let upper = code((i2 + i3) % side);
    let lower = code((i1 + i3) % side);
    *processor = upper << e | lower;
    0
}

/// The reflected Gray code.
#[inline]
fn code(r: u32) -> u32 {
    r ^ (r / 2)
}

#[cfg(test)]
mod tests {
    use super::*;
    use link::questions::{hypercube, lent};
    use oracle::random::Random;

    /// What the oracle puts into a list of so many places.
    fn expected(p: u32, position: &[u32], places: usize) -> Result<u32, Returned> {
        let q = oracle::hypercube::owner(p, position)
            .map_err(|refusal| Returned::from(refusal.number))?;
        if places == 1 {
            Ok(q)
        } else {
            Err(9)
        }
    }

    #[test]
    fn answers_as_the_oracle_gives_them() {
        let mut random = Random::new(17);
        let mut seen = [0; 13];
        for _ in 0..40_000 {
            let (p, position) = hypercube(&mut random);
            let before = lent(&mut random, 1);
            let mut answer = before.clone();
            let returned = owner(p, &position, &mut answer);
            let (told, after) = match expected(p, &position, before.len()) {
                Ok(q) => (0, vec![q]),
                Err(refused) => (refused, before),
            };
            assert_eq!((returned, answer), (told, after), "{p} {position:?}");
            seen[told as usize] += 1;
        }
        assert!([0, 2, 8, 9, 12].iter().all(|&n| seen[n] > 100), "{seen:?}");
    }

    #[test]
    fn every_count() {
        for p in (0..=5000).chain([16_384, 1 << 31, u32::MAX]) {
            let told = expected(p, &[0; 3], 1).map_or_else(|refused| refused, |_| 0);
            assert_eq!(owner(p, &[0; 3], &mut [7]), told, "{p}");
        }
    }
}

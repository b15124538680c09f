//! The hypercube layout (document 02, request c; source document 001, section 2).

use crate::refusal::{self, Refusal};

/// "The hypercube layout of the same section, p = 4 to the power e with e from 0 to 6, is a separate
/// owner question on p and a position: three dimensions of 2 to the power e slabs."
/// Refusals 2, 12 and 8, in this order.
pub fn owner(p: u32, position: &[u32]) -> Result<u32, Refusal> {
    if !refusal::processors_in_range(p) {
        return Err(refusal::PROCESSORS);
    }
    let e = exponent(p).ok_or(refusal::LAYOUT)?;
    let &[i1, i2, i3] = position else {
        return Err(refusal::RANGE);
    };
    if position.iter().any(|&i| i >= slabs(e)) {
        return Err(refusal::RANGE);
    }
    Ok(owner_of(e, [i1, i2, i3]))
}

/// "p = 4 to the power e with e from 0 to 6".
fn exponent(p: u32) -> Option<u32> {
    (0..=6).find(|&e| 4u32.pow(e) == p)
}

/// "Three dimensions of 2 to the power e slabs."
fn slabs(e: u32) -> u32 {
    2u32.pow(e)
}

/// "The owner is the code of (i2 + i3) in the upper e bits and that of (i1 + i3) in the lower, both
/// sums modulo 2 to the power e."
fn owner_of(e: u32, [i1, i2, i3]: [u32; 3]) -> u32 {
    let upper = code((i2 + i3) % slabs(e));
    let lower = code((i1 + i3) % slabs(e));
    upper << e | lower
}

/// "It uses the reflected Gray code, in which r becomes r exclusive-or floor(r/2)."
fn code(r: u32) -> u32 {
    r ^ (r / 2)
}

#[cfg(test)]
mod tests {
    use super::*;

    /// The reflected Gray code of e bits, by reflection: that of e - 1 bits, and then the same
    /// backwards with the top bit set.
    fn reflected(e: u32) -> Vec<u32> {
        if e == 0 {
            return vec![0];
        }
        let list = reflected(e - 1);
        let mirrored = list.iter().rev().map(|code| code + slabs(e - 1));
        list.iter().copied().chain(mirrored).collect()
    }

    #[test]
    fn two_ways_to_the_code() {
        assert_eq!(reflected(2), [0, 1, 3, 2]);
        assert_eq!(reflected(3), [0, 1, 3, 2, 6, 7, 5, 4]);
        for e in 0..=12 {
            assert!((0..slabs(e)).map(code).eq(reflected(e)));
        }
    }

    /// "g(r) and g((r + 1) mod 2^s) differ in exactly one bit position" (001, section 2).
    #[test]
    fn codes_of_neighbours_differ_in_one_bit() {
        for e in 1..=6 {
            for r in 0..slabs(e) {
                let next = code((r + 1) % slabs(e));
                assert_eq!((code(r) ^ next).count_ones(), 1);
            }
        }
    }

    #[test]
    fn figures() {
        let figures = [
            (1, [0, 0, 0], 0),
            (4, [1, 0, 1], 2),
            (16, [3, 0, 2], 13),
            (16, [1, 2, 3], 4),
            (64, [5, 6, 7], 62),
            (4096, [63, 63, 63], 2145),
            (4096, [0, 0, 63], 2080),
        ];
        for (p, position, q) in figures {
            assert_eq!(owner(p, &position), Ok(q), "{p}, {position:?}");
        }
    }

    #[test]
    fn refusals_in_order() {
        for p in [0, 4097, 16384, u32::MAX] {
            assert_eq!(owner(p, &[]), Err(refusal::PROCESSORS));
            assert_eq!(owner(p, &[0; 3]), Err(refusal::PROCESSORS));
        }
        for p in [2, 3, 5, 8, 32, 2048, 4095] {
            assert_eq!(owner(p, &[9; 2]), Err(refusal::LAYOUT));
            assert_eq!(owner(p, &[0; 3]), Err(refusal::LAYOUT));
        }
        for position in [&[][..], &[0], &[0; 2], &[0; 4], &[0; 5]] {
            assert_eq!(owner(16, position), Err(refusal::RANGE));
        }
        for e in 0..=6 {
            for k in 0..3 {
                for number in [slabs(e), u32::MAX] {
                    let mut position = [0; 3];
                    position[k] = number;
                    assert_eq!(owner(4u32.pow(e), &position), Err(refusal::RANGE));
                    position[k] = slabs(e) - 1;
                    assert!(owner(4u32.pow(e), &position).is_ok());
                }
            }
        }
    }

    /// "p = 4 to the power e with e from 0 to 6": these seven counts and no other.
    #[test]
    fn powers_of_four_suit_the_layout() {
        let suit = (0..=5000).filter(|&p| owner(p, &[0; 3]).is_ok());
        assert!(suit.eq([1, 4, 16, 64, 256, 1024, 4096]));
    }

    fn positions(e: u32) -> impl Iterator<Item = [u32; 3]> {
        let side = slabs(e);
        (0..side.pow(3)).map(move |n| [n / side / side, n / side % side, n % side])
    }

    /// The owner with the code found by reflection and the two halves put together by counting.
    #[test]
    fn owners_by_reflection() {
        for e in 0..=6 {
            let (p, side, codes) = (4u32.pow(e), slabs(e), reflected(e));
            let code = |sum: u32| codes[(sum % side) as usize];
            for position in positions(e) {
                let [i1, i2, i3] = position;
                let expected = code(i2 + i3) * side + code(i1 + i3);
                assert!(expected < p);
                assert_eq!(owner(p, &position), Ok(expected), "{p}, {position:?}");
            }
        }
    }

    /// "Owners of hypercube tiles with a common face along i1 or along i2 differ in just one bit and
    /// along i3 in just two."
    #[test]
    fn bits_across_faces() {
        for e in 0..=6 {
            let p = 4u32.pow(e);
            for position in positions(e) {
                let mine = owner(p, &position).unwrap();
                for (k, bits) in [1, 1, 2].into_iter().enumerate() {
                    let mut above = position;
                    above[k] += 1;
                    // "Opposite ends of the grid don't touch."
                    if above[k] == slabs(e) {
                        continue;
                    }
                    let theirs = owner(p, &above).unwrap();
                    assert_eq!((mine ^ theirs).count_ones(), bits, "{p}, {position:?}");
                }
            }
        }
    }
}

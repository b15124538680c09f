//! Moduli and matrix ("Owners"; source document 001, equation 1 and section 6).

use crate::numbers::gcd;

/// Equation 1: mi = gcd(p, bi * ... * bd) / gcd(p, b(i+1) * ... * bd), an empty product being 1.
pub fn moduli(p: u32, cuts: &[u32]) -> Vec<u32> {
    let p = u128::from(p);
    let from = |i: usize| cuts[i..].iter().map(|&b| u128::from(b)).product::<u128>();
    (0..cuts.len())
        .map(|i| (gcd(p, from(i)) / gcd(p, from(i + 1))) as u32)
        .collect()
}

/// The matrix over whole numbers, every row finished, none reduced yet. Rows and columns are
/// counted from 0 here, so that the paper's row i is row i - 1.
pub fn whole_matrix(cuts: &[u32], moduli: &[u32]) -> Vec<Vec<i128>> {
    let d = cuts.len();
    let start = |i: usize, j: usize| i128::from(j == 0 || j == i);
    let mut rows: Vec<Vec<i128>> = (0..d)
        .map(|i| (0..d).map(|j| start(i, j)).collect())
        .collect();
    for i in 1..d {
        let mut r = u128::from(moduli[i]);
        for j in (1..i).rev() {
            let t = r / gcd(r, u128::from(cuts[j]));
            let finished = rows[j].clone();
            for (entry, taken) in rows[i].iter_mut().zip(finished) {
                *entry -= t as i128 * taken;
            }
            r = gcd(t * u128::from(moduli[j]), r);
        }
    }
    rows
}

/// "After the last row, each row i is replaced by its remainders modulo mi, from 0 to mi - 1."
pub fn matrix(cuts: &[u32], moduli: &[u32]) -> Vec<Vec<u32>> {
    let reduce = |row: Vec<i128>, m: u32| -> Vec<u32> {
        let remainders = row.into_iter().map(|entry| entry.rem_euclid(i128::from(m)));
        remainders.map(|entry| entry as u32).collect()
    };
    let rows = whole_matrix(cuts, moduli).into_iter().zip(moduli);
    rows.map(|(row, &m)| reduce(row, m)).collect()
}

#[cfg(test)]
mod tests {
    use super::*;

    #[test]
    fn equation_1() {
        assert_eq!(moduli(4, &[2, 2, 2]), [1, 2, 2]);
        assert_eq!(moduli(6, &[2, 3, 6]), [1, 1, 6]);
        assert_eq!(moduli(6, &[6, 6, 1]), [1, 6, 1]);
        assert_eq!(moduli(8, &[2, 4, 4]), [1, 2, 4]);
        // 000, example of 30 processors.
        assert_eq!(moduli(30, &[10, 15, 6]), [1, 5, 6]);
    }

    #[test]
    fn rows_of_the_grids_to_try() {
        assert_eq!(matrix(&[2, 2], &moduli(2, &[2, 2]))[1], [1, 1]);
        assert_eq!(
            matrix(&[2, 2, 2], &[1, 2, 2]),
            [[0, 0, 0], [1, 1, 0], [0, 1, 1]]
        );
        assert_eq!(matrix(&[1, 5, 5], &moduli(5, &[1, 5, 5]))[2], [0, 4, 1]);
        assert_eq!(matrix(&[2, 3, 6], &[1, 1, 6])[2], [5, 4, 1]);
        assert_eq!(matrix(&[2, 4, 4], &[1, 2, 4])[2], [0, 3, 1]);
    }

    #[test]
    fn the_papers_example_of_thirty_processors() {
        // (i, j, k) -> (i + j mod 5, k - i - 2j mod 6)
        let rows = whole_matrix(&[10, 15, 6], &[1, 5, 6]);
        assert_eq!(rows[1], [1, 1, 0]);
        assert_eq!(rows[2], [-1, -2, 1]);
    }
}

//! Common divisors, prime factors and divisors, by the schoolbook.

/// The greatest common divisor; that of 0 and n is n.
pub fn gcd(a: u128, b: u128) -> u128 {
    if b == 0 {
        a
    } else {
        gcd(b, a % b)
    }
}

/// The least common multiple of two numbers above 0.
pub fn lcm(a: u128, b: u128) -> u128 {
    a / gcd(a, b) * b
}

/// The prime factors of n with the number of times each appears, by trial division.
pub fn prime_factors(n: u32) -> Vec<(u32, u32)> {
    let mut factors = Vec::new();
    let mut left = n;
    let mut prime = 2;
    while left > 1 {
        let mut times = 0;
        while left.is_multiple_of(prime) {
            left /= prime;
            times += 1;
        }
        if times > 0 {
            factors.push((prime, times));
        }
        prime += 1;
    }
    factors
}

/// The divisors of n in rising order, by trying every number.
pub fn divisors(n: u32) -> Vec<u32> {
    (1..=n).filter(|&b| n.is_multiple_of(b)).collect()
}

#[cfg(test)]
mod tests {
    use super::*;

    #[test]
    fn common_divisors() {
        assert_eq!(gcd(12, 18), 6);
        assert_eq!(gcd(0, 7), 7);
        assert_eq!(gcd(7, 0), 7);
        assert_eq!(lcm(4, 6), 12);
    }

    #[test]
    fn factors_multiply_back() {
        for n in 1..=4096 {
            let product: u32 = prime_factors(n).iter().map(|&(f, r)| f.pow(r)).product();
            assert_eq!(product, n);
        }
        assert_eq!(prime_factors(2520), [(2, 3), (3, 2), (5, 1), (7, 1)]);
    }

    #[test]
    fn divisors_of_twelve() {
        assert_eq!(divisors(12), [1, 2, 3, 4, 6, 12]);
        assert_eq!(divisors(1), [1]);
    }
}

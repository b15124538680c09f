//! The smallest share of the machine that is refused too, by request j of document 02, with its checks in their order: 1
//! for d, 2 for p, 3, 4 and 13 for the lists, 9 for the answer list. The answer is 1 and the share, or 0 0 if the job is
//! accepted.

use crate::planning::{divisors, fitting, remembered};
use crate::subject::Returned;

/// Plans the job for each divisor of p, in rising order, until it is refused with 5.
pub fn by_plans(
    p: u32,
    d: u32,
    extents: &[u32],
    weights: &[u32],
    least: &[u32],
    answer: &mut [u32],
) -> Returned {
    let refusal = |x| remembered(x, d, extents, weights, least).err();
    smallest_refused(p, answer, refusal)
}

/// The same, where of each divisor it is only asked whether some cuts fit.
pub fn by_fitting(
    p: u32,
    d: u32,
    extents: &[u32],
    weights: &[u32],
    least: &[u32],
    answer: &mut [u32],
) -> Returned {
    let refusal = |x| fitting(x, d, extents, weights, least).err();
    smallest_refused(p, answer, refusal)
}

/// The first divisor of p with a refusal, where p itself has refusal 5.
#[inline(always)]
fn smallest_refused(
    p: u32,
    answer: &mut [u32],
    refusal: impl Fn(u32) -> Option<(u32, u32)>,
) -> Returned {
    let told = match refusal(p) {
        None => [0, 0],
        Some((5, _)) => {
            let (list, count) = divisors(p);
            let smaller = list[..count - 1].iter();
            let first = smaller.copied().find(|&x| refusal(x).is_some());
            [1, first.unwrap_or(p)]
        }
        Some((number, place)) => return u64::from(number) | u64::from(place) << 32,
    };
    let Ok(list) = <&mut [u32; 2]>::try_from(answer) else {
        return 9;
    };
    *list = told;
    0
}

#[cfg(test)]
mod tests {
    use super::*;
    use crate::jobs::{any_shares, hard_shares, Job};
    use crate::subject::JobCall;

    const WAYS: [JobCall; 2] = [by_plans, by_fitting];

    /// What the oracle returns and leaves in a lent list.
    fn expected(job: &Job, lent: &[u32]) -> (Returned, Vec<u32>) {
        match job.smallest_refused() {
            Err(refusal) => {
                let returned = u64::from(refusal.number) | (refusal.place as u64) << 32;
                (returned, lent.to_vec())
            }
            Ok(_) if lent.len() != 2 => (9, lent.to_vec()),
            Ok(share) => (0, vec![u32::from(share.is_some()), share.unwrap_or(0)]),
        }
    }

    #[test]
    fn shares_as_the_oracle_finds_them() {
        let mut seen = [0; 14];
        // Nothing to show, a share below p, p itself.
        let mut shown = [0; 3];
        for (job, lent) in any_shares(17, 6000) {
            let expected = expected(&job, &lent);
            for way in WAYS {
                let mut answer = lent.clone();
                let [extents, weights, least] = [&job.extents, &job.weights, &job.least];
                let returned = way(job.p, job.d, extents, weights, least, &mut answer);
                assert_eq!((returned, answer), expected, "{job:?}");
            }
            let (returned, answer) = expected;
            seen[returned as u32 as usize] += 1;
            if returned == 0 {
                let kind = answer[0] + u32::from(answer[1] == job.p);
                shown[kind as usize] += 1;
            }
        }
        let met = [0, 1, 2, 3, 4, 9, 13];
        assert!(met.iter().all(|&n| seen[n] > 20), "{seen:?}");
        assert_eq!(seen[5], 0);
        assert!(shown.iter().all(|&n| n > 500), "{shown:?}");
    }

    /// The jobs that take long are refused for p alone, so that every divisor is tried.
    #[test]
    fn hard_shares_are_refused_for_p_alone() {
        for job in hard_shares() {
            assert_eq!(job.smallest_refused(), Ok(Some(job.p)), "{job:?}");
            let [extents, weights, least] = [&job.extents, &job.weights, &job.least];
            for way in WAYS {
                let mut answer = [0; 2];
                let returned = way(job.p, job.d, extents, weights, least, &mut answer);
                assert_eq!((returned, answer), (0, [1, job.p]), "{job:?}");
            }
        }
    }
}

//! The smallest share of the machine that still won't fit (document 02, request j).

use crate::plan::{plan_job, Job};
use crate::refusal::{self, Refusal};

impl Job {
    pub fn smallest_refused(&self) -> Result<Option<u32>, Refusal> {
        smallest_refused(self.p, self.d, &self.extents, &self.weights, &self.least)
    }
}

/// "A user refused with 5 wants to know how far down to go. For such a job the planner gives the
/// smallest divisor of p for which the same job is refused with 5. For an accepted job it answers that
/// there is nothing to show; other refusals come back as before." Nothing to show is `None`.
pub fn smallest_refused(
    p: u32,
    d: u32,
    extents: &[u32],
    weights: &[u32],
    least: &[u32],
) -> Result<Option<u32>, Refusal> {
    let same_job = |x: u32| plan_job(x, d, extents, weights, least);
    match same_job(p) {
        Ok(_) => Ok(None),
        Err(refusal::NO_CUTS) => {
            let refused = |x: u32| same_job(x) == Err(refusal::NO_CUTS);
            Ok((1..=p).find(|&x| p.is_multiple_of(x) && refused(x)))
        }
        Err(refusal) => Err(refusal),
    }
}

#[cfg(test)]
mod tests {
    use super::*;
    use crate::cuts::{all_fitting, even};
    use crate::numbers::divisors;
    use crate::plan::thicknesses;
    use crate::random::Random;
    use crate::{cases, text};

    /// A grid with weights of 1 and these least thicknesses.
    fn thick(p: u32, extents: &[u32], least: &[u32]) -> Result<Option<u32>, Refusal> {
        let weights = vec![1; extents.len()];
        smallest_refused(p, extents.len() as u32, extents, &weights, least)
    }

    fn grid(p: u32, extents: &[u32]) -> Result<Option<u32>, Refusal> {
        let none = thick(p, extents, &[]);
        assert_eq!(thick(p, extents, &vec![1; extents.len()]), none);
        none
    }

    /// "For p = 12 on a grid of 5 by 5 with unit thicknesses, the answer is 6", and others.
    #[test]
    fn figures() {
        assert_eq!(grid(12, &[5, 5]), Ok(Some(6)));
        assert_eq!(grid(12, &[9, 9]), Ok(Some(12)));
        assert_eq!(grid(12, &[12, 12]), Ok(None));
        assert_eq!(grid(12, &[1, 12]), Ok(Some(2)));
        assert_eq!(grid(12, &[2, 12]), Ok(Some(3)));
        assert_eq!(grid(4096, &[4096, 4095]), Ok(Some(4096)));
        assert_eq!(grid(4096, &[4096, 4096]), Ok(None));
        assert_eq!(grid(4093, &[4092; 5]), Ok(Some(4093)));
        assert_eq!(grid(30, &[5, 5, 5]), Ok(Some(6)));
        assert_eq!(grid(60, &[6, 6, 6]), Ok(Some(10)));
        assert_eq!(grid(3360, &[20, 20, 20]), Ok(Some(21)));
        assert_eq!(grid(4095, &[63, 64, 65]), Ok(Some(91)));
        assert_eq!(thick(2, &[3, 3], &[4, 1]), Ok(Some(1)));
        assert_eq!(thick(2, &[3, 3], &[3, 1]), Ok(Some(2)));
        assert_eq!(thick(2520, &[50; 4], &[3; 4]), Ok(Some(252)));
        // The jobs of document 01 and of request g.
        assert_eq!(grid(2, &[1, 9]), Ok(Some(2)));
        assert_eq!(grid(4, &[1, 3, 9]), Ok(Some(4)));
        assert_eq!(thick(2, &[6, 5], &[3, 3]), Ok(Some(2)));
        assert_eq!(thick(2, &[6, 6], &[3, 3]), Ok(None));
    }

    /// A thickness above its extent: then no count is accepted, and 1 divides every p.
    #[test]
    fn a_lone_processor_may_be_refused() {
        for p in [1, 2, 7, 12, 4095, 4096] {
            assert_eq!(thick(p, &[3, 3], &[4, 1]), Ok(Some(1)));
            assert_eq!(thick(p, &[3, 3, 3], &[1, 1, u32::MAX]), Ok(Some(1)));
            assert_eq!(
                thick(p, &[1_000_000; 5], &[1, 1, 1, 1_000_001, 1]),
                Ok(Some(1))
            );
        }
        for d in 2..=5 {
            assert_eq!(grid(1, &vec![1; d]), Ok(None));
            assert_eq!(thick(1, &vec![7; d], &vec![7; d]), Ok(None));
        }
    }

    /// "Other refusals come back as before": 1, 2, 3, 4 and 13, in this order, also where no cuts fit.
    #[test]
    fn other_refusals() {
        let job = smallest_refused;
        for d in [0, 1, 6, u32::MAX] {
            assert_eq!(job(0, d, &[], &[], &[0]), Err(refusal::DIMENSIONS));
        }
        for p in [0, 4097, u32::MAX] {
            assert_eq!(job(p, 2, &[0], &[], &[0]), Err(refusal::PROCESSORS));
            assert_eq!(grid(p, &[5, 5]), Err(refusal::PROCESSORS));
        }
        assert_eq!(job(12, 2, &[0], &[1; 2], &[]), Err(refusal::LENGTHS));
        assert_eq!(job(12, 2, &[5; 2], &[1; 3], &[]), Err(refusal::LENGTHS));
        for length in [1, 3, 4, 5, 6] {
            let least = vec![0; length];
            assert_eq!(thick(12, &[0, 0], &least), Err(refusal::LENGTHS));
        }
        assert_eq!(grid(12, &[5, 0]), Err(Refusal::at(4, 2)));
        assert_eq!(grid(12, &[0, 0]), Err(Refusal::at(4, 1)));
        assert_eq!(thick(12, &[5, 1_000_001], &[0, 0]), Err(Refusal::at(4, 2)));
        assert_eq!(thick(12, &[5, 5], &[0, 0]), Err(Refusal::at(13, 1)));
        assert_eq!(thick(12, &[5, 5], &[6, 0]), Err(Refusal::at(13, 2)));
        assert_eq!(thick(12, &[12, 12], &[1, 0]), Err(Refusal::at(13, 2)));
    }

    fn crowded(random: &mut Random) -> Job {
        text::job(&cases::crowded(random)).expect("a readable line")
    }

    /// Whether some even cuts fit, by the definitions of both.
    fn some_cuts(p: u32, job: &Job) -> bool {
        let least = thicknesses(job.d, &job.least);
        let mut all = all_fitting(&job.extents, &least);
        all.any(|cuts| even(p, &cuts))
    }

    /// Against the definition of refusal 5, with no planner between, on small grids.
    #[test]
    fn by_the_definition_of_refusal_5() {
        let mut random = Random::new(20);
        let mut shown = 0;
        for _ in 0..1500 {
            let job = crowded(&mut random);
            let vectors: u128 = job.extents.iter().map(|&n| u128::from(n)).product();
            if vectors > 2_000 {
                continue;
            }
            let Ok(answer) = job.smallest_refused() else {
                continue;
            };
            let mut refused = divisors(job.p);
            refused.retain(|&x| !some_cuts(x, &job));
            assert_eq!(answer, refused.first().copied(), "{job:?}");
            assert_eq!(answer.is_some(), refused.contains(&job.p), "{job:?}");
            shown += usize::from(answer.is_some());
        }
        assert!(shown >= 300, "{shown}");
    }

    /// What follows from the definition: every smaller divisor of p is accepted, every divisor of p that
    /// the answer divides is refused with 5, and weights do not matter.
    #[test]
    fn smaller_divisors_and_multiples() {
        let mut random = Random::new(21);
        let (mut shown, mut multiples) = (0, 0);
        for _ in 0..200 {
            let job = crowded(&mut random);
            let Ok(Some(answer)) = job.smallest_refused() else {
                continue;
            };
            shown += 1;
            assert!(job.p.is_multiple_of(answer), "{job:?}");
            let with = |p: u32| Job { p, ..job.clone() };
            for x in divisors(job.p) {
                let told = with(x).smallest_refused();
                if x < answer {
                    assert_eq!(told, Ok(None), "{x}, {job:?}");
                }
                if x.is_multiple_of(answer) {
                    assert_eq!(told, Ok(Some(answer)), "{x}, {job:?}");
                    multiples += 1;
                }
            }
            let others = Job {
                weights: job.weights.iter().map(|_| random.draw() as u32).collect(),
                ..job.clone()
            };
            assert_eq!(others.smallest_refused(), Ok(Some(answer)), "{job:?}");
        }
        assert!(shown >= 100 && multiples >= 200, "{shown}, {multiples}");
    }
}

//! The printed plan.

use std::fmt::Write;

use crate::neighbours::neighbour_of;
use crate::plan::Plan;
use crate::refusal::Refusal;
use crate::text;

/// What the program prints for an input: the plan, or the refusal.
pub fn answer(input: &[u8]) -> String {
    match plan_of(input) {
        Ok(plan) => printed(&plan),
        Err(refusal) => refused(refusal),
    }
}

/// "A refusal prints `refused N PLACE` alone."
pub fn refused(refusal: Refusal) -> String {
    format!("refused {} {}\n", refusal.number, refusal.place)
}

/// What the program says on standard error of an input that it can read: one line for a job refused
/// with 5, and nothing for any other.
pub fn remark(input: &[u8]) -> String {
    match text::job(input).and_then(|job| job.smallest_refused()) {
        Ok(Some(divisor)) => format!(
            "plan: no cuts that fit this grid give every processor equally many tiles in every slab; \
             the smallest divisor of p for which none do is {divisor}\n"
        ),
        Ok(None) | Err(_) => String::new(),
    }
}

/// "After the text come the job checks."
pub fn plan_of(input: &[u8]) -> Result<Plan, Refusal> {
    text::job(input)?.plan()
}

/// What is printed for a plan, which may be out of shape.
pub fn printed(plan: &Plan) -> String {
    match plan.check_shape() {
        Ok(()) => lines(plan),
        Err(refusal) => refused(refusal),
    }
}

/// "The lines are: p and d; cuts; cost; moduli; d matrix rows; and for each dimension its number and
/// the upward neighbours of processors 0 to p-1, or `none` in their stead." None names the kind or the
/// least thicknesses.
fn lines(plan: &Plan) -> String {
    let d = plan.dimensions();
    let mut out = String::new();
    line(&mut out, "plan", &[plan.p, plan.d]);
    line(&mut out, "cuts", &plan.cuts[..d]);
    writeln!(out, "cost {}", plan.cost).unwrap();
    line(&mut out, "mod", &plan.moduli[..d]);
    for row in &plan.matrix[..d] {
        line(&mut out, "row", &row[..d]);
    }
    for k in 0..d {
        let up: Option<Vec<u32>> = (0..plan.p)
            .map(|q| neighbour_of(plan, q, k, true))
            .collect();
        match up {
            Some(above) => line(&mut out, &format!("up {}", k + 1), &above),
            None => writeln!(out, "up {} none", k + 1).unwrap(),
        }
    }
    out
}

fn line(out: &mut String, word: &str, numbers: &[u32]) {
    out.push_str(word);
    for number in numbers {
        write!(out, " {number}").unwrap();
    }
    out.push('\n');
}

#[cfg(test)]
mod tests {
    use super::*;
    use crate::diagonal::diagonal_job;
    use crate::plan::plan_job;

    #[test]
    fn the_example() {
        let expected = "plan 4 3\ncuts 2 2 2\ncost 3\nmod 1 2 2\n\
            row 0 0 0\nrow 1 1 0\nrow 0 1 1\n\
            up 1 2 3 0 1\nup 2 3 2 1 0\nup 3 1 0 3 2\n";
        assert_eq!(answer(b"4 3 8 8 8 1 1 1\n"), expected);
    }

    #[test]
    fn no_neighbours() {
        let expected = "plan 1 2\ncuts 1 1\ncost 0\nmod 1 1\nrow 0 0\nrow 0 0\n\
            up 1 none\nup 2 none\n";
        assert_eq!(answer(b"1 2 1 1 5 7\n"), expected);
        let diagonal = diagonal_job(1, 2, &[1, 1], &[5, 7], &[]).unwrap();
        assert_eq!(printed(&diagonal), expected);
    }

    #[test]
    fn diagonal_plans() {
        let plan = diagonal_job(4, 3, &[8; 3], &[1; 3], &[]).unwrap();
        let expected = "plan 4 3\ncuts 2 2 2\ncost 3\nmod 1 2 2\n\
            row 0 0 0\nrow 1 0 1\nrow 0 1 1\n\
            up 1 2 3 0 1\nup 2 1 0 3 2\nup 3 3 2 1 0\n";
        assert_eq!(printed(&plan), expected);
        let plan = diagonal_job(3, 2, &[9; 2], &[1; 2], &[]).unwrap();
        let expected = "plan 3 2\ncuts 3 3\ncost 4\nmod 1 3\nrow 0 0\nrow 1 2\n\
            up 1 1 2 0\nup 2 2 0 1\n";
        assert_eq!(printed(&plan), expected);
    }

    /// "The printed plan" has no line for the kind, and "a kind above 1 is a 6".
    #[test]
    fn the_kind_is_not_printed() {
        let mut plan = plan_job(4, 3, &[8; 3], &[1; 3], &[]).unwrap();
        let lines = printed(&plan);
        plan.kind = 1;
        assert_eq!(printed(&plan), lines);
        for kind in [2, 3, u32::MAX] {
            plan.kind = kind;
            assert_eq!(printed(&plan), "refused 6 0\n");
        }
    }

    /// "With p = 2 and thickness 3 both ways, 6 6 is cut 2 2 and 6 5 gives 5."
    #[test]
    fn thicknesses() {
        let expected = "plan 2 2\ncuts 2 2\ncost 2\nmod 1 2\nrow 0 0\nrow 1 1\n\
            up 1 1 0\nup 2 1 0\n";
        assert_eq!(answer(b"2 2 6 6 1 1 3 3\n"), expected);
        assert_eq!(answer(b"2 2 6 6 1 1\n"), expected);
        assert_eq!(answer(b"2 2 6 5 1 1 3 3\n"), "refused 5 0\n");
        let figures: [(&[u8], &str); 6] = [
            (b"4 3 8 8 8 1 1 1 1 1 5\n", "cuts 4 4 1\ncost 6\n"),
            (b"4 3 8 8 8 1 1 1 4 4 4\n", "cuts 2 2 2\ncost 3\n"),
            (b"4 3 8 8 8 1 1 1 5 2 2\n", "cuts 1 4 4\ncost 6\n"),
            (b"6 3 9 9 9 1 1 1 1 4 1\n", "cuts 3 2 6\ncost 8\n"),
            (b"36 3 40 40 40 1 1 1 6 6 6\n", "cuts 6 6 6\ncost 15\n"),
            (b"36 3 40 40 40 1 1 1 20 2 2\n", "cuts 2 18 18\ncost 35\n"),
        ];
        for (line, lines) in figures {
            assert!(answer(line).contains(lines), "{lines}");
        }
        assert_eq!(answer(b"36 3 40 40 40 1 1 1 7 6 6\n"), "refused 5 0\n");
        assert_eq!(answer(b"1 2 3 3 1 1 4 1\n"), "refused 5 0\n");
    }

    #[test]
    fn refusals() {
        assert_eq!(answer(b"4 3 8 8 8 1 1 1"), "refused 10 16\n");
        assert_eq!(answer(b"0 6\n"), "refused 1 0\n");
        assert_eq!(answer(b"0 5\n"), "refused 2 0\n");
        assert_eq!(answer(b"4097 2 1 1 1 1\n"), "refused 2 0\n");
        assert_eq!(answer(b"4 3 8 8 8 1 1\n"), "refused 3 0\n");
        assert_eq!(answer(b"4 2 8 0 1 1\n"), "refused 4 2\n");
        assert_eq!(answer(b"2 2 1 9 1 1\n"), "refused 5 0\n");
        // "Refusal 3 means neither 2*d nor 3*d after d."
        assert_eq!(answer(b"2 2 6 6 1 1 3\n"), "refused 3 0\n");
        assert_eq!(answer(b"2 2 6 6 1 1 3 3 3\n"), "refused 3 0\n");
        assert_eq!(answer(b"4 3 8 8 8 1 1 1 1 1\n"), "refused 3 0\n");
        // "13 [...] after 4 and before 5."
        assert_eq!(answer(b"2 2 6 0 1 1 0 3\n"), "refused 4 2\n");
        assert_eq!(answer(b"2 2 6 6 1 1 0 3\n"), "refused 13 1\n");
        assert_eq!(answer(b"2 2 1 9 1 1 3 0\n"), "refused 13 2\n");
        // Seventeen numbers are read, and no more.
        let seventeen = answer(b"2 5 9 9 9 9 9 1 1 1 1 1 1 1 1 1 1\n");
        assert!(seventeen.starts_with("plan 2 5\n"));
        assert_eq!(
            answer(b"2 5 9 9 9 9 9 1 1 1 1 1 1 1 1 1 1 1\n"),
            "refused 10 34\n"
        );
    }

    /// "The smallest divisor of p for which the same job is refused with 5" (document 02, j).
    #[test]
    fn remarks() {
        assert_eq!(
            remark(b"12 2 5 5 1 1\n"),
            "plan: no cuts that fit this grid give every processor equally many tiles in every slab; \
             the smallest divisor of p for which none do is 6\n"
        );
        let figures: [(&[u8], &str); 5] = [
            (b"2 2 3 3 1 1 4 1\n", " is 1\n"),
            (b"12 2 9 9 1 1\n", " is 12\n"),
            (b"3360 3 20 20 20 1 1 1\n", " is 21\n"),
            (b"4096 2 4096 4095 1 1\n", " is 4096\n"),
            (b"2 2 6 5 1 1 3 3\n", " is 2\n"),
        ];
        for (line, end) in figures {
            assert_eq!(answer(line), "refused 5 0\n");
            let remark = remark(line);
            assert!(remark.ends_with(end), "{remark}");
            assert_eq!(remark.lines().count(), 1, "{remark}");
        }
        let others: [&[u8]; 9] = [
            b"",
            b"12 2 12 12 1 1\n",
            b"12 2 5 5 1 1",
            b"0 6\n",
            b"0 5\n",
            b"12 2 5 5 1\n",
            b"12 2 5 0 1 1\n",
            b"12 2 5 5 1 1 1 0\n",
            b"12 2 5 5 1 1 \n",
        ];
        for line in others {
            assert_eq!(remark(line), "");
        }
    }
}

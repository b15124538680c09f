//! The slab sheet for the job folder (document 02, request k).

use crate::plan::Plan;
use crate::print;
use crate::refusal::{self, Refusal};
use crate::slabs::thickness;

/// "A page has 50 lines."
pub const LINES: usize = 50;
/// "A lent list of exactly 3,650 bytes": fifty lines of 72 columns and a newline.
pub const LENGTH: usize = 3650;

/// "A call writes one page, counted from 0, into a lent list of exactly 3,650 bytes. A page past the
/// one with the last slab is an 8, and a list of another length is a 9." Refused with 6, 7, 8 or 9, the
/// list keeps its contents.
pub fn slab_sheet(
    plan: &Plan,
    dimension: u32,
    page: u32,
    caption: &[u8],
    sheet: &mut [u8],
) -> Result<(), Refusal> {
    let pages = pages(plan, dimension, caption)?;
    let text = pages.get(page as usize).ok_or(refusal::RANGE)?;
    if sheet.len() != LENGTH {
        return Err(refusal::LIST);
    }
    sheet.copy_from_slice(text.as_bytes());
    Ok(())
}

/// All pages of a dimension: the lines of its slabs, and as many blank ones as fill the last page.
pub fn pages(plan: &Plan, dimension: u32, caption: &[u8]) -> Result<Vec<String>, Refusal> {
    plan.check_shape()?;
    let k = plan.check_dimension(dimension)?;
    let mut lines = slab_lines(plan, k, caption);
    while !lines.len().is_multiple_of(LINES) {
        lines.push(format!("{:72}\n", ""));
    }
    Ok(lines.chunks(LINES).map(<[String]>::concat).collect())
}

/// "Columns 1 to 6 hold the slab, 8 to 15 its first element, 17 to 24 the element after its last, 26 to
/// 33 the tiles per processor, all right-aligned; 35 to 72 hold the call's caption, the same on each
/// slab's line, left-aligned."
fn slab_lines(plan: &Plan, k: usize, caption: &[u8]) -> Vec<String> {
    let share = tiles_per_processor(plan, k);
    let right_columns = format!("{share:>8} {:<38}", shown(caption));
    let mut first = 0;
    let line = |slab| {
        let after = first + thickness(plan, k, slab);
        let line = format!("{slab:>6} {first:>8} {after:>8} {right_columns}\n");
        first = after;
        line
    };
    (0..plan.cuts[k]).map(line).collect()
}

/// "Tiles per processor is exactly tiles / (bk * p); for any other plan the figure is that quotient
/// rounded down."
fn tiles_per_processor(plan: &Plan, k: usize) -> u128 {
    plan.tiles() / (u128::from(plan.cuts[k]) * u128::from(plan.p))
}

/// "A caption byte outside 32 to 126 shows as a question mark, and a caption longer than 38 bytes is cut
/// there."
fn shown(caption: &[u8]) -> String {
    let character = |&byte: &u8| match byte {
        32..=126 => char::from(byte),
        _ => '?',
    };
    caption.iter().take(38).map(character).collect()
}

/// What the program `slab_sheets` prints for an input: all pages of a dimension, or the refusal of the
/// text, of the job or of the dimension.
pub fn answer(input: &[u8], dimension: u32, caption: &[u8]) -> String {
    let pages = print::plan_of(input).and_then(|plan| pages(&plan, dimension, caption));
    match pages {
        Ok(pages) => pages.concat(),
        Err(refusal) => print::refused(refusal),
    }
}

#[cfg(test)]
mod tests {
    use super::*;
    use crate::diagonal::diagonal_job;
    use crate::owners::owner_of;
    use crate::plan::{padded, plan_job};
    use crate::random::Random;
    use crate::{cases, text, tiles};

    /// The planner's plan of a grid with weights of 1.
    fn grid(p: u32, extents: &[u32]) -> Plan {
        let weights = vec![1; extents.len()];
        plan_job(p, extents.len() as u32, extents, &weights, &[]).unwrap()
    }

    /// A plan made by hand with these cuts, on as few elements as can be. Its matrix is all zeros.
    fn by_hand(p: u32, cuts: &[u32]) -> Plan {
        let d = cuts.len();
        let mut moduli = vec![1; d];
        moduli[d - 1] = p;
        Plan {
            d: d as u32,
            extents: padded(cuts),
            cuts: padded(cuts),
            moduli: padded(&moduli),
            p,
            least: padded(&vec![1; d]),
            ..grid(1, &vec![1; d])
        }
    }

    fn page(plan: &Plan, dimension: u32, page: u32, caption: &[u8]) -> Vec<String> {
        let mut sheet = [7; LENGTH];
        slab_sheet(plan, dimension, page, caption, &mut sheet).unwrap();
        let text = std::str::from_utf8(&sheet).expect("a page of letters");
        assert_eq!(text.strip_suffix('\n').unwrap().split('\n').count(), 50);
        text.lines().map(str::to_string).collect()
    }

    fn figure(plan: &Plan, dimension: u32) -> String {
        page(plan, dimension, 0, b"")[0][25..33].to_string()
    }

    const BLANK: &str = "                                                                        ";

    /// 4 on 10 10, with a tab in the caption.
    #[test]
    fn ten_elements_in_four_slabs() {
        let plan = grid(4, &[10, 10]);
        let lines = page(&plan, 1, 0, b"Casting 17, gate side\tA");
        let expected = [
            "     0        0        3        1 Casting 17, gate side?A               ",
            "     1        3        6        1 Casting 17, gate side?A               ",
            "     2        6        8        1 Casting 17, gate side?A               ",
            "     3        8       10        1 Casting 17, gate side?A               ",
        ];
        assert_eq!(lines[..4], expected);
        assert_eq!(lines[4..], vec![BLANK; 46]);
        assert_eq!((expected[0].len(), BLANK.len()), (72, 72));
    }

    /// 4096 on 1000000 4096: the last page has 46 slabs, and there is none after it.
    #[test]
    fn the_most_slabs() {
        let plan = grid(4096, &[1_000_000, 4096]);
        let caption = b"0123456789012345678901234567890123456789";
        let lines = page(&plan, 1, 81, caption);
        let caption = "01234567890123456789012345678901234567";
        let last = "  4095   999756  1000000        1 ";
        assert_eq!(lines[45], format!("{last}{caption}"));
        assert_eq!(lines[46..], vec![BLANK; 4]);
        let mut sheet = [7; LENGTH];
        for beyond in [82, 83, 1 << 31, u32::MAX] {
            let refused = slab_sheet(&plan, 1, beyond, b"", &mut sheet);
            assert_eq!(refused, Err(refusal::RANGE));
        }
        assert_eq!(sheet, [7; LENGTH]);
        assert_eq!(pages(&plan, 1, b"").unwrap().concat().len(), 299_300);
    }

    /// 6 on 9 9 9 is cut 2 3 6. By hand, 3 by 5 tiles of 4 processors, and as many tiles as there may
    /// be of one.
    #[test]
    fn tiles_per_processor() {
        let plan = grid(6, &[9; 3]);
        let figures = [1, 2, 3].map(|dimension| figure(&plan, dimension));
        assert_eq!(figures, ["       3", "       2", "       1"]);
        let plan = by_hand(4, &[3, 5]);
        assert_eq!(
            [figure(&plan, 1), figure(&plan, 2)],
            ["       1", "       0"]
        );
        let plan = by_hand(1, &[1, 4096, 4096]);
        assert_eq!(
            [figure(&plan, 1), figure(&plan, 3)],
            ["16777216", "    4096"]
        );
    }

    #[test]
    fn numbers_of_pages() {
        for (slabs, count) in [
            (1, 1),
            (49, 1),
            (50, 1),
            (51, 2),
            (99, 2),
            (100, 2),
            (101, 3),
            (4050, 81),
            (4051, 82),
            (4096, 82),
        ] {
            let plan = by_hand(1, &[slabs, 1]);
            assert_eq!(pages(&plan, 1, b"x").unwrap().len(), count, "{slabs}");
            assert_eq!(pages(&plan, 2, b"x").unwrap().len(), 1);
        }
    }

    /// The slabs go on from page to page, and blank lines stand behind the last one only.
    #[test]
    fn slabs_from_page_to_page() {
        for slabs in [1, 2, 49, 50, 51, 99, 100, 101, 149, 4096] {
            let pages = pages(&by_hand(1, &[3, slabs]), 2, b"caption").unwrap();
            let text = pages.concat();
            let (filled, blank) = text.split_at(slabs as usize * 73);
            for (slab, line) in filled.lines().enumerate() {
                assert_eq!(line[..6].trim_start(), slab.to_string());
                assert_eq!(line[34..].trim_end(), "caption");
            }
            assert!(blank.lines().all(|line| line == BLANK), "{slabs}");
            assert!(blank.lines().count() < LINES);
            assert!(pages.iter().all(|page| page.len() == LENGTH));
        }
    }

    /// Every byte, in every column of the caption, and none of them on a blank line.
    #[test]
    fn bytes_of_captions() {
        let plan = grid(4, &[10, 10]);
        for byte in 0..=255 {
            let known = byte == b' ' || byte.is_ascii_graphic();
            let character = if known { byte as char } else { '?' };
            for length in [1, 2, 37, 38, 39, 100] {
                let lines = page(&plan, 2, 0, &vec![byte; length]);
                let shown = character.to_string().repeat(length.min(38));
                assert_eq!(lines[3][34..], format!("{shown:38}"), "{byte}");
                assert_eq!(lines[4], BLANK);
            }
        }
        assert_eq!(shown("Gußstück".as_bytes()), "Gu??st??ck");
        assert_eq!(shown(b"a\0b\x7f\n"), "a?b??");
    }

    /// Each refusal where all later ones apply too, and that nothing is then written.
    #[test]
    fn refusals_in_order() {
        let right = grid(4, &[10, 10]);
        let mut damaged = right.clone();
        damaged.kind = 2;
        for length in [0, 1, LENGTH - 1, LENGTH + 1, 2 * LENGTH] {
            let mut sheet = vec![7; length];
            let mut ask = |plan, dimension, page| {
                let refused = slab_sheet(plan, dimension, page, b"x", &mut sheet);
                assert!(sheet.iter().all(|&byte| byte == 7));
                refused
            };
            assert_eq!(ask(&damaged, 3, 1), Err(refusal::SHAPE));
            for dimension in [0, 3, u32::MAX] {
                assert_eq!(ask(&right, dimension, 1), Err(refusal::DIMENSION));
            }
            for page in [1, 1 << 31, u32::MAX] {
                assert_eq!(ask(&right, 2, page), Err(refusal::RANGE));
            }
            assert_eq!(ask(&right, 2, 0), Err(refusal::LIST));
        }
    }

    /// How many tiles of the first and the last slab of a dimension each processor owns.
    fn owned(plan: &Plan, k: usize) -> Vec<u32> {
        let slabs = [0, plan.cuts[k] - 1];
        let mut owned = vec![[0; 2]; plan.p as usize];
        for tile in 1..=plan.tiles() as u32 {
            let position = tiles::position(plan, tile).unwrap();
            let owner = owner_of(plan, &position) as usize;
            for (count, slab) in owned[owner].iter_mut().zip(slabs) {
                *count += u32::from(position[k] == slab);
            }
        }
        owned.concat()
    }

    /// "For the planner's and diagonal plans tiles per processor is exactly tiles / (bk * p)", which each
    /// processor owns.
    #[test]
    fn tiles_that_each_processor_owns() {
        let mut random = Random::new(22);
        let mut looked_at = [0; 2];
        while looked_at.iter().any(|&count| count < 40) {
            let diagonal = random.once_in(2);
            let line = if diagonal {
                cases::diagonal(&mut random)
            } else {
                cases::job(&mut random)
            };
            let job = text::job(&line).unwrap();
            let plan = if diagonal { job.diagonal() } else { job.plan() };
            let Some(plan) = plan.ok().filter(|plan| plan.tiles() <= 5_000) else {
                continue;
            };
            for k in 0..plan.dimensions() {
                let figure: u32 = figure(&plan, k as u32 + 1).trim_start().parse().unwrap();
                let counts = owned(&plan, k);
                assert!(counts.iter().all(|&count| count == figure), "{plan:?}");
            }
            looked_at[usize::from(diagonal)] += 1;
        }
        let plan = diagonal_job(4, 2, &[10, 10], &[1, 1], &[]).unwrap();
        assert_eq!(
            page(&plan, 1, 0, b"x"),
            page(&grid(4, &[10, 10]), 1, 0, b"x")
        );
    }

    /// What the program prints: the text is checked first, then the job, then the dimension.
    #[test]
    fn answers() {
        let right = answer(b"4 2 10 10 1 1\n", 1, b"Casting 17");
        assert_eq!(right.len(), LENGTH);
        assert!(right.starts_with("     0        0        3        1 Casting 17    "));
        for dimension in [0, 1, 3] {
            let refused = |input: &[u8]| answer(input, dimension, b"");
            assert_eq!(refused(b"4 2 10 10 1 1"), "refused 10 14\n");
            assert_eq!(refused(b"0 6\n"), "refused 1 0\n");
            assert_eq!(refused(b"0 2\n"), "refused 2 0\n");
            assert_eq!(refused(b"4 2 0 10 1\n"), "refused 3 0\n");
            assert_eq!(refused(b"4 2 10 0 1 1 0 0\n"), "refused 4 2\n");
            assert_eq!(refused(b"2 2 1 9 1 1 0 1\n"), "refused 13 1\n");
            assert_eq!(refused(b"2 2 1 9 1 1\n"), "refused 5 0\n");
        }
        for dimension in [0, 3, u32::MAX] {
            let refused = answer(b"4 2 10 10 1 1\n", dimension, b"");
            assert_eq!(refused, "refused 7 0\n");
        }
        assert_eq!(answer(b"51 2 60 60 1 1\n", 2, b"").len(), 2 * LENGTH);
    }
}

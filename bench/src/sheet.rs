//! A page of a slab sheet over plain lists, by request k of document 02, with its checks in their order: 6 for the plan, 7
//! for the dimension, 8 for the page, 9 for the list that the page goes to.

use crate::plan_list::{checked, dimension_at, tiles, CUTS, EXTENTS, PROCESSORS};
use crate::subject::Returned;

const COLUMNS: usize = 72;
const CAPTION_COLUMNS: usize = 38;
const LINES: u32 = 50;
/// A line and its newline.
const LINE_LENGTH: usize = COLUMNS + 1;
pub const SHEET_LENGTH: usize = LINES as usize * LINE_LENGTH;

/// Each line starts as blanks, is filled field by field and copied to the page.
pub fn slab_sheet(
    plan: &[u32],
    dimension: u32,
    page: u32,
    caption: &[u8],
    sheet: &mut [u8],
) -> Returned {
    let slabs = match checked_page(plan, dimension, page, sheet.len()) {
        Ok(slabs) => slabs,
        Err(refused) => return refused,
    };
    let caption = shown(caption);
    for (slab, place) in (LINES * page..).zip(sheet.chunks_exact_mut(LINE_LENGTH)) {
        let mut line = [b' '; COLUMNS];
        if slab < slabs.cut {
            fill(&mut line, &slabs, slab, &caption);
        }
        place[..COLUMNS].copy_from_slice(&line);
        place[COLUMNS] = b'\n';
    }
    0
}

/// Each line is written where it stands; the columns that the lines of all slabs have in common are made once.
pub fn slab_sheet_in_place(
    plan: &[u32],
    dimension: u32,
    page: u32,
    caption: &[u8],
    sheet: &mut [u8],
) -> Returned {
    let slabs = match checked_page(plan, dimension, page, sheet.len()) {
        Ok(slabs) => slabs,
        Err(refused) => return refused,
    };
    let mut blank = [b' '; LINE_LENGTH];
    blank[COLUMNS] = b'\n';
    let mut common = blank;
    put_right(&mut common[25..33], slabs.share);
    common[34..COLUMNS].copy_from_slice(&shown(caption));
    for (slab, line) in (LINES * page..).zip(sheet.chunks_exact_mut(LINE_LENGTH)) {
        if slab < slabs.cut {
            line.copy_from_slice(&common);
            put_right(&mut line[..6], slab);
            put_right(&mut line[7..15], slabs.start(slab));
            put_right(&mut line[16..24], slabs.start(slab + 1));
        } else {
            line.copy_from_slice(&blank);
        }
    }
    0
}

/// The slabs of a dimension.
struct Slabs {
    cut: u32,
    /// How many elements each has, and how many of them have one more.
    thin: u32,
    more: u32,
    /// Tiles per processor.
    share: u32,
}

impl Slabs {
    /// The first element of a slab, or the extent behind the last.
    #[inline]
    fn start(&self, slab: u32) -> u32 {
        slab * self.thin + slab.min(self.more)
    }
}

/// All checks of a page for which so many bytes are lent: the slabs of its dimension, or what the call returns.
#[inline]
fn checked_page(plan: &[u32], dimension: u32, page: u32, bytes: usize) -> Result<Slabs, Returned> {
    let plan = checked(plan)?;
    let k = dimension_at(plan, dimension)?;
    let (extent, cut) = (plan[EXTENTS + k], plan[CUTS + k]);
    if page > (cut - 1) / LINES {
        return Err(8);
    }
    if bytes != SHEET_LENGTH {
        return Err(9);
    }
    Ok(Slabs {
        cut,
        thin: extent / cut,
        more: extent % cut,
        // Cut and p are at most 4,096 each.
        share: tiles(plan) / (cut * plan[PROCESSORS]),
    })
}

/// The columns of a caption.
#[inline]
fn shown(caption: &[u8]) -> [u8; CAPTION_COLUMNS] {
    let mut columns = [b' '; CAPTION_COLUMNS];
    for (column, &byte) in columns.iter_mut().zip(caption) {
        *column = if matches!(byte, 32..=126) { byte } else { b'?' };
    }
    columns
}

/// Fills the line of a slab. Inlined into the loop over the lines it takes half as long again, as the compiler then keeps
/// each byte of the line by itself.
#[inline(never)]
fn fill(line: &mut [u8; COLUMNS], slabs: &Slabs, slab: u32, caption: &[u8; CAPTION_COLUMNS]) {
    put_right(&mut line[..6], slab);
    put_right(&mut line[7..15], slabs.start(slab));
    put_right(&mut line[16..24], slabs.start(slab + 1));
    put_right(&mut line[25..33], slabs.share);
    line[34..].copy_from_slice(caption);
}

/// Writes a number to the right end of a blank field, which has room for it.
#[inline]
fn put_right(field: &mut [u8], number: u32) {
    let mut left = number;
    for place in field.iter_mut().rev() {
        *place = b'0' + (left % 10) as u8;
        left /= 10;
        if left == 0 {
            return;
        }
    }
}

#[cfg(test)]
mod tests {
    use super::*;
    use crate::jobs::{any_pages, by_hand, pages};
    use crate::plan_list::{list_of, PlanList};
    use crate::subject::SheetCall;
    use link::plan_list::plan_of;
    use oracle::plan::plan_job;
    use oracle::{refusal, sheet};

    const BOTH: [SheetCall; 2] = [slab_sheet, slab_sheet_in_place];

    #[test]
    fn pages_as_the_oracle_writes_them() {
        let mut seen = [0; 10];
        let timed = pages().map(|(_, asked)| (asked, vec![7; SHEET_LENGTH]));
        for (asked, lent) in any_pages(19, 6_000).into_iter().chain(timed) {
            let mut after = lent.clone();
            let told = plan_of(&asked.plan).ok_or(refusal::SHAPE).and_then(|plan| {
                sheet::slab_sheet(
                    &plan,
                    asked.dimension,
                    asked.page,
                    &asked.caption,
                    &mut after,
                )
            });
            let number = told.map_or_else(|refusal| refusal.number, |()| 0);
            for call in BOTH {
                let mut sheet = lent.clone();
                let returned = asked.write(call, &mut sheet);
                let same = returned == Returned::from(number) && sheet == after;
                assert!(same, "{returned}, not {number}: {asked:?}");
            }
            seen[number as usize] += 1;
        }
        assert!([0, 6, 7, 8, 9].iter().all(|&n| seen[n] > 200), "{seen:?}");
    }

    fn planned(p: u32, extents: &[u32]) -> PlanList {
        let weights = vec![1; extents.len()];
        list_of(&plan_job(p, extents.len() as u32, extents, &weights, &[]).unwrap())
    }

    fn lines(call: SheetCall, plan: &PlanList, dimension: u32, page: u32) -> Vec<String> {
        let mut sheet = [7; SHEET_LENGTH];
        let caption = b"Casting 17, gate side\tA";
        assert_eq!(call(plan, dimension, page, caption, &mut sheet), 0);
        let text = String::from_utf8(sheet.to_vec()).unwrap();
        text.split_terminator('\n').map(str::to_string).collect()
    }

    #[test]
    fn ten_elements_in_four_slabs() {
        let plan = planned(4, &[10, 10]);
        for call in BOTH {
            let lines = lines(call, &plan, 1, 0);
            let slabs = [
                "     0        0        3        1 Casting 17, gate side?A               ",
                "     1        3        6        1 Casting 17, gate side?A               ",
                "     2        6        8        1 Casting 17, gate side?A               ",
                "     3        8       10        1 Casting 17, gate side?A               ",
            ];
            assert_eq!(lines[..4], slabs);
            assert_eq!(lines[4..], vec![" ".repeat(72); 46]);
            let mut lent = [7; SHEET_LENGTH + 1];
            assert_eq!(call(&plan[1..], 0, 1, b"", &mut lent), 6);
            assert_eq!(call(&plan, 0, 1, b"", &mut lent), 7);
            assert_eq!(call(&plan, 1, 1, b"", &mut lent), 8);
            assert_eq!(call(&plan, 1, 0, b"", &mut lent), 9);
            assert_eq!(lent, [7; SHEET_LENGTH + 1]);
        }
    }

    /// The last of 82 pages, and no page behind it.
    #[test]
    fn a_million_elements_in_4096_slabs() {
        let plan = planned(4096, &[1_000_000, 4096]);
        for call in BOTH {
            let lines = lines(call, &plan, 1, 81);
            assert!(lines[45].starts_with("  4095   999756  1000000        1 Casting 17"));
            assert_eq!(lines[46..], vec![" ".repeat(72); 4]);
            assert_eq!(call(&plan, 1, 82, b"", &mut [7; SHEET_LENGTH]), 8);
        }
    }

    #[test]
    fn tiles_per_processor() {
        let figure = |plan: &PlanList, dimension| {
            let [one, other] =
                BOTH.map(|call| lines(call, plan, dimension, 0)[0][25..33].to_string());
            assert_eq!(one, other);
            one.trim_start().to_string()
        };
        let plan = planned(6, &[9; 3]);
        assert_eq!([1, 2, 3].map(|k| figure(&plan, k)), ["3", "2", "1"]);
        // Three by five tiles on 4 processors, and as many tiles of one processor as there may be.
        let mut plan = list_of(&by_hand(4, &[4, 4]));
        plan[CUTS..][..2].copy_from_slice(&[3, 5]);
        assert_eq!([1, 2].map(|k| figure(&plan, k)), ["1", "0"]);
        let plan = list_of(&by_hand(1, &[1, 4096, 4096]));
        assert_eq!([1, 3].map(|k| figure(&plan, k)), ["16777216", "4096"]);
    }
}

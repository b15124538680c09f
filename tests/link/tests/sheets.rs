//! A slab sheet for the job folder, through the link (document 02, request k): "A call writes one page, counted from 0,
//! into a lent list of exactly 3,650 bytes."

use std::collections::BTreeMap;

use link::calls::{diagonal, owner, plan, slab, slab_sheet, tile_position};
use link::compared::{self, Lists};
use link::plan_list::{
    list_of, PlanList, COST_HIGH, COST_LOW, CUTS, DIMENSIONS, EXTENTS, KIND, LEAST, MATRIX, MODULI,
    PLAN_LENGTH, PROCESSORS, ROW_LENGTH, WEIGHTS,
};
use link::questions::{
    any_numbers, diagonals, lent_to_page, made_by_hand, page, plan_list, planned, tiles_in_slab,
};
use oracle::plan::Plan;
use oracle::random::Random;
use oracle::sheet;
use oracle::sheet_cases::caption;

const LENGTH: usize = 3650;
const BLANK: &str = "                                                                        ";

/// The planner's plan of a grid with weights of 1.
fn grid(p: u32, extents: &[u32]) -> PlanList {
    let mut list = [77; PLAN_LENGTH];
    let (d, ones) = (extents.len(), vec![1; extents.len()]);
    assert_eq!(plan(p, d as u32, extents, &ones, &[], &mut list), 0);
    list
}

/// A plan with b slabs along dimension 1, which has n elements.
fn cut(n: u32, b: u32) -> PlanList {
    let list = grid(b, &[n, b]);
    assert_eq!(list[CUTS..CUTS + 2], [b, b]);
    list
}

/// A plan made by hand with these cuts, each of a few elements a slab.
fn by_hand(p: u32, cuts: &[u32]) -> PlanList {
    let d = cuts.len();
    let mut list = [0; PLAN_LENGTH];
    list[DIMENSIONS] = d as u32;
    list[PROCESSORS] = p;
    list[CUTS..][..d].copy_from_slice(cuts);
    for k in 0..d {
        list[EXTENTS + k] = 7 * cuts[k] / 2;
        list[MODULI + k] = if k + 1 < d { 1 } else { p };
        list[LEAST + k] = 1;
    }
    list
}

/// A page as it is written over other bytes.
fn written(list: &[u32], dimension: u32, page: u32, caption: &[u8]) -> [u8; LENGTH] {
    let mut sheet = [7; LENGTH];
    let returned = slab_sheet(list, dimension, page, caption, &mut sheet);
    assert_eq!(returned, 0, "page {page} along {dimension} of {list:?}");
    sheet
}

/// The 50 lines of a page: "Each line is exactly 72 columns", and "A newline follows each line."
fn lines(list: &[u32], dimension: u32, page: u32, caption: &[u8]) -> Vec<String> {
    let sheet = written(list, dimension, page, caption);
    let columns = |line: &[u8]| {
        assert_eq!((line.len(), line[72]), (73, b'\n'));
        assert!(line[..72].iter().all(|byte| (32..=126).contains(byte)));
        String::from_utf8_lossy(&line[..72]).into_owned()
    };
    sheet.chunks(73).map(columns).collect()
}

/// The number that is right-aligned in these columns, counted from 1, with a blank behind them.
fn number(line: &str, from: usize, to: usize) -> u32 {
    let field = &line[from - 1..to];
    let number: u32 = field.trim_start_matches(' ').parse().expect(line);
    assert_eq!(field, format!("{number:>0$}", to + 1 - from), "{line}");
    assert_eq!(&line[to..to + 1], " ", "{line}");
    number
}

/// Slab, first element, element after the last, and tiles per processor.
fn numbers(line: &str) -> [u32; 4] {
    [(1, 6), (8, 15), (17, 24), (26, 33)].map(|(from, to)| number(line, from, to))
}

/// 4 on 10 10, whose slabs start at 0, 3, 6, 8, with a tab in the caption.
#[test]
fn ten_elements_in_four_slabs() {
    let expected = [
        "     0        0        3        1 Casting 17, gate side?A               ",
        "     1        3        6        1 Casting 17, gate side?A               ",
        "     2        6        8        1 Casting 17, gate side?A               ",
        "     3        8       10        1 Casting 17, gate side?A               ",
    ];
    for dimension in [1, 2] {
        let caption = b"Casting 17, gate side\tA";
        let lines = lines(&grid(4, &[10, 10]), dimension, 0, caption);
        assert_eq!(lines.len(), 50);
        assert_eq!(lines[..4], expected);
        assert_eq!(lines[4..], [BLANK; 46]);
    }
}

/// 4096 on 1000000 4096, of which the last page is page 81: "A page past the one with the last slab is an 8".
#[test]
fn the_most_elements_in_the_most_slabs() {
    let list = cut(1_000_000, 4096);
    let caption = b"0123456789012345678901234567890123456789";
    let last = lines(&list, 1, 81, caption);
    let shown = "01234567890123456789012345678901234567";
    let line = |numbers: &str| format!("{numbers} {shown}");
    assert_eq!(last[0], line("  4050   988776   989020        1"));
    assert_eq!(last[45], line("  4095   999756  1000000        1"));
    assert_eq!(last[46..], [BLANK; 4]);
    let first = lines(&list, 1, 0, caption);
    assert_eq!(first[0], line("     0        0      245        1"));
    assert_eq!(first[49], line("    49    12005    12250        1"));
    let eleventh = lines(&list, 1, 11, caption);
    assert_eq!(eleventh[25], line("   575   140875   141120        1"));
    assert_eq!(eleventh[26], line("   576   141120   141364        1"));
    let mut sheet = [77; LENGTH];
    assert_eq!(slab_sheet(&list, 1, 82, caption, &mut sheet), 8);
    assert_eq!(sheet, [77; LENGTH]);
}

/// Tiles per processor in each dimension. 6 on 9 9 9 is cut 2 3 6; the others are made by hand, and their figures are
/// rounded down, some of them to 0. The largest has eight digits.
#[test]
fn tiles_per_processor() {
    let figures: [(PlanList, &[u32]); 6] = [
        (grid(6, &[9; 3]), &[3, 2, 1]),
        (by_hand(4, &[3, 5]), &[1, 0]),
        (by_hand(7, &[1, 13, 8]), &[14, 1, 1]),
        (by_hand(4096, &[2, 2]), &[0, 0]),
        (by_hand(1, &[1, 4096, 4096]), &[16_777_216, 4096, 4096]),
        (
            by_hand(3, &[64, 1, 64, 64, 64]),
            &[87_381, 5_592_405, 87_381, 87_381, 87_381],
        ),
    ];
    for (list, figures) in figures {
        for (k, &figure) in figures.iter().enumerate() {
            let line = &lines(&list, k as u32 + 1, 0, b"")[0];
            assert_eq!(numbers(line)[3], figure, "{list:?}");
        }
    }
}

/// "A page has 50 lines, the last filled up with blank ones." Every page of sheets with as many slabs as fill pages,
/// and one less and one more.
#[test]
fn numbers_of_pages() {
    for (slabs, pages) in [
        (1, 1),
        (2, 1),
        (49, 1),
        (50, 1),
        (51, 2),
        (99, 2),
        (100, 2),
        (101, 3),
        (150, 3),
        (4049, 81),
        (4050, 81),
        (4051, 82),
        (4096, 82),
    ] {
        let list = by_hand(1, &[3, slabs]);
        let mut next = 0;
        for page in 0..pages {
            let lines = lines(&list, 2, page, b"Casting 17");
            for line in &lines {
                if next < slabs {
                    assert_eq!(number(line, 1, 6), next);
                    assert_eq!(line[34..].trim_end(), "Casting 17");
                    next += 1;
                } else {
                    assert_eq!(line, BLANK);
                }
            }
            assert_ne!(lines[0], BLANK, "{slabs}");
        }
        assert_eq!(next, slabs);
        let mut sheet = [77; LENGTH];
        assert_eq!(slab_sheet(&list, 2, pages, b"x", &mut sheet), 8);
        assert_eq!(sheet, [77; LENGTH]);
    }
}

/// Pages far beyond the last one, such that fifty times the page has a slab's number in its lower 16 or 32 bits: a page
/// is compared by division.
#[test]
fn pages_far_beyond() {
    let mut sheet = [77; LENGTH];
    for slabs in [1, 49, 50, 51, 100, 101, 4050, 4051, 4096] {
        let list = by_hand(1, &[slabs, 3]);
        let last = (slabs - 1) / 50;
        let wrapped = |bits: u32, wraps: u64| (wraps << bits).div_ceil(50)..;
        let mut beyond: Vec<u32> = (1..50)
            .flat_map(|wraps| [wrapped(16, wraps), wrapped(32, wraps)])
            .flat_map(|pages| pages.take(83))
            .map(|page| page as u32)
            .chain([last + 1, last + 2, slabs, 256, 65_536, 1 << 24, 1 << 31])
            .chain([u32::MAX, u32::MAX - 1, u32::MAX / 50, u32::MAX / 50 + 1])
            .collect();
        beyond.retain(|&page| page > last);
        assert!(beyond.len() > 8_000);
        for page in beyond {
            let returned = slab_sheet(&list, 1, page, b"x", &mut sheet);
            assert_eq!(returned, 8, "page {page} of {slabs} slabs");
        }
    }
    assert_eq!(sheet, [77; LENGTH]);
}

/// "A caption byte outside 32 to 126 shows as a question mark": every byte, in every column of the caption.
#[test]
fn every_byte_in_every_column() {
    let list = grid(4, &[10, 10]);
    let plain = written(&list, 1, 0, &[b'x'; 38]);
    for byte in 0..=255 {
        let shown = match byte {
            b' '..=b'~' => byte,
            _ => b'?',
        };
        for column in 0..38 {
            let mut caption = [b'x'; 38];
            caption[column] = byte;
            let mut expected = plain;
            for slab in 0..4 {
                expected[slab * 73 + 34 + column] = shown;
            }
            let sheet = written(&list, 1, 0, &caption);
            assert!(sheet == expected, "byte {byte}, column {}", 35 + column);
        }
    }
}

/// "A caption longer than 38 bytes is cut there": every length, and as long as the memory for it.
#[test]
fn captions_of_every_length() {
    let mut random = Random::new(1);
    let mut lists = Lists::default();
    let list = grid(4, &[10, 10]);
    for length in (0..=200).chain([3650, 65_535, 65_536]) {
        for _ in 0..4 {
            let caption: Vec<u8> = (0..length).map(|_| random.draw() as u8).collect();
            let returned = compared::slab_sheet(&mut lists, &list, 2, 0, &caption, &[77; LENGTH]);
            assert_eq!(returned, 0);
            let letters: Vec<u8> = caption.iter().map(|&byte| 33 + byte % 94).collect();
            let shown = String::from_utf8_lossy(&letters[..length.min(38)]).into_owned();
            let lines = lines(&list, 2, 0, &letters);
            for line in &lines[..4] {
                assert_eq!(line[34..], format!("{shown:38}"));
            }
            assert_eq!(lines[4..], [BLANK; 46]);
        }
    }
}

/// What is behind the 38th byte is not looked at, and a 0 does not end a caption.
#[test]
fn what_a_caption_ends_at() {
    let list = grid(4, &[10, 10]);
    let caption = b"Casting 17\0gate side\0, and 17 bytes...";
    assert_eq!(caption.len(), 38);
    let line = &lines(&list, 1, 0, caption)[0];
    assert_eq!(line[34..], *"Casting 17?gate side?, and 17 bytes...");
    for more in [&b"x"[..], b"\0", b"\n", b" ", &[255; 62]] {
        let longer = [caption, more].concat();
        assert_eq!(written(&list, 1, 0, &longer), written(&list, 1, 0, caption));
    }
    let line = &lines(&list, 1, 0, "Gußstück 17".as_bytes())[0];
    assert_eq!(line[34..].trim_end(), "Gu??st??ck 17");
}

/// How often each number is returned.
#[derive(Debug, Default)]
struct Seen(BTreeMap<u64, u64>);

impl Seen {
    fn note(&mut self, returned: u64) {
        *self.0.entry(returned).or_default() += 1;
    }
}

/// Plans of the planner and diagonal plans.
fn pool(random: &mut Random) -> Vec<Plan> {
    [planned(random, 300), diagonals(random, 150)].concat()
}

/// Plans of all kinds, in shape and out of shape, with pages that there are and are not, any captions, and lists of any
/// length to lend. The lists stand at the edge of the memory that may be touched.
#[test]
fn pages_of_any_plans() {
    let mut random = Random::new(2);
    let pool = pool(&mut random);
    let mut lists = Lists::default();
    let mut seen = Seen::default();
    for _ in 0..5_000 {
        let list = plan_list(&mut random, &pool);
        for _ in 0..2 {
            let (dimension, page) = page(&mut random, &list);
            let (caption, lent) = (caption(&mut random), lent_to_page(&mut random));
            let returned =
                compared::slab_sheet(&mut lists, &list, dimension, page, &caption, &lent);
            seen.note(returned);
        }
    }
    assert!(seen.0.keys().eq(&[0, 6, 7, 8, 9]), "{seen:?}");
    assert!(seen.0.values().all(|&count| count >= 300), "{seen:?}");
}

/// A plan of the pool, or one made by hand.
fn in_shape(random: &mut Random, pool: &[Plan]) -> Plan {
    if random.once_in(2) {
        random.pick(pool).clone()
    } else {
        made_by_hand(random)
    }
}

/// Every page of every dimension of plans in shape, and the one past the last.
#[test]
fn every_page_of_some_plans() {
    let mut random = Random::new(3);
    let pool = pool(&mut random);
    let mut sheets = [0; 3];
    for _ in 0..1_000 {
        let plan = in_shape(&mut random, &pool);
        let list = list_of(&plan);
        for dimension in 1..=plan.d {
            let caption = caption(&mut random);
            let pages = sheet::pages(&plan, dimension, &caption).expect("a sheet");
            for (page, text) in (0..).zip(&pages) {
                let same = written(&list, dimension, page, &caption) == text.as_bytes();
                assert!(same, "page {page} along {dimension} of {list:?}");
            }
            let (past, mut lent) = (pages.len() as u32, [77; LENGTH]);
            let returned = slab_sheet(&list, dimension, past, &caption, &mut lent);
            assert_eq!((returned, lent), (8, [77; LENGTH]), "{list:?}");
            sheets[pages.len().min(3) - 1] += 1;
        }
    }
    assert!(sheets.iter().all(|&count| count >= 40), "{sheets:?}");
}

/// Slabs are counted on from page to page, and their elements are those of the single question, all through the link. The
/// figure, times p, is at most the number of the slab's tiles, and with one more it is not.
#[test]
fn lines_as_single_questions() {
    let mut random = Random::new(4);
    let pool = pool(&mut random);
    let (mut asked, mut inexact) = (0, 0);
    for _ in 0..3_000 {
        let plan = in_shape(&mut random, &pool);
        let list = list_of(&plan);
        let k = random.between(0, u64::from(plan.d) - 1) as usize;
        let (dimension, cut) = (k as u32 + 1, plan.cuts[k]);
        let page = random.between(0, u64::from((cut - 1) / 50)) as u32;
        let (p, tiles) = (u128::from(plan.p), tiles_in_slab(&plan, k));
        let lines = lines(&list, dimension, page, b"Casting 17");
        for (slab_number, line) in (50 * page..).zip(&lines) {
            if slab_number >= cut {
                assert_eq!(line, BLANK);
                continue;
            }
            let mut ends = [77; 2];
            assert_eq!(slab(&list, dimension, slab_number, &mut ends), 0);
            let [number, first, after, figure] = numbers(line);
            assert_eq!([number, first, after], [slab_number, ends[0], ends[1]]);
            let figure = u128::from(figure);
            assert!(figure * p <= tiles && tiles < (figure + 1) * p, "{list:?}");
            assert_eq!(line[34..].trim_end(), "Casting 17");
            inexact += u32::from(figure * p != tiles);
            asked += 1;
        }
    }
    assert!(asked > 30_000 && inexact > 5_000, "{asked}, {inexact}");
}

/// How many tiles of each slab of the dimension at place k each processor owns, by the owner question.
fn owned(list: &PlanList, k: usize, tiles: u32) -> Vec<Vec<u32>> {
    let none = vec![0; list[PROCESSORS] as usize];
    let mut owned = vec![none; list[CUTS + k] as usize];
    for tile in 1..=tiles {
        let mut position = vec![77; list[DIMENSIONS] as usize];
        assert_eq!(tile_position(list, tile, &mut position), 0);
        let mut processor = [77];
        assert_eq!(owner(list, &position, &mut processor), 0);
        owned[position[k] as usize][processor[0] as usize] += 1;
    }
    owned
}

/// "For the planner's and diagonal plans tiles per processor is exactly tiles / (bk * p)": the figure on the line of a slab
/// is how many of its tiles each processor owns, counted on small grids.
#[test]
fn tiles_that_each_processor_owns() {
    let mut random = Random::new(5);
    let plans = [planned(&mut random, 400), diagonals(&mut random, 400)];
    for plans in plans {
        let (mut counted, mut several) = (0, 0);
        for plan in plans.iter().filter(|plan| plan.tiles() <= 3_000) {
            let list = list_of(plan);
            for k in 0..plan.dimensions() {
                let owned = owned(&list, k, plan.tiles() as u32);
                for (page, slabs) in (0..).zip(owned.chunks(50)) {
                    let lines = lines(&list, k as u32 + 1, page, b"");
                    for (counts, line) in slabs.iter().zip(&lines) {
                        let figure = numbers(line)[3];
                        assert!(counts.iter().all(|&count| count == figure), "{list:?}");
                    }
                }
                several += u32::from(tiles_in_slab(plan, k) > u128::from(plan.p));
                counted += 1;
            }
        }
        let by_planner = plans[0].kind == 0;
        assert!(counted > 200, "{counted}");
        assert_eq!(by_planner, several > 50, "{several}");
    }
}

/// A page depends on d, p, the extent of its dimension, the cuts and the caption alone: not on the weights, the cost, the
/// matrix, the moduli, the kind, the least thicknesses, the other extents or what stands past d.
#[test]
fn what_a_page_depends_on() {
    let mut random = Random::new(6);
    let pool = pool(&mut random);
    for _ in 0..1_000 {
        let plan = in_shape(&mut random, &pool);
        let (d, list) = (plan.dimensions(), list_of(&plan));
        let k = random.between(0, d as u64 - 1) as usize;
        let mut other = [0; PLAN_LENGTH];
        other.copy_from_slice(&any_numbers(&mut random, PLAN_LENGTH));
        for place in [DIMENSIONS, PROCESSORS, EXTENTS + k] {
            other[place] = list[place];
        }
        other[KIND] = 1 - list[KIND];
        for j in 0..d {
            other[CUTS + j] = list[CUTS + j];
            other[LEAST + j] = 1;
            other[MODULI + j] = if j == 0 { plan.p } else { 1 };
            if j != k {
                other[EXTENTS + j] = random.between(plan.cuts[j].into(), 1_000_000) as u32;
            }
            for entry in &mut other[MATRIX + j * ROW_LENGTH..][..d] {
                *entry %= if j == 0 { plan.p } else { 1 };
            }
        }
        assert_ne!(other[WEIGHTS..CUTS], list[WEIGHTS..CUTS]);
        assert_ne!(other[COST_LOW..=COST_HIGH], list[COST_LOW..=COST_HIGH]);
        let caption = caption(&mut random);
        for page in [0, (plan.cuts[k] - 1) / 50] {
            let [ours, same] =
                [list, other].map(|list| written(&list, k as u32 + 1, page, &caption));
            assert!(ours == same, "{list:?}, {other:?}");
        }
    }
}

/// Both kinds of plans of one grid have the same sheets where their cuts agree.
#[test]
fn diagonal_sheets() {
    let mut list = [77; PLAN_LENGTH];
    assert_eq!(diagonal(64, 2, &[1000, 100], &[1; 2], &[], &mut list), 0);
    let ours = grid(64, &[1000, 100]);
    for dimension in [1, 2] {
        for page in [0, 1] {
            let [first, second] = [list, ours].map(|list| lines(&list, dimension, page, b"x"));
            assert_eq!(first, second);
        }
    }
    assert_eq!(
        lines(&list, 1, 1, b"x")[13],
        format!("    63      985     1000        1 {:38}", "x")
    );
    assert_eq!(diagonal(16, 3, &[9; 3], &[1; 3], &[], &mut list), 0);
    assert_eq!(
        lines(&list, 3, 0, b"x")[3],
        format!("     3        7        9        1 {:38}", "x")
    );
}

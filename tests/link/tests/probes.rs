//! Slabs of a whole probe line through the link (document 02, request h): "A call takes a rising list of element
//! numbers of one dimension, equal neighbours allowed, and writes the slab of each into a second list".

use link::calls::{diagonal, plan, slab, slab_of, slabs_of};
use link::compared::{probe, Lists};
use link::plan_list::{PlanList, CUTS, EXTENTS, LEAST, PLAN_LENGTH};

/// A plan with b slabs along dimension 1, which has n elements.
fn cut(n: u32, b: u32) -> PlanList {
    let mut list = [7; PLAN_LENGTH];
    assert_eq!(plan(b, 2, &[n, b], &[1; 2], &[], &mut list), 0);
    assert_eq!(list[CUTS..CUTS + 2], [b, b]);
    list
}

/// The slabs of elements that rise, along a dimension. Two places more than needed are lent, and keep their contents.
fn slabs_along(list: &PlanList, dimension: u32, elements: &[u32]) -> Vec<u32> {
    let mut slabs = vec![77; elements.len() + 2];
    assert_eq!(slabs_of(list, dimension, elements, &mut slabs), 0);
    assert_eq!(slabs.split_off(elements.len()), [77; 2]);
    slabs
}

/// For each slab in order its number, as often as it has elements.
fn counted_out(n: u32, b: u32) -> Vec<u32> {
    let thickness = |s| if s < n % b { n / b + 1 } else { n / b };
    (0..b)
        .flat_map(|s| vec![s; thickness(s) as usize])
        .collect()
}

/// Ten elements in 4 slabs, which start at 0, 3, 6, 8: what is returned, and what becomes of a list of nines.
#[test]
fn ten_elements_in_four_slabs() {
    let mut list = [7; PLAN_LENGTH];
    assert_eq!(plan(4, 2, &[10, 10], &[1; 2], &[], &mut list), 0);
    assert_eq!(list[CUTS..CUTS + 2], [4, 4]);
    let figures: [(&[u32], u64, &[u32]); 13] = [
        (&[0, 2, 3, 5, 5, 6, 9], 0, &[0, 0, 1, 1, 1, 2, 3, 9, 9]),
        (&[0, 2, 3, 5, 5, 6, 9], 0, &[0, 0, 1, 1, 1, 2, 3]),
        (&[0, 0, 9, 9], 0, &[0, 0, 3, 3]),
        (&[5; 4], 0, &[1, 1, 1, 1, 9]),
        (&[9], 0, &[3, 9, 9]),
        (&[], 0, &[]),
        (&[], 0, &[9, 9]),
        (&[5, 3, 2], 14 | 2 << 32, &[9, 9, 9]),
        (&[1, 2, 2, 1, 0], 14 | 4 << 32, &[9, 9, 9, 9, 9]),
        (&[1, 2, 2, 1, 0], 14 | 4 << 32, &[9, 9, 9, 9, 9, 9]),
        (&[5, 10, 3], 8, &[9, 9, 9]),
        (&[5, 3], 9, &[9]),
        (&[3, 2, 10], 8, &[9]),
    ];
    for (elements, returned, left) in figures {
        let mut slabs = vec![9; left.len()];
        let told = slabs_of(&list, 1, elements, &mut slabs);
        assert_eq!((told, &slabs[..]), (returned, left), "{elements:?}");
    }
}

/// The lists of so many numbers below a limit.
fn all_lists(length: u32, limit: u32) -> impl Iterator<Item = Vec<u32>> {
    let places = move |n: u32| (0..length).map(move |place| n / limit.pow(place) % limit);
    (0..limit.pow(length)).map(move |n| places(n).collect())
}

/// Every short list of elements, rising or not, in range or not, with every short list to lend: small extents, and
/// every number of slabs.
#[test]
fn every_short_line() {
    let mut lists = Lists::default();
    let mut seen = [0; 15];
    for n in 1..=4 {
        for b in 1..=n {
            let list = cut(n, b);
            for elements in (0..=4).flat_map(|length| all_lists(length, n + 1)) {
                for places in 0..=6 {
                    let returned = probe(&mut lists, &list, 1, &elements, &vec![77; places]);
                    seen[returned as u32 as usize] += 1;
                }
            }
        }
    }
    assert!(
        [0, 8, 9, 14].iter().all(|&number| seen[number] > 1_000),
        "{seen:?}"
    );
}

/// Every element of a dimension once and then thrice, for every cut of extents to 60, among them one slab and as many
/// slabs as elements; and every single step from an element to the same or a later one.
#[test]
fn every_cut_of_small_extents() {
    for n in 1..=60 {
        for b in 1..=n {
            let list = cut(n, b);
            let expected = counted_out(n, b);
            let all: Vec<u32> = (0..n).collect();
            assert_eq!(slabs_along(&list, 1, &all), expected, "{n} in {b}");
            let thrice = |numbers: &[u32]| -> Vec<u32> {
                let each = numbers.iter().flat_map(|&number| [number; 3]);
                each.collect()
            };
            let slabs = slabs_along(&list, 1, &thrice(&all));
            assert_eq!(slabs, thrice(&expected), "{n} in {b}");
            for from in 0..n {
                for to in from..n {
                    let slabs = [from, to].map(|element| expected[element as usize]);
                    assert_eq!(slabs_along(&list, 1, &[from, to]), slabs, "{n} in {b}");
                }
            }
        }
    }
}

/// Every dimension of plans of five dimensions, of two and of three, compared with the elements that the slab question
/// gives.
#[test]
fn every_dimension() {
    let (mut five, mut three, mut two) = ([7; PLAN_LENGTH], [7; PLAN_LENGTH], [7; PLAN_LENGTH]);
    let extents = [101, 67, 41, 983, 211];
    assert_eq!(plan(420, 5, &extents, &[3, 1, 4, 1, 5], &[], &mut five), 0);
    assert_eq!(diagonal(49, 3, &extents[..3], &[1; 3], &[], &mut three), 0);
    assert_eq!(plan(9, 2, &extents[..2], &[1; 2], &[5, 7], &mut two), 0);
    // By hand: one slab, as many as there are elements, and others.
    let mut by_hand = five;
    by_hand[CUTS..][..5].copy_from_slice(&[1, 67, 2, 100, 7]);
    by_hand[LEAST..].fill(1);
    for list in [five, three, two, by_hand] {
        for dimension in 1..=list[0] {
            let n = list[EXTENTS + dimension as usize - 1];
            let all: Vec<u32> = (0..n).collect();
            let slabs = slabs_along(&list, dimension, &all);
            for s in 0..list[CUTS + dimension as usize - 1] {
                let mut ends = [77; 2];
                assert_eq!(slab(&list, dimension, s, &mut ends), 0);
                let [first, after] = ends.map(|end| end as usize);
                assert!(slabs[first..after].iter().all(|&of| of == s), "{list:?}");
            }
        }
    }
}

/// 1,000,000 elements in 4,096 slabs: the ends of every slab, and every element in one line.
#[test]
fn the_most_elements_in_the_most_slabs() {
    let list = cut(1_000_000, 4096);
    let ends: Vec<u32> = (0..4096)
        .flat_map(|s| {
            let mut ends = [77; 2];
            assert_eq!(slab(&list, 1, s, &mut ends), 0);
            [ends[0], ends[1] - 1]
        })
        .collect();
    let twice: Vec<u32> = (0..8192).map(|n| n / 2).collect();
    assert_eq!(slabs_along(&list, 1, &ends), twice);
    let mut lists = Lists::default();
    assert_eq!(probe(&mut lists, &list, 1, &ends, &[77; 8192]), 0);
    let all: Vec<u32> = (0..1_000_000).collect();
    assert!(slabs_along(&list, 1, &all) == counted_out(1_000_000, 4096));
}

/// One slab, and as many slabs as elements, where the slab is the element.
#[test]
fn uncut_and_cut_throughout() {
    let elements: Vec<u32> = (0..4096).chain([4095; 9]).collect();
    let slabs = slabs_along(&cut(4096, 4096), 1, &elements);
    assert_eq!(slabs, elements);
    let slabs = slabs_along(&cut(1_000_000, 1), 1, &elements);
    assert!(slabs.iter().all(|&slab| slab == 0));
}

/// The place of a fall, wherever it stands in a long line, and further on than 16 bits count.
#[test]
fn places_of_falls() {
    let list = cut(1_000_000, 64);
    let mut elements: Vec<u32> = (0..300_000).map(|n| n / 2 + 1).collect();
    let mut slabs = vec![77; elements.len()];
    for place in [
        2, 3, 1_000, 65_535, 65_536, 65_537, 65_538, 131_073, 300_000,
    ] {
        let at = place as usize - 1;
        let kept = elements[at];
        elements[at] = elements[at - 1] - 1;
        // Another one further on does not matter.
        elements[299_999] = 0;
        let returned = slabs_of(&list, 1, &elements, &mut slabs);
        assert_eq!(returned, 14 | place << 32);
        elements[299_999] = 150_000;
        elements[at] = kept;
    }
    assert!(slabs.iter().all(|&slab| slab == 77));
    assert_eq!(slabs_of(&list, 1, &elements, &mut slabs), 0);
    for (&element, &slab) in elements.iter().zip(&slabs) {
        let mut answer = [77];
        assert_eq!(slab_of(&list, 1, element, &mut answer), 0);
        assert_eq!(answer, [slab]);
    }
}

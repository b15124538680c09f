//! "Where each call turns back": the refusal numbers and the ranges behind them.

/// A refusal carries its number and a place, which is 0 unless named.
#[derive(Clone, Copy, Debug, PartialEq, Eq)]
pub struct Refusal {
    pub number: u32,
    pub place: usize,
}

impl Refusal {
    /// A refusal whose table line names no place.
    pub const fn plain(number: u32) -> Refusal {
        Refusal { number, place: 0 }
    }

    /// A refusal with a place.
    pub const fn at(number: u32, place: usize) -> Refusal {
        Refusal { number, place }
    }
}

/// d not 2..5.
pub const DIMENSIONS: Refusal = Refusal::plain(1);
/// p not 1..4,096.
pub const PROCESSORS: Refusal = Refusal::plain(2);
/// Extents or weights not d many; it also "covers a thickness list that is neither empty nor d long"
/// (document 02, g).
pub const LENGTHS: Refusal = Refusal::plain(3);
/// An extent out of range; the place is the first such dimension.
pub const EXTENT: u32 = 4;
/// No even, fitting cuts; for a diagonal plan "a cut above its extent stays a 5" (document 02, c).
pub const NO_CUTS: Refusal = Refusal::plain(5);
/// The plan is out of shape; also "a kind above 1 is a 6" (document 02, c), and "A plan that breaks the
/// rule or holds a thickness of 0 is a 6" (document 02, g).
pub const SHAPE: Refusal = Refusal::plain(6);
/// Dimension not 1..d.
pub const DIMENSION: Refusal = Refusal::plain(7);
/// Slab, element, tile number, position coordinate or processor number out of range; also "a step not
/// below bk" (document 02, b), "an element out of range" of a probe line (document 02, h), and "a page
/// past the one with the last slab" (document 02, k).
pub const RANGE: Refusal = Refusal::plain(8);
/// A chain list of another length than stated; also "a second list shorter than the first" (document 02,
/// h), and a list for a page of another length than 3,650 (document 02, k).
pub const LIST: Refusal = Refusal::plain(9);
/// Unreadable line; the place is defined in "The printed plan".
pub const TEXT: u32 = 10;
/// "The product of the other extents is above 4,294,967,295" (document 02, b).
pub const OTHER_EXTENTS: Refusal = Refusal::plain(11);
/// "12, p or d doesn't suit the layout, after 2 and before 3" (document 02, c).
pub const LAYOUT: Refusal = Refusal::plain(12);
/// "13, a thickness of 0 in a job, with the first such dimension as place, after 4 and before 5"
/// (document 02, g).
pub const THICKNESS: u32 = 13;
/// "14, an element smaller than the one before, with the place of the first such counted from 1, after
/// 9" (document 02, h).
pub const NOT_RISING: u32 = 14;

/// "d: 2 to 5."
pub fn dimensions_in_range(d: u32) -> bool {
    (2..=5).contains(&d)
}

/// "p: 1 to 4,096."
pub fn processors_in_range(p: u32) -> bool {
    (1..=4096).contains(&p)
}

/// "Extent: 1 to 1,000,000."
pub fn extent_in_range(extent: u32) -> bool {
    (1..=1_000_000).contains(&extent)
}

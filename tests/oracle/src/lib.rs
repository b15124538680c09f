//! Document 01 with requests a to k of document 02, written down a second time in plain Rust, to
//! test the planner against.
//!
//! Everything here follows the definitions literally and prefers the slow and obvious way:
//! the cuts are found by trying all that fit (or, where there are too many, all elementary
//! partitionings of source document 001, Figure 2), the matrix is worked out over whole numbers
//! and reduced at the end, chains are made from each processor's list of tiles (and beside that tile
//! by tile, for the stages of request e), the timetable looks at every tile of a slab, a probe line is
//! answered element by element, the smallest refused share is looked for number by number, a page of a
//! sheet is taken from the lines of all slabs, and the place of refusal 10 is found beginning by beginning.
//!
//! The modules stand in document 01's order, the timetable, the two older layouts, the probe lines, the
//! refused shares and the slab sheet behind what they ask.

pub mod numbers;
pub mod refusal;

pub mod cuts;
pub mod matrix;
pub mod plan;

pub mod chains;
pub mod neighbours;
pub mod owners;
pub mod slabs;
pub mod tiles;

pub mod diagonal;
pub mod hypercube;
pub mod probes;
pub mod shares;
pub mod timetable;

pub mod print;
pub mod sheet;
pub mod text;

pub mod cases;
pub mod comparison;
pub mod inspect;
pub mod random;
pub mod sheet_cases;

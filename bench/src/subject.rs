//! What is measured: the calls of one side, as functions over plain lists.

use crate::plan_list::PlanList;
use crate::{chains, diagonal, hypercube, planning, probes, questions, shares, sheet, timetable};

/// A refusal's number, or nothing where the answer list has been written.
pub type Told = Result<(), u32>;

/// A refusal's number and place, or a plan.
pub type Planned = Result<PlanList, (u32, u32)>;

/// What the link returns: 0 where the answer list has been written, else a refusal's number with its place in the
/// upper 32 bits. The shortest calls return it on both sides: to make a [`Told`] of it would add to the time of one.
pub type Returned = u64;

pub type PlanCall = fn(u32, u32, &[u32], &[u32], &[u32]) -> Planned;
/// A job and the list for the answer.
pub type JobCall = fn(u32, u32, &[u32], &[u32], &[u32], &mut [u32]) -> Returned;
pub type ProbeCall = fn(&[u32], u32, &[u32], &mut [u32]) -> Returned;
/// A plan, a dimension, a page, a caption and the list for the page.
pub type SheetCall = fn(&[u32], u32, u32, &[u8], &mut [u8]) -> Returned;
pub type ChainCall = fn(&[u32], &mut [u32], &mut [u32]) -> Told;
pub type StepCall = fn(&[u32], &[u32], u32, bool, &mut [u32]) -> Told;
pub type TimetableCall = fn(&[u32], u32, bool, u32, u32, &mut [u32]) -> Told;

/// The calls of one side. Another program is measured by one more value of this kind.
#[derive(Clone, Copy)]
pub struct Subject {
    pub name: &'static str,
    pub plan: PlanCall,
    pub smallest_refused: JobCall,
    pub diagonal: JobCall,
    pub hypercube_owner: fn(u32, &[u32], &mut [u32]) -> Returned,
    pub owner: fn(&[u32], &[u32], &mut [u32]) -> Told,
    pub neighbour: fn(&[u32], u32, u32, bool, &mut [u32]) -> Told,
    pub slab: fn(&[u32], u32, u32, &mut [u32]) -> Told,
    pub slab_of: fn(&[u32], u32, u32, &mut [u32]) -> Told,
    pub slabs_of: ProbeCall,
    pub slab_sheet: SheetCall,
    pub tile_number: fn(&[u32], &[u32], &mut [u32]) -> Told,
    pub tile_position: fn(&[u32], u32, &mut [u32]) -> Told,
    pub step: StepCall,
    pub timetable: TimetableCall,
    pub chains: ChainCall,
}

/// The rival: the paper's enumeration (Figure 2, one factor inside the other), the smallest refused share by plans of a
/// quicker kind, the two older layouts by their formulas, the questions with the same checks, probe lines, slab sheets and
/// the timetable by the same method, and the fastest chains tile by tile.
pub const RIVAL: Subject = Subject {
    name: "rival",
    plan: planning::figure_2_nested,
    smallest_refused: shares::by_plans,
    diagonal: diagonal::diagonal,
    hypercube_owner: hypercube::owner,
    owner: questions::owner,
    neighbour: questions::neighbour,
    slab: questions::slab,
    slab_of: questions::slab_of,
    slabs_of: probes::slabs_of,
    slab_sheet: sheet::slab_sheet,
    tile_number: questions::tile_number,
    tile_position: questions::tile_position,
    step: questions::step,
    timetable: timetable::timetable,
    chains: chains::chains,
};

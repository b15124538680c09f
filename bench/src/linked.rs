//! The proved calls, over the C link (include/multipartition.h).

use link::calls;

use crate::plan_list::PLAN_LENGTH;
use crate::subject::{Planned, Subject, Told};

fn told(returned: u64) -> Told {
    match returned {
        0 => Ok(()),
        refused => Err(refused as u32),
    }
}

fn plan(p: u32, d: u32, extents: &[u32], weights: &[u32], least: &[u32]) -> Planned {
    let mut list = [0; PLAN_LENGTH];
    match calls::plan(p, d, extents, weights, least, &mut list) {
        0 => Ok(list),
        refused => Err((refused as u32, (refused >> 32) as u32)),
    }
}

/// The proved planner.
pub const PROVED: Subject = Subject {
    name: "proved",
    plan,
    smallest_refused: calls::smallest_refused,
    diagonal: calls::diagonal,
    hypercube_owner: calls::hypercube_owner,
    owner: |plan, position, answer| told(calls::owner(plan, position, answer)),
    neighbour: |plan, processor, dimension, up, answer| {
        told(calls::neighbour(
            plan,
            processor,
            dimension,
            u32::from(up),
            answer,
        ))
    },
    slab: |plan, dimension, slab, answer| told(calls::slab(plan, dimension, slab, answer)),
    slab_of: |plan, dimension, element, answer| {
        told(calls::slab_of(plan, dimension, element, answer))
    },
    slabs_of: calls::slabs_of,
    slab_sheet: calls::slab_sheet,
    tile_number: |plan, position, answer| told(calls::tile_number(plan, position, answer)),
    tile_position: |plan, tile, answer| told(calls::tile_position(plan, tile, answer)),
    step: |plan, position, dimension, up, answer| {
        told(calls::step(
            plan,
            position,
            dimension,
            u32::from(up),
            answer,
        ))
    },
    timetable: |plan, dimension, up, step, processor, answer| {
        told(calls::timetable(
            plan,
            dimension,
            u32::from(up),
            step,
            processor,
            answer,
        ))
    },
    chains: |plan, heads, nexts| told(calls::chains(plan, heads, nexts)),
};

//! The calls of include/multipartition.h. None has a precondition beyond what slices give, so each is
//! safe to call.

// A slice is passed as a pointer and its length.
extern "C" {
    fn multipartition_plan(
        processors: u32,
        dimensions: u32,
        extents: *const u32,
        extents_length: usize,
        weights: *const u32,
        weights_length: usize,
        least: *const u32,
        least_length: usize,
        plan: *mut u32,
        plan_length: usize,
    ) -> u64;

    fn multipartition_smallest_refused(
        processors: u32,
        dimensions: u32,
        extents: *const u32,
        extents_length: usize,
        weights: *const u32,
        weights_length: usize,
        least: *const u32,
        least_length: usize,
        answer: *mut u32,
        answer_length: usize,
    ) -> u64;

    fn multipartition_diagonal(
        processors: u32,
        dimensions: u32,
        extents: *const u32,
        extents_length: usize,
        weights: *const u32,
        weights_length: usize,
        least: *const u32,
        least_length: usize,
        plan: *mut u32,
        plan_length: usize,
    ) -> u64;

    fn multipartition_hypercube_owner(
        processors: u32,
        position: *const u32,
        position_length: usize,
        answer: *mut u32,
        answer_length: usize,
    ) -> u64;

    fn multipartition_owner(
        plan: *const u32,
        plan_length: usize,
        position: *const u32,
        position_length: usize,
        answer: *mut u32,
        answer_length: usize,
    ) -> u64;

    fn multipartition_neighbour(
        plan: *const u32,
        plan_length: usize,
        processor: u32,
        dimension: u32,
        up: u32,
        answer: *mut u32,
        answer_length: usize,
    ) -> u64;

    fn multipartition_slab(
        plan: *const u32,
        plan_length: usize,
        dimension: u32,
        slab: u32,
        answer: *mut u32,
        answer_length: usize,
    ) -> u64;

    fn multipartition_slab_of(
        plan: *const u32,
        plan_length: usize,
        dimension: u32,
        element: u32,
        answer: *mut u32,
        answer_length: usize,
    ) -> u64;

    fn multipartition_slabs_of(
        plan: *const u32,
        plan_length: usize,
        dimension: u32,
        elements: *const u32,
        elements_length: usize,
        slabs: *mut u32,
        slabs_length: usize,
    ) -> u64;

    fn multipartition_slab_sheet(
        plan: *const u32,
        plan_length: usize,
        dimension: u32,
        page: u32,
        caption: *const u8,
        caption_length: usize,
        sheet: *mut u8,
        sheet_length: usize,
    ) -> u64;

    fn multipartition_tile_number(
        plan: *const u32,
        plan_length: usize,
        position: *const u32,
        position_length: usize,
        answer: *mut u32,
        answer_length: usize,
    ) -> u64;

    fn multipartition_tile_position(
        plan: *const u32,
        plan_length: usize,
        tile: u32,
        answer: *mut u32,
        answer_length: usize,
    ) -> u64;

    fn multipartition_step(
        plan: *const u32,
        plan_length: usize,
        position: *const u32,
        position_length: usize,
        dimension: u32,
        up: u32,
        answer: *mut u32,
        answer_length: usize,
    ) -> u64;

    fn multipartition_timetable(
        plan: *const u32,
        plan_length: usize,
        dimension: u32,
        up: u32,
        step: u32,
        processor: u32,
        answer: *mut u32,
        answer_length: usize,
    ) -> u64;

    fn multipartition_chains(
        plan: *const u32,
        plan_length: usize,
        heads: *mut u32,
        heads_length: usize,
        nexts: *mut u32,
        nexts_length: usize,
    ) -> u64;
}

pub fn plan(
    p: u32,
    d: u32,
    extents: &[u32],
    weights: &[u32],
    least: &[u32],
    plan: &mut [u32],
) -> u64 {
    unsafe {
        multipartition_plan(
            p,
            d,
            extents.as_ptr(),
            extents.len(),
            weights.as_ptr(),
            weights.len(),
            least.as_ptr(),
            least.len(),
            plan.as_mut_ptr(),
            plan.len(),
        )
    }
}

pub fn smallest_refused(
    p: u32,
    d: u32,
    extents: &[u32],
    weights: &[u32],
    least: &[u32],
    answer: &mut [u32],
) -> u64 {
    unsafe {
        multipartition_smallest_refused(
            p,
            d,
            extents.as_ptr(),
            extents.len(),
            weights.as_ptr(),
            weights.len(),
            least.as_ptr(),
            least.len(),
            answer.as_mut_ptr(),
            answer.len(),
        )
    }
}

pub fn diagonal(
    p: u32,
    d: u32,
    extents: &[u32],
    weights: &[u32],
    least: &[u32],
    plan: &mut [u32],
) -> u64 {
    unsafe {
        multipartition_diagonal(
            p,
            d,
            extents.as_ptr(),
            extents.len(),
            weights.as_ptr(),
            weights.len(),
            least.as_ptr(),
            least.len(),
            plan.as_mut_ptr(),
            plan.len(),
        )
    }
}

pub fn hypercube_owner(p: u32, position: &[u32], answer: &mut [u32]) -> u64 {
    unsafe {
        multipartition_hypercube_owner(
            p,
            position.as_ptr(),
            position.len(),
            answer.as_mut_ptr(),
            answer.len(),
        )
    }
}

pub fn owner(plan: &[u32], position: &[u32], answer: &mut [u32]) -> u64 {
    unsafe {
        multipartition_owner(
            plan.as_ptr(),
            plan.len(),
            position.as_ptr(),
            position.len(),
            answer.as_mut_ptr(),
            answer.len(),
        )
    }
}

pub fn neighbour(plan: &[u32], processor: u32, dimension: u32, up: u32, answer: &mut [u32]) -> u64 {
    unsafe {
        multipartition_neighbour(
            plan.as_ptr(),
            plan.len(),
            processor,
            dimension,
            up,
            answer.as_mut_ptr(),
            answer.len(),
        )
    }
}

pub fn slab(plan: &[u32], dimension: u32, slab: u32, answer: &mut [u32]) -> u64 {
    unsafe {
        multipartition_slab(
            plan.as_ptr(),
            plan.len(),
            dimension,
            slab,
            answer.as_mut_ptr(),
            answer.len(),
        )
    }
}

pub fn slab_of(plan: &[u32], dimension: u32, element: u32, answer: &mut [u32]) -> u64 {
    unsafe {
        multipartition_slab_of(
            plan.as_ptr(),
            plan.len(),
            dimension,
            element,
            answer.as_mut_ptr(),
            answer.len(),
        )
    }
}

pub fn slabs_of(plan: &[u32], dimension: u32, elements: &[u32], slabs: &mut [u32]) -> u64 {
    unsafe {
        multipartition_slabs_of(
            plan.as_ptr(),
            plan.len(),
            dimension,
            elements.as_ptr(),
            elements.len(),
            slabs.as_mut_ptr(),
            slabs.len(),
        )
    }
}

pub fn slab_sheet(
    plan: &[u32],
    dimension: u32,
    page: u32,
    caption: &[u8],
    sheet: &mut [u8],
) -> u64 {
    unsafe {
        multipartition_slab_sheet(
            plan.as_ptr(),
            plan.len(),
            dimension,
            page,
            caption.as_ptr(),
            caption.len(),
            sheet.as_mut_ptr(),
            sheet.len(),
        )
    }
}

pub fn tile_number(plan: &[u32], position: &[u32], answer: &mut [u32]) -> u64 {
    unsafe {
        multipartition_tile_number(
            plan.as_ptr(),
            plan.len(),
            position.as_ptr(),
            position.len(),
            answer.as_mut_ptr(),
            answer.len(),
        )
    }
}

pub fn tile_position(plan: &[u32], tile: u32, answer: &mut [u32]) -> u64 {
    unsafe {
        multipartition_tile_position(
            plan.as_ptr(),
            plan.len(),
            tile,
            answer.as_mut_ptr(),
            answer.len(),
        )
    }
}

pub fn step(plan: &[u32], position: &[u32], dimension: u32, up: u32, answer: &mut [u32]) -> u64 {
    unsafe {
        multipartition_step(
            plan.as_ptr(),
            plan.len(),
            position.as_ptr(),
            position.len(),
            dimension,
            up,
            answer.as_mut_ptr(),
            answer.len(),
        )
    }
}

pub fn timetable(
    plan: &[u32],
    dimension: u32,
    up: u32,
    step: u32,
    processor: u32,
    answer: &mut [u32],
) -> u64 {
    unsafe {
        multipartition_timetable(
            plan.as_ptr(),
            plan.len(),
            dimension,
            up,
            step,
            processor,
            answer.as_mut_ptr(),
            answer.len(),
        )
    }
}

pub fn chains(plan: &[u32], heads: &mut [u32], nexts: &mut [u32]) -> u64 {
    unsafe {
        multipartition_chains(
            plan.as_ptr(),
            plan.len(),
            heads.as_mut_ptr(),
            heads.len(),
            nexts.as_mut_ptr(),
            nexts.len(),
        )
    }
}

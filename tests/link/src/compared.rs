//! Calls beside the independent planner's answers to the same questions.

use oracle::plan::{Job, Plan};
use oracle::refusal::{self, Refusal};
use oracle::timetable::{self, Message};
use oracle::{chains, hypercube, neighbours, owners, probes, sheet, slabs, tiles};

use crate::calls;
use crate::guarded::Guarded;
use crate::plan_list::{list_of, plan_of};
use crate::questions::Question;

/// Memory for the up to four lists that a call may have. They stand at its end in one call, at its
/// beginning in the next.
#[derive(Default)]
pub struct Lists {
    memory: [Guarded; 4],
    at_end: bool,
}

impl Lists {
    fn hold<const N: usize>(&mut self, lists: [&[u32]; N]) -> [&mut [u32]; N] {
        self.at_end = !self.at_end;
        let mut memory = self.memory.iter_mut();
        lists.map(|list| {
            let guarded = memory.next().expect("memory for every list");
            guarded.hold(list, self.at_end)
        })
    }

    /// A plan list, and two lists of bytes.
    fn hold_bytes(&mut self, list: &[u32], bytes: [&[u8]; 2]) -> (&mut [u32], [&mut [u8]; 2]) {
        self.at_end = !self.at_end;
        let [of_list, first, second, _] = &mut self.memory;
        let first = first.hold(bytes[0], self.at_end);
        let second = second.hold(bytes[1], self.at_end);
        (of_list.hold(list, self.at_end), [first, second])
    }
}

/// What a call returns where it is refused.
fn code(refusal: Refusal) -> u64 {
    u64::from(refusal.number) | (refusal.place as u64) << 32
}

/// What a call is to return, and what it is to leave in its answer list.
fn outcome(answer: Result<Vec<u32>, Refusal>, lent: &[u32]) -> (u64, Vec<u32>) {
    match answer {
        Ok(numbers) if numbers.len() == lent.len() => (0, numbers),
        Ok(_) => (code(refusal::LIST), lent.to_vec()),
        Err(refusal) => (code(refusal), lent.to_vec()),
    }
}

/// A message in an answer list: 1, the other processor and the length, or three times 0 for nobody.
fn places(message: Option<Message>) -> [u32; 3] {
    match message {
        Some(Message { processor, length }) => [1, processor, length],
        None => [0; 3],
    }
}

/// The independent answer to a question about a plan.
fn answer(plan: &Plan, question: &Question) -> Result<Vec<u32>, Refusal> {
    let numbers = match *question {
        Question::Owner { ref position } => vec![owners::owner(plan, position)?],
        Question::Neighbour {
            processor,
            dimension,
            up,
        } => match neighbours::neighbour(plan, processor, dimension, up != 0)? {
            Some(next) => vec![1, next],
            None => vec![0, 0],
        },
        Question::Slab { dimension, slab } => {
            let (first, after) = slabs::elements(plan, dimension, slab)?;
            vec![first, after]
        }
        Question::SlabOf { dimension, element } => vec![slabs::slab_of(plan, dimension, element)?],
        Question::TileNumber { ref position } => vec![tiles::number(plan, position)?],
        Question::TilePosition { tile } => tiles::position(plan, tile)?,
        Question::Step {
            ref position,
            dimension,
            up,
        } => match tiles::step(plan, position, dimension, up != 0)? {
            Some(moved) => [vec![1], moved].concat(),
            None => vec![0; 1 + plan.dimensions()],
        },
        Question::Timetable {
            dimension,
            up,
            step,
            processor,
        } => {
            let visit = timetable::visit(plan, dimension, up != 0, step, processor)?;
            let [sends, expects] = [visit.sends, visit.expects].map(places);
            [&[visit.slab, visit.tiles][..], &sends, &expects].concat()
        }
    };
    Ok(numbers)
}

/// Asks a question about a plan list. What is returned and what the lent list then holds are as the
/// independent answer has it.
pub fn ask(lists: &mut Lists, list: &[u32], question: &Question, lent: &[u32]) -> u64 {
    let answered = plan_of(list)
        .ok_or(refusal::SHAPE)
        .and_then(|plan| answer(&plan, question));
    let [list, position, lent_list] = lists.hold([list, question.position(), lent]);
    let returned = match *question {
        Question::Owner { .. } => calls::owner(list, position, lent_list),
        Question::Neighbour {
            processor,
            dimension,
            up,
        } => calls::neighbour(list, processor, dimension, up, lent_list),
        Question::Slab { dimension, slab } => calls::slab(list, dimension, slab, lent_list),
        Question::SlabOf { dimension, element } => {
            calls::slab_of(list, dimension, element, lent_list)
        }
        Question::TileNumber { .. } => calls::tile_number(list, position, lent_list),
        Question::TilePosition { tile } => calls::tile_position(list, tile, lent_list),
        Question::Step { dimension, up, .. } => {
            calls::step(list, position, dimension, up, lent_list)
        }
        Question::Timetable {
            dimension,
            up,
            step,
            processor,
        } => calls::timetable(list, dimension, up, step, processor, lent_list),
    };
    assert_eq!(
        (returned, lent_list.to_vec()),
        outcome(answered, lent),
        "{question:?} of {list:?}"
    );
    returned
}

/// Plans a job, likewise.
pub fn plan(lists: &mut Lists, job: &Job, lent: &[u32]) -> u64 {
    let planned = job.plan().map(|plan| list_of(&plan).to_vec());
    call(lists, job, lent, planned, calls::plan)
}

/// Asks for the diagonal plan of a job, likewise.
pub fn diagonal(lists: &mut Lists, job: &Job, lent: &[u32]) -> u64 {
    let planned = job.diagonal().map(|plan| list_of(&plan).to_vec());
    call(lists, job, lent, planned, calls::diagonal)
}

/// Asks for the smallest divisor of p for which a job is refused with 5, likewise: 1 and the divisor, or twice 0 where
/// there is nothing to show.
pub fn smallest_refused(lists: &mut Lists, job: &Job, lent: &[u32]) -> u64 {
    let answered = job
        .smallest_refused()
        .map(|divisor| divisor.map_or(vec![0, 0], |divisor| vec![1, divisor]));
    call(lists, job, lent, answered, calls::smallest_refused)
}

/// A call that takes a job: it makes a plan, or asks for a divisor.
pub type JobCall = fn(u32, u32, &[u32], &[u32], &[u32], &mut [u32]) -> u64;

/// Calls with a job, to which this is the answer. The lists that describe the job keep their contents.
fn call(
    lists: &mut Lists,
    job: &Job,
    lent: &[u32],
    answered: Result<Vec<u32>, Refusal>,
    job_call: JobCall,
) -> u64 {
    let given = [&job.extents[..], &job.weights, &job.least];
    let [extents, weights, least, lent_list] = lists.hold([given[0], given[1], given[2], lent]);
    let returned = job_call(job.p, job.d, extents, weights, least, lent_list);
    assert_eq!(
        (returned, lent_list.to_vec()),
        outcome(answered, lent),
        "{job:?}"
    );
    assert_eq!([&*extents, weights, least], given, "{job:?}");
    returned
}

/// Asks who owns a tile of the hypercube layout, likewise.
pub fn hypercube_owner(lists: &mut Lists, p: u32, position: &[u32], lent: &[u32]) -> u64 {
    let answered = hypercube::owner(p, position).map(|processor| vec![processor]);
    let [position, lent_list] = lists.hold([position, lent]);
    let returned = calls::hypercube_owner(p, position, lent_list);
    assert_eq!(
        (returned, lent_list.to_vec()),
        outcome(answered, lent),
        "{position:?} of {p} processors"
    );
    returned
}

/// Asks for the chains of a plan list, likewise.
pub fn chain(lists: &mut Lists, list: &[u32], heads: &[u32], nexts: &[u32]) -> u64 {
    let (mut expected_heads, mut expected_nexts) = (heads.to_vec(), nexts.to_vec());
    let answered = plan_of(list)
        .ok_or(refusal::SHAPE)
        .and_then(|plan| chains::chains(&plan, &mut expected_heads, &mut expected_nexts));
    let [list, heads, nexts] = lists.hold([list, heads, nexts]);
    let returned = calls::chains(list, heads, nexts);
    assert_eq!(
        (returned, heads.to_vec(), nexts.to_vec()),
        (
            answered.map_or_else(code, |()| 0),
            expected_heads,
            expected_nexts
        ),
        "the chains of {list:?}"
    );
    returned
}

/// Asks for the slabs of a probe line, likewise. The plan list and the elements keep their contents.
pub fn probe(
    lists: &mut Lists,
    list: &[u32],
    dimension: u32,
    elements: &[u32],
    lent: &[u32],
) -> u64 {
    let mut expected = lent.to_vec();
    let answered = plan_of(list)
        .ok_or(refusal::SHAPE)
        .and_then(|plan| probes::slabs_of(&plan, dimension, elements, &mut expected));
    let [given_list, given, slabs] = lists.hold([list, elements, lent]);
    let returned = calls::slabs_of(given_list, dimension, given, slabs);
    assert_eq!(
        (returned, slabs.to_vec()),
        (answered.map_or_else(code, |()| 0), expected),
        "{elements:?} along {dimension} of {list:?}"
    );
    assert_eq!((&*given_list, &*given), (list, elements));
    returned
}

/// Asks for a page of a slab sheet, likewise. The plan list and the caption keep their contents.
pub fn slab_sheet(
    lists: &mut Lists,
    list: &[u32],
    dimension: u32,
    page: u32,
    caption: &[u8],
    lent: &[u8],
) -> u64 {
    let mut expected = lent.to_vec();
    let answered = plan_of(list)
        .ok_or(refusal::SHAPE)
        .and_then(|plan| sheet::slab_sheet(&plan, dimension, page, caption, &mut expected));
    let (given_list, [given, sheet]) = lists.hold_bytes(list, [caption, lent]);
    let returned = calls::slab_sheet(given_list, dimension, page, given, sheet);
    let asked = || {
        let caption = caption[..caption.len().min(100)].escape_ascii();
        format!("page {page} along {dimension}, caption \"{caption}\", of {list:?}")
    };
    assert_eq!(returned, answered.map_or_else(code, |()| 0), "{}", asked());
    if let Some(line) = first_other_line(sheet, &expected) {
        panic!("line {line} of {}", asked());
    }
    assert_eq!((&*given_list, &*given), (list, caption));
    returned
}

/// The first line of a page in which two lists of bytes of one length differ, counted from 1, and both lines.
fn first_other_line(found: &[u8], expected: &[u8]) -> Option<String> {
    let mut lines = found.chunks(73).zip(expected.chunks(73)).enumerate();
    let (at, (found, expected)) = lines.find(|(_, (found, expected))| found != expected)?;
    let (found, expected) = (found.escape_ascii(), expected.escape_ascii());
    Some(format!("{}\n  is  {found}\n  not {expected}\n", at + 1))
}

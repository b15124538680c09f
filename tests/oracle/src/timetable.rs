//! The sweep timetable (document 02, request b).

use crate::neighbours::neighbour_of;
use crate::owners::{check_processor, owner_of};
use crate::plan::{check_below, Plan};
use crate::refusal::{self, Refusal};
use crate::slabs::thickness;
use crate::tiles::position_of;

/// The processor at the other end of a message, and the message's length in elements.
#[derive(Clone, Copy, Debug, PartialEq, Eq)]
pub struct Message {
    pub processor: u32,
    pub length: u32,
}

/// What a processor does in one step of a sweep; `None` is "no processor, length 0".
#[derive(Clone, Copy, Debug, PartialEq, Eq)]
pub struct Visit {
    pub slab: u32,
    pub tiles: u32,
    pub sends: Option<Message>,
    pub expects: Option<Message>,
}

/// "For a plan, a dimension, a direction, a step and a processor it gives the slab visited, how many
/// tiles that processor works on, the processor it sends to afterwards with the message length in
/// elements, and the processor it receives from beforehand with the length it expects."
/// Refusals 6, 7, 11 and 8: "11 [...] after 7 and before 8; a step not below bk is an 8".
pub fn visit(
    plan: &Plan,
    dimension: u32,
    up: bool,
    step: u32,
    processor: u32,
) -> Result<Visit, Refusal> {
    plan.check_shape()?;
    let k = plan.check_dimension(dimension)?;
    check_other_extents(plan, k)?;
    check_below(step, u128::from(plan.cuts[k]))?;
    check_processor(plan, processor)?;

    let slab = slab_visited(plan, k, up, step);
    let (tiles, faces) = tiles_and_faces(plan, k, slab, processor);
    // "A message is the sum of the sender's faces in that slab", and "the length expected is the sum
    // of the receiver's own faces in the slab it is about to visit": either way this processor's
    // faces in this slab.
    let message = |up| {
        neighbour_of(plan, processor, k, up).map(|processor| Message {
            processor,
            length: faces,
        })
    };
    // "After the last step nothing is sent, and before step 0 nothing is expected."
    let (first, last) = (step == 0, step == plan.cuts[k] - 1);
    Ok(Visit {
        slab,
        tiles,
        // "A processor sends to its neighbour along that dimension in the sweep's direction and
        // receives from its neighbour in the opposite one."
        sends: if last { None } else { message(up) },
        expects: if first { None } else { message(!up) },
    })
}

/// "The product of the other extents": of all but that at place k.
pub fn other_extents(plan: &Plan, k: usize) -> u128 {
    let others = (0..plan.dimensions()).filter(|&j| j != k);
    others.map(|j| u128::from(plan.extents[j])).product()
}

/// Refusal 11: "the product of the other extents is above 4,294,967,295".
fn check_other_extents(plan: &Plan, k: usize) -> Result<(), Refusal> {
    if other_extents(plan, k) > 4_294_967_295 {
        Err(refusal::OTHER_EXTENTS)
    } else {
        Ok(())
    }
}

/// "Step s visits slab s going up and slab bk - 1 - s going down."
fn slab_visited(plan: &Plan, k: usize, up: bool, step: u32) -> u32 {
    if up {
        step
    } else {
        plan.cuts[k] - 1 - step
    }
}

/// "A slab is all tiles with one slab number in one dimension": their positions, which are those of a
/// grid with a single slab there.
fn positions_in_slab(plan: &Plan, k: usize, slab: u32) -> impl Iterator<Item = Vec<u32>> {
    let mut flat = plan.clone();
    flat.cuts[k] = 1;
    (1..=flat.tiles() as u32).map(move |tile| {
        let mut position = position_of(&flat, tile);
        position[k] = slab;
        position
    })
}

/// "A tile's face is the product of its thicknesses in the other dimensions", a thickness being how
/// many elements the tile's slab holds.
fn face(plan: &Plan, k: usize, position: &[u32]) -> u64 {
    let others = (0..plan.dimensions()).filter(|&j| j != k);
    others
        .map(|j| u64::from(thickness(plan, j, position[j])))
        .product()
}

/// How many tiles of a slab a processor owns, and the sum of their faces.
fn tiles_and_faces(plan: &Plan, k: usize, slab: u32, processor: u32) -> (u32, u32) {
    let (mut tiles, mut faces) = (0, 0);
    for position in positions_in_slab(plan, k, slab) {
        if owner_of(plan, &position) == processor {
            tiles += 1;
            faces += face(plan, k, &position);
        }
    }
    let faces = u32::try_from(faces).expect("no more than the product of the other extents");
    (tiles, faces)
}

#[cfg(test)]
mod tests {
    use super::*;
    use crate::diagonal::diagonal_job;
    use crate::plan::plan_job;
    use crate::slabs::{slab_of, start};

    /// The plan of a grid whose weights are 1.
    fn grid(p: u32, extents: &[u32]) -> Plan {
        let ones = vec![1; extents.len()];
        plan_job(p, extents.len() as u32, extents, &ones, &[]).unwrap()
    }

    /// Six processors on 9 by 9, made by hand with cuts 3 2, moduli 1 6 and row 2 equal to 2 3.
    fn three_by_two() -> Plan {
        let mut plan = grid(6, &[9, 9]);
        plan.cuts = [3, 2, 0, 0, 0];
        plan.moduli = [1, 6, 0, 0, 0];
        plan.matrix = [[0; 5]; 5];
        plan.matrix[1] = [2, 3, 0, 0, 0];
        plan
    }

    /// Diagonal plans whose slabs have unequal thickness.
    fn diagonals() -> [Plan; 3] {
        [
            diagonal_job(5, 2, &[7, 12], &[1; 2], &[]).unwrap(),
            diagonal_job(4, 3, &[5, 7, 9], &[1; 3], &[]).unwrap(),
            diagonal_job(9, 3, &[8, 4, 7], &[1; 3], &[]).unwrap(),
        ]
    }

    fn message(processor: u32, length: u32) -> Option<Message> {
        Some(Message { processor, length })
    }

    /// What each processor sends, going up.
    fn sent(plan: &Plan, dimension: u32, step: u32) -> Vec<Option<Message>> {
        let sends = |q| visit(plan, dimension, true, step, q).unwrap().sends;
        (0..plan.p).map(sends).collect()
    }

    fn lengths(plan: &Plan, dimension: u32, step: u32) -> Vec<u32> {
        let sent = sent(plan, dimension, step);
        sent.iter().map(|told| told.unwrap().length).collect()
    }

    #[test]
    fn four_on_8_8_8() {
        let plan = grid(4, &[8, 8, 8]);
        for (q, other) in [2, 3, 0, 1].into_iter().enumerate() {
            let (first, last) = (
                Visit {
                    slab: 0,
                    tiles: 1,
                    sends: message(other, 16),
                    expects: None,
                },
                Visit {
                    slab: 1,
                    tiles: 1,
                    sends: None,
                    expects: message(other, 16),
                },
            );
            assert_eq!(visit(&plan, 1, true, 0, q as u32), Ok(first));
            assert_eq!(visit(&plan, 1, true, 1, q as u32), Ok(last));
            // Modulo 2, up and down lead to the same neighbour.
            let (first, last) = (Visit { slab: 1, ..first }, Visit { slab: 0, ..last });
            assert_eq!(visit(&plan, 1, false, 0, q as u32), Ok(first));
            assert_eq!(visit(&plan, 1, false, 1, q as u32), Ok(last));
        }
    }

    #[test]
    fn six_on_9_9_9() {
        let plan = grid(6, &[9, 9, 9]);
        assert_eq!(plan.cuts, [2, 3, 6, 0, 0]);
        let told = visit(&plan, 2, true, 0, 0).unwrap();
        assert_eq!((told.slab, told.tiles), (0, 2));
        assert_eq!((told.sends, told.expects), (message(4, 18), None));
        let sends = sent(&plan, 2, 0);
        assert_eq!(sends[1], message(5, 18));
        let told = visit(&plan, 2, true, 1, 0).unwrap();
        assert_eq!((told.slab, told.expects), (1, message(2, 14)));
        assert_eq!(lengths(&plan, 2, 0).iter().sum::<u32>(), 81);
        // Going down, step 0 visits slab 2 and sends the other way.
        let told = visit(&plan, 2, false, 0, 0).unwrap();
        assert_eq!((told.slab, told.expects), (2, None));
        assert_eq!(told.sends.unwrap().processor, 2);
    }

    #[test]
    fn slabs_of_unequal_thickness() {
        let plan = grid(4, &[5, 7, 9]);
        assert_eq!(plan.cuts, [2, 2, 2, 0, 0]);
        assert_eq!(lengths(&plan, 3, 0), [12, 6, 8, 9]);
        assert_eq!(lengths(&plan, 1, 0), [20, 16, 12, 15]);
        let plan = grid(4, &[10, 10]);
        assert_eq!(lengths(&plan, 1, 0), [3, 3, 2, 2]);
        assert_eq!(lengths(&plan, 1, 1), [2, 3, 3, 2]);
        assert_eq!(lengths(&plan, 1, 2), [2, 2, 3, 3]);
        assert_eq!(sent(&plan, 1, 3), [None; 4]);
    }

    #[test]
    fn plans_made_by_hand() {
        // Without a tile in the slab, a processor still names its neighbour.
        let told = visit(&three_by_two(), 1, true, 0, 1).unwrap();
        assert_eq!((told.tiles, told.sends), (0, message(3, 0)));
        // A lone processor with a cut is its own neighbour; the longest message there is.
        let mut plan = grid(1, &[65535, 65537, 2]);
        plan.cuts[2] = 2;
        let told = visit(&plan, 3, true, 0, 0).unwrap();
        assert_eq!((told.tiles, told.sends), (1, message(0, u32::MAX)));
    }

    #[test]
    fn an_uncut_dimension_has_one_step() {
        let plan = grid(5, &[4, 9, 9]);
        assert_eq!(plan.cuts, [1, 5, 5, 0, 0]);
        let told = Visit {
            slab: 0,
            tiles: 5,
            sends: None,
            expects: None,
        };
        for up in [false, true] {
            assert_eq!(visit(&plan, 1, up, 0, 4), Ok(told));
            assert_eq!(visit(&plan, 1, up, 1, 4), Err(refusal::RANGE));
        }
    }

    #[test]
    fn the_largest_product() {
        let first = |extents| visit(&grid(2, extents), 3, true, 0, 0).map(|told| told.sends);
        assert_eq!(first(&[65536, 65536, 2]), Err(refusal::OTHER_EXTENTS));
        assert_eq!(first(&[65535, 65537, 2]), Ok(message(1, 2_147_516_415)));
        assert_eq!(first(&[1_000_000, 4295, 2]), Err(refusal::OTHER_EXTENTS));
        assert_eq!(first(&[1_000_000, 4294, 2]), Ok(message(1, 2_147_000_000)));
        // Products that 64 bits do not hold: 2 to the power 64 and 10 to the power 24.
        for extents in [[65536; 5], [1_000_000; 5]] {
            for k in 1..=5 {
                let told = visit(&grid(2, &extents), k, true, 0, 0);
                assert_eq!(told, Err(refusal::OTHER_EXTENTS));
            }
        }
    }

    #[test]
    fn refusals_in_order() {
        let mut plan = grid(2, &[65536, 65536, 2]);
        assert_eq!(plan.cuts, [1, 2, 2, 0, 0]);
        for dimension in [0, 4] {
            let told = visit(&plan, dimension, true, 9, 9);
            assert_eq!(told, Err(refusal::DIMENSION));
        }
        assert_eq!(visit(&plan, 3, true, 2, 0), Err(refusal::OTHER_EXTENTS));
        assert_eq!(visit(&plan, 3, false, 0, 2), Err(refusal::OTHER_EXTENTS));
        for up in [false, true] {
            assert_eq!(visit(&plan, 2, up, 2, 0), Err(refusal::RANGE));
            assert_eq!(visit(&plan, 2, up, u32::MAX, 0), Err(refusal::RANGE));
            assert_eq!(visit(&plan, 2, up, 0, 2), Err(refusal::RANGE));
        }
        plan.moduli[1] = 0;
        assert_eq!(visit(&plan, 4, true, 9, 9), Err(refusal::SHAPE));
    }

    /// "What a processor sends after a step is exactly what its receiver expects before the next, and
    /// except after the last step the lengths of one step add up to the product of the other extents."
    #[test]
    fn what_is_sent_is_expected() {
        let jobs: [(u32, &[u32]); 6] = [
            (4, &[10, 10]),
            (4, &[5, 7, 9]),
            (6, &[9, 9, 9]),
            (8, &[9, 10, 11]),
            (12, &[7, 7, 7, 7]),
            (6, &[3, 4, 5, 6, 7]),
        ];
        let plans = jobs.map(|(p, extents)| grid(p, extents));
        for plan in plans.iter().chain(&diagonals()).chain([&three_by_two()]) {
            for k in 0..plan.dimensions() {
                for up in [false, true] {
                    let at = |s, q| visit(plan, k as u32 + 1, up, s, q).unwrap();
                    for s in 0..plan.cuts[k] - 1 {
                        let mut lengths = 0;
                        for q in 0..plan.p {
                            let sent = at(s, q).sends.unwrap();
                            let expected = at(s + 1, sent.processor).expects;
                            assert_eq!(expected, message(q, sent.length), "{plan:?}");
                            lengths += u128::from(sent.length);
                        }
                        assert_eq!(lengths, other_extents(plan, k), "{plan:?}");
                    }
                }
            }
        }
    }

    /// A processor's faces are its share of the elements of one layer of the slab.
    #[test]
    fn faces_element_by_element() {
        let plans = [grid(4, &[5, 7, 9]), grid(6, &[9, 9, 9]), grid(4, &[10, 10])];
        for plan in plans.iter().chain(&diagonals()).chain([&three_by_two()]) {
            for k in 0..plan.dimensions() {
                // A grid whose tiles are the elements.
                let mut single = plan.clone();
                single.cuts = plan.extents;
                for slab in 0..plan.cuts[k] {
                    let mut held = vec![0; plan.p as usize];
                    for element in positions_in_slab(&single, k, start(plan, k, slab)) {
                        let position: Vec<u32> = (1..)
                            .zip(&element)
                            .map(|(dimension, &at)| slab_of(plan, dimension, at).unwrap())
                            .collect();
                        assert_eq!(position[k], slab);
                        held[owner_of(plan, &position) as usize] += 1;
                    }
                    for (q, count) in (0..).zip(held) {
                        assert_eq!(tiles_and_faces(plan, k, slab, q).1, count, "{plan:?}");
                    }
                }
            }
        }
    }
}

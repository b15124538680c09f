//! Millions of jobs, plan lists and questions, many of them damaged, against the independent planner. The
//! lists stand at the edge of the memory that may be touched. The seeds are fixed.

use std::collections::{BTreeMap, HashMap};
use std::mem::discriminant;

use link::calls;
use link::compared::{
    ask, chain, diagonal, hypercube_owner, plan, probe, slab_sheet, smallest_refused, JobCall,
    Lists,
};
use link::guarded::ROOM;
use link::plan_list::{
    list_of, plan_of, PlanList, COST_HIGH, COST_LOW, CUTS, DIMENSIONS, KIND, LEAST, PLAN_LENGTH,
};
use link::questions::{
    any_numbers, crowded_job, diagonals, dimensions, hypercube, job, job_for_diagonal, lent,
    lent_to_probes, made_by_hand, move_to_limit, plan_list, planned, probe_line, question,
    tiles_in_slab, timetable, Question,
};
use oracle::plan::{Job, Plan, DIAGONAL};
use oracle::random::Random;
use oracle::timetable::{other_extents, Message, Visit};

/// How often each number is returned.
#[derive(Debug, Default)]
struct Seen(BTreeMap<u32, u64>);

impl Seen {
    fn note(&mut self, returned: u64) {
        *self.0.entry(returned as u32).or_default() += 1;
    }

    /// Each of these often enough, and no other.
    fn check(&self, numbers: &[u32], least: u64) {
        assert!(self.0.keys().eq(numbers), "{self:?}");
        assert!(self.0.values().all(|&count| count >= least), "{self:?}");
    }
}

/// Plans of the planner, and half as many diagonal plans.
fn pool(random: &mut Random) -> Vec<Plan> {
    [planned(random, 400), diagonals(random, 200)].concat()
}

#[test]
fn questions() {
    let mut random = Random::new(1);
    let pool = pool(&mut random);
    let mut lists = Lists::default();
    let mut seen: HashMap<_, (Seen, &[u32])> = HashMap::new();
    for _ in 0..1_500_000 {
        let list = plan_list(&mut random, &pool);
        for _ in 0..6 {
            let question = question(&mut random, &list);
            let lent = lent(&mut random, question.places(dimensions(&list)));
            let (of_kind, returns) = seen.entry(discriminant(&question)).or_default();
            of_kind.note(ask(&mut lists, &list, &question, &lent));
            *returns = question.returns();
        }
    }
    assert_eq!(seen.len(), 8);
    for (of_kind, returns) in seen.values() {
        of_kind.check(returns, 15_000);
    }
}

/// Tile to position and back, steps there and back, and the edge, in plans of the planner, in diagonal plans and in plans
/// made by hand.
#[test]
fn tiles_both_ways() {
    let mut random = Random::new(5);
    let pool = pool(&mut random);
    let mut edges = 0;
    for _ in 0..100_000 {
        let plan = match random.between(0, 1) {
            0 => random.pick(&pool).clone(),
            _ => made_by_hand(&mut random),
        };
        let list = list_of(&plan);
        let tile = random.between(1, plan.tiles() as u64) as u32;
        let position = at(&list, tile);
        assert_eq!(number(&list, &position), tile, "{plan:?}");
        for k in 0..plan.dimensions() {
            let last = plan.cuts[k] - 1;
            for (up, edge) in [(0, 0), (1, last)] {
                let moved = moved(&list, &position, k, up);
                assert_eq!(moved.is_none(), position[k] == edge, "{plan:?}");
                edges += u32::from(moved.is_none());
                let Some(moved) = moved else { continue };
                // The dimensions before k run faster.
                let worth: u32 = plan.cuts[..k].iter().product();
                let next = if up == 1 { tile + worth } else { tile - worth };
                assert_eq!(number(&list, &moved), next, "{plan:?}");
                assert_eq!(at(&list, next), moved, "{plan:?}");
                let back = self::moved(&list, &moved, k, 1 - up);
                assert_eq!(back.as_ref(), Some(&position), "{plan:?}");
            }
        }
    }
    assert!(edges > 50_000, "{edges}");
}

fn at(list: &PlanList, tile: u32) -> Vec<u32> {
    let mut position = vec![77; list[DIMENSIONS] as usize];
    assert_eq!(calls::tile_position(list, tile, &mut position), 0);
    position
}

fn number(list: &PlanList, position: &[u32]) -> u32 {
    let mut tile = [77];
    assert_eq!(calls::tile_number(list, position, &mut tile), 0);
    tile[0]
}

/// The position one step along the dimension at place k, or none at the edge.
fn moved(list: &PlanList, position: &[u32], k: usize, up: u32) -> Option<Vec<u32>> {
    let mut answer = vec![77; 1 + position.len()];
    let dimension = k as u32 + 1;
    assert_eq!(calls::step(list, position, dimension, up, &mut answer), 0);
    match answer[0] {
        0 => {
            assert!(answer.iter().all(|&n| n == 0), "{answer:?}");
            None
        }
        1 => Some(answer[1..].to_vec()),
        other => panic!("inside is {other}"),
    }
}

/// A plan in shape, and the place of a dimension of it.
fn in_shape(random: &mut Random, pool: &[Plan]) -> (Plan, usize) {
    let plan = match random.between(0, 1) {
        0 => random.pick(pool).clone(),
        _ => made_by_hand(random),
    };
    let k = random.between(0, u64::from(plan.d) - 1) as usize;
    (plan, k)
}

/// Timetables of slabs of many tiles, a few of them very many, and of grids at the limit of refusal 11.
#[test]
fn timetables() {
    let mut random = Random::new(6);
    let pool = pool(&mut random);
    let mut lists = Lists::default();
    let mut seen = Seen::default();
    let (mut large, mut largest_product, mut least_refused) = (0, 0, 0);
    for _ in 0..40_000 {
        let (mut plan, k) = in_shape(&mut random, &pool);
        move_to_limit(&mut random, &mut plan, k);
        if tiles_in_slab(&plan, k) > 2_000 {
            if large == 40 {
                continue;
            }
            large += 1;
        }
        let list = list_of(&plan);
        let question = timetable(&mut random, &list, k as u32 + 1);
        let lent = lent(&mut random, question.places(plan.dimensions()));
        let returned = ask(&mut lists, &list, &question, &lent);
        seen.note(returned);
        match other_extents(&plan, k) {
            4_294_000_000..=4_294_967_295 => largest_product += u32::from(returned == 0),
            4_294_967_296..=4_296_000_000 => least_refused += u32::from(returned == 11),
            _ => (),
        }
    }
    seen.check(&[0, 8, 9, 11], 500);
    assert_eq!(large, 40);
    assert!(largest_product > 500, "{largest_product}");
    assert!(least_refused > 500, "{least_refused}");
}

/// As many tiles as there may be, all of them in one slab, and the longest message.
#[test]
fn largest_timetables() {
    let mut lists = Lists::default();
    let mut list = [0; PLAN_LENGTH];
    assert_eq!(
        calls::plan(4096, 3, &[9, 4096, 5000], &[1; 3], &[], &mut list),
        0
    );
    list[CUTS..][..3].copy_from_slice(&[1, 4096, 4096]);
    let question = |dimension, step, processor| Question::Timetable {
        dimension,
        up: 1,
        step,
        processor,
    };
    assert_eq!(ask(&mut lists, &list, &question(1, 0, 4095), &[77; 8]), 0);
    assert_eq!(ask(&mut lists, &list, &question(2, 4094, 7), &[77; 8]), 0);

    let extents = [65535, 65537, 9];
    assert_eq!(calls::plan(1, 3, &extents, &[1; 3], &[], &mut list), 0);
    for cuts in [[1, 1, 3], [2, 3, 3], [64, 32, 9]] {
        list[CUTS..][..3].copy_from_slice(&cuts);
        let told = visit(&list, 3, 1, 1, 0);
        let longest = Some(Message {
            processor: 0,
            length: u32::MAX,
        });
        assert_eq!((told.sends, told.expects), (longest, longest));
        assert_eq!(ask(&mut lists, &list, &question(3, 1, 0), &[77; 8]), 0);
    }
}

/// What the calls say of one step, held against what they say of the steps before and after: "what a processor sends
/// after a step is exactly what its receiver expects before the next, and except after the last step the lengths of
/// one step add up to the product of the other extents", also in diagonal plans and in plans made by hand.
#[test]
fn messages_meet() {
    let mut random = Random::new(7);
    let pool = pool(&mut random);
    let (mut by_planner, mut diagonal, mut by_hand, mut large) = (0, 0, 0, 0);
    while by_planner + diagonal + by_hand < 4_000 {
        let (plan, k) = in_shape(&mut random, &pool);
        let product = other_extents(&plan, k);
        let in_slab = tiles_in_slab(&plan, k);
        let work = u128::from(plan.p) * in_slab;
        if product > u128::from(u32::MAX) || work > 5_000_000 {
            continue;
        }
        if work > 20_000 {
            if large == 12 {
                continue;
            }
            large += 1;
        }
        let (list, last) = (list_of(&plan), plan.cuts[k] - 1);
        let up = random.between(0, 1) as u32;
        let step = random.between(0, u64::from(last)) as u32;
        let even = pool.contains(&plan);
        let (mut tiles, mut sent, mut expected) = (0, 0, 0);
        for q in 0..plan.p {
            let at = |step, processor| visit(&list, k as u32 + 1, up, step, processor);
            let mine = |length| {
                Some(Message {
                    processor: q,
                    length,
                })
            };
            let told = at(step, q);
            assert_eq!(told.slab, if up == 1 { step } else { last - step });
            assert_eq!(told.sends.is_none(), step == last, "{plan:?}");
            assert_eq!(told.expects.is_none(), step == 0, "{plan:?}");
            if let Some(Message { processor, length }) = told.sends {
                let expected = at(step + 1, processor).expects;
                assert_eq!(expected, mine(length), "{plan:?}");
                sent += u128::from(length);
            }
            if let Some(Message { processor, length }) = told.expects {
                let sent = at(step - 1, processor).sends;
                assert_eq!(sent, mine(length), "{plan:?}");
                expected += u128::from(length);
            }
            if even {
                // Which is tiles / (bk * p).
                let share = in_slab / u128::from(plan.p);
                assert_eq!(u128::from(told.tiles), share, "{plan:?}");
            }
            tiles += u128::from(told.tiles);
        }
        assert_eq!(tiles, in_slab, "{plan:?}");
        assert_eq!(sent, if step == last { 0 } else { product }, "{plan:?}");
        assert_eq!(expected, if step == 0 { 0 } else { product }, "{plan:?}");
        match (even, plan.kind) {
            (true, DIAGONAL) => diagonal += 1,
            (true, _) => by_planner += 1,
            _ => by_hand += 1,
        }
    }
    assert!(by_planner > 1_000 && diagonal > 300 && by_hand > 1_000 && large == 12);
}

/// What a processor does in one step. Nobody is three times 0.
fn visit(list: &PlanList, dimension: u32, up: u32, step: u32, processor: u32) -> Visit {
    let mut answer = [77; 8];
    let returned = calls::timetable(list, dimension, up, step, processor, &mut answer);
    assert_eq!(returned, 0, "{list:?}");
    let message = |places: &[u32]| match *places {
        [1, processor, length] => Some(Message { processor, length }),
        [0, 0, 0] => None,
        _ => panic!("{answer:?}"),
    };
    Visit {
        slab: answer[0],
        tiles: answer[1],
        sends: message(&answer[2..5]),
        expects: message(&answer[5..]),
    }
}

#[test]
fn jobs() {
    let mut random = Random::new(2);
    let mut lists = Lists::default();
    let mut seen = Seen::default();
    for _ in 0..20_000 {
        let job = job(&mut random);
        let lent = lent(&mut random, PLAN_LENGTH);
        seen.note(plan(&mut lists, &job, &lent));
    }
    seen.check(&[0, 1, 2, 3, 4, 5, 9, 13], 30);
}

#[test]
fn jobs_for_diagonal_plans() {
    let mut random = Random::new(8);
    let mut lists = Lists::default();
    let mut seen = Seen::default();
    for _ in 0..50_000 {
        let job = job_for_diagonal(&mut random);
        let lent = lent(&mut random, PLAN_LENGTH);
        seen.note(diagonal(&mut lists, &job, &lent));
    }
    seen.check(&[0, 1, 2, 3, 4, 5, 9, 12, 13], 100);
}

/// Jobs of which most are refused with 5 by the planner. The call for the smallest divisor that is refused never
/// returns 5.
#[test]
fn jobs_for_smallest_refused_divisors() {
    let mut random = Random::new(19);
    let mut lists = Lists::default();
    let mut seen = Seen::default();
    for _ in 0..10_000 {
        let job = crowded_job(&mut random);
        let lent = lent(&mut random, 2);
        seen.note(smallest_refused(&mut lists, &job, &lent));
    }
    seen.check(&[0, 1, 2, 3, 4, 9, 13], 30);
}

/// Every count of processors in both older layouts: which of them suit.
#[test]
fn every_count_of_the_older_layouts() {
    let mut lists = Lists::default();
    let mut seen = [0; 3];
    for p in 0..=4097 {
        for (d, extent) in [(2, 4096), (3, 64)] {
            let job = Job {
                p,
                d,
                extents: vec![extent; d as usize],
                weights: vec![1; d as usize],
                least: Vec::new(),
            };
            seen[d as usize - 2] += u32::from(diagonal(&mut lists, &job, &[77; PLAN_LENGTH]) == 0);
        }
        seen[2] += u32::from(hypercube_owner(&mut lists, p, &[0; 3], &[77]) == 0);
    }
    assert_eq!(seen, [4096, 64, 7]);
}

/// "Diagonal plans are shown even and never cheaper than the planner's", which takes every job that has a diagonal plan.
#[test]
fn the_planner_costs_no_more() {
    let mut random = Random::new(9);
    let (mut equal, mut dearer) = (0, 0);
    while equal + dearer < 4_000 {
        let job = job_for_diagonal(&mut random);
        let (mut ours, mut theirs) = ([77; PLAN_LENGTH], [77; PLAN_LENGTH]);
        if call(calls::diagonal, &job, &mut theirs) != 0 {
            continue;
        }
        assert_eq!(call(calls::plan, &job, &mut ours), 0, "{job:?}");
        assert_eq!((ours[KIND], theirs[KIND]), (0, 1));
        assert_eq!(ours[LEAST..], theirs[LEAST..]);
        let (cost, other) = (cost(&ours), cost(&theirs));
        assert!(cost <= other, "{job:?}");
        equal += u32::from(cost == other);
        dearer += u32::from(cost < other);
    }
    assert!(equal > 1_000 && dearer > 50, "{equal}, {dearer}");
}

/// Has one of the two planning calls plan a job.
fn call(planner: JobCall, job: &Job, list: &mut [u32]) -> u64 {
    planner(job.p, job.d, &job.extents, &job.weights, &job.least, list)
}

/// "A job and a plan gain a least thickness for each dimension, 1 where none is given": an empty list, and one of ones.
#[test]
fn no_thicknesses_are_ones() {
    let mut random = Random::new(12);
    let planners: [JobCall; 2] = [calls::plan, calls::diagonal];
    let mut seen = Seen::default();
    for _ in 0..10_000 {
        let mut job = job_for_diagonal(&mut random);
        for planner in planners {
            let (mut none, mut ones) = ([77; PLAN_LENGTH], [77; PLAN_LENGTH]);
            job.least = Vec::new();
            let returned = call(planner, &job, &mut none);
            job.least = vec![1; job.d.min(6) as usize];
            assert_eq!(call(planner, &job, &mut ones), returned, "{job:?}");
            assert_eq!(ones, none, "{job:?}");
            if returned == 0 {
                let mut expected = [0; 5];
                expected[..job.d as usize].fill(1);
                assert_eq!(none[LEAST..], expected);
            }
            seen.note(returned);
        }
    }
    seen.check(&[0, 1, 2, 3, 4, 5, 12], 100);
}

fn cost(list: &PlanList) -> u64 {
    u64::from(list[COST_LOW]) | u64::from(list[COST_HIGH]) << 32
}

/// The list of the diagonal plan with so many slabs each way, of as few elements as can be.
fn diagonal_list(d: usize, slabs: u32) -> PlanList {
    let mut list = [77; PLAN_LENGTH];
    let (p, extents, weights) = (slabs.pow(d as u32 - 1), vec![slabs; d], vec![1; d]);
    let returned = calls::diagonal(p, d as u32, &extents, &weights, &[], &mut list);
    assert_eq!(returned, 0, "{slabs} slabs each way, {d} dimensions");
    list
}

/// "The owner is (i1 - i2) modulo p", and "((i1 - i3) modulo s)*s + ((i2 - i3) modulo s)".
fn diagonal_owner(position: &[u32], slabs: u32) -> u32 {
    let number = |i: u32, j: u32| (i64::from(i) - i64::from(j)).rem_euclid(i64::from(slabs)) as u32;
    match *position {
        [i1, i2] => number(i1, i2),
        [i1, i2, i3] => number(i1, i3) * slabs + number(i2, i3),
        _ => panic!("{position:?}"),
    }
}

fn owner(list: &PlanList, position: &[u32]) -> u32 {
    let mut answer = [77];
    assert_eq!(calls::owner(list, position, &mut answer), 0, "{list:?}");
    answer[0]
}

/// Owners by the formulas, and one tile of every slab for each processor, which is tiles / (bk * p).
#[test]
fn owners_of_diagonal_plans() {
    for (d, most) in [(2, 70), (3, 16)] {
        for slabs in 1..=most {
            let list = diagonal_list(d, slabs);
            let p = slabs.pow(d as u32 - 1) as usize;
            let mut owned = vec![0; d * slabs as usize * p];
            for tile in 1..=slabs.pow(d as u32) {
                let position = at(&list, tile);
                let q = owner(&list, &position);
                assert_eq!(q, diagonal_owner(&position, slabs), "{list:?}");
                for (k, &slab) in position.iter().enumerate() {
                    owned[(k * slabs as usize + slab as usize) * p + q as usize] += 1;
                }
            }
            assert!(owned.iter().all(|&tiles| tiles == 1), "{list:?}");
        }
    }
    let mut random = Random::new(10);
    for (d, slabs) in [(2, 4096), (2, 4095), (2, 997), (3, 64), (3, 63), (3, 37)] {
        let list = diagonal_list(d, slabs);
        for _ in 0..20_000 {
            let tile = random.between(1, u64::from(slabs).pow(d as u32)) as u32;
            let position = at(&list, tile);
            let expected = diagonal_owner(&position, slabs);
            assert_eq!(owner(&list, &position), expected, "{list:?}");
        }
    }
}

/// All positions of the small grids; then random questions on all of them, some damaged.
#[test]
fn hypercube_owners() {
    let mut lists = Lists::default();
    for p in [1, 4, 16, 64] {
        for position in hypercube_positions(p) {
            assert_eq!(hypercube_owner(&mut lists, p, &position, &[77]), 0);
        }
    }
    let mut random = Random::new(11);
    let mut seen = Seen::default();
    for _ in 0..500_000 {
        let (p, position) = hypercube(&mut random);
        let lent = lent(&mut random, 1);
        seen.note(hypercube_owner(&mut lists, p, &position, &lent));
    }
    seen.check(&[0, 2, 8, 9, 12], 5_000);
}

/// The positions of the hypercube layout, which has as many slabs each way as the square root of p.
fn hypercube_positions(p: u32) -> impl Iterator<Item = [u32; 3]> {
    let slabs = p.isqrt();
    (0..slabs.pow(3)).map(move |n| [n / slabs / slabs, n / slabs % slabs, n % slabs])
}

/// "Owners of hypercube tiles with a common face along i1 or along i2 differ in just one bit and along i3 in just two."
#[test]
fn bits_of_hypercube_owners() {
    for p in [1, 4, 16, 64, 256, 1024, 4096] {
        let owner = |position: &[u32; 3]| {
            let mut answer = [77];
            let returned = calls::hypercube_owner(p, position, &mut answer);
            assert_eq!(returned, 0, "{position:?} of {p} processors");
            answer[0]
        };
        for position in hypercube_positions(p) {
            let mine = owner(&position);
            assert!(mine < p);
            for (k, bits) in [1, 1, 2].into_iter().enumerate() {
                let mut above = position;
                above[k] += 1;
                if above[k] < p.isqrt() {
                    let apart = (mine ^ owner(&above)).count_ones();
                    assert_eq!(apart, bits, "{position:?} of {p} processors");
                }
            }
        }
    }
}

#[test]
fn chain_lists() {
    let mut random = Random::new(3);
    let mut pool = pool(&mut random);
    pool.retain(|plan| plan.tiles() < ROOM as u128);
    let mut lists = Lists::default();
    let mut seen = Seen::default();
    for _ in 0..20_000 {
        let list = plan_list(&mut random, &pool);
        let of_plan = plan_of(&list).filter(|plan| plan.check_shape().is_ok());
        let (p, tiles) = match of_plan.map(|plan| (plan.p, plan.tiles())) {
            Some((p, tiles)) if tiles < ROOM as u128 => (p as usize, tiles as usize),
            _ => (4, 16),
        };
        let heads = lent(&mut random, p);
        let nexts = lent(&mut random, tiles);
        seen.note(chain(&mut lists, &list, &heads, &nexts));
    }
    seen.check(&[0, 6, 9], 500);
}

/// The chains of plans made by hand in which any dimensions are cut and the others are not: all, some, one or none.
#[test]
fn chains_along_any_dimensions() {
    let mut random = Random::new(17);
    let mut lists = Lists::default();
    let mut seen: BTreeMap<Vec<bool>, u64> = BTreeMap::new();
    for _ in 0..30_000 {
        let mut plan = made_by_hand(&mut random);
        let d = plan.dimensions();
        for cut in &mut plan.cuts[..d] {
            if random.once_in(2) {
                *cut = 1;
            }
        }
        if plan.tiles() > ROOM as u128 {
            continue;
        }
        let heads = any_numbers(&mut random, plan.p as usize);
        let nexts = any_numbers(&mut random, plan.tiles() as usize);
        assert_eq!(chain(&mut lists, &list_of(&plan), &heads, &nexts), 0);
        let cut: Vec<bool> = plan.cuts[..d].iter().map(|&b| b > 1).collect();
        *seen.entry(cut).or_default() += 1;
    }
    // Every choice of the cut ones among 2 to 5 dimensions.
    assert_eq!(seen.len(), 4 + 8 + 16 + 32);
    assert!(seen.values().all(|&count| count >= 20), "{seen:?}");
}

/// A plan made by hand in which the owner's number, along the first cut dimension, mostly falls or rises by one from tile
/// to tile, and in which later cut dimensions mostly continue those before: such a column of the matrix is the column of
/// the first dimension of its group times the product of the group's cuts. Some of these columns are spoiled.
fn of_runs(random: &mut Random) -> Plan {
    let mut plan = made_by_hand(random);
    let d = plan.dimensions();
    // Up to three moduli above 1, in any rows. A run ends at the last of them, which often is less than p.
    let last = random.between(0, d as u64 - 1) as usize;
    let most = *random.pick(&[50, 100, 200]);
    plan.moduli[..d].fill(1);
    plan.moduli[last] = random.between(2, most) as u32;
    plan.p = plan.moduli[last];
    for _ in 0..2 {
        let row = random.between(0, last as u64) as usize;
        if plan.moduli[row] == 1 {
            let most = (200 / u64::from(plan.p)).min(*random.pick(&[3, 200]));
            plan.moduli[row] = random.between(1, most) as u32;
            plan.p *= plan.moduli[row];
        }
    }
    let moduli = plan.moduli;
    let rows: Vec<usize> = (0..d).filter(|&i| moduli[i] > 1).collect();
    let below = |random: &mut Random, limit: u32| random.between(0, u64::from(limit) - 1) as u32;

    let any = [(); 2].map(|()| random.between(0, d as u64 - 1) as usize);
    let first = any[0].min(any[1]);
    let mut left = ROOM as u64;
    for k in 0..d {
        let most = *random.pick(&[4, 9, 30]);
        let cut = match k {
            _ if k < first => 1,
            _ if k > first => random.between(1, most.min(left)),
            _ if random.once_in(6) => random.between(2, 5),
            _ => random.between(30, 300),
        };
        left /= cut;
        plan.cuts[k] = cut as u32;
        plan.least[k] = random.between(1, 1_000) as u32;
        plan.extents[k] = plan.cuts[k] * (plan.least[k] + below(random, 1_000));
        for i in 0..d {
            plan.matrix[i][k] = below(random, moduli[i]);
        }
    }

    plan.matrix[..d].iter_mut().for_each(|row| row[first] = 0);
    let small = random.between(2, 9) as u32;
    plan.matrix[last][first] = *random.pick(&[1, moduli[last] - 1, small]) % moduli[last];
    if random.once_in(6) {
        let row = *random.pick(&rows);
        plan.matrix[row][first] = below(random, moduli[row]);
    }
    let (mut start, mut product, mut before) = (first, plan.cuts[first], plan.cuts[first]);
    let later: Vec<usize> = (first + 1..d).filter(|&k| plan.cuts[k] > 1).collect();
    for k in later {
        if random.once_in(3) {
            (start, product) = (k, 1);
        } else {
            let spoiled = random.between(0, 11);
            let times = if spoiled == 0 { before } else { product };
            for &i in &rows {
                plan.matrix[i][k] = plan.matrix[i][start] * times % moduli[i];
            }
            if spoiled == 1 {
                let row = *random.pick(&rows);
                plan.matrix[row][k] = (plan.matrix[row][k] + 1) % moduli[row];
            }
        }
        before = plan.cuts[k];
        product *= before;
    }
    plan
}

/// Whether a plan has: long falling runs along its first cut dimension, long rising ones, long ones that end at a modulus
/// below p; two dimensions joined from that one on, three or more; later ones joined; a column that continues its group
/// but for one row; one that would if the group had no other cut than its last.
fn runs_and_joined(plan: &Plan) -> [bool; 8] {
    let d = plan.dimensions();
    let rows: Vec<usize> = (0..d).filter(|&i| plan.moduli[i] > 1).collect();
    let cut: Vec<usize> = (0..d).filter(|&k| plan.cuts[k] > 1).collect();
    let (&last, others) = rows.split_last().expect("p is not 1");
    let (modulus, entry) = (plan.moduli[last], plan.matrix[last][cut[0]]);
    let long = modulus.min(plan.cuts[cut[0]]) >= 33;
    let runs = long && others.iter().all(|&i| plan.matrix[i][cut[0]] == 0);
    let (mut one_row, mut last_cut) = (false, false);
    let mut groups = vec![vec![cut[0]]];
    for &k in &cut[1..] {
        let group = groups.last_mut().expect("a group");
        let wrong = |times: u32| {
            let continued = |i: usize| plan.matrix[i][group[0]] * times % plan.moduli[i];
            let differs = |&&i: &&usize| plan.matrix[i][k] != continued(i);
            rows.iter().filter(differs).count()
        };
        let cuts: Vec<u32> = group.iter().map(|&j| plan.cuts[j]).collect();
        let wrong_rows = wrong(cuts.iter().product());
        one_row |= wrong_rows == 1 && rows.len() > 1;
        last_cut |= wrong_rows > 0 && wrong(cuts[cuts.len() - 1]) == 0;
        match wrong_rows {
            0 => group.push(k),
            _ => groups.push(vec![k]),
        }
    }
    [
        runs && entry == modulus - 1,
        runs && entry == 1,
        runs && (entry == 1 || entry == modulus - 1) && modulus < plan.p,
        groups[0].len() == 2,
        groups[0].len() > 2,
        groups[1..].iter().any(|group| group.len() > 1),
        one_row,
        last_cut,
    ]
}

/// The chains of plans whose owners fall or rise by one in long runs, and of plans with dimensions that can be walked as
/// one line, or nearly.
#[test]
fn chains_of_runs_and_joined_dimensions() {
    let mut random = Random::new(18);
    let mut lists = Lists::default();
    let mut seen = [0; 8];
    for _ in 0..6_000 {
        let plan = of_runs(&mut random);
        let heads = any_numbers(&mut random, plan.p as usize);
        let nexts = any_numbers(&mut random, plan.tiles() as usize);
        assert_eq!(chain(&mut lists, &list_of(&plan), &heads, &nexts), 0);
        for (count, has) in seen.iter_mut().zip(runs_and_joined(&plan)) {
            *count += u64::from(has);
        }
    }
    assert!(seen.iter().all(|&count| count >= 100), "{seen:?}");
}

/// Probe lines of no element, of one, and of some, of which many fall or leave the dimension, and lists to lend that
/// are shorter, as long and longer.
#[test]
fn probe_lines() {
    let mut random = Random::new(13);
    let pool = pool(&mut random);
    let mut lists = Lists::default();
    let mut seen = [(); 3].map(|()| Seen::default());
    for _ in 0..200_000 {
        let list = plan_list(&mut random, &pool);
        for length in [0, 1, random.between(2, 12) as usize] {
            let (dimension, elements) = probe_line(&mut random, &list, length);
            let lent = lent_to_probes(&mut random, length);
            let returned = probe(&mut lists, &list, dimension, &elements, &lent);
            seen[length.min(2)].note(returned);
        }
    }
    let [none, one, some] = seen;
    none.check(&[0, 6, 7], 5_000);
    one.check(&[0, 6, 7, 8, 9], 5_000);
    some.check(&[0, 6, 7, 8, 9, 14], 5_000);
}

/// Probe lines of thousands of elements, in plans in shape.
#[test]
fn long_probe_lines() {
    let mut random = Random::new(14);
    let pool = pool(&mut random);
    let mut lists = Lists::default();
    let mut seen = Seen::default();
    for _ in 0..1_000 {
        let (plan, _) = in_shape(&mut random, &pool);
        let length = random.between(1_000, 10_000) as usize;
        let list = list_of(&plan);
        let (dimension, elements) = probe_line(&mut random, &list, length);
        let lent = lent_to_probes(&mut random, length);
        seen.note(probe(&mut lists, &list, dimension, &elements, &lent));
    }
    seen.check(&[0, 7, 8, 9, 14], 20);
}

/// A line of one element is answered, and refused, as the single question about it.
#[test]
fn lines_of_one_element() {
    let mut random = Random::new(15);
    let pool = pool(&mut random);
    let mut seen = Seen::default();
    for _ in 0..200_000 {
        let list = plan_list(&mut random, &pool);
        let (dimension, line) = probe_line(&mut random, &list, 1);
        let places = random.between(0, 1) as usize;
        let (mut single, mut slabs) = (vec![77; places], vec![77; places]);
        let returned = calls::slab_of(&list, dimension, line[0], &mut single);
        let same = calls::slabs_of(&list, dimension, &line, &mut slabs);
        assert_eq!((same, &slabs), (returned, &single), "{line:?} of {list:?}");
        seen.note(returned);
    }
    seen.check(&[0, 6, 7, 8, 9], 5_000);
}

/// Every element of a long line is answered as the single question about it, all through the link.
#[test]
fn lines_as_single_questions() {
    let mut random = Random::new(16);
    let pool = pool(&mut random);
    let mut asked = 0;
    for _ in 0..4_000 {
        let (plan, _) = in_shape(&mut random, &pool);
        let list = list_of(&plan);
        let length = random.between(1, 3_000) as usize;
        let (dimension, elements) = probe_line(&mut random, &list, length);
        let mut slabs = vec![77; length];
        if calls::slabs_of(&list, dimension, &elements, &mut slabs) != 0 {
            continue;
        }
        for (&element, &slab) in elements.iter().zip(&slabs) {
            let mut answer = [77];
            let returned = calls::slab_of(&list, dimension, element, &mut answer);
            assert_eq!((returned, answer), (0, [slab]), "{element} of {list:?}");
            asked += 1;
        }
    }
    assert!(asked > 1_000_000, "{asked}");
}

/// Lists of any numbers and of every length up to twice a plan's.
#[test]
fn lists_of_every_length() {
    let mut random = Random::new(4);
    let mut lists = Lists::default();
    let good = [planned(&mut random, 1), diagonals(&mut random, 1)].concat();
    for length in 0..2 * PLAN_LENGTH {
        for _ in 0..200 {
            let list = match random.between(0, 1) {
                0 => any_numbers(&mut random, length),
                _ => {
                    let list = list_of(random.pick(&good));
                    list.into_iter().cycle().take(length).collect()
                }
            };
            let question = question(&mut random, &list);
            let any = any_numbers(&mut random, length);
            ask(&mut lists, &list, &question, &any);
            chain(&mut lists, &list, &any, &any);
            let (dimension, elements) = probe_line(&mut random, &list, 5);
            probe(&mut lists, &list, dimension, &elements, &any);
            slab_sheet(&mut lists, &list, dimension, 0, b"caption", &[77; 3650]);
        }
    }
}

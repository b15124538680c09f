//! Prints the table of ratios.
//!
//!     bench [--repeats N] [--program PATH]
//!
//! With a program, its largest plan is timed too, beside `cat` of the same bytes.

use std::env;
use std::fs::{self, File};
use std::hint::black_box;
use std::path::Path;
use std::process::{Command, ExitCode, Stdio};

use bench::chains::chains_by_slabs;
use bench::diagonal;
use bench::jobs::{self, Chained, Job, ProbeLines, Question, Visit};
use bench::linked::PROVED;
use bench::plan_list::{tiles, COST_LOW, LEAST, PLAN_LENGTH, PROCESSORS, WEIGHTS};
use bench::planning;
use bench::probes::slabs_by_division;
use bench::shares;
use bench::sheet::{slab_sheet_in_place, SHEET_LENGTH};
use bench::subject::{
    ChainCall, JobCall, PlanCall, Planned, ProbeCall, Returned, SheetCall, Subject, Told, RIVAL,
};
use bench::timing::{
    contest, contest_of_commands, least, least_seconds, print_head, print_line, Contest,
};

struct Request {
    repeats: usize,
    program: Option<String>,
}

fn request() -> Option<Request> {
    let mut request = Request {
        repeats: 25,
        program: None,
    };
    let mut arguments = env::args().skip(1);
    while let Some(argument) = arguments.next() {
        match argument.as_str() {
            "--repeats" => request.repeats = arguments.next()?.parse().ok().filter(|&n| n > 0)?,
            "--program" => request.program = Some(arguments.next()?),
            _ => return None,
        }
    }
    Some(request)
}

fn main() -> ExitCode {
    let Some(request) = request() else {
        eprintln!("usage: bench [--repeats N] [--program PATH]");
        return ExitCode::from(2);
    };
    let repeats = request.repeats;
    print_head(PROVED.name, RIVAL.name);
    plans(repeats);
    weights_zero(repeats);
    thicknesses(repeats);
    planning_otherwise(repeats);
    longest_jobs();
    refused_shares(repeats);
    diagonals(repeats);
    hypercube_owners(repeats);
    questions(repeats);
    probe_lines(repeats);
    slab_sheets(repeats);
    timetables(repeats);
    chains(repeats);
    if let Some(program) = &request.program {
        print_line(&largest_plan(program, repeats));
    }
    ExitCode::SUCCESS
}

/// Plans a job and sums up the answer.
fn plan(plan: PlanCall, job: &Job) -> u64 {
    match black_box(plan)(job.p, job.d, &job.extents, &job.weights, &job.least) {
        Ok(list) => list.iter().map(|&n| u64::from(n)).sum(),
        Err((number, place)) => u64::from(number * 8 + place),
    }
}

/// Both sides must plan every job alike.
fn compare_plans(jobs: &[Job], rival: PlanCall) {
    for job in jobs {
        assert!(planned(PROVED.plan, job) == planned(rival, job), "{job:?}");
    }
}

fn planned(plan: PlanCall, job: &Job) -> Planned {
    plan(job.p, job.d, &job.extents, &job.weights, &job.least)
}

/// The same jobs planned by both sides, whose plans are compared first.
fn contest_of_plans(
    what: &str,
    target: Option<f64>,
    repeats: usize,
    jobs: &[Job],
    rival: PlanCall,
) -> Contest {
    compare_plans(jobs, rival);
    let all = |call: PlanCall| jobs.iter().map(|job| plan(call, job)).sum();
    contest(
        what,
        target,
        jobs.len(),
        repeats,
        || all(PROVED.plan),
        || all(rival),
    )
}

/// The mean over every p: with all weights 1 and with others together, which has the target, and
/// each by itself.
fn plans(repeats: usize) {
    for (d, target) in [(2, 4.0), (3, 1.4), (4, 0.5), (5, 0.15)] {
        let ones = jobs::one_weight(d, 1);
        let others = jobs::other_weights(1, d);
        let both: Vec<Job> = ones.iter().chain(&others).cloned().collect();
        for (kind, target, jobs) in [
            ("", Some(target), both),
            (", weights 1", None, ones),
            (", other weights", None, others),
        ] {
            let what = format!("planning, d = {d}{kind}");
            print_line(&contest_of_plans(&what, target, repeats, &jobs, RIVAL.plan));
        }
    }
}

/// Jobs with all weights 0, where every cut vector costs the same, beside the same jobs with weights
/// 1: the mean over every p, and the job that takes longest in proportion. Both columns are the proved
/// call's; its plans for weights 0 are compared with the rival's first.
fn weights_zero(repeats: usize) {
    let mut worst = Contest {
        what: String::new(),
        ours: vec![0.0],
        theirs: vec![1.0],
        target: Some(2.0),
    };
    for d in 2..=5 {
        let (zeros, ones) = (jobs::one_weight(d, 0), jobs::one_weight(d, 1));
        compare_plans(&zeros, RIVAL.plan);
        let all = |jobs: &[Job]| {
            for job in jobs {
                black_box(plan(PROVED.plan, job));
            }
            0
        };
        print_line(&contest(
            &format!("planning, d = {d}, weights 0 beside weights 1"),
            Some(2.0),
            zeros.len(),
            repeats,
            || all(&zeros),
            || all(&ones),
        ));
        for (zero, one) in zeros.iter().zip(&ones) {
            let times = |runs| {
                let least = |job| least_seconds(runs, || plan(PROVED.plan, job));
                (least(zero), least(one))
            };
            let (ours, theirs) = times(9);
            if ours / theirs <= worst.ratio() {
                continue;
            }
            // A disturbance is not the job's.
            let (ours, theirs) = times(199);
            if ours / theirs > worst.ratio() {
                worst.what = format!("planning {} on d = {d}, weights 0 beside weights 1", zero.p);
                (worst.ours, worst.theirs) = (vec![ours], vec![theirs]);
            }
        }
    }
    print_line(&worst);
}

/// Jobs with thicknesses beside the same jobs without, on grids in which the same cuts fit: the mean over every p. Both
/// columns are the proved call's; its plans with thicknesses are compared with the rival's first, and with those without
/// but for the extents and the thicknesses. For d = 3 the rival plans the jobs with thicknesses too.
fn thicknesses(repeats: usize) {
    for d in 2..=5 {
        let (thin, thick) = jobs::thin_and_thick(1, d);
        compare_plans(&thick, RIVAL.plan);
        for (thin, thick) in thin.iter().zip(&thick) {
            let others = |job| planned(PROVED.plan, job).map(|list| list[WEIGHTS..LEAST].to_vec());
            assert!(others(thin) == others(thick), "{thick:?}");
        }
        let all = |jobs: &[Job]| {
            for job in jobs {
                black_box(plan(PROVED.plan, job));
            }
            0
        };
        print_line(&contest(
            &format!("planning, d = {d}, with thicknesses beside none"),
            Some(1.1),
            thick.len(),
            repeats,
            || all(&thick),
            || all(&thin),
        ));
        if d == 3 {
            let what = "planning, d = 3, with thicknesses";
            let target = Some(1.4);
            print_line(&contest_of_plans(what, target, repeats, &thick, RIVAL.plan));
        }
    }
}

/// The mix of every p and d beside quicker ways to plan.
fn planning_otherwise(repeats: usize) {
    let mix = jobs::mix(1);
    let others: [(&str, Option<f64>, PlanCall); 3] = [
        (
            "planning, beside each factor's list made once",
            Some(1.1),
            planning::figure_2,
        ),
        (
            "planning, beside the same leaving early",
            None,
            planning::figure_2_leaving_early,
        ),
        (
            "planning, beside such a search in Rust",
            None,
            planning::remembered,
        ),
    ];
    for (what, target, rival) in others {
        print_line(&contest_of_plans(what, target, repeats, &mix, rival));
    }
}

/// The longest single job of each side, each job by the least time of some runs.
fn longest_jobs() {
    let longest = |call: PlanCall, jobs: &[Job]| {
        let times = jobs.iter().map(|job| least_seconds(5, || plan(call, job)));
        times.fold(0.0, f64::max)
    };
    for (what, target, jobs) in [
        ("longest job", 0.25, jobs::hard()),
        ("longest job of d = 3", 1.2, jobs::three_dimensions()),
    ] {
        let ours = longest(PROVED.plan, &jobs);
        let rivals: [(&str, Option<f64>, PlanCall); 2] = [
            ("", Some(target), RIVAL.plan),
            (
                ", beside each factor's list made once",
                None,
                planning::figure_2,
            ),
        ];
        for (beside, target, rival) in rivals {
            compare_plans(&jobs, rival);
            print_line(&Contest {
                what: format!("{what}{beside}"),
                ours: vec![ours],
                theirs: vec![longest(rival, &jobs)],
                target,
            });
        }
    }
}

/// Lends the same list to each side, all of which must return the same and leave the same in it.
fn compare<Side, Place: Clone + PartialEq>(
    what: &str,
    lent: &[Place],
    sides: &[Side],
    call: impl Fn(&Side, &mut [Place]) -> Returned,
) {
    let mut told = sides.iter().map(|side| {
        let mut list = lent.to_vec();
        (call(side, &mut list), list)
    });
    let first = told.next();
    assert!(told.all(|other| Some(other) == first), "{what}");
}

/// Calls with a job and a list for the answer.
fn lend(call: JobCall, job: &Job, list: &mut [u32]) -> Returned {
    black_box(call)(job.p, job.d, &job.extents, &job.weights, &job.least, list)
}

/// The divisor that a call finds for a job refused with 5.
fn refused_divisor(call: JobCall, job: &Job) -> u64 {
    let mut answer = [0; 2];
    assert_eq!(lend(call, job, &mut answer), 0, "{job:?}");
    u64::from(answer[1])
}

/// Of jobs that take long, each by the least time of some runs, the time in the middle and the longest.
fn middle_and_longest(call: JobCall, hard: &[Job]) -> [f64; 2] {
    let time = |job| least_seconds(9, || refused_divisor(call, job));
    let mut times: Vec<f64> = hard.iter().map(time).collect();
    times.sort_by(f64::total_cmp);
    [times[times.len() / 2], times[times.len() - 1]]
}

/// A line of the smallest refused share.
fn share_line(what: &str, ours: f64, theirs: f64, target: Option<f64>) {
    print_line(&Contest {
        what: format!("smallest refused share, {what}"),
        ours: vec![ours],
        theirs: vec![theirs],
        target,
    });
}

/// The smallest share that is refused too, after a comparison of many jobs and of refusals: that of the request's own
/// job; and of jobs that take long. No job may take more than 25 ms.
fn refused_shares(repeats: usize) {
    let calls = [
        PROVED.smallest_refused,
        RIVAL.smallest_refused,
        shares::by_fitting,
    ];
    let [ours, theirs, by_fitting] = calls;
    let hard = jobs::hard_shares();
    let lent = |job: &Job| (job.clone(), vec![7; 2]);
    let any = jobs::any_shares(9, 20_000);
    for (job, lent) in any.into_iter().chain(hard.iter().map(lent)) {
        let what = format!("{job:?}");
        compare(&what, &lent, &calls, |&call, list| lend(call, &job, list));
    }
    let small = jobs::small_share();
    let [middle, longest] = middle_and_longest(ours, &hard);
    for (beside, rival) in [("", theirs), (", beside fitting alone", by_fitting)] {
        print_line(&contest(
            &format!("smallest refused share, 12 on 5 5{beside}"),
            None,
            1,
            repeats,
            || refused_divisor(ours, &small),
            || refused_divisor(rival, &small),
        ));
        let [their_middle, their_longest] = middle_and_longest(rival, &hard);
        share_line(&format!("middle job{beside}"), middle, their_middle, None);
        share_line(
            &format!("longest job{beside}"),
            longest,
            their_longest,
            None,
        );
    }
    share_line("longest job, beside 25 ms", longest, 25e-3, Some(1.0));
}

/// Diagonal plans on the grids that they just fit, after a comparison of many others and of refusals.
fn diagonals(repeats: usize) {
    let calls = [
        PROVED.diagonal,
        RIVAL.diagonal,
        diagonal::diagonal_for_each_d,
    ];
    let [ours, theirs, for_each_d] = calls;
    for (job, lent) in jobs::any_diagonals(3, 20_000) {
        let what = format!("{job:?}");
        compare(&what, &lent, &calls, |&call, list| lend(call, &job, list));
    }
    for (what, jobs) in jobs::diagonals(4, 1000) {
        for job in &jobs {
            let lent = [7; PLAN_LENGTH];
            compare(what, &lent, &calls, |&call, list| lend(call, job, list));
        }
        let all = |call: JobCall| {
            let mut list = [0; PLAN_LENGTH];
            let costs = jobs.iter().map(|job| {
                assert_eq!(lend(call, job, &mut list), 0, "{what}");
                u64::from(list[COST_LOW])
            });
            costs.sum()
        };
        for (beside, target, rival) in [
            ("", Some(1.2), theirs),
            (", beside code for each d", None, for_each_d),
        ] {
            print_line(&contest(
                &format!("{what}{beside}"),
                target,
                jobs.len(),
                repeats,
                || all(ours),
                || all(rival),
            ));
        }
    }
}

/// Owners in the largest hypercube layout, after a comparison of questions about all of them and of refusals.
fn hypercube_owners(repeats: usize) {
    let what = "hypercube owner, 4096";
    let sides = [PROVED, RIVAL];
    let ask = |side: &Subject, p: u32, position: &[u32], answer: &mut [u32]| {
        black_box(side.hypercube_owner)(p, position, answer)
    };
    for (p, position, lent) in jobs::any_hypercubes(5, 20_000) {
        let what = format!("{p} {position:?}");
        compare(&what, &lent, &sides, |side, answer| {
            ask(side, p, &position, answer)
        });
    }
    let positions = jobs::hypercube_positions(6, 20_000);
    for at in &positions {
        compare(what, &[7], &sides, |side, answer| {
            ask(side, 4096, at, answer)
        });
    }
    let all = |side: &Subject| {
        let mut answer = [0];
        let owners = positions.iter().map(|at| {
            assert_eq!(ask(side, 4096, at, &mut answer), 0, "{what}");
            u64::from(answer[0])
        });
        owners.sum()
    };
    print_line(&contest(
        what,
        Some(1.2),
        positions.len(),
        repeats,
        || all(&PROVED),
        || all(&RIVAL),
    ));
}

type Ask = fn(&Subject, &Question) -> u64;

/// Each question, with its target.
const ASKED: [(&str, f64, Ask); 7] = [
    ("owner", 1.0, |side, asked| {
        let ask = black_box(side.owner);
        told([0], |answer| ask(&asked.plan, &asked.position, answer))
    }),
    ("neighbour", 1.1, |side, asked| {
        let ask = black_box(side.neighbour);
        told([0; 2], |answer| {
            ask(
                &asked.plan,
                asked.processor,
                asked.dimension,
                asked.up,
                answer,
            )
        })
    }),
    ("elements of a slab", 1.1, |side, asked| {
        let ask = black_box(side.slab);
        told([0; 2], |answer| {
            ask(&asked.plan, asked.dimension, asked.slab, answer)
        })
    }),
    ("slab of an element", 1.1, |side, asked| {
        let ask = black_box(side.slab_of);
        told([0], |answer| {
            ask(&asked.plan, asked.dimension, asked.element, answer)
        })
    }),
    ("number of a tile", 1.1, |side, asked| {
        let ask = black_box(side.tile_number);
        told([0], |answer| ask(&asked.plan, &asked.position, answer))
    }),
    ("position of a tile", 1.1, |side, asked| {
        let ask = black_box(side.tile_position);
        told([0; 5], |answer| {
            ask(&asked.plan, asked.tile, &mut answer[..asked.position.len()])
        })
    }),
    ("one step on", 1.1, |side, asked| {
        let ask = black_box(side.step);
        told([0; 6], |answer| {
            ask(
                &asked.plan,
                &asked.position,
                asked.dimension,
                asked.up,
                &mut answer[..1 + asked.position.len()],
            )
        })
    }),
];

/// Lends an answer list, and sums up what it then holds.
fn told<const N: usize>(mut answer: [u32; N], ask: impl FnOnce(&mut [u32]) -> Told) -> u64 {
    match ask(&mut answer) {
        Ok(()) => answer
            .iter()
            .fold(1, |sum: u64, &n| sum.wrapping_mul(31) + u64::from(n)),
        Err(number) => u64::from(number) << 32,
    }
}

fn questions(repeats: usize) {
    let asked = jobs::questions(2, 20_000);
    for (what, target, ask) in ASKED {
        for (at, question) in asked.iter().enumerate() {
            let same = ask(&PROVED, question) == ask(&RIVAL, question);
            assert!(same, "{what}: question {at} is answered otherwise");
        }
        let all = |side: &Subject| {
            let answers = asked.iter().map(|question| ask(side, question));
            answers.fold(0, u64::wrapping_add)
        };
        print_line(&contest(
            what,
            Some(target),
            asked.len(),
            repeats,
            || all(&PROVED),
            || all(&RIVAL),
        ));
    }
}

/// Asks for the slabs of a line with one single question for each element.
fn one_by_one(plan: &[u32], dimension: u32, line: &[u32], slabs: &mut [u32]) -> Returned {
    let ask = black_box(PROVED.slab_of);
    for (&element, slab) in line.iter().zip(slabs.chunks_mut(1)) {
        if let Err(number) = ask(plan, dimension, element, slab) {
            return Returned::from(number);
        }
    }
    0
}

/// Whole probe lines in one call, after a comparison of many others and of refusals: beside the rival, beside the
/// proved single questions, and beside a division for each element. A time is that of a line.
fn probe_lines(repeats: usize) {
    let ours = PROVED.slabs_of;
    for asked in jobs::any_probes(7, 20_000) {
        let what = format!("{asked:?}");
        let sides = [ours, RIVAL.slabs_of, slabs_by_division];
        compare(&what, &asked.lent, &sides, |&call, slabs| {
            call(&asked.plan, asked.dimension, &asked.line, slabs)
        });
    }
    for asked in jobs::probe_lines(8) {
        // A quarter of the single questions' time is asked for on 1,000 probes.
        let quarter = (asked.lines[0].len() == 1_000).then_some(0.25);
        let rivals: [(&str, Option<f64>, ProbeCall); 3] = [
            ("", Some(1.2), RIVAL.slabs_of),
            (", beside one by one", quarter, one_by_one),
            (", beside a division each", None, slabs_by_division),
        ];
        for (beside, target, rival) in rivals {
            print_line(&contest_of_probes(&asked, beside, target, repeats, rival));
        }
    }
}

/// The same lines asked for by both sides, whose slabs are compared first.
fn contest_of_probes(
    asked: &ProbeLines,
    beside: &str,
    target: Option<f64>,
    repeats: usize,
    rival: ProbeCall,
) -> Contest {
    let what = format!("{}{beside}", asked.what);
    let lent = vec![0; asked.lines[0].len()];
    for line in &asked.lines {
        compare(&what, &lent, &[PROVED.slabs_of, rival], |&call, slabs| {
            call(&asked.plan, 1, line, slabs)
        });
    }
    let all = |call: ProbeCall, slabs: &mut [u32]| {
        let last = asked.lines.iter().map(|line| {
            assert_eq!(black_box(call)(&asked.plan, 1, line, slabs), 0, "{what}");
            // Some of the answers; all of them are compared above.
            u64::from(slabs[slabs.len() / 2]) + u64::from(slabs[slabs.len() - 1])
        });
        last.sum()
    };
    let (mut slabs, mut others) = (lent.clone(), lent);
    contest(
        &what,
        target,
        asked.lines.len(),
        repeats,
        || all(PROVED.slabs_of, &mut slabs),
        || all(rival, &mut others),
    )
}

/// Pages of slab sheets, after a comparison of many others and of refusals: beside the rival, and beside lines written in
/// place. No page may take more than 10 us.
fn slab_sheets(repeats: usize) {
    // How often a page is written, so that a repeat is not too short.
    const TIMES: usize = 20;
    let calls = [PROVED.slab_sheet, RIVAL.slab_sheet, slab_sheet_in_place];
    let [ours, theirs, in_place] = calls;
    for (asked, lent) in jobs::any_pages(10, 5_000) {
        let what = format!("{asked:?}");
        compare(&what, &lent, &calls, |&call, sheet| {
            asked.write(call, sheet)
        });
    }
    let mut longest = 0.0;
    for (what, asked) in jobs::pages() {
        let lent = [7; SHEET_LENGTH];
        compare(what, &lent, &calls, |&call, sheet| asked.write(call, sheet));
        let all = |call: SheetCall, sheet: &mut [u8]| {
            let some = (0..TIMES).map(|_| {
                assert_eq!(asked.write(black_box(call), sheet), 0, "{what}");
                // Some of the page; all of it is compared above.
                u64::from(sheet[5]) + u64::from(sheet[sheet.len() / 2])
            });
            some.sum()
        };
        let (mut sheet, mut other) = (lent, lent);
        for (beside, target, rival) in [
            ("", Some(2.0), theirs),
            (", beside lines in place", None, in_place),
        ] {
            let row = contest(
                &format!("{what}{beside}"),
                target,
                TIMES,
                repeats,
                || all(ours, &mut sheet),
                || all(rival, &mut other),
            );
            print_line(&row);
            longest = least(&row.ours).max(longest);
        }
    }
    print_line(&Contest {
        what: "slab sheet, longest page, beside 10 us".to_string(),
        ours: vec![longest],
        theirs: vec![10e-6],
        target: Some(1.0),
    });
}

fn timetables(repeats: usize) {
    let ask = |side: &Subject, asked: &Visit| {
        let ask = black_box(side.timetable);
        told([0; 8], |answer| {
            ask(
                &asked.plan,
                asked.dimension,
                asked.up,
                asked.step,
                asked.processor,
                answer,
            )
        })
    };
    for (what, visits) in jobs::sweeps() {
        for (at, visit) in visits.iter().enumerate() {
            let same = ask(&PROVED, visit) == ask(&RIVAL, visit);
            assert!(same, "{what}: question {at} is answered otherwise");
        }
        let all = |side: &Subject| {
            let answers = visits.iter().map(|visit| ask(side, visit));
            answers.fold(0, u64::wrapping_add)
        };
        print_line(&contest(
            what,
            Some(1.5),
            visits.len(),
            repeats,
            || all(&PROVED),
            || all(&RIVAL),
        ));
    }
}

/// All chains of a plan in one call: beside the rival, which writes both lists tile by tile as the proved call does,
/// and beside a loop that leaves the same lists in the end.
fn chains(repeats: usize) {
    let mut ours = (vec![0; 4096], vec![0; 16_777_216]);
    let mut theirs = ours.clone();
    for Chained { what, plan, wanted } in jobs::chained() {
        let (p, tiles) = (plan[PROCESSORS] as usize, tiles(&plan) as usize);
        let fill = |call: ChainCall, (heads, nexts): &mut (Vec<u32>, Vec<u32>)| {
            let told = black_box(call)(&plan, &mut heads[..p], &mut nexts[..tiles]);
            assert_eq!(told, Ok(()), "{what}");
            // Some of the answers; all of them are compared below.
            u64::from(heads[p - 1]) + u64::from(nexts[tiles / 3])
        };
        let rivals: [(&str, Option<f64>, ChainCall); 2] = [
            ("", wanted.then_some(1.2), RIVAL.chains),
            (", beside slabs copied", None, chains_by_slabs),
        ];
        for (beside, target, rival) in rivals {
            let row = contest(
                &format!("{what}{beside}"),
                target,
                1,
                repeats,
                || fill(PROVED.chains, &mut ours),
                || fill(rival, &mut theirs),
            );
            assert!(ours == theirs, "{what}{beside}");
            print_line(&row);
        }
    }
}

/// The program on its largest plan, beside `cat` of the same bytes plus the planning time.
fn largest_plan(program: &str, repeats: usize) -> Contest {
    let job = jobs::largest();
    let folder = env::temp_dir();
    let input = folder.join(format!("largest-job-{}", std::process::id()));
    let output = folder.join(format!("largest-plan-{}", std::process::id()));
    fs::write(&input, jobs::line(&job)).expect("the job is written");
    let printed = Command::new(program)
        .stdin(File::open(&input).expect("the job is read"))
        .output()
        .expect("the program runs");
    fs::write(&output, &printed.stdout).expect("the plan is written");
    let run = |mut command: Command, file: &Path| {
        let status = command
            .stdin(File::open(file).expect("the file is read"))
            .stdout(Stdio::null())
            .status();
        assert!(status.is_ok_and(|status| status.success()));
    };
    let row = contest_of_commands(
        "the program on its largest plan",
        Some(2.0),
        4 * repeats,
        || run(Command::new(program), &input),
        || {
            black_box(plan(PROVED.plan, &job));
            run(Command::new("cat"), &output);
        },
    );
    let _ = fs::remove_file(&input);
    let _ = fs::remove_file(&output);
    row
}

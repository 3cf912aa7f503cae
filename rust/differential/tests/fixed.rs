//! Every kind with fixed seeds. `-- --nocapture` shows how much was compared.

use differential::{Kind, Tally};
use nscc::raw::EMULATED;
use std::time::Instant;

/// Under an emulator one seed in so many.
const SHARE: u64 = if EMULATED { 20 } else { 1 };

/// The numbers of a field that is refused, the flow's among them.
const FIELDS: [usize; 7] = [4, 20, 21, 22, 23, 24, 25];

/// The numbers of a plan that is refused as a whole, and of one that is refused for a send.
const WHOLE: [usize; 3] = [2, 3, 27];
const SENDS: [usize; 6] = [4, 5, 6, 7, 8, 25];

fn run(kind: Kind, seeds: u64) -> Tally {
    let start = Instant::now();
    let mut tally = Tally::default();
    for seed in 0..seeds / SHARE {
        if let Err(report) = kind.run(seed, &mut tally) {
            panic!("kind {}, seed {seed}: {report}", kind.name());
        }
    }
    let seconds = start.elapsed().as_secs_f64();
    println!("{}: {tally}; {seconds:.1} s", kind.name());
    tally
}

/// Each of these numbers was answered at least so often.
fn all_met(tally: &Tally, numbers: &[usize], least: u64) {
    for &number in numbers {
        often(tally, &[tally.answers[number]], least);
    }
}

fn often(tally: &Tally, times: &[u64], least: u64) {
    let enough = times.iter().all(|&times| SHARE * times >= least);
    assert!(enough, "{least} times {times:?}: {tally}");
}

/// Each answer to a choice was met at least so often.
fn all_chosen(tally: &Tally, least: u64) {
    let choices = &tally.choices;
    often(tally, &[choices.marked, choices.new], least);
    let nobody = [choices.window_full, choices.none_ready];
    often(tally, &nobody, least);
    often(tally, &[choices.refused], least);
}

/// Plans were made of each kind at least so often.
fn all_planned(tally: &Tally, least: u64) {
    let plans = &tally.plans;
    let made = [plans.nothing, plans.made, plans.full, plans.no_room];
    often(tally, &made, least);
    often(tally, &[plans.resends, plans.both], least);
}

/// Each answer to a plan that is judged was met at least so often.
fn all_judged(tally: &Tally, least: u64) {
    let plans = &tally.plans;
    let accepted = [plans.empty, plans.accepted, plans.longest];
    often(tally, &accepted, least);
    often(tally, &[plans.mixed, plans.several], least);
    often(tally, &WHOLE.map(|number| plans.whole[number]), least);
    for refused in [plans.first, plans.later] {
        often(tally, &SENDS.map(|number| refused[number]), least);
    }
}

#[test]
fn set_up() {
    let tally = run(Kind::SetUp, 800);
    all_met(&tally, &[0, 1, 2, 25], 100);
    let choices = &tally.choices;
    let fresh = [choices.new, choices.none_ready, choices.refused];
    often(&tally, &fresh, 1_000);
    let plans = &tally.plans;
    let fresh = [plans.nothing, plans.made, plans.no_room];
    often(&tally, &fresh, 1_000);
    often(&tally, &[2, 3].map(|number| plans.unmade[number]), 1_000);
}

#[test]
fn streams() {
    let tally = run(Kind::Streams, 324);
    all_met(&tally, &[0, 3, 5, 6, 7, 8, 9, 10, 11], 50);
    all_met(&tally, &FIELDS, 50);
    let seen = &tally.seen;
    let rules = [seen.cuts, seen.quick_adapts, seen.fast_modes, seen.clamps];
    often(&tally, &rules, 100);
    let rare = [seen.psn_wraps, seen.below_zero, seen.far_paths];
    often(&tally, &rare, 10);
    often(&tally, &seen.flows, 1_000);
    often(&tally, &[seen.half_wrapped], 1_000);
    often(&tally, &tally.samples, 100);
    often(&tally, &tally.statuses, 300);
    let rings = [seen.full_rings, seen.full_beside, seen.marked_ahead];
    often(&tally, &rings, 300);
    all_chosen(&tally, 300);
    let choices = &tally.choices;
    often(&tally, &[choices.sent], 10_000);
    let rare = [choices.rounds, choices.crumbs, choices.held_back];
    often(&tally, &rare, 100);
    all_planned(&tally, 300);
    let plans = &tally.plans;
    let judged = [plans.empty, plans.accepted, plans.longest, plans.several];
    often(&tally, &judged, 300);
    often(&tally, &WHOLE.map(|number| plans.whole[number]), 300);
    // A ring is seldom full here.
    let numbers = [4, 6, 8, 25];
    for refused in [plans.first, plans.later] {
        often(&tally, &numbers.map(|number| refused[number]), 100);
    }
    often(&tally, &[plans.own], 100);
}

#[test]
fn logs() {
    let tally = run(Kind::Logs, 800);
    all_met(&tally, &[0, 3, 5, 6, 7, 8, 9, 10, 11], 20);
    all_met(&tally, &FIELDS, 20);
    often(&tally, &tally.samples, 100);
    let seen = &tally.seen;
    often(&tally, &seen.flows, 1_000);
    let rings = [seen.full_rings, seen.full_beside, seen.half_wrapped];
    often(&tally, &rings, 1_000);
    all_chosen(&tally, 300);
    all_planned(&tally, 500);
}

#[test]
fn states() {
    let tally = run(Kind::States, 2_000);
    all_met(&tally, &[0, 3, 5, 6, 7, 8, 9, 10, 11], 20);
    all_met(&tally, &FIELDS, 20);
    let seen = &tally.seen;
    let rare = [seen.stops, seen.clamps, seen.count_wraps, seen.psn_wraps];
    often(&tally, &rare, 100);
    let paths = [seen.far_paths, seen.cursor_wraps];
    often(&tally, &paths, 100);
    often(&tally, &tally.samples, 100);
    often(&tally, &tally.statuses, 1_000);
    let rings = [seen.full_rings, seen.full_beside, seen.marked_ahead];
    often(&tally, &rings, 1_000);
    often(&tally, &seen.flows, 1_000);
    all_chosen(&tally, 1_000);
    let choices = &tally.choices;
    often(&tally, &[choices.sent], 10_000);
    let rings = [choices.full_rings, choices.held_back];
    often(&tally, &rings, 1_000);
    often(&tally, &[choices.rounds, choices.crumbs], 1_000);
    often(&tally, &choices.flows, 1_000);
    all_planned(&tally, 1_000);
    all_judged(&tally, 100);
    let plans = &tally.plans;
    often(&tally, &[plans.own, plans.twice], 100);
    often(&tally, &[plans.last], 50);
    often(&tally, &[plans.unmade[3]], 300);
}

#[test]
fn spoilt() {
    let tally = run(Kind::Spoilt, 2_000);
    all_met(&tally, &[0, 2, 3], 100);
    all_met(&tally, &FIELDS, 100);
    often(&tally, &tally.samples, 20);
    all_chosen(&tally, 100);
    often(&tally, &[tally.choices.no_flow], 1_000);
    all_planned(&tally, 100);
    let plans = &tally.plans;
    let refused = [plans.whole[2], plans.unmade[2]];
    often(&tally, &refused, 1_000);
    often(&tally, &[plans.accepted, plans.whole[27]], 100);
}

#[test]
fn replay() {
    let tally = run(Kind::Replay, 2_400);
    all_met(&tally, &[0, 1, 2, 3, 5, 6, 7, 8, 9, 10, 11, 12], 5);
    all_met(&tally, &FIELDS, 5);
    often(&tally, &tally.samples, 100);
}

#[test]
fn chunks() {
    let tally = run(Kind::Chunks, 2_000);
    all_met(&tally, &[0, 1, 2, 3, 5, 6, 7, 8, 9, 10, 11, 12, 28], 5);
    all_met(&tally, &FIELDS, 5);
    often(&tally, &tally.samples, 20);
}

#[test]
fn text() {
    let tally = run(Kind::Text, 2_400);
    all_met(&tally, &[0, 1, 3, 5, 6, 7, 8, 9, 10, 11, 12], 5);
    all_met(&tally, &FIELDS, 5);
    often(&tally, &tally.samples, 100);
}

#[test]
fn pieces() {
    let tally = run(Kind::Pieces, 800);
    all_met(&tally, &[0, 5, 12], 20);
}

#[test]
fn report() {
    let tally = run(Kind::Report, 1_200);
    all_met(&tally, &[0, 1, 3, 5, 6, 7, 8, 9, 10, 11, 12], 5);
    all_met(&tally, &FIELDS, 5);
    often(&tally, &tally.samples, 100);
}

//! Random logs against a naive ledger that knows no wrap and no ring, and random garbage.

use crate::naive::{check_totals, Naive};
use crate::plans_random::by_turns;
use crate::rig::*;
use crate::turns_random::expected;
use model::{gen, Event, Flow, Memory, Name, Outcome, Reader, Refusal, Rng, Settings, State};
use std::collections::BTreeMap;

/// Room for every number of an answer.
const NUMBERS: usize = Refusal::Flow as usize + 1;

/// cwnd lies between MTU and max_wnd: the latter without its division.
fn check_window(state: &State) {
    let settings = &state.settings;
    let scaled = state.cwnd * settings.config_base_rtt <= settings.max_wnd * state.base;
    assert!(state.cwnd == settings.mtu || (state.cwnd > settings.mtu && scaled));
}

/// What a log did, for tests that the logs are worth something.
#[derive(Default)]
struct Seen {
    /// Accepted events by kind.
    kinds: [u32; 7],
    /// Answers by number.
    answers: [u32; NUMBERS],
    names: [u32; 4],
    /// What accepted ACKs and NACKs said of their samples, by the letter.
    on_acks: BTreeMap<char, u32>,
    on_nacks: BTreeMap<char, u32>,
    cuts: u32,
    fired: u32,
    fast: u32,
    /// The window was above its new ceiling.
    clamped: u32,
    wraps: u32,
    negative: u32,
    /// Accepted events by flow, and accepted or refused ones of a flow whose ring was full.
    flows: [u32; 8],
    full: [u32; 8],
    /// How often the low of each flow went around.
    wraps_of: [u32; 8],
}

impl Seen {
    fn note(&mut self, event: &Event, outcome: Outcome, before: &Rig, after: &Rig) {
        self.answers[usize::from(outcome.number)] += 1;
        let flow = flow_of(event) as usize;
        let record = before.memory.flows.get(flow);
        if record.is_some_and(|record| record.span() as usize == before.capacity()) {
            self.full[flow] += 1;
        }
        if outcome.number != 0 {
            return;
        }
        let wrapped = after.memory.flows[flow].low < before.memory.flows[flow].low;
        self.flows[flow] += 1;
        self.wraps_of[flow] += u32::from(wrapped);
        self.wraps += u32::from(wrapped);
        let (before, after) = (&before.state, &after.state);
        if let Some(sampling) = outcome.sampling {
            let of_ack = matches!(event, Event::Ack(_));
            let letters = if of_ack {
                &mut self.on_acks
            } else {
                &mut self.on_nacks
            };
            *letters.entry(sampling.letter()).or_default() += 1;
        }
        self.kinds[match event {
            Event::NewData(_) => 0,
            Event::Send(send) if send.resend => 1,
            Event::Send(_) => 2,
            Event::Ack(_) => 3,
            Event::Nack(_) => 4,
            Event::Loss(_) => 5,
            Event::Path(_) => 6,
        }] += 1;
        self.names[match after.name {
            Name::Idle => 0,
            Name::Pending => 1,
            Name::Ready => 2,
            Name::Active => 3,
        }] += 1;
        self.cuts += u32::from(after.last_dec != before.last_dec);
        self.fired += u32::from(after.bytes_to_ignore != before.bytes_to_ignore);
        self.fast += u32::from(after.fast_mode && !before.fast_mode);
        self.clamped += u32::from(before.cwnd > after.max_wnd());
        self.negative += u32::from(after.in_flight < 0);
    }

    /// These letters and no others, each at least so often.
    #[track_caller]
    fn letters(&self, on_acks: &str, on_nacks: &str, least: u32) {
        for (seen, expected) in [(&self.on_acks, on_acks), (&self.on_nacks, on_nacks)] {
            let letters: String = seen.keys().collect();
            let enough = seen.values().all(|&times| times >= least);
            assert!(letters == expected && enough, "{seen:?}");
        }
    }
}

/// Goes through a log with so many flows of 512 slots: what number 2 asks holds after every event,
/// a refused event changes nothing, an accepted one nothing of other flows, both forms of an event
/// do the same, none moves the turn, and the naive ledgers agree.
fn follow(log: &[u8], flows: usize, seen: &mut Seen) {
    let mut reader = Reader::new(log);
    let Ok(Some(first)) = reader.next_record() else {
        return;
    };
    let Some(settings) = first.settings().filter(Settings::in_range) else {
        return;
    };
    let mut rig = Rig::with_flows(settings, flows, 512);
    let turn = flows as u64 - 1;
    rig.state.turn = turn;
    let naive = (0..flows).map(|_| Naive::new(settings.first_psn));
    let mut naive: Vec<Naive> = naive.collect();
    while let Ok(Some(record)) = reader.next_record() {
        let Some(event) = record.event() else {
            return;
        };
        let before = rig.clone();
        let mut trusted = rig.clone();
        let outcome = rig.take(event);
        let (state, memory) = (&mut trusted.state, &mut trusted.memory);
        assert_eq!(state.take_trusted(&mut memory.lend(), &event), outcome);
        assert_eq!(trusted, rig);
        assert!(rig.holds(), "{event:?} on {:?}", before.state);
        assert_eq!(rig.state.turn, turn, "{event:?}");
        if outcome.number == 0 {
            let flow = flow_of(&event) as usize;
            assert_eq!(rig.state.clock, time_of(&event));
            naive[flow].take(&event);
            naive[flow].check(&rig, flow);
            for other in (0..flows).filter(|&other| other != flow) {
                assert_eq!(rig.own(other), before.own(other), "{event:?}");
            }
        } else {
            assert_eq!(rig, before);
        }
        check_totals(&rig, &naive);
        check_window(&rig.state);
        seen.note(&event, outcome, &before, &rig);
    }
    for (flow, naive) in naive.iter().enumerate() {
        naive.check(&rig, flow);
    }
}

#[test]
fn realistic_logs() {
    let mut seen = Seen::default();
    for seed in 0..60 {
        follow(&gen::traffic(seed, 2_500), 1, &mut seen);
    }
    assert!(
        seen.kinds.iter().all(|&times| times > 10),
        "{:?}",
        seen.kinds
    );
    assert!(
        seen.names.iter().all(|&times| times > 10),
        "{:?}",
        seen.names
    );
    let rules = [seen.cuts, seen.fired, seen.fast, seen.clamped, seen.wraps];
    assert!(rules.iter().all(|&times| times > 10), "{rules:?}");
    // No round trip of theirs is so long or so short.
    seen.letters("ags", "as", 10);
    // A sender that keeps to the rules is seldom refused.
    let refused: u32 = seen.answers[1..].iter().sum();
    assert!(refused * 100 < seen.answers[0], "{:?}", seen.answers);
}

#[test]
fn shaped_logs() {
    let narrow = |seed, records| gen::narrow(seed, records, 64);
    for make in [gen::lossy, gen::marked, gen::winding, gen::wide, narrow] {
        let mut seen = Seen::default();
        for seed in 0..8 {
            follow(&make(seed, 2_500), 1, &mut seen);
        }
        let refused: u32 = seen.answers[1..].iter().sum();
        assert!(refused * 100 < seen.answers[0], "{:?}", seen.answers);
    }
}

/// Traffic of several flows is seldom refused, also with its records of flows that there are not;
/// every flow sends, fills its ring and goes around.
#[test]
fn logs_of_flows() {
    let mut seen = Seen::default();
    for seed in 0..40 {
        follow(&gen::flows(seed, 2_500), 8, &mut seen);
    }
    let refused: u32 = seen.answers[1..].iter().sum();
    assert!(refused * 100 < seen.answers[0], "{:?}", seen.answers);
    assert!(seen.answers[25] > 100, "{:?}", seen.answers);
    for times in [seen.flows, seen.full, seen.wraps_of] {
        assert!(times.iter().all(|&times| times > 3), "{times:?}");
    }
    let rules = [seen.cuts, seen.fired, seen.fast, seen.clamped];
    assert!(rules.iter().all(|&times| times > 10), "{rules:?}");
}

#[test]
fn hostile_logs() {
    let mut seen = Seen::default();
    for seed in 0..150 {
        follow(&gen::hostile(seed, 1_500), 8, &mut seen);
    }
    for times in [seen.flows, seen.full, seen.wraps_of] {
        assert!(times.iter().all(|&times| times > 0), "{times:?}");
    }
    // 1, 2, 12 and 13 are no answers to an event of a log.
    for number in [0, 3, 4, 5, 6, 7, 8, 9, 10, 11, 20, 21, 22, 23, 24, 25] {
        assert!(seen.answers[number] > 10, "{number}: {:?}", seen.answers);
    }
    assert!(
        seen.kinds.iter().all(|&times| times > 10),
        "{:?}",
        seen.kinds
    );
    assert!(
        seen.names.iter().all(|&times| times > 10),
        "{:?}",
        seen.names
    );
    assert!(seen.clamped > 10 && seen.wraps > 3 && seen.negative > 100);
    // A NACK's packet flies, so it is not gone.
    seen.letters("acgns", "acns", 10);
}

#[test]
fn generated_logs_are_the_same_for_the_same_seed() {
    for make in [gen::traffic, gen::wide, gen::flows, gen::hostile, gen::bulk] {
        assert_eq!(make(3, 200), make(3, 200));
        assert_ne!(make(3, 200), make(4, 200));
    }
    for records in [1, 2, 100] {
        for make in [gen::traffic, gen::bulk] {
            let text = model::replay(&make(9, records));
            assert_eq!(text.lines().count(), records + 1);
        }
    }
}

#[test]
fn hostile_logs_stop_in_every_way() {
    let mut stops = BTreeMap::new();
    for seed in 0..400 {
        let text = model::replay(&gen::hostile(seed, 5));
        let last: Vec<&str> = text.lines().last().unwrap_or("").split(' ').collect();
        let stop = match last[..] {
            [_, number] | [_, number, _] => number.to_string(),
            ["rec", ..] => "empty".to_string(),
            _ => "end".to_string(),
        };
        *stops.entry(stop).or_insert(0) += 1;
    }
    let ways: Vec<&str> = stops.keys().map(String::as_str).collect();
    assert_eq!(ways, ["1", "12", "empty", "end"]);
}

/// A number at some edge, or any.
fn edge(rng: &mut Rng) -> u64 {
    let any = rng.next_u64();
    let power = 1u64 << rng.below(64);
    rng.pick(&[
        0,
        1,
        2,
        power - 1,
        power,
        power + 1,
        u64::MAX,
        u64::MAX - 1,
        any,
    ])
}

fn spoil_state(rng: &mut Rng, state: &mut State) {
    let number = edge(rng);
    match rng.below(26) {
        0 => state.clock = number,
        1 => state.flying = number,
        2 => state.marked = number,
        3 => state.marked_bytes = number,
        4 => state.backlog = number,
        5 => state.in_flight = number as i64,
        6 => state.cwnd = number,
        7 => state.base = number,
        8 => state.avg = number,
        9 => state.inc_bytes = number,
        10 => state.received = number,
        11 => state.achieved = number,
        12 => state.ignored = number,
        13 => state.bytes_to_ignore = number,
        14 => state.fi_count = number,
        15 => state.qa_end = number,
        16 => state.last_adjust = number,
        17 => state.last_dec = number,
        18 => state.cursor = number,
        19 => state.trigger = !state.trigger,
        20 => state.fast_mode = !state.fast_mode,
        21 => state.name = rng.pick(&[Name::Idle, Name::Pending, Name::Ready, Name::Active]),
        22 => state.settings.ev_count = rng.pick(&[255, 256, 512, number as u32]),
        23 => state.turn = rng.pick(&[1, 2, 7, 8, u64::MAX, number]),
        _ => {
            let mut numbers = state.settings.numbers();
            numbers[rng.below(12) as usize] = number;
            state.settings = Settings::from_numbers(numbers, number as u32, rng.one_in(2));
        }
    }
}

fn any_flow(rng: &mut Rng) -> Flow {
    Flow {
        low: edge(rng) as u32,
        next: edge(rng) as u32,
        held: edge(rng) as u32,
        backlog: edge(rng),
    }
}

fn spoil_memory(rng: &mut Rng, memory: &mut Memory) {
    let number = edge(rng);
    let i = rng.below(128) as usize;
    let length = rng.pick(&[0, 1, 32, 63, 64, 65, 127, 129, 192, 255, 256, 257]);
    let word = i / 64;
    let any = any_flow(rng);
    let flow = rng.pick(&[0, 1]);
    let record = &mut memory.flows[flow];
    match rng.below(16) {
        0 => memory.outstanding[word] ^= 1 << (i % 64),
        1 => memory.marked[word] ^= 1 << (i % 64),
        2 => memory.sizes[i] = number as u32,
        3 => memory.sent[i] = number,
        4 => memory.ev_times[i] = number,
        5 => memory.outstanding.resize(length / 32, 0),
        6 => memory.marked.resize(length / 32, 0),
        7 => memory.sizes.resize(length, 0),
        8 => memory.sent.resize(length, 0),
        9 => memory.ev_times.resize(length, 0),
        10 => record.low = any.low,
        11 => record.next = any.next,
        12 => record.held = any.held,
        13 => record.backlog = any.backlog,
        14 => memory.flows.swap(0, 1),
        _ => memory.flows.resize(rng.pick(&[0, 1, 3, 4, 8, 9]), any),
    }
}

fn any_event(rng: &mut Rng) -> Event {
    let time = edge(rng);
    let psn = edge(rng) as u32;
    let ev = rng.pick(&[0, 255, 256, u16::MAX]);
    match rng.below(7) {
        0 => new_data(time, edge(rng)),
        1 => send(time, psn, edge(rng) as u32),
        2 => resend(time, psn, edge(rng) as u32),
        3 => nack(time, psn, rng.below(4) as u8).into(),
        4 => model::Loss {
            time,
            flow: 0,
            psn,
            ev,
        }
        .into(),
        5 => path(time),
        _ => model::Ack {
            time,
            flow: 0,
            cum: psn,
            map: edge(rng),
            trigger: edge(rng) as u32,
            count: edge(rng) as u32,
            service: edge(rng) as u32,
            ev,
            marked: rng.one_in(2),
            retx: rng.one_in(2),
        }
        .into(),
    }
}

#[test]
fn garbage_is_answered() {
    let mut rng = Rng::new(5);
    let mut answers = [0; NUMBERS];
    let mut chosen = [0; 2];
    for _ in 0..60_000 {
        let slots = [(FLYING, 100, 9_000, 0), (MARKED, 100, 9_000, 1)];
        let rig = Rig::e_with_flows(2).lay(u32::MAX, &slots);
        let mut rig = rig.lay_in(1, 62, &slots);
        for _ in 0..rng.below(3) {
            spoil_state(&mut rng, &mut rig.state);
        }
        if rng.one_in(3) {
            spoil_memory(&mut rng, &mut rig.memory);
        }
        let before = rig.clone();
        let good = rig.holds();
        if good {
            let named = expected(&rig, rig.state.turn);
            assert_eq!(rig.clone().choose(), Ok(named));
            chosen[rig.state.turn as usize] += 1;
            let clock = rig.state.clock;
            let plan = by_turns(&rig, clock, 41, 64);
            assert_eq!(rig.clone().judge(clock, &plan), Ok(()));
            assert_eq!(rig.clone().plan(clock, 41, 64), Ok(plan));
        } else {
            rig.refuse_choice();
            rig.refuse_plans();
        }
        let flow = edge(&mut rng);
        let flow = rng.pick(&[0, 0, 1, 1, flow]);
        let event = of(flow, any_event(&mut rng));
        let number = rig.take(event).number;
        assert_eq!(number == 2, !good);
        if number == 0 {
            assert!(rig.holds());
        } else {
            assert_eq!(rig, before);
        }
        answers[usize::from(number)] += 1;
    }
    assert!(answers[0] > 100 && answers[2] > 1_000 && answers[3] > 100);
    assert!(answers[25] > 100 && chosen.iter().all(|&times| times > 100));
}

#[test]
fn a_state_of_nothing_but_garbage_is_answered() {
    let mut rng = Rng::new(6);
    for _ in 0..20_000 {
        let flows = rng.pick(&[0, 1, 1, 2, 8, 9]);
        let mut memory = Memory::with_flows(flows, rng.pick(&[0, 1, 63, 64, 65, 128]), 256);
        memory.flows.fill_with(|| any_flow(&mut rng));
        memory.outstanding.fill_with(|| edge(&mut rng));
        memory.marked.fill_with(|| edge(&mut rng));
        memory.sizes.fill_with(|| edge(&mut rng) as u32);
        memory.sent.fill_with(|| edge(&mut rng));
        let mut state = State::default();
        for _ in 0..60 {
            spoil_state(&mut rng, &mut state);
        }
        let mut rig = Rig { state, memory };
        assert!(!rig.holds());
        rig.refuse_choice();
        rig.refuse_plans();
        rig.refuse(2, any_event(&mut rng));
    }
}

#[test]
fn any_settings_are_answered() {
    let mut rng = Rng::new(7);
    for _ in 0..20_000 {
        let numbers = [0; 12].map(|_: u64| edge(&mut rng));
        let evs = rng.pick(&[0, 255, 256, 512, 4_096, 8_192]);
        let settings = Settings::from_numbers(numbers, 0, false).with_evs(evs);
        let lent = rng.pick(&[256, 512, evs as usize]);
        let flows = rng.pick(&[0, 1, 1, 8, 8, 9]);
        let capacity = rng.pick(&[0, 63, 64]);
        let mut memory = Memory::with_flows(flows, capacity, lent);
        let good_flows = flows == 1 || flows == 8;
        let good_lengths = good_flows && capacity == 64 && lent == evs as usize;
        let (answer, state) = State::set_up(&settings, &mut memory.lend());
        match answer {
            0 => assert!(good_lengths),
            1 => {}
            _ => assert!(answer == 2 && !good_lengths),
        }
        assert_eq!(state == State::default(), answer != 0);
    }
}

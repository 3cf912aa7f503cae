//! The words of the header and the model's state, flows and plans, there and back, and its turns.

use differential::{flows_of, plan_of, sends_of, state_of, table_of, turn_of, words_of};
use model::{Flow, Name, Planned, Rng, Settings, State, Turn};
use nscc::{FlowWord, PlannedWord, Word, FLOWS_MAX, FLOW_WORDS, PLANNED, WORDS};

#[test]
fn every_word_is_named_in_its_place() {
    for (i, word) in Word::ALL.into_iter().enumerate() {
        assert_eq!(word as usize, i);
    }
    assert_eq!(Word::Turn as usize, WORDS - 1);
}

/// Words that all differ, so that no two can be exchanged unseen.
#[test]
fn words_and_state_are_inverse() {
    let mut rng = Rng::new(1);
    for _ in 0..1_000 {
        let mut words = [0; WORDS].map(|_: u64| rng.below(1 << 32));
        for flag in [Word::QuickAdaptOff, Word::Fast, Word::Trigger] {
            words[flag as usize] = rng.below(2);
        }
        words[Word::Phase as usize] = rng.below(4);
        let state = state_of(&words).expect("words of a state");
        assert_eq!(words_of(&state), words);
    }
}

/// The same of tables, with any number of flows.
#[test]
fn tables_and_flows_are_inverse() {
    let mut rng = Rng::new(1);
    for many in 0..=FLOWS_MAX + 1 {
        let mut table = vec![0; many * FLOW_WORDS];
        table.fill_with(|| rng.below(1 << 32));
        let flows = flows_of(&table).expect("words of a table");
        assert_eq!((flows.len(), table_of(&flows)), (many, table));
    }
}

/// The same of plans, with any number of sends: every number but 0 is a resend's.
#[test]
fn plans_and_sends_are_inverse() {
    let mut rng = Rng::new(1);
    for many in 0..70 {
        let mut plan = vec![0; many * PLANNED];
        plan.fill_with(|| rng.next_u32());
        let (numbers, _) = plan.as_chunks_mut::<PLANNED>();
        for send in numbers {
            send[PlannedWord::Resend as usize] &= 1;
        }
        let sends = sends_of(&plan).expect("numbers of a plan");
        assert_eq!((sends.len(), plan_of(&sends)), (many, plan.clone()));
        for length in [1, 2, 3] {
            let cut = plan.len().checked_sub(length);
            assert_eq!(cut.and_then(|end| sends_of(&plan[..end])), None);
        }
    }
}

#[test]
fn words_that_no_table_has() {
    let table = table_of(&[Flow::default(); 2]);
    for length in [1, 3, 5, 7] {
        assert_eq!(flows_of(&table[..length]), None);
    }
    for word in [FlowWord::Low, FlowWord::Next, FlowWord::Held] {
        let mut table = table.clone();
        table[FLOW_WORDS + word as usize] = 1 << 32;
        assert_eq!(flows_of(&table), None);
    }
}

#[test]
fn words_that_no_state_has() {
    let words = words_of(&State::default());
    assert_eq!(state_of(&words[1..]), None);
    let narrow = [Word::FirstPsn, Word::EvCount];
    let flags = [Word::QuickAdaptOff, Word::Fast, Word::Trigger];
    let wide = narrow.map(|word| (word, 1 << 32));
    let strange = flags.map(|word| (word, 2));
    let mut others = wide.into_iter().chain(strange).chain([(Word::Phase, 4)]);
    assert!(others.all(|(word, number)| {
        let mut words = words;
        words[word as usize] = number;
        state_of(&words).is_none()
    }));
}

/// Written out against include/nscc.h by hand.
#[test]
fn some_words_by_number() {
    let settings = Settings::default().with_evs(36);
    let state = State {
        settings,
        backlog: 14,
        flying: 15,
        marked: 16,
        marked_bytes: 17,
        in_flight: -5,
        cwnd: 19,
        clock: 33,
        cursor: 34,
        turn: 37,
        name: Name::Active,
        ..State::default()
    };
    let words = words_of(&state);
    for i in [14, 15, 16, 17, 19, 33, 34, 36, 37] {
        assert_eq!(words[i], i as u64);
    }
    assert_eq!((words[18], words[35]), (16_777_211, 3));
    let flow = Flow {
        low: 4,
        next: 5,
        held: 6,
        backlog: 7,
    };
    let table = table_of(&[Flow::default(), flow]);
    assert_eq!(table, [0, 0, 0, 0, 4, 5, 6, 7]);
    let (flow, psn) = (3, u32::MAX);
    for resend in [false, true] {
        let words = turn_of(Some(Turn { flow, resend, psn }));
        assert_eq!(words, [1, 3, resend.into(), 4_294_967_295]);
    }
    assert_eq!(turn_of(None), [0, 0, 0, 0]);
    let [send, again] = [false, true].map(|resend| Planned {
        flow: 5,
        resend,
        psn: 6,
        size: 7,
    });
    assert_eq!(plan_of(&[send, again]), [5, 0, 6, 7, 5, 1, 6, 7]);
    let far = Planned {
        flow: 1 << 32,
        ..send
    };
    assert_eq!(plan_of(&[far]), [u32::MAX, 0, 6, 7]);
    for number in [1, 2, 256, 1 << 31, u32::MAX] {
        assert_eq!(sends_of(&[5, number, 6, 7]), Some(vec![again]));
    }
}

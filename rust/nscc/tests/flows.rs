//! Several flows under one window (M-107).

mod common;

use common::{e, settings_record, worked_ack};
use nscc::{
    answer, Ack, Context, FlowWord, Nack, Part, PartWord, Place, Refusal, Sample, Settings, Status,
    Word, FLOWS_MAX,
};

/// Flows that no table of two has: the first behind it, some that a narrower number would take for
/// one of the two, and the last.
const BEYOND: [usize; 5] = [2, 256, 1 << 32, (1 << 32) + 1, usize::MAX];

/// Low, next, held count and backlog.
fn flow(context: &Context, flow: usize) -> [u64; 4] {
    FlowWord::ALL.map(|word| context.flow_word(flow, word))
}

/// Two packets of flow 0 and one of flow 1 fly; 100 bytes of flow 0 wait.
fn two_flows() -> Context {
    let mut context = Context::set_up(&e(), 2, 64).expect("good settings");
    assert_eq!(context.new_data(0, 0, 300), Ok(()));
    assert_eq!(context.new_data(0, 1, 4096), Ok(()));
    assert_eq!(context.send(1, 0, 0, 100, false), Ok(()));
    assert_eq!(context.send(1, 0, 1, 100, false), Ok(()));
    assert_eq!(context.send(1, 1, 0, 4096, false), Ok(()));
    context
}

#[test]
fn two_flows_apart() {
    let mut context = two_flows();
    assert_eq!(flow(&context, 0), [0, 2, 0, 100]);
    assert_eq!(flow(&context, 1), [0, 1, 0, 0]);
    assert_eq!(context.word(Word::Backlog), 100);
    assert_eq!(context.word(Word::Flying), 3);
    assert_eq!(context.in_flight(), 4296);
    // The layout of the header: flow 1's ring begins at slot 64.
    assert_eq!(context.outstanding, [0b11, 0b1]);
    assert_eq!((context.sizes[0], context.sizes[64]), (100, 4096));
    // What waits is flow 0's.
    assert_eq!(context.send(1, 1, 1, 41, false), Err(Refusal::Backlog));
    assert_eq!(context.send(1, 0, 1, 41, false), Err(Refusal::WrongPsn));

    assert_eq!(context.loss(2, 0, 0, 0), Ok(()));
    assert_eq!(context.marked, [0b1, 0]);
    assert_eq!(context.status(0, 0), Ok(Some(Status::Marked)));
    assert_eq!(context.status(1, 0), Ok(Some(Status::Flying)));
    assert_eq!(context.next_marked(0, 0), Ok(Some(0)));
    assert_eq!(context.next_marked(1, 0), Ok(None));
    assert_eq!(context.send(2, 1, 0, 100, true), Err(Refusal::WrongPsn));
    assert_eq!(context.word(Word::MarkedBytes), 100);
}

/// An ACK of flow 1 names PSN 0 and a count of 16, which mean nothing to flow 0.
#[test]
fn an_ack_of_one_flow() {
    let mut context = two_flows();
    let (before, ring) = (flow(&context, 0), context.sizes[..64].to_vec());
    let ack = Ack {
        time: 97,
        flow: 1,
        service: 0,
        ..worked_ack()
    };
    assert_eq!(context.ack(&ack), Ok(Sample::Taken));
    assert_eq!(flow(&context, 1), [1, 1, 16, 0]);
    assert_eq!(context.outstanding, [0b11, 0]);
    assert_eq!(context.sizes[64..], [0; 64]);
    assert_eq!(
        (flow(&context, 0), &context.sizes[..64]),
        (before, &ring[..])
    );
    assert_eq!(context.in_flight(), 200);
    assert_eq!(context.word(Word::Flying), 2);
    // Flow 0 counts from 0 on by itself, and in-flight is the sum: 256 of 200 are taken out.
    let ack = Ack {
        flow: 0,
        cum: 1,
        trigger: 1,
        count: 1,
        ..ack
    };
    assert_eq!(context.ack(&ack), Ok(Sample::Taken));
    assert_eq!(context.in_flight(), -56);
    assert_eq!(flow(&context, 0), [2, 2, 1, 100]);
    assert_eq!(flow(&context, 1), [1, 1, 16, 0]);
}

/// The window is one: what flow 0 has in flight leaves flow 1 no room.
#[test]
fn one_window() {
    let narrow = Settings {
        max_wnd: 8192,
        ..e()
    };
    let mut context = Context::set_up(&narrow, 2, 64).expect("good settings");
    assert_eq!(context.new_data(0, 0, 8192), Ok(()));
    assert_eq!(context.new_data(0, 1, 8192), Ok(()));
    assert_eq!(context.send(0, 0, 0, 4096, false), Ok(()));
    assert_eq!(context.send(0, 1, 0, 4096, false), Ok(()));
    for flow in 0..2 {
        let sent = context.send(0, flow, 1, 4096, false);
        assert_eq!(sent, Err(Refusal::WindowFull));
    }
    // The path goes round for all of them.
    assert_eq!((context.path(0, 1), context.path(0, 0)), (Ok(0), Ok(1)));
}

/// 25 comes after 2 and 3 and before the fields, of every call.
#[test]
fn a_flow_that_the_table_does_not_have() {
    let mut context = two_flows();
    let before = context.clone();
    for flow in BEYOND {
        let nack = Nack {
            time: 1,
            flow,
            psn: 9,
            ev: 256,
            reason: 3,
            marked: false,
            retx: false,
        };
        let ack = Ack {
            time: 1,
            flow,
            count: 1 << 24,
            ..worked_ack()
        };
        let refused = Err(Refusal::Flow);
        assert_eq!(context.new_data(1, flow, 0), refused);
        assert_eq!(context.send(1, flow, 9, 40, false), refused);
        assert_eq!(context.ack(&ack), Err(Refusal::Flow));
        assert_eq!(context.nack(&nack), Err(Refusal::Flow));
        assert_eq!(context.loss(1, flow, 9, 256), refused);
        assert_eq!(context.path(1, flow), Err(Refusal::Flow));
        assert_eq!(context.status(flow, 0), Err(Refusal::Flow));
        assert_eq!(context.next_marked(flow, 0), Err(Refusal::Flow));
        assert_eq!(context.path(0, flow), Err(Refusal::Time));
        assert_eq!(context.ack(&Ack { time: 0, ..ack }), Err(Refusal::Time));
    }
    assert_eq!(context, before);
    context.words[Word::Cwnd as usize] = 0;
    assert_eq!(context.path(0, 2), Err(Refusal::Unsound));
    assert_eq!(context.status(2, 0), Err(Refusal::Unsound));
}

/// Three rings of 64 slots are 192, which is no ring's capacity; PSN 65 lives in slot 1 of each.
#[test]
fn a_ring_buffer_of_three_flows() {
    let first_psn = 65;
    let settings = Settings { first_psn, ..e() };
    let mut context = Context::set_up(&settings, 3, 64).expect("good settings");
    assert_eq!((context.sizes.len(), context.marked.len()), (192, 3));
    for k in 0..3 {
        assert_eq!(flow(&context, k), [65, 65, 0, 0]);
    }
    assert_eq!(context.new_data(0, 2, 65 * 41), Ok(()));
    for psn in first_psn..first_psn + 64 {
        assert_eq!(context.send(0, 2, psn, 41, false), Ok(()));
    }
    assert_eq!(context.outstanding, [0, 0, u64::MAX]);
    assert_eq!((context.sizes[127], context.sizes[128]), (0, 41));
    // Flow 2's ring is full, and flow 1's is not.
    let full = context.send(0, 2, first_psn + 64, 41, false);
    assert_eq!(full, Err(Refusal::RingFull));
    assert_eq!(context.new_data(0, 1, 41), Ok(()));
    assert_eq!(context.send(0, 1, first_psn, 41, false), Ok(()));
    assert_eq!(context.outstanding, [0, 0b10, u64::MAX]);
    assert_eq!(context.status(2, 65), Ok(Some(Status::Flying)));
    assert_eq!(context.status(0, 65), Ok(None));
}

#[test]
fn numbers_of_flows() {
    for flows in 1..=FLOWS_MAX {
        let context = Context::set_up(&e(), flows, 64).expect("good settings");
        assert_eq!(context.flows.len(), 4 * flows);
        assert_eq!(context.status(flows - 1, 0), Ok(None));
        assert_eq!(context.status(flows, 0), Err(Refusal::Flow));
    }
    for flows in [0, 9, 16] {
        let refused = Context::set_up(&e(), flows, 64);
        assert_eq!(refused, Err(Refusal::Unsound));
        // A setting comes before it.
        let small = Settings { mtu: 1023, ..e() };
        let refused = Context::set_up(&small, flows, 64);
        assert_eq!(refused, Err(Refusal::Setting));
    }
    // Rings that are none: 3 * 96 slots, and 8 * 32.
    assert_eq!(Context::set_up(&e(), 3, 96), Err(Refusal::Unsound));
    assert_eq!(Context::set_up(&e(), 8, 32), Err(Refusal::Unsound));
}

/// Words that no flow has, totals of one flow only, and each length.
#[test]
fn unsound_tables() {
    let context = two_flows();
    let spoilers: [fn(&mut Context); 14] = [
        |context| context.flows[0] = 1 << 32,
        |context| context.flows[5] = (1 << 32) + 1,
        |context| context.flows[6] = 1 << 24,
        |context| context.flows[7] = 1,
        |context| context.flows[4] = 1,
        |context| context.flows[1] = 66,
        |context| context.words[Word::Backlog as usize] = 0,
        |context| context.words[Word::Flying as usize] = 2,
        |context| context.flows.truncate(0),
        |context| context.flows.truncate(3),
        |context| context.flows.truncate(4),
        |context| context.flows.truncate(5),
        |context| context.flows.resize(12, 0),
        |context| context.flows.resize(36, 0),
    ];
    for spoil in spoilers {
        let mut context = context.clone();
        spoil(&mut context);
        let before = context.clone();
        assert_eq!(context.path(1, 0), Err(Refusal::Unsound));
        assert_eq!(context.new_data(1, 1, 1), Err(Refusal::Unsound));
        assert_eq!(context.status(0, 0), Err(Refusal::Unsound));
        assert_eq!(context, before);
    }
}

/// Records of kinds 33 and 38, which name a flow, and one of kind 6, which is of flow 0.
fn records_of_flows() -> Vec<u8> {
    let time = [7, 0, 0, 0, 0, 0, 0, 0];
    let new_data = |flow| [&[15, 0, 33, 0], &time[..], &[flow, 1, 1, 0, 0]].concat();
    let path = |flow| [&[11, 0, 38, 0], &time[..], &[flow]].concat();
    let old_path = [&[10, 0, 6, 0], &time[..]].concat();
    let records = [new_data(1), path(1), old_path, path(2), new_data(255)];
    [settings_record(), records.concat()].concat()
}

#[test]
fn a_log_with_flows() {
    let log = records_of_flows();
    let mut context = Context::empty(2, 64);
    let mut answers = [9; 7];
    let replayed = context.replay(&mut Place::default(), &log, &mut answers);
    assert_eq!((replayed, answers[6]), (Ok(6), 9));
    let refused = Err(Refusal::Flow);
    let told = [Ok(0), Ok(0), Ok(0), Ok(1), refused, refused];
    assert_eq!(
        answers[..6]
            .iter()
            .map(|&word| answer(word))
            .collect::<Vec<_>>(),
        told
    );
    assert_eq!(flow(&context, 0), [0, 0, 0, 0]);
    assert_eq!(flow(&context, 1), [0, 0, 0, 257]);

    // The same in chunks, cut before a flow's number.
    let mut chunked = Context::empty(2, 64);
    let mut part = Part::default();
    let (front, back) = log.split_at(57 + 12);
    let mut given = [9; 7];
    assert_eq!(chunked.chunk(&mut part, front, false, &mut given), Ok(1));
    assert_eq!(part.word(PartWord::Piece), 12);
    assert_eq!(chunked.chunk(&mut part, back, true, &mut given[1..]), Ok(5));
    assert_eq!((given, chunked), (answers, context));
}

/// A table that no context has is the first record's refusal, and stays as it was.
#[test]
fn a_log_without_a_table() {
    let log = records_of_flows();
    for words in [0, 3, 5, 36] {
        let mut context = Context::empty(1, 64);
        context.words.fill(5);
        context.flows = vec![7; words];
        let before = context.flows.clone();
        let (mut place, mut answers) = (Place::default(), [9; 2]);
        let replayed = context.replay(&mut place, &log, &mut answers);
        assert_eq!((replayed, answers), (Ok(1), [2, 9]));
        assert!(place.stopped());
        assert_eq!(context.flows, before);
        // A state of zeros.
        assert_eq!((context.word(Word::Cwnd), context.in_flight()), (0, 0));
    }
}

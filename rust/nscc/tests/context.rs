//! The wrapper itself: the worked example of 01 by its methods, and a log by its replay.

mod common;

use common::{e, settings_record, worked_ack};
use nscc::{
    answer, sampled, Ack, Context, Nack, Part, PartWord, Phase, Place, PlaceWord, Refusal, Sample,
    Settings, Status, Word,
};

#[test]
fn the_worked_example() {
    let mut context = Context::set_up(&e(), 1, 64).expect("good settings");
    assert_eq!(context.phase(), Some(Phase::Idle));
    assert_eq!(context.new_data(0, 0, 8192), Ok(()));
    assert_eq!(context.send(10, 0, 0, 4096, false), Ok(()));
    let before = context.clone();
    assert_eq!(context.send(20, 0, 2, 4096, false), Err(Refusal::WrongPsn));
    assert_eq!(context, before);
    assert_eq!(context.in_flight(), 4096);
    assert_eq!(context.ack(&worked_ack()), Ok(Sample::Taken));
    assert_eq!(context.in_flight(), 0);
    assert_eq!(context.word(Word::Cwnd), 614_400);
    assert_eq!(context.word(Word::Backlog), 4096);
    assert_eq!(context.phase(), Some(Phase::Ready));
}

#[test]
fn paths_and_losses() {
    let mut context = Context::set_up(&e(), 1, 64).expect("good settings");
    assert_eq!(context.path(5, 0), Ok(0));
    assert_eq!(context.path(5, 0), Ok(1));
    assert_eq!(context.path(4, 0), Err(Refusal::Time));
    assert_eq!(context.new_data(5, 0, 300), Ok(()));
    for psn in 0..3 {
        assert_eq!(context.send(5, 0, psn, 100, false), Ok(()));
    }
    // EV 2, which would be next, is avoided until 6 + 96.
    assert_eq!(context.loss(6, 0, 0, 2), Ok(()));
    assert_eq!(context.path(6, 0), Ok(3));
    let nack = Nack {
        time: 7,
        flow: 0,
        psn: 0,
        ev: 0,
        reason: 2,
        marked: false,
        retx: false,
    };
    assert_eq!(context.nack(&nack), Err(Refusal::NotFlying));
    let nack = Nack { psn: 1, ..nack };
    assert_eq!(context.nack(&nack), Ok(Sample::Taken));
    assert_eq!(context.word(Word::Marked), 2);
    assert_eq!(context.in_flight(), 100);
}

/// PSNs across 2^32, in slots across the ring's end.
#[test]
fn what_the_ring_shows() {
    let settings = Settings {
        first_psn: u32::MAX - 1,
        ..e()
    };
    let mut context = Context::set_up(&settings, 1, 64).expect("good settings");
    assert_eq!(context.status(0, u32::MAX - 1), Ok(None));
    assert_eq!(context.next_marked(0, u32::MAX - 1), Ok(None));
    assert_eq!(context.new_data(0, 0, 500), Ok(()));
    let psns = [u32::MAX - 1, u32::MAX, 0, 1, 2];
    for psn in psns {
        assert_eq!(context.send(0, 0, psn, 100, false), Ok(()));
    }
    assert_eq!(context.loss(1, 0, u32::MAX, 0), Ok(()));
    assert_eq!(context.loss(1, 0, 1, 0), Ok(()));
    let ack = Ack {
        time: 1,
        cum: u32::MAX - 2,
        map: 0b100,
        trigger: 0,
        count: 0,
        ..worked_ack()
    };
    assert_eq!(context.ack(&ack), Ok(Sample::NotPositive));
    let shown = psns.map(|psn| context.status(0, psn).expect("a sound context"));
    let [flying, marked, done] = Status::ALL.map(Some);
    assert_eq!(shown, [flying, marked, done, marked, flying]);
    for psn in [u32::MAX - 2, 3, 62, 1 << 31] {
        assert_eq!(context.status(0, psn), Ok(None));
        assert_eq!(context.next_marked(0, psn), Ok(None));
    }
    let next = psns.map(|psn| context.next_marked(0, psn).expect("a sound context"));
    let (first, second) = (Some(u32::MAX), Some(1));
    assert_eq!(next, [first, first, second, second, None]);
    // The layout of the header: slots 62, 63, 0, 1 and 2.
    assert_eq!(context.outstanding, [0b11 << 62 | 0b110]);
    assert_eq!(context.marked, [1 << 63 | 0b10]);
    assert_eq!(context.send(2, 0, 1, 100, true), Ok(()));
    assert_eq!(context.sizes[1], 100 + (1 << 16));
    assert_eq!(context.next_marked(0, 0), Ok(None));
    context.words[Word::Cwnd as usize] = 0;
    assert_eq!(context.status(0, 0), Err(Refusal::Unsound));
    assert_eq!(context.next_marked(0, 0), Err(Refusal::Unsound));
}

/// A marked bit without an outstanding one, a bit outside low..next-1, and each length.
#[test]
fn unsound_rings() {
    let context = Context::set_up(&e(), 1, 128).expect("good settings");
    let spoilers: [fn(&mut Context); 11] = [
        |context| context.marked[0] = 1,
        |context| context.outstanding[1] = 1 << 63,
        |context| context.sizes[127] = 1,
        |context| context.sizes[0] = 1 << 16,
        |context| context.sent[64] = 1,
        |context| context.outstanding.truncate(1),
        |context| context.outstanding.push(0),
        |context| context.marked.truncate(1),
        |context| context.marked.push(0),
        |context| context.sizes.truncate(64),
        |context| context.sent.truncate(127),
    ];
    for spoil in spoilers {
        let mut context = context.clone();
        spoil(&mut context);
        let before = context.clone();
        assert_eq!(context.path(0, 0), Err(Refusal::Unsound));
        assert_eq!(context.status(0, 0), Err(Refusal::Unsound));
        assert_eq!(context, before);
    }
}

/// 96 ticks, 2^20 + 1 of them, and each way to have no sample.
#[test]
fn samples() {
    let mut context = Context::set_up(&e(), 1, 64).expect("good settings");
    assert_eq!(context.new_data(0, 0, 500), Ok(()));
    for psn in 0..5 {
        assert_eq!(context.send(0, 0, psn, 100, false), Ok(()));
    }
    let ack = |time, psn| Ack {
        time,
        cum: psn,
        trigger: psn,
        count: 0,
        service: 0,
        ..worked_ack()
    };
    let nack = |time, psn| Nack {
        time,
        flow: 0,
        psn,
        ev: 0,
        reason: 2,
        marked: false,
        retx: false,
    };
    assert_eq!(context.nack(&nack(0, 4)), Ok(Sample::NotPositive));
    assert_eq!(context.ack(&ack(96, 0)), Ok(Sample::Taken));
    assert_eq!(context.ack(&ack(96, 0)), Ok(Sample::Gone));
    let retx = Nack {
        retx: true,
        ..nack(96, 3)
    };
    assert_eq!(context.nack(&retx), Ok(Sample::Ambiguous));
    let late = (1 << 20) + 1;
    assert_eq!(context.nack(&nack(late, 1)), Ok(Sample::Cut));
    assert_eq!(context.ack(&ack(late, 2)), Ok(Sample::Cut));
    assert_eq!(context.ack(&ack(late, 5)), Err(Refusal::UnsentOrOld));
}

#[test]
fn answers() {
    for sample in Sample::ALL {
        let word = u64::from(sample.number()) << 32;
        assert_eq!(sampled(word), Ok(sample));
        assert_eq!(answer(word), Ok(sample.number().into()));
    }
    assert_eq!(sampled(9), Err(Refusal::UnsentOrOld));
    assert_eq!((Sample::of(0), Sample::of(6)), (None, None));
    for status in Status::ALL {
        assert_eq!(Status::of(status.number().into()), Some(status));
    }
    assert_eq!((Status::of(0), Status::of(4)), (None, None));
}

#[test]
fn refused_fields() {
    let mut context = Context::set_up(&e(), 1, 64).expect("good settings");
    assert_eq!(context.new_data(0, 0, 0), Err(Refusal::Bytes));
    assert_eq!(context.new_data(0, 0, 8192), Ok(()));
    assert_eq!(context.send(10, 0, 0, 40, false), Err(Refusal::Size));
    assert_eq!(context.send(10, 0, 0, 4096, false), Ok(()));
    let before = context.clone();
    let ack = Ack {
        trigger: 1,
        ..worked_ack()
    };
    assert_eq!(context.ack(&ack), Err(Refusal::Trigger));
    let ack = Ack { ev: 256, ..ack };
    assert_eq!(context.ack(&ack), Err(Refusal::Ev));
    let count = 1 << 24;
    assert_eq!(context.ack(&Ack { count, ..ack }), Err(Refusal::Count));
    let nack = Nack {
        time: 110,
        flow: 0,
        psn: 0,
        ev: 256,
        reason: 3,
        marked: false,
        retx: false,
    };
    assert_eq!(context.nack(&nack), Err(Refusal::Reason));
    let reason = 2;
    assert_eq!(context.nack(&Nack { reason, ..nack }), Err(Refusal::Ev));
    assert_eq!(context.loss(110, 0, 0, 256), Err(Refusal::Ev));
    assert_eq!(context, before);
}

#[test]
fn refused_settings_and_lengths() {
    let small = Settings { mtu: 1023, ..e() };
    assert_eq!(Context::set_up(&small, 1, 64), Err(Refusal::Setting));
    assert_eq!(Context::set_up(&e(), 1, 96), Err(Refusal::Unsound));
    for ev_count in [0, 255, 300, 8192, u32::MAX] {
        let odd = Settings { ev_count, ..e() };
        assert_eq!(Context::set_up(&odd, 1, 64), Err(Refusal::Setting));
    }
    let mut context = Context::set_up(&e(), 1, 64).expect("good settings");
    context.words[Word::Cwnd as usize] = 0;
    assert_eq!(context.path(0, 0), Err(Refusal::Unsound));
}

/// The last EV, the first past it, and the cursor behind the last.
#[test]
fn more_evs() {
    for ev_count in [256, 512, 1024, 2048, 4096] {
        let settings = Settings { ev_count, ..e() };
        let mut context = Context::set_up(&settings, 1, 64).expect("good settings");
        assert_eq!(context.evs.len(), ev_count as usize);
        assert_eq!(context.word(Word::EvCount), ev_count.into());
        assert_eq!(context.new_data(0, 0, 100), Ok(()));
        assert_eq!(context.send(0, 0, 0, 100, false), Ok(()));
        assert_eq!(context.loss(0, 0, 0, ev_count), Err(Refusal::Ev));
        assert_eq!(context.loss(0, 0, 0, ev_count - 1), Ok(()));
        assert_eq!(context.evs[ev_count as usize - 1], 96);
        context.words[Word::Cursor as usize] = u64::from(ev_count) - 1;
        assert_eq!(context.path(96, 0), Ok(ev_count - 1));
        assert_eq!(context.path(96, 0), Ok(0));
        context.words[Word::EvCount as usize] *= 2;
        assert_eq!(context.path(96, 0), Err(Refusal::Unsound));
    }
}

/// Settings that ask for 512 EVs, and a path choice: 73 bytes.
#[test]
fn a_log_with_more_evs() {
    let log = small_log();
    let evs = 512u32.to_le_bytes();
    let log = [&[59, 0, 16, 0], &log[4..57], &evs, &log[57..69]].concat();
    let mut answers = [9; 2];
    let mut context = Context::with_evs(1, 64, 512);
    let replayed = context.replay(&mut Place::default(), &log, &mut answers);
    assert_eq!((replayed, answers.map(answer)), (Ok(2), [Ok(0), Ok(0)]));
    assert_eq!(context.word(Word::EvCount), 512);
    // Other times are lent: the settings are refused, and nothing more is replayed.
    let mut place = Place::default();
    let mut context = Context::empty(1, 64);
    let replayed = context.replay(&mut place, &log, &mut answers);
    assert_eq!(
        (replayed, answer(answers[0])),
        (Ok(1), Err(Refusal::Unsound))
    );
    assert!(place.stopped());
}

/// Settings, a path choice and a cut end: 71 bytes.
fn small_log() -> Vec<u8> {
    let path = [10, 0, 6, 0, 7, 0, 0, 0, 0, 0, 0, 0];
    [&settings_record()[..], &path, &[9, 9]].concat()
}

#[test]
fn a_log_in_two_pieces() {
    let log = small_log();
    let mut context = Context::empty(1, 1024);
    let mut place = Place::default();
    let mut answers = [0; 2];
    assert_eq!(context.replay(&mut place, &log, &mut answers), Ok(2));
    assert_eq!(answers.map(answer), [Ok(0), Ok(0)]);
    assert_eq!(context.replay(&mut place, &log, &mut answers), Ok(1));
    assert_eq!(answer(answers[0]), Err(Refusal::Malformed));
    assert!(place.stopped());
    assert_eq!(place.word(PlaceWord::Done), 2);
    assert_eq!(context.replay(&mut place, &log, &mut answers), Ok(0));
    assert_eq!(context.word(Word::Cursor), 1);
}

#[test]
fn a_log_in_chunks() {
    let log = small_log();
    let mut context = Context::empty(1, 1024);
    let mut part = Part::default();
    let mut answers = [9; 1];
    let (front, back) = log.split_at(40);
    assert_eq!(context.chunk(&mut part, front, false, &mut answers), Ok(0));
    assert_eq!((part.taken(), part.word(PartWord::Piece)), (40, 40));
    assert_eq!(part.piece[..40], *front);
    assert_eq!(part.piece[40..], [0; 21]);
    assert_eq!(answers, [9]);
    // Room for the settings' answer alone: 17 bytes are taken, the others are handed in again.
    assert_eq!(context.chunk(&mut part, back, false, &mut answers), Ok(1));
    assert_eq!((part.taken(), answer(answers[0])), (17, Ok(0)));
    let back = &back[17..];
    let mut answers = [9; 2];
    assert_eq!(context.chunk(&mut part, back, false, &mut answers), Ok(1));
    assert_eq!((part.taken(), part.word(PartWord::Piece)), (14, 2));
    assert_eq!((answer(answers[0]), answers[1]), (Ok(0), 9));
    // The end alone.
    assert_eq!(context.chunk(&mut part, &[], true, &mut answers), Ok(1));
    assert_eq!(answer(answers[0]), Err(Refusal::Malformed));
    assert!(part.stopped());
    let [at, done] = [PartWord::At, PartWord::Done].map(|word| part.word(word));
    assert_eq!((at, done, part.piece), (69, 2, [0; 61]));
    assert_eq!(context.chunk(&mut part, &log, false, &mut answers), Ok(0));
    assert_eq!(part.taken(), log.len());
    assert_eq!(context.word(Word::Cursor), 1);
}

#[test]
fn refused_chunks() {
    let mut context = Context::empty(1, 64);
    let mut part = Part::default();
    part.words[PartWord::At as usize] = (1 << 48) - 1;
    let mut chunk = |part: &mut Part| context.chunk(part, &[55], false, &mut [9; 1]);
    let before = part;
    assert_eq!(chunk(&mut part), Err(Refusal::LogTooLong));
    assert_eq!(part, before);
    part.words[PartWord::Piece as usize] = 62;
    let before = part;
    assert_eq!(chunk(&mut part), Err(Refusal::Unsound));
    assert_eq!(part, before);
}

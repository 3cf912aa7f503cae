//! Planned sends (M-111): what the judge says of a plan, and what the planner plans.

mod common;

use common::e;
use nscc::{judged, Context, PlanRefusal, Planned, Refusal, Settings, Word, PLANNED, SENDS_MAX};

/// Everything before it has happened by then.
const NOW: u64 = 10;

/// A new packet of this flow.
fn new(flow: usize, psn: u32, size: u32) -> Planned {
    Planned {
        flow,
        resend: false,
        psn,
        size,
    }
}

/// A marked packet of this flow.
fn again(flow: usize, psn: u32, size: u32) -> Planned {
    Planned {
        resend: true,
        ..new(flow, psn, size)
    }
}

/// Flows with these backlogs, whose PSNs start at 0, under a window of so many bytes.
fn backlogs_under(max_wnd: u64, bytes: &[u64]) -> Context {
    let settings = Settings { max_wnd, ..e() };
    let mut context = Context::set_up(&settings, bytes.len(), 64).expect("good settings");
    for (flow, &bytes) in bytes.iter().enumerate().filter(|(_, &bytes)| bytes > 0) {
        assert_eq!(context.new_data(0, flow, bytes), Ok(()));
    }
    context
}

fn backlogs(bytes: &[u64]) -> Context {
    backlogs_under(e().max_wnd, bytes)
}

/// Sends new packets of these sizes, from PSN 0 on.
fn send_all(context: &mut Context, flow: usize, sizes: &[u32]) {
    for (psn, &size) in (0..).zip(sizes) {
        assert_eq!(context.send(1, flow, psn, size, false), Ok(()));
    }
}

/// Flow 0 has sent PSNs 0 to 3, of which 1 and 2 are marked; both flows have 200 bytes to send.
fn marked() -> Context {
    let mut context = backlogs(&[606, 200]);
    send_all(&mut context, 0, &[100, 101, 102, 103]);
    for psn in [2, 1] {
        assert_eq!(context.loss(2, 0, psn, 0), Ok(()));
    }
    context
}

fn with_turn(mut context: Context, turn: u64) -> Context {
    context.words[Word::Turn as usize] = turn;
    context
}

/// The send by itself.
fn make(context: &mut Context, planned: &Planned) -> Result<(), Refusal> {
    let Planned {
        flow,
        resend,
        psn,
        size,
    } = *planned;
    context.send(NOW, flow, psn, size, resend)
}

/// The plan is answered so, and nothing changes.
#[track_caller]
fn answers(context: &Context, time: u64, plan: &[Planned], answer: Result<(), PlanRefusal>) {
    let before = context.clone();
    assert_eq!(context.judge(time, plan), answer);
    assert_eq!(*context, before);
}

/// The plan is accepted, and so are its sends, made one after the other. What they leave.
#[track_caller]
fn accepts(context: &Context, plan: &[Planned]) -> Context {
    answers(context, NOW, plan, Ok(()));
    let mut made = context.clone();
    for planned in plan {
        assert_eq!(make(&mut made, planned), Ok(()));
    }
    made
}

/// This send is the first that is refused, in the plan and by itself.
#[track_caller]
fn refuses(context: &Context, plan: &[Planned], number: usize, refusal: Refusal) {
    let send = Some(number);
    answers(context, NOW, plan, Err(PlanRefusal { refusal, send }));
    let mut made = accepts(context, &plan[..number]);
    assert_eq!(make(&mut made, &plan[number]), Err(refusal));
}

/// The plan is refused as a whole.
#[track_caller]
fn refuses_whole(context: &Context, time: u64, plan: &[Planned], refusal: Refusal) {
    let send = None;
    answers(context, time, plan, Err(PlanRefusal { refusal, send }));
}

/// These sends are planned, and accepted as a plan; nothing changes.
#[track_caller]
fn plans_in(context: &Context, room: usize, bytes: u32, expected: &[Planned]) {
    let before = context.clone();
    assert_eq!(context.plan(NOW, bytes, room).as_deref(), Ok(expected));
    assert_eq!(*context, before);
    accepts(context, expected);
}

#[track_caller]
fn plans(context: &Context, bytes: u32, expected: &[Planned]) {
    plans_in(context, SENDS_MAX, bytes, expected);
}

#[test]
fn an_empty_plan() {
    accepts(&backlogs(&[0]), &[]);
    accepts(&marked(), &[]);
    refuses_whole(&marked(), 1, &[], Refusal::Time);
}

#[test]
fn two_flows_in_one_plan() {
    let plan = [
        new(0, 4, 60),
        again(0, 2, 102),
        new(1, 0, 100),
        new(0, 5, 140),
        again(0, 1, 101),
        new(1, 1, 100),
    ];
    let after = accepts(&marked(), &plan);
    assert_eq!(after.word(Word::Backlog), 0);
    assert_eq!(after.word(Word::Marked), 0);
    // Made, it is no plan any more.
    refuses(&after, &plan, 0, Refusal::WrongPsn);
}

/// A window of 8192 bytes and packets of up to 4096: 4096 in flight leave room, 4097 do not.
#[test]
fn the_window_fills_in_the_middle() {
    let context = backlogs_under(8192, &[8192, 8192]);
    let with_first = |size| {
        [
            new(0, 0, size),
            new(1, 0, 41),
            new(0, 1, 4096),
            new(1, 1, 41),
        ]
    };
    refuses(&context, &with_first(4055), 3, Refusal::WindowFull);
    refuses(&context, &with_first(4056), 2, Refusal::WindowFull);
    refuses(&context, &with_first(4097), 0, Refusal::Size);
}

/// What a plan has sent flies: again, or for the first time.
#[test]
fn a_packet_that_the_plan_has_sent() {
    let context = marked();
    let twice = [again(0, 1, 101), again(0, 2, 102), again(0, 1, 101)];
    refuses(&context, &twice, 2, Refusal::WrongPsn);
    let own = [new(0, 4, 41), again(0, 4, 41)];
    refuses(&context, &own, 1, Refusal::WrongPsn);
    let same = [new(0, 4, 41), new(0, 4, 41)];
    refuses(&context, &same, 1, Refusal::WrongPsn);
    // The other flow has no PSN 1, and 102 bytes are not PSN 1's.
    let elsewhere = [again(0, 1, 101), again(1, 1, 101)];
    refuses(&context, &elsewhere, 1, Refusal::WrongPsn);
    refuses(&context, &[again(0, 1, 102)], 0, Refusal::WrongPsn);
}

#[test]
fn backlog_and_ring_run_out() {
    let context = backlogs(&[100, 41]);
    let plan = [new(0, 0, 59), new(1, 0, 41), new(0, 1, 41), new(0, 2, 41)];
    refuses(&context, &plan, 3, Refusal::Backlog);
    refuses(&context, &[new(0, 0, 60), plan[2]], 1, Refusal::Backlog);

    let mut context = backlogs(&[66 * 41, 41]);
    send_all(&mut context, 0, &[41; 63]);
    let plan = [new(0, 63, 41), new(1, 0, 41), new(0, 64, 41)];
    refuses(&context, &plan, 2, Refusal::RingFull);
}

/// One send with several faults, of which one after the other goes.
#[test]
fn the_order_of_a_send() {
    // Flow 0's ring is full, and 6720 in flight close the window; each flow has 41 bytes left.
    let mut context = backlogs_under(8192, &[65 * 41, 4137]);
    send_all(&mut context, 0, &[41; 64]);
    send_all(&mut context, 1, &[4096]);
    for (send, refusal) in [
        (new(2, 65, 40), Refusal::Flow),
        (new(0, 65, 40), Refusal::Size),
        (new(0, 65, 4097), Refusal::Size),
        (new(0, 65, 42), Refusal::WrongPsn),
        (new(0, 64, 42), Refusal::Backlog),
        (new(0, 64, 41), Refusal::RingFull),
        (new(1, 1, 41), Refusal::WindowFull),
        (again(2, 3, 40), Refusal::Flow),
        (again(0, 3, 40), Refusal::Size),
        (again(0, 3, 41), Refusal::WrongPsn),
    ] {
        refuses(&context, &[send], 0, refusal);
    }
    assert_eq!(context.loss(2, 0, 3, 0), Ok(()));
    refuses(&context, &[again(0, 3, 42)], 0, Refusal::WrongPsn);
    refuses(&context, &[again(0, 3, 41)], 0, Refusal::WindowFull);
}

/// The first behind the table, some that a narrower number would take for flow 0, and the last.
#[test]
fn flows_that_the_table_does_not_have() {
    for flow in [2, 8, 256, 1 << 16, u32::MAX as usize, 1 << 32, usize::MAX] {
        let plan = [new(0, 4, 41), new(1, 0, 41), new(flow, 0, 41)];
        refuses(&marked(), &plan, 2, Refusal::Flow);
    }
}

/// 2, 3 and 27, in that order, come before any send.
#[test]
fn sixty_four_sends_and_one_more() {
    let context = backlogs(&[65 * 41]);
    let plan: Vec<Planned> = (0..65).map(|psn| new(0, psn, 41)).collect();
    let after = accepts(&context, &plan[..64]);
    assert_eq!(after.word(Word::Flying), 64);
    let long = Refusal::PlanTooLong;
    refuses_whole(&context, NOW, &plan, long);
    // Its first send would be refused too.
    refuses_whole(&after, NOW, &plan, long);
    refuses_whole(&context, NOW, &[new(9, 9, 0); 1000], long);
    refuses(&context, &[new(9, 9, 0); 64], 0, Refusal::Flow);

    for time in [0, 1 << 48, u64::MAX] {
        refuses_whole(&after, time, &plan, Refusal::Time);
        refuses_whole(&after, time, &plan[..1], Refusal::Time);
        assert_eq!(after.plan(time, 41, 64), Err(Refusal::Time));
        let spoilt = with_turn(after.clone(), 1);
        for time in [time, NOW] {
            refuses_whole(&spoilt, time, &plan, Refusal::Unsound);
            refuses_whole(&spoilt, time, &[], Refusal::Unsound);
            assert_eq!(spoilt.plan(time, 41, 64), Err(Refusal::Unsound));
        }
    }
    assert_eq!(after.judge((1 << 48) - 1, &[]), Ok(()));
}

#[test]
fn two_flows_by_turns() {
    let context = backlogs(&[800, 800]);
    let [a, b, c, d] = [
        new(0, 0, 400),
        new(1, 0, 400),
        new(0, 1, 400),
        new(1, 1, 400),
    ];
    plans(&context, 400, &[a, b, c, d]);
    plans(&with_turn(context, 1), 400, &[b, a, d, c]);
    // Flow 0 has nothing to send, and flow 1 one packet.
    let context = with_turn(backlogs(&[0, 41, 123]), 2);
    let plan = [new(2, 0, 41), new(1, 0, 41), new(2, 1, 41), new(2, 2, 41)];
    plans(&context, 41, &plan);
}

/// The one nearest to low first, each with its own size.
#[test]
fn marked_packets_go_first() {
    let plan = [
        again(0, 1, 101),
        new(1, 0, 100),
        again(0, 2, 102),
        new(1, 1, 100),
        new(0, 4, 100),
        new(0, 5, 100),
    ];
    plans(&marked(), 100, &plan);
    // A new packet of a size that there is not stops it for good.
    for bytes in [0, 40, 4097, u32::MAX] {
        plans(&marked(), bytes, &plan[..1]);
        plans(&with_turn(marked(), 1), bytes, &[]);
    }
}

#[test]
fn where_the_planner_stops() {
    plans(&backlogs(&[0, 0]), 41, &[]);
    // Flow 1 has its turn, and too little for it.
    let context = backlogs(&[500, 99, 500]);
    plans(&context, 100, &[new(0, 0, 100)]);
    plans(&with_turn(context, 1), 100, &[]);
    // Three packets fill the window.
    let context = backlogs_under(12_288, &[20_000, 20_000]);
    let plan = [new(0, 0, 4096), new(1, 0, 4096), new(0, 1, 4096)];
    plans(&context, 4096, &plan);
    // A full ring does not: its flow is passed over.
    let mut context = backlogs(&[65 * 41, 82]);
    send_all(&mut context, 0, &[41; 63]);
    plans(
        &context,
        41,
        &[new(0, 63, 41), new(1, 0, 41), new(1, 1, 41)],
    );
}

#[test]
fn plans_of_sixty_four_sends_and_of_less_room() {
    let context = with_turn(backlogs(&[9000; 3]), 2);
    let round = |psn| [new(2, psn, 41), new(0, psn, 41), new(1, psn, 41)];
    let sends: Vec<Planned> = (0..22).flat_map(round).collect();
    for room in [64, 65, 1000, usize::MAX] {
        plans_in(&context, room, 41, &sends[..64]);
    }
    for room in [0, 1, 2, 63] {
        plans_in(&context, room, 41, &sends[..room]);
    }
}

/// What the planner writes, and what it leaves of its room.
#[test]
fn the_numbers_of_a_plan() {
    let context = marked();
    let plan = [
        [0, 1, 1, 101],
        [1, 0, 0, 120],
        [0, 1, 2, 102],
        // 80 bytes are left to flow 1, which has its turn.
    ];
    let numbers = plan.concat();
    for length in (0..=20).chain([256, 257, 300]) {
        let mut room = vec![9; length];
        let many = (length / PLANNED).min(plan.len());
        assert_eq!(
            context.show().plan(NOW, 120, &mut room),
            (many as u64) << 32
        );
        let (written, left) = room.split_at(PLANNED * many);
        assert_eq!(written, &numbers[..written.len()]);
        assert!(left.iter().all(|&number| number == 9));
        // A refusal writes nothing.
        for (context, time, number) in [
            (&context, 1, 3),
            (&context, 1 << 48, 3),
            (&with_turn(context.clone(), 2), NOW, 2),
        ] {
            let mut room = vec![9; length];
            assert_eq!(context.show().plan(time, 120, &mut room), number);
            assert_eq!(room, vec![9; length]);
        }
    }
    for numbers in plan {
        assert_eq!(Planned::of(&numbers).numbers(), numbers);
    }
}

/// Every number but 0 is a resend, and a plan of sends that are not whole is 2.
#[test]
fn numbers_that_no_planner_writes() {
    let context = marked();
    let judge = |numbers: &[u32]| context.show().judge(NOW, numbers);
    for resend in [1, 2, 256, 1 << 16, 1 << 31, u32::MAX] {
        assert_eq!(judge(&[0, resend, 1, 101]), 0);
        let twice = [0, resend, 1, 101, 0, 1, 1, 101];
        assert_eq!(judge(&twice), 8 | 1 << 32);
        assert_eq!(judge(&[0, resend, 4, 41]), 8);
    }
    assert_eq!(judge(&[0, 0, 4, 41, u32::MAX, 0, 0, 41]), 25 | 1 << 32);
    assert_eq!(judge(&[9; 256]), 25);
    assert_eq!(judge(&[9; 260]), 27);
    for length in [1, 2, 3, 5, 255, 257, 261] {
        assert_eq!(judge(&vec![0; length]), 2);
        assert_eq!(context.show().judge(0, &vec![0; length]), 2);
    }
}

#[test]
fn what_the_judge_says() {
    assert_eq!(judged(0), Ok(()));
    for (number, refusal) in [
        (2, Refusal::Unsound),
        (3, Refusal::Time),
        (27, Refusal::PlanTooLong),
    ] {
        let send = None;
        assert_eq!(judged(number), Err(PlanRefusal { refusal, send }));
    }
    let refusal = Refusal::WindowFull;
    for number in [0, 1, 63] {
        let send = Some(number);
        let word = 6 | (number as u64) << 32;
        assert_eq!(judged(word), Err(PlanRefusal { refusal, send }));
    }
    let said = judged(6 | 63 << 32).map_err(|refusal| refusal.to_string());
    let why = "send 63: 6: in-flight + MTU is over the window";
    assert_eq!(said, Err(why.to_string()));
}

//! The library over a bridge: `bridge.c`, a program for x86-64 under an emulator. What is lent goes
//! there and back with every call.

use super::{Lent, Shown};
use crate::event::{Ack, Nack};
use std::cell::RefCell;
use std::io::{self, BufWriter, Read, Write};
use std::process::{Child, ChildStdin, ChildStdout, Command, Stdio};

/// As `bridge.c` numbers them.
#[derive(Clone, Copy)]
enum Function {
    SetUp,
    NewData,
    Send,
    Ack,
    Nack,
    Loss,
    Path,
    Replay,
    Chunk,
    Status,
    NextMarked,
    Choose,
    Judge,
    Plan,
}

const ARGUMENTS: usize = 10;

/// What is lent beside a context: settings, a place, a part or a turn, a piece, a plan, a log or a
/// chunk of one, room for answers.
#[derive(Default)]
struct Beside<'a> {
    first: &'a mut [u64],
    piece: &'a mut [u8],
    plan: &'a mut [u32],
    log: &'a [u8],
    answers: &'a mut [u64],
}

impl Lent<'_> {
    pub fn set_up(
        &mut self,
        settings: &[u64],
        first_psn: u32,
        quick_adapt_off: bool,
        ev_count: u32,
    ) -> u32 {
        let beside = Beside {
            first: &mut settings.to_vec(),
            ..Beside::default()
        };
        let arguments = [first_psn.into(), quick_adapt_off.into(), ev_count.into()];
        self.ask(Function::SetUp, &arguments, beside) as u32
    }

    pub fn new_data(&mut self, time: u64, flow: usize, bytes: u64) -> u32 {
        self.event(Function::NewData, &[time, flow as u64, bytes]) as u32
    }

    pub fn send(&mut self, time: u64, flow: usize, psn: u32, bytes: u32, resend: bool) -> u32 {
        let arguments = [time, flow as u64, psn.into(), bytes.into(), resend.into()];
        self.event(Function::Send, &arguments) as u32
    }

    /// The number in the low 32 bits, and where it is 0 the sample's above them.
    pub fn ack(&mut self, ack: &Ack) -> u64 {
        let arguments = [
            ack.time,
            ack.flow as u64,
            ack.cum.into(),
            ack.map,
            ack.trigger.into(),
            ack.count.into(),
            ack.service.into(),
            ack.ev.into(),
            ack.marked.into(),
            ack.retx.into(),
        ];
        self.event(Function::Ack, &arguments)
    }

    /// As of an ACK.
    pub fn nack(&mut self, nack: &Nack) -> u64 {
        let arguments = [
            nack.time,
            nack.flow as u64,
            nack.psn.into(),
            nack.ev.into(),
            nack.reason.into(),
            nack.marked.into(),
            nack.retx.into(),
        ];
        self.event(Function::Nack, &arguments)
    }

    pub fn loss(&mut self, time: u64, flow: usize, psn: u32, ev: u32) -> u32 {
        let arguments = [time, flow as u64, psn.into(), ev.into()];
        self.event(Function::Loss, &arguments) as u32
    }

    /// The number in the low 32 bits, and where it is 0 the EV above them.
    pub fn path(&mut self, time: u64, flow: usize) -> u64 {
        self.event(Function::Path, &[time, flow as u64])
    }

    /// What is named stands in `turn`: see [`Turn::of`](crate::Turn::of).
    pub fn choose(&mut self, turn: &mut [u64]) -> u32 {
        let beside = Beside {
            first: turn,
            ..Beside::default()
        };
        self.ask(Function::Choose, &[], beside) as u32
    }

    pub fn replay(&mut self, place: &mut [u64], log: &[u8], answers: &mut [u64]) -> u32 {
        let beside = Beside {
            first: place,
            log,
            answers,
            ..Beside::default()
        };
        self.ask(Function::Replay, &[], beside) as u32
    }

    pub fn chunk(
        &mut self,
        part: &mut [u64],
        piece: &mut [u8],
        chunk: &[u8],
        ended: bool,
        answers: &mut [u64],
    ) -> u32 {
        let beside = Beside {
            first: part,
            piece,
            log: chunk,
            answers,
            ..Beside::default()
        };
        self.ask(Function::Chunk, &[ended.into()], beside) as u32
    }

    fn event(&mut self, function: Function, arguments: &[u64]) -> u64 {
        self.ask(function, arguments, Beside::default())
    }

    fn ask(&mut self, function: Function, arguments: &[u64], mut beside: Beside) -> u64 {
        thread_local! {
            static BRIDGE: RefCell<Option<Bridge>> = const { RefCell::new(None) };
        }
        BRIDGE.with_borrow_mut(|bridge| {
            let bridge = bridge.get_or_insert_with(|| Bridge::start().expect("a bridge"));
            bridge
                .put(function, arguments, self, &beside)
                .and_then(|()| bridge.get(self, &mut beside))
                .expect("an answer over the bridge")
        })
    }
}

impl Shown<'_> {
    /// The number in the low 32 bits, and where it is 0 the status above them.
    pub fn status(&self, flow: usize, psn: u32) -> u64 {
        self.read(Function::Status, &[flow as u64, psn.into()], &mut [])
    }

    /// The number in the low 32 bits, and where it is 0 the PSN above them.
    pub fn next_marked(&self, flow: usize, psn: u32) -> u64 {
        self.read(Function::NextMarked, &[flow as u64, psn.into()], &mut [])
    }

    /// The number in the low 32 bits, and above them the first send that fails: see
    /// [`judged`](crate::judged).
    pub fn judge(&self, time: u64, plan: &[u32]) -> u64 {
        let mut copy = plan.to_vec();
        let answer = self.read(Function::Judge, &[time], &mut copy);
        assert_eq!(copy, plan, "a plan that is only read was written");
        answer
    }

    /// The number in the low 32 bits, and where it is 0 how many sends stand in `plan` above them.
    pub fn plan(&self, time: u64, bytes: u32, plan: &mut [u32]) -> u64 {
        self.read(Function::Plan, &[time, bytes.into()], plan)
    }

    /// A copy of the context goes over the bridge, and must come back as it was.
    fn read(&self, function: Function, arguments: &[u64], plan: &mut [u32]) -> u64 {
        let (words, evs) = (&mut self.words.to_vec(), &mut self.evs.to_vec());
        let flows = &mut self.flows.to_vec();
        let (outstanding, marked) = (&mut self.outstanding.to_vec(), &mut self.marked.to_vec());
        let (sizes, sent) = (&mut self.sizes.to_vec(), &mut self.sent.to_vec());
        let mut lent = Lent {
            words,
            flows,
            outstanding,
            marked,
            sizes,
            sent,
            evs,
        };
        let beside = Beside {
            plan,
            ..Beside::default()
        };
        let answer = lent.ask(function, arguments, beside);
        assert_eq!(lent.show(), *self, "memory that is only read was written");
        answer
    }
}

/// The program with its two ends.
struct Bridge {
    child: Child,
    to: BufWriter<ChildStdin>,
    from: ChildStdout,
}

impl Drop for Bridge {
    fn drop(&mut self) {
        // It may have ended by itself.
        let _ = self.child.kill();
        let _ = self.child.wait();
    }
}

impl Bridge {
    fn start() -> io::Result<Bridge> {
        let mut child = Command::new(env!("NSCC_RUN"))
            .args(["run", env!("NSCC_BRIDGE")])
            .stdin(Stdio::piped())
            .stdout(Stdio::piped())
            .spawn()?;
        let gone = || io::Error::other("no pipe");
        Ok(Bridge {
            to: BufWriter::new(child.stdin.take().ok_or_else(gone)?),
            from: child.stdout.take().ok_or_else(gone)?,
            child,
        })
    }

    fn put(
        &mut self,
        function: Function,
        arguments: &[u64],
        lent: &Lent,
        beside: &Beside,
    ) -> io::Result<()> {
        let mut all = [0; ARGUMENTS];
        all[..arguments.len()].copy_from_slice(arguments);
        put_u64s(&mut self.to, &[function as u64])?;
        put_u64s(&mut self.to, &all)?;
        let lengths = [
            beside.first.len(),
            lent.words.len(),
            lent.flows.len(),
            lent.outstanding.len(),
            lent.marked.len(),
            lent.sizes.len(),
            lent.sent.len(),
            lent.evs.len(),
            beside.answers.len(),
            beside.piece.len(),
            beside.plan.len(),
            beside.log.len(),
        ];
        put_u64s(&mut self.to, &lengths.map(|length| length as u64))?;
        put_u64s(&mut self.to, beside.first)?;
        put_u64s(&mut self.to, lent.words)?;
        put_u64s(&mut self.to, lent.flows)?;
        put_u64s(&mut self.to, lent.outstanding)?;
        put_u64s(&mut self.to, lent.marked)?;
        put_u32s(&mut self.to, lent.sizes)?;
        put_u64s(&mut self.to, lent.sent)?;
        put_u64s(&mut self.to, lent.evs)?;
        put_u64s(&mut self.to, beside.answers)?;
        self.to.write_all(beside.piece)?;
        put_u32s(&mut self.to, beside.plan)?;
        self.to.write_all(beside.log)?;
        self.to.flush()
    }

    fn get(&mut self, lent: &mut Lent, beside: &mut Beside) -> io::Result<u64> {
        let mut answer = [0; 2];
        get_u64s(&mut self.from, &mut answer)?;
        get_u64s(&mut self.from, beside.first)?;
        get_u64s(&mut self.from, lent.words)?;
        get_u64s(&mut self.from, lent.flows)?;
        get_u64s(&mut self.from, lent.outstanding)?;
        get_u64s(&mut self.from, lent.marked)?;
        get_u32s(&mut self.from, lent.sizes)?;
        get_u64s(&mut self.from, lent.sent)?;
        get_u64s(&mut self.from, lent.evs)?;
        get_u64s(&mut self.from, beside.answers)?;
        self.from.read_exact(beside.piece)?;
        get_u32s(&mut self.from, beside.plan)?;
        let [answer, whole] = answer;
        assert_eq!(whole, 1, "memory beside what was lent was written");
        Ok(answer)
    }
}

fn put_u64s(to: &mut impl Write, numbers: &[u64]) -> io::Result<()> {
    let bytes: Vec<u8> = numbers.iter().flat_map(|n| n.to_le_bytes()).collect();
    to.write_all(&bytes)
}

fn put_u32s(to: &mut impl Write, numbers: &[u32]) -> io::Result<()> {
    let bytes: Vec<u8> = numbers.iter().flat_map(|n| n.to_le_bytes()).collect();
    to.write_all(&bytes)
}

fn get_u64s(from: &mut impl Read, numbers: &mut [u64]) -> io::Result<()> {
    let mut bytes = vec![0; 8 * numbers.len()];
    from.read_exact(&mut bytes)?;
    for (number, bytes) in numbers.iter_mut().zip(bytes.as_chunks().0) {
        *number = u64::from_le_bytes(*bytes);
    }
    Ok(())
}

fn get_u32s(from: &mut impl Read, numbers: &mut [u32]) -> io::Result<()> {
    let mut bytes = vec![0; 4 * numbers.len()];
    from.read_exact(&mut bytes)?;
    for (number, bytes) in numbers.iter_mut().zip(bytes.as_chunks().0) {
        *number = u32::from_le_bytes(*bytes);
    }
    Ok(())
}

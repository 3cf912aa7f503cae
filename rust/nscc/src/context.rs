use crate::event::{Ack, Nack, Settings};
use crate::plan::{judged, PlanRefusal, Planned};
use crate::raw::{Lent, Shown};
use crate::refusal::{answer, Refusal};
use crate::sample::{sampled, Sample};
use crate::status::Status;
use crate::turn::Turn;
use crate::word::{
    FlowWord, PartWord, Phase, PlaceWord, Word, EVS_MAX, EVS_MIN, FLOW_WORDS, IN_FLIGHT_ADDED,
    PART, PIECE, PLACE, PLANNED, SENDS_MAX, TURN, WORDS,
};

/// One congestion control context with its memory: the state's words, the table of its flows, the
/// ring buffer with a ring for each of them, and the EV times.
///
/// The memory stands open: the library answers for whatever is put in it, with `Unsound` where it
/// does not hold together.
#[derive(Clone, Debug, PartialEq, Eq)]
pub struct Context {
    pub words: Vec<u64>,
    /// [`FLOW_WORDS`] for each flow.
    pub flows: Vec<u64>,
    /// A bit a slot, bit i % 64 of word i / 64: the packet flies or is marked.
    pub outstanding: Vec<u64>,
    /// A bit a slot.
    pub marked: Vec<u64>,
    /// A packet's size + 2^16 * its resend count.
    pub sizes: Vec<u32>,
    pub sent: Vec<u64>,
    pub evs: Vec<u64>,
}

/// A place in a log, at its start at first.
#[derive(Clone, Copy, Debug, Default, PartialEq, Eq)]
pub struct Place {
    pub words: [u64; PLACE],
}

impl Place {
    pub fn word(&self, word: PlaceWord) -> u64 {
        self.words[word as usize]
    }

    /// Record 1 was refused, or a record was malformed: nothing more is replayed.
    pub fn stopped(&self) -> bool {
        self.word(PlaceWord::Stopped) != 0
    }
}

/// What is held of a log that comes in chunks, beside its context. The default is its start.
#[derive(Clone, Copy, Debug, PartialEq, Eq)]
pub struct Part {
    pub words: [u64; PART],
    pub piece: [u8; PIECE],
}

impl Default for Part {
    fn default() -> Part {
        Part {
            words: [0; PART],
            piece: [0; PIECE],
        }
    }
}

impl Part {
    pub fn word(&self, word: PartWord) -> u64 {
        self.words[word as usize]
    }

    /// Record 1 was refused, or a record was malformed: nothing more is replayed.
    pub fn stopped(&self) -> bool {
        self.word(PartWord::Stopped) != 0
    }

    /// How many bytes the last call took of its chunk. The others are to be handed in again.
    pub fn taken(&self) -> usize {
        self.word(PartWord::Taken) as usize
    }
}

impl Context {
    /// Memory of zeros for so many flows, each with a ring of so many slots, to be set up by a log's
    /// first record that asks for 256 EVs.
    pub fn empty(flows: usize, capacity: usize) -> Context {
        Context::with_evs(flows, capacity, EVS_MIN as usize)
    }

    /// Memory of zeros for a log that asks for so many EVs.
    pub fn with_evs(flows: usize, capacity: usize, evs: usize) -> Context {
        let slots = flows * capacity;
        Context {
            words: vec![0; WORDS],
            flows: vec![0; flows * FLOW_WORDS],
            outstanding: vec![0; slots / 64],
            marked: vec![0; slots / 64],
            sizes: vec![0; slots],
            sent: vec![0; slots],
            evs: vec![0; evs],
        }
    }

    /// One to eight flows. The capacity of each flow's ring is a power of two, 64..4,096.
    pub fn set_up(settings: &Settings, flows: usize, capacity: usize) -> Result<Context, Refusal> {
        // A count that is not allowed is refused, whatever is lent.
        let evs = settings.ev_count.min(EVS_MAX) as usize;
        let mut context = Context::with_evs(flows, capacity, evs);
        let number = context.lend().set_up(
            &settings.numbers(),
            settings.first_psn,
            settings.quick_adapt_off,
            settings.ev_count,
        );
        accepted(number).map(|()| context)
    }

    /// Lends all the memory, for calls of [`crate::raw`].
    pub fn lend(&mut self) -> Lent<'_> {
        Lent {
            words: &mut self.words,
            flows: &mut self.flows,
            outstanding: &mut self.outstanding,
            marked: &mut self.marked,
            sizes: &mut self.sizes,
            sent: &mut self.sent,
            evs: &mut self.evs,
        }
    }

    /// Shows all the memory, for calls of [`crate::raw`] that only read.
    pub fn show(&self) -> Shown<'_> {
        Shown {
            words: &self.words,
            flows: &self.flows,
            outstanding: &self.outstanding,
            marked: &self.marked,
            sizes: &self.sizes,
            sent: &self.sent,
            evs: &self.evs,
        }
    }

    pub fn new_data(&mut self, time: u64, flow: usize, bytes: u64) -> Result<(), Refusal> {
        accepted(self.lend().new_data(time, flow, bytes))
    }

    pub fn send(
        &mut self,
        time: u64,
        flow: usize,
        psn: u32,
        bytes: u32,
        resend: bool,
    ) -> Result<(), Refusal> {
        accepted(self.lend().send(time, flow, psn, bytes, resend))
    }

    /// What the trigger's sample is.
    pub fn ack(&mut self, ack: &Ack) -> Result<Sample, Refusal> {
        sampled(self.lend().ack(ack))
    }

    /// What the packet's sample is.
    pub fn nack(&mut self, nack: &Nack) -> Result<Sample, Refusal> {
        sampled(self.lend().nack(nack))
    }

    pub fn loss(&mut self, time: u64, flow: usize, psn: u32, ev: u32) -> Result<(), Refusal> {
        accepted(self.lend().loss(time, flow, psn, ev))
    }

    /// The EV of the next path, which is the same for every flow.
    pub fn path(&mut self, time: u64, flow: usize) -> Result<u32, Refusal> {
        answer(self.lend().path(time, flow))
    }

    /// Which flow sends next, and what; `None` where no flow is ready or the window is full.
    pub fn choose(&mut self) -> Result<Option<Turn>, Refusal> {
        let mut turn = [0; TURN];
        accepted(self.lend().choose(&mut turn))?;
        Ok(Turn::of(&turn))
    }

    /// Whether each of these sends, made in this order at this time, would be accepted; else the
    /// first that would not be.
    pub fn judge(&self, time: u64, plan: &[Planned]) -> Result<(), PlanRefusal> {
        let numbers: Vec<u32> = plan.iter().flat_map(Planned::numbers).collect();
        judged(self.show().judge(time, &numbers))
    }

    /// What would be sent by turns at this time, with new packets of so many bytes: as many sends as
    /// there is room for, and at most [`SENDS_MAX`].
    pub fn plan(&self, time: u64, bytes: u32, room: usize) -> Result<Vec<Planned>, Refusal> {
        let mut numbers = vec![0; PLANNED * room.min(SENDS_MAX)];
        let many = answer(self.show().plan(time, bytes, &mut numbers))?;
        let (sends, _) = numbers.as_chunks();
        Ok(sends[..many as usize].iter().map(Planned::of).collect())
    }

    /// What a flow's ring shows of a packet; `None` where its PSN is not one of low..next-1.
    pub fn status(&self, flow: usize, psn: u32) -> Result<Option<Status>, Refusal> {
        answer(self.show().status(flow, psn)).map(Status::of)
    }

    /// A flow's first marked packet from `psn` on; `None` where no packet from there up to next-1 is
    /// marked, or `psn` is not one of low..next-1.
    pub fn next_marked(&self, flow: usize, psn: u32) -> Result<Option<u32>, Refusal> {
        let first = answer(self.show().next_marked(flow, psn))?;
        // The library then answers with next.
        let none = u64::from(first) == self.flow_word(flow, FlowWord::Next);
        Ok((!none).then_some(first))
    }

    /// Replays the log from `place` on; how many answers were given. Go on until that is 0.
    /// [`answer`] reads an answer, [`sampled`] one of an ACK or a NACK.
    pub fn replay(
        &mut self,
        place: &mut Place,
        log: &[u8],
        answers: &mut [u64],
    ) -> Result<usize, Refusal> {
        accepted(self.lend().replay(&mut place.words, log, answers))?;
        Ok(place.word(PlaceWord::Answered) as usize)
    }

    /// Replays what the next chunk of a log brings, with which the log has `ended` or not; how many
    /// answers were given. Only where they fill their room is less taken than the whole chunk
    /// ([`Part::taken`]).
    pub fn chunk(
        &mut self,
        part: &mut Part,
        chunk: &[u8],
        ended: bool,
        answers: &mut [u64],
    ) -> Result<usize, Refusal> {
        let Part { words, piece } = part;
        accepted(self.lend().chunk(words, piece, chunk, ended, answers))?;
        Ok(part.word(PartWord::Answered) as usize)
    }

    /// A word of the state, which must have all its words.
    pub fn word(&self, word: Word) -> u64 {
        self.words[word as usize]
    }

    /// A word of a flow, which the table must have.
    pub fn flow_word(&self, flow: usize, word: FlowWord) -> u64 {
        self.flows[flow * FLOW_WORDS + word as usize]
    }

    pub fn in_flight(&self) -> i64 {
        self.word(Word::InFlight).cast_signed() - IN_FLIGHT_ADDED
    }

    /// The state's name; `None` for a word that no state has.
    pub fn phase(&self) -> Option<Phase> {
        Phase::of(self.word(Word::Phase))
    }
}

fn accepted(number: u32) -> Result<(), Refusal> {
    answer(number.into()).map(|_| ())
}

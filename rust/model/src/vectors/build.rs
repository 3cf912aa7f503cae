//! Short ways to write a log down.

use super::Vector;
use crate::gen::{settings_record, E};
use crate::log::{append, Record, M, RETX};
use crate::settings::Settings;

/// The PSN before a first PSN of 0: an ACK up to it covers nothing and gives no sample.
pub(super) const NONE: u32 = u32::MAX;

/// Settings E of 01.
pub(super) fn e() -> Record {
    e_but(|_| ())
}

/// Settings E but for a change.
pub(super) fn e_but(change: impl FnOnce(&mut Settings)) -> Record {
    let mut settings = Settings::from_numbers(E, 0, false);
    change(&mut settings);
    settings_record(&settings)
}

pub(super) fn data(time: u64, bytes: u32) -> Record {
    let bytes = bytes.into();
    Record::NewData {
        time,
        flow: None,
        bytes,
    }
}

pub(super) fn send(time: u64, psn: u32, size: u32) -> Record {
    Record::Send {
        time,
        flow: None,
        size,
        psn,
        resend: 0,
    }
}

pub(super) fn resend(time: u64, psn: u32, size: u32) -> Record {
    Record::Send {
        time,
        flow: None,
        size,
        psn,
        resend: 1,
    }
}

/// An unmarked ACK up to `cum`, which is its trigger.
pub(super) fn ack(time: u64, cum: u32, count: u32) -> Record {
    Record::Ack {
        time,
        flow: None,
        cum,
        map: 0,
        trigger: cum,
        count,
        service: 0,
        ev: 0,
        flags: 0,
    }
}

/// An ACK whose sample, of a packet sent at 0, has this delay over a base of 96.
pub(super) fn delayed(time: u32, cum: u32, delay: u32, count: u32) -> Record {
    ack(time.into(), cum, count).service(time - 96 - delay)
}

pub(super) fn nack(time: u64, psn: u32, reason: u8) -> Record {
    Record::Nack {
        time,
        flow: None,
        psn,
        ev: 0,
        reason,
        flags: 0,
    }
}

pub(super) fn loss(time: u64, psn: u32) -> Record {
    Record::Loss {
        time,
        flow: None,
        psn,
        ev: 0,
    }
}

pub(super) fn path(time: u64) -> Record {
    Record::Path { time, flow: None }
}

/// Packets of one size, all sent at `time`.
pub(super) fn sends(
    time: u64,
    psns: impl IntoIterator<Item = u32>,
    size: u32,
) -> impl Iterator<Item = Record> {
    psns.into_iter().map(move |psn| send(time, psn, size))
}

/// One field changed. A record without that field is a mistake in the list of logs.
impl Record {
    /// The same of the kind that names a flow.
    pub(super) fn of(mut self, number: u8) -> Record {
        let (Record::NewData { flow, .. }
        | Record::Send { flow, .. }
        | Record::Ack { flow, .. }
        | Record::Nack { flow, .. }
        | Record::Loss { flow, .. }
        | Record::Path { flow, .. }) = &mut self
        else {
            panic!("no flow in {self:?}");
        };
        *flow = Some(number);
        self
    }

    pub(super) fn map(mut self, bits: u64) -> Record {
        let Record::Ack { map, .. } = &mut self else {
            panic!("no map in {self:?}");
        };
        *map = bits;
        self
    }

    pub(super) fn trigger(mut self, psn: u32) -> Record {
        let Record::Ack { trigger, .. } = &mut self else {
            panic!("no trigger in {self:?}");
        };
        *trigger = psn;
        self
    }

    pub(super) fn service(mut self, ticks: u32) -> Record {
        let Record::Ack { service, .. } = &mut self else {
            panic!("no service in {self:?}");
        };
        *service = ticks;
        self
    }

    pub(super) fn ev(mut self, number: u16) -> Record {
        let (Record::Ack { ev, .. } | Record::Nack { ev, .. } | Record::Loss { ev, .. }) =
            &mut self
        else {
            panic!("no EV in {self:?}");
        };
        *ev = number;
        self
    }

    pub(super) fn marked(self) -> Record {
        self.flag(M)
    }

    pub(super) fn retx(self) -> Record {
        self.flag(RETX)
    }

    fn flag(mut self, bit: u8) -> Record {
        let (Record::Ack { flags, .. } | Record::Nack { flags, .. }) = &mut self else {
            panic!("no such flag in {self:?}");
        };
        *flags |= bit;
        self
    }
}

/// A log of these records.
pub(super) fn named(name: &str, records: impl IntoIterator<Item = Record>) -> Vector {
    raw(name, records.into_iter().map(bytes_of))
}

/// A log of records given as their bytes.
pub(super) fn raw(name: &str, records: impl IntoIterator<Item = Vec<u8>>) -> Vector {
    Vector {
        name: name.to_string(),
        log: records.into_iter().flatten().collect(),
    }
}

pub(super) fn bytes_of(record: Record) -> Vec<u8> {
    let mut bytes = Vec::new();
    append(&record, &mut bytes).expect("every field fits its bytes");
    bytes
}

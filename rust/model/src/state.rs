use crate::settings::Settings;
use std::fmt;

/// The state names of 01, "The ledger".
#[derive(Clone, Copy, Debug, Default, PartialEq, Eq)]
pub enum Name {
    #[default]
    Idle,
    Pending,
    Ready,
    Active,
}

impl Name {
    pub fn word(self) -> &'static str {
        match self {
            Name::Idle => "IDLE",
            Name::Pending => "PENDING",
            Name::Ready => "READY",
            Name::Active => "ACTIVE",
        }
    }
}

impl fmt::Display for Name {
    fn fmt(&self, f: &mut fmt::Formatter) -> fmt::Result {
        f.write_str(self.word())
    }
}

/// Every number that a context holds, beside the lent table of its flows. The default is the state of
/// zeros named IDLE.
#[derive(Clone, Copy, Debug, Default, PartialEq, Eq)]
pub struct State {
    pub settings: Settings,
    /// Time of the last accepted event.
    pub clock: u64,

    // The ledger, as far as it is over all flows.
    pub flying: u64,
    pub marked: u64,
    pub marked_bytes: u64,
    pub backlog: u64,
    pub in_flight: i64,

    // The window.
    pub cwnd: u64,
    /// The base round trip.
    pub base: u64,
    /// The delay average in 1/1,024 tick.
    pub avg: u64,
    pub inc_bytes: u64,
    pub received: u64,
    pub achieved: u64,
    pub ignored: u64,
    pub bytes_to_ignore: u64,
    pub fi_count: u64,
    pub fast_mode: bool,
    /// Set by a trimmed or lost packet until quick adapt fires.
    pub trigger: bool,
    pub qa_end: u64,
    pub last_adjust: u64,
    pub last_dec: u64,

    /// The EV from which the next path is looked for.
    pub cursor: u64,
    /// The flow from which the next round starts (M-108). Only a choice moves it.
    pub turn: u64,
    pub name: Name,
}

impl State {
    /// A fresh state (01, "Numbers and their bounds").
    pub(crate) fn fresh(settings: Settings) -> State {
        State {
            settings,
            cwnd: settings.max_wnd,
            base: settings.config_base_rtt,
            ..State::default()
        }
    }

    /// The ceiling of cwnd: MaxWnd scaled by the actual round trip, and no less than the MTU (01 as
    /// amended by M-101). Settings and base must be in their bounds.
    pub fn max_wnd(&self) -> u64 {
        let settings = &self.settings;
        let scaled = settings.max_wnd * self.base / settings.config_base_rtt;
        scaled.max(settings.mtu)
    }

    /// In-flight + MTU is at most cwnd. The MTU and cwnd must be in their bounds.
    pub(crate) fn window_open(&self) -> bool {
        self.in_flight + self.settings.mtu as i64 <= self.cwnd as i64
    }

    /// The name that the rule gives to this state.
    pub(crate) fn ruled_name(&self) -> Name {
        let nothing_to_send = self.backlog == 0 && self.marked == 0;
        if nothing_to_send && self.flying == 0 {
            Name::Idle
        } else if nothing_to_send {
            Name::Pending
        } else if self.window_open() {
            Name::Ready
        } else {
            Name::Active
        }
    }

    /// The average in whole ticks.
    pub(crate) fn average(&self) -> u64 {
        self.avg / crate::bounds::AVG_PARTS
    }
}

use crate::word::SETTINGS;

/// The settings of a context; the header has their ranges.
#[derive(Clone, Copy, Debug, Default, PartialEq, Eq)]
pub struct Settings {
    pub mtu: u64,
    pub max_wnd: u64,
    pub config_base_rtt: u64,
    pub target_qdelay: u64,
    pub fi: u64,
    pub eta: u64,
    pub alpha: u64,
    pub gamma: u64,
    pub max_md_jump: u64,
    pub adjust_period: u64,
    pub adjust_bytes: u64,
    pub qa_threshold: u64,
    pub first_psn: u32,
    pub quick_adapt_off: bool,
    pub ev_count: u32,
}

impl Settings {
    /// The twelve numbers in the header's order.
    pub fn numbers(&self) -> [u64; SETTINGS] {
        [
            self.mtu,
            self.max_wnd,
            self.config_base_rtt,
            self.target_qdelay,
            self.fi,
            self.eta,
            self.alpha,
            self.gamma,
            self.max_md_jump,
            self.adjust_period,
            self.adjust_bytes,
            self.qa_threshold,
        ]
    }
}

#[derive(Clone, Copy, Debug, PartialEq, Eq)]
pub struct Ack {
    pub time: u64,
    pub flow: usize,
    /// Covers every PSN up to and including this one.
    pub cum: u32,
    /// Bit i covers cum + 1 + i.
    pub map: u64,
    pub trigger: u32,
    pub count: u32,
    pub service: u32,
    pub ev: u32,
    /// The M flag.
    pub marked: bool,
    pub retx: bool,
}

#[derive(Clone, Copy, Debug, PartialEq, Eq)]
pub struct Nack {
    pub time: u64,
    pub flow: usize,
    pub psn: u32,
    pub ev: u32,
    /// 0 trimmed, 1 trimmed at the last hop, 2 other.
    pub reason: u32,
    /// The M flag.
    pub marked: bool,
    pub retx: bool,
}

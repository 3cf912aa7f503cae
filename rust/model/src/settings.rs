use crate::bounds::{EVS_MAX, EVS_MIN, EVS_USUAL};
use std::ops::RangeInclusive;

/// The settings of a context, in the order of 01.
#[derive(Clone, Copy, Debug, Default, PartialEq, Eq)]
pub struct Settings {
    pub mtu: u64,
    /// MaxWnd. The window's own ceiling is [`State::max_wnd`](crate::State::max_wnd).
    pub max_wnd: u64,
    pub config_base_rtt: u64,
    pub target_qdelay: u64,
    pub fi: u64,
    pub eta: u64,
    pub alpha: u64,
    pub gamma: u64,
    pub max_md_jump: u64,
    pub adjust_period: u64,
    pub adjust_bytes: u64,
    pub qa_threshold: u64,
    pub first_psn: u32,
    pub quick_adapt_off: bool,
    /// How many EVs there are (M-110).
    pub ev_count: u32,
}

impl Settings {
    /// From the twelve numbers in the order of 01, with 256 EVs.
    pub fn from_numbers(numbers: [u64; 12], first_psn: u32, quick_adapt_off: bool) -> Settings {
        Settings {
            mtu: numbers[0],
            max_wnd: numbers[1],
            config_base_rtt: numbers[2],
            target_qdelay: numbers[3],
            fi: numbers[4],
            eta: numbers[5],
            alpha: numbers[6],
            gamma: numbers[7],
            max_md_jump: numbers[8],
            adjust_period: numbers[9],
            adjust_bytes: numbers[10],
            qa_threshold: numbers[11],
            first_psn,
            quick_adapt_off,
            ev_count: EVS_USUAL,
        }
    }

    /// The same with so many EVs.
    pub fn with_evs(self, ev_count: u32) -> Settings {
        Settings { ev_count, ..self }
    }

    /// The twelve numbers in the order of 01.
    pub fn numbers(&self) -> [u64; 12] {
        [
            self.mtu,
            self.max_wnd,
            self.config_base_rtt,
            self.target_qdelay,
            self.fi,
            self.eta,
            self.alpha,
            self.gamma,
            self.max_md_jump,
            self.adjust_period,
            self.adjust_bytes,
            self.qa_threshold,
        ]
    }

    /// The ranges of the twelve numbers; that of MaxWnd starts at `mtu`.
    pub fn ranges(mtu: u64) -> [RangeInclusive<u64>; 12] {
        [
            1_024..=16_384,
            mtu..=1 << 26,
            1..=1 << 14,
            1..=1 << 14,
            0..=1 << 20,
            0..=1 << 20,
            0..=1 << 14,
            0..=1_024,
            0..=1_024,
            1..=1 << 20,
            1..=1 << 26,
            0..=1 << 20,
        ]
    }

    pub fn in_range(&self) -> bool {
        let ranges = Settings::ranges(self.mtu);
        ranges
            .iter()
            .zip(self.numbers())
            .all(|(range, number)| range.contains(&number))
            && Settings::evs_allowed(self.ev_count)
    }

    /// A power of two from 256 to 4,096.
    pub fn evs_allowed(ev_count: u32) -> bool {
        ev_count.is_power_of_two() && (EVS_MIN..=EVS_MAX).contains(&ev_count)
    }
}

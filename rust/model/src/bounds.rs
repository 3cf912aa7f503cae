//! The bounds of 01, "Numbers and their bounds". A name in `_END` is the first number outside.

/// Times of events and of the clock lie below this.
pub const TIME_END: u64 = 1 << 48;
/// The quick-adapt end and the EV times lie below this.
pub const LATER_END: u64 = 1 << 49;

/// A log that comes in chunks is shorter than this, in bytes.
pub const LOG_END: u64 = 1 << 48;

/// Received counts lie below this and wrap at it.
pub const COUNT_END: u32 = 1 << 24;
/// A wrapped difference of counts from here on means an old count.
pub const COUNT_OLD: u32 = 1 << 23;
/// Bytes in one unit of the received count.
pub const UNIT: u64 = 256;

/// A PSN at most this far behind another (modulo 2^32) is not after it.
pub const PSN_REACH: u32 = 1 << 30;

pub const IN_FLIGHT_MIN: i64 = -(1 << 24);
/// Of each flow's backlog.
pub const BACKLOG_MAX: u64 = 1 << 40;
pub const SIZE_MIN: u32 = 41;
pub const RESENDS_MAX: u32 = 2;

/// The greatest number of flows under one window. The least is one.
pub const FLOWS_MAX: usize = 8;
/// The least number of slots of a flow's ring, and the greatest. It is a power of two.
pub const CAPACITY_MIN: usize = 64;
pub const CAPACITY_MAX: usize = 4096;
/// The least number of EVs, and the greatest. It is a power of two.
pub const EVS_MIN: u32 = 256;
pub const EVS_MAX: u32 = 4096;
/// The number of EVs where a settings record tells none.
pub const EVS_USUAL: u32 = 256;

pub const SAMPLE_MAX: u64 = 1 << 20;
/// The average is held in this part of a tick.
pub const AVG_PARTS: u64 = 1024;
pub const AVG_MAX: u64 = 1 << 30;
/// Where inc_bytes stops.
pub const INC_BYTES_MAX: u64 = 1 << 60;
/// Where received, achieved and ignored bytes and fi_count stop.
pub const TALLY_MAX: u64 = 1 << 40;

//! The library linked in: the only unsafe code.
//!
//! What the header asks of a caller is what slices are: true lengths, no null, aligned, and no two
//! lent ones overlap. All else is the library's to answer, so every function here is safe.
#![allow(unsafe_code)]

use super::{Lent, Shown};
use crate::event::{Ack, Nack};

mod c {
    // As in include/nscc.h.
    extern "C" {
        pub fn nscc_set_up(
            settings: *const u64,
            settings_len: usize,
            first_psn: u32,
            quick_adapt_off: bool,
            ev_count: u32,
            state: *mut u64,
            state_len: usize,
            flows: *mut u64,
            flows_len: usize,
            outstanding: *mut u64,
            outstanding_len: usize,
            marked: *mut u64,
            marked_len: usize,
            sizes: *mut u32,
            sizes_len: usize,
            sent: *mut u64,
            sent_len: usize,
            evs: *mut u64,
            evs_len: usize,
        ) -> u32;

        pub fn nscc_new_data(
            state: *mut u64,
            state_len: usize,
            flows: *mut u64,
            flows_len: usize,
            outstanding: *const u64,
            outstanding_len: usize,
            marked: *const u64,
            marked_len: usize,
            sizes: *const u32,
            sizes_len: usize,
            sent: *const u64,
            sent_len: usize,
            evs: *const u64,
            evs_len: usize,
            time: u64,
            flow: usize,
            bytes: u64,
        ) -> u32;

        pub fn nscc_send(
            state: *mut u64,
            state_len: usize,
            flows: *mut u64,
            flows_len: usize,
            outstanding: *mut u64,
            outstanding_len: usize,
            marked: *mut u64,
            marked_len: usize,
            sizes: *mut u32,
            sizes_len: usize,
            sent: *mut u64,
            sent_len: usize,
            evs: *const u64,
            evs_len: usize,
            time: u64,
            flow: usize,
            psn: u32,
            bytes: u32,
            resend: bool,
        ) -> u32;

        pub fn nscc_ack(
            state: *mut u64,
            state_len: usize,
            flows: *mut u64,
            flows_len: usize,
            outstanding: *mut u64,
            outstanding_len: usize,
            marked: *mut u64,
            marked_len: usize,
            sizes: *mut u32,
            sizes_len: usize,
            sent: *mut u64,
            sent_len: usize,
            evs: *mut u64,
            evs_len: usize,
            time: u64,
            flow: usize,
            cum: u32,
            map: u64,
            trigger: u32,
            count: u32,
            service: u32,
            ev: u32,
            m_flag: bool,
            retx: bool,
        ) -> u64;

        pub fn nscc_nack(
            state: *mut u64,
            state_len: usize,
            flows: *mut u64,
            flows_len: usize,
            outstanding: *const u64,
            outstanding_len: usize,
            marked: *mut u64,
            marked_len: usize,
            sizes: *const u32,
            sizes_len: usize,
            sent: *const u64,
            sent_len: usize,
            evs: *mut u64,
            evs_len: usize,
            time: u64,
            flow: usize,
            psn: u32,
            ev: u32,
            reason: u32,
            m_flag: bool,
            retx: bool,
        ) -> u64;

        pub fn nscc_loss(
            state: *mut u64,
            state_len: usize,
            flows: *mut u64,
            flows_len: usize,
            outstanding: *const u64,
            outstanding_len: usize,
            marked: *mut u64,
            marked_len: usize,
            sizes: *const u32,
            sizes_len: usize,
            sent: *const u64,
            sent_len: usize,
            evs: *mut u64,
            evs_len: usize,
            time: u64,
            flow: usize,
            psn: u32,
            ev: u32,
        ) -> u32;

        pub fn nscc_path(
            state: *mut u64,
            state_len: usize,
            flows: *const u64,
            flows_len: usize,
            outstanding: *const u64,
            outstanding_len: usize,
            marked: *const u64,
            marked_len: usize,
            sizes: *const u32,
            sizes_len: usize,
            sent: *const u64,
            sent_len: usize,
            evs: *const u64,
            evs_len: usize,
            time: u64,
            flow: usize,
        ) -> u64;

        pub fn nscc_choose(
            state: *mut u64,
            state_len: usize,
            flows: *const u64,
            flows_len: usize,
            outstanding: *const u64,
            outstanding_len: usize,
            marked: *const u64,
            marked_len: usize,
            sizes: *const u32,
            sizes_len: usize,
            sent: *const u64,
            sent_len: usize,
            evs: *const u64,
            evs_len: usize,
            turn: *mut u64,
            turn_len: usize,
        ) -> u32;

        pub fn nscc_judge(
            state: *const u64,
            state_len: usize,
            flows: *const u64,
            flows_len: usize,
            outstanding: *const u64,
            outstanding_len: usize,
            marked: *const u64,
            marked_len: usize,
            sizes: *const u32,
            sizes_len: usize,
            sent: *const u64,
            sent_len: usize,
            evs: *const u64,
            evs_len: usize,
            time: u64,
            plan: *const u32,
            plan_len: usize,
        ) -> u64;

        pub fn nscc_plan(
            state: *const u64,
            state_len: usize,
            flows: *const u64,
            flows_len: usize,
            outstanding: *const u64,
            outstanding_len: usize,
            marked: *const u64,
            marked_len: usize,
            sizes: *const u32,
            sizes_len: usize,
            sent: *const u64,
            sent_len: usize,
            evs: *const u64,
            evs_len: usize,
            time: u64,
            bytes: u32,
            plan: *mut u32,
            plan_len: usize,
        ) -> u64;

        pub fn nscc_replay(
            place: *mut u64,
            place_len: usize,
            state: *mut u64,
            state_len: usize,
            flows: *mut u64,
            flows_len: usize,
            outstanding: *mut u64,
            outstanding_len: usize,
            marked: *mut u64,
            marked_len: usize,
            sizes: *mut u32,
            sizes_len: usize,
            sent: *mut u64,
            sent_len: usize,
            evs: *mut u64,
            evs_len: usize,
            log: *const u8,
            log_len: usize,
            answers: *mut u64,
            answers_len: usize,
        ) -> u32;

        pub fn nscc_chunk(
            part: *mut u64,
            part_len: usize,
            piece: *mut u8,
            piece_len: usize,
            state: *mut u64,
            state_len: usize,
            flows: *mut u64,
            flows_len: usize,
            outstanding: *mut u64,
            outstanding_len: usize,
            marked: *mut u64,
            marked_len: usize,
            sizes: *mut u32,
            sizes_len: usize,
            sent: *mut u64,
            sent_len: usize,
            evs: *mut u64,
            evs_len: usize,
            chunk: *const u8,
            chunk_len: usize,
            ended: bool,
            answers: *mut u64,
            answers_len: usize,
        ) -> u32;

        pub fn nscc_status(
            state: *const u64,
            state_len: usize,
            flows: *const u64,
            flows_len: usize,
            outstanding: *const u64,
            outstanding_len: usize,
            marked: *const u64,
            marked_len: usize,
            sizes: *const u32,
            sizes_len: usize,
            sent: *const u64,
            sent_len: usize,
            evs: *const u64,
            evs_len: usize,
            flow: usize,
            psn: u32,
        ) -> u64;

        pub fn nscc_next_marked(
            state: *const u64,
            state_len: usize,
            flows: *const u64,
            flows_len: usize,
            outstanding: *const u64,
            outstanding_len: usize,
            marked: *const u64,
            marked_len: usize,
            sizes: *const u32,
            sizes_len: usize,
            sent: *const u64,
            sent_len: usize,
            evs: *const u64,
            evs_len: usize,
            flow: usize,
            psn: u32,
        ) -> u64;
    }
}

/// Calls a C function: what stands before the context, the context's pointers and lengths, the rest.
macro_rules! call {
    ($function:ident, [$($before:expr),*], $lent:expr, [$($after:expr),*]) => {
        // SAFETY: the pointers and lengths are those of slices, which borrows keep apart.
        unsafe {
            c::$function(
                $($before,)*
                $lent.words.as_mut_ptr(),
                $lent.words.len(),
                $lent.flows.as_mut_ptr(),
                $lent.flows.len(),
                $lent.outstanding.as_mut_ptr(),
                $lent.outstanding.len(),
                $lent.marked.as_mut_ptr(),
                $lent.marked.len(),
                $lent.sizes.as_mut_ptr(),
                $lent.sizes.len(),
                $lent.sent.as_mut_ptr(),
                $lent.sent.len(),
                $lent.evs.as_mut_ptr(),
                $lent.evs.len(),
                $($after),*
            )
        }
    };
}

/// Calls a C function that only reads the context: its pointers and lengths, the rest.
macro_rules! read {
    ($function:ident, $shown:expr, [$($after:expr),*]) => {
        // SAFETY: the pointers and lengths are those of slices, and of these only the plan's room is
        // written, which borrows keep apart.
        unsafe {
            c::$function(
                $shown.words.as_ptr(),
                $shown.words.len(),
                $shown.flows.as_ptr(),
                $shown.flows.len(),
                $shown.outstanding.as_ptr(),
                $shown.outstanding.len(),
                $shown.marked.as_ptr(),
                $shown.marked.len(),
                $shown.sizes.as_ptr(),
                $shown.sizes.len(),
                $shown.sent.as_ptr(),
                $shown.sent.len(),
                $shown.evs.as_ptr(),
                $shown.evs.len(),
                $($after),*
            )
        }
    };
}

impl Shown<'_> {
    /// The number in the low 32 bits, and where it is 0 the status above them.
    pub fn status(&self, flow: usize, psn: u32) -> u64 {
        read!(nscc_status, self, [flow, psn])
    }

    /// The number in the low 32 bits, and where it is 0 the PSN above them.
    pub fn next_marked(&self, flow: usize, psn: u32) -> u64 {
        read!(nscc_next_marked, self, [flow, psn])
    }

    /// The number in the low 32 bits, and above them the first send that fails: see
    /// [`judged`](crate::judged).
    pub fn judge(&self, time: u64, plan: &[u32]) -> u64 {
        read!(nscc_judge, self, [time, plan.as_ptr(), plan.len()])
    }

    /// The number in the low 32 bits, and where it is 0 how many sends stand in `plan` above them.
    pub fn plan(&self, time: u64, bytes: u32, plan: &mut [u32]) -> u64 {
        let (numbers, many) = (plan.as_mut_ptr(), plan.len());
        read!(nscc_plan, self, [time, bytes, numbers, many])
    }
}

impl Lent<'_> {
    pub fn set_up(
        &mut self,
        settings: &[u64],
        first_psn: u32,
        quick_adapt_off: bool,
        ev_count: u32,
    ) -> u32 {
        let (numbers, many) = (settings.as_ptr(), settings.len());
        call!(
            nscc_set_up,
            [numbers, many, first_psn, quick_adapt_off, ev_count],
            self,
            []
        )
    }

    pub fn new_data(&mut self, time: u64, flow: usize, bytes: u64) -> u32 {
        call!(nscc_new_data, [], self, [time, flow, bytes])
    }

    pub fn send(&mut self, time: u64, flow: usize, psn: u32, bytes: u32, resend: bool) -> u32 {
        call!(nscc_send, [], self, [time, flow, psn, bytes, resend])
    }

    /// The number in the low 32 bits, and where it is 0 the sample's above them.
    pub fn ack(&mut self, ack: &Ack) -> u64 {
        call!(
            nscc_ack,
            [],
            self,
            [
                ack.time,
                ack.flow,
                ack.cum,
                ack.map,
                ack.trigger,
                ack.count,
                ack.service,
                ack.ev,
                ack.marked,
                ack.retx
            ]
        )
    }

    /// As of an ACK.
    pub fn nack(&mut self, nack: &Nack) -> u64 {
        call!(
            nscc_nack,
            [],
            self,
            [
                nack.time,
                nack.flow,
                nack.psn,
                nack.ev,
                nack.reason,
                nack.marked,
                nack.retx
            ]
        )
    }

    pub fn loss(&mut self, time: u64, flow: usize, psn: u32, ev: u32) -> u32 {
        call!(nscc_loss, [], self, [time, flow, psn, ev])
    }

    /// The number in the low 32 bits, and where it is 0 the EV above them.
    pub fn path(&mut self, time: u64, flow: usize) -> u64 {
        call!(nscc_path, [], self, [time, flow])
    }

    /// What is named stands in `turn`: see [`Turn::of`](crate::Turn::of).
    pub fn choose(&mut self, turn: &mut [u64]) -> u32 {
        call!(nscc_choose, [], self, [turn.as_mut_ptr(), turn.len()])
    }

    pub fn replay(&mut self, place: &mut [u64], log: &[u8], answers: &mut [u64]) -> u32 {
        call!(
            nscc_replay,
            [place.as_mut_ptr(), place.len()],
            self,
            [log.as_ptr(), log.len(), answers.as_mut_ptr(), answers.len()]
        )
    }

    pub fn chunk(
        &mut self,
        part: &mut [u64],
        piece: &mut [u8],
        chunk: &[u8],
        ended: bool,
        answers: &mut [u64],
    ) -> u32 {
        call!(
            nscc_chunk,
            [
                part.as_mut_ptr(),
                part.len(),
                piece.as_mut_ptr(),
                piece.len()
            ],
            self,
            [
                chunk.as_ptr(),
                chunk.len(),
                ended,
                answers.as_mut_ptr(),
                answers.len()
            ]
        )
    }
}

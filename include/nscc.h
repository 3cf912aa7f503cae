/*
 * nscc.h: a proved sender-side NSCC congestion controller, for network card firmware.
 *
 * One context is one window with one to eight flows under it: a state of NSCC_STATE_WORDS words, a
 * table of the flows, of NSCC_FLOW_WORDS words each, a ring buffer of four arrays with a ring for
 * each flow, and a time for each EV, all of them the caller's memory. Nothing is allocated, nothing
 * is kept between calls, no function blocks; each may be called from any thread as long as no two
 * calls share memory.
 *
 * Every function answers for every number that is handed in. The answer is 0, or the number of a
 * refusal (nscc_refusal); an answer of 64 bits has it in the low 32, and what else there is to say
 * above them. A refusal leaves every lent word and byte as it was; what a const points to holds the
 * same at the end as at the start, whatever is answered. That is proved. What no proof can see is
 * asked of the caller:
 *   - each pointer is followed by the length, in elements, of the memory that it points to, and
 *     that memory may be read (const) or read and written;
 *   - no two arrays of one call overlap;
 *   - a pointer is not null, also where its length is 0, and is aligned for its type.
 *
 * To use it: lend the memory of a context (examples/card.c has it in one struct), set it up once
 * with nscc_set_up, then tell it what happens, in the order in which it happens, with the time and
 * the flow:
 *   - nscc_new_data   bytes that wait to be sent;
 *   - nscc_path       which EV the next packet takes;
 *   - nscc_send       a new packet, or a marked one once more; 6 says that the window is full;
 *   - nscc_ack, nscc_nack, nscc_loss   what comes back, or does not.
 * Where several flows send by turns, the send loop is: nscc_choose names a flow and its packet,
 * nscc_path the EV, nscc_send sends it; and so on until nobody is named. nscc_judge tells of sends
 * that another scheduler proposes whether they would be accepted, nscc_plan proposes some itself.
 * After each call state[NSCC_STATE_CWND] is the window and state[NSCC_STATE_PHASE] what to do next.
 * nscc_replay and nscc_chunk do the same for events that were recorded in a log. nscc_status says
 * what became of a packet and nscc_next_marked which one to send again, so that no firmware has to
 * read the ring itself.
 *
 * Flows are numbered from 0 on. Each has its own PSNs, received count, backlog and ring; window,
 * in-flight, the other totals, EVs and clock are the context's. No call for a flow changes another
 * flow's words in the table, or its ring.
 *
 * The ring buffer is cut into equal rings, one for each flow, in the order of their numbers. A
 * ring's capacity is a power of two from 64 to 4096 slots, of 12.25 bytes a slot; with n flows
 *   - outstanding and marked have a bit for each slot, so n * capacity / 64 words: slot i is bit
 *     i % 64 of word i / 64;
 *   - sizes and sent have a number for each slot, so n * capacity numbers.
 * PSN p of flow k lives in slot k * capacity + p % capacity. Its outstanding bit says that it flies
 * or is marked, its marked bit that it is marked; where neither is set, it is done. Its sizes number
 * is its size + 2^16 * its resend count, its sent number when it was last sent. A slot of no packet
 * is all 0.
 *
 * The EVs are as many as setting up was told, a power of two from NSCC_EVS_MIN to NSCC_EVS_MAX, and
 * so many times are lent with every call. Time is in ticks of 128 ns.
 */
#ifndef NSCC_H
#define NSCC_H

#include <stdbool.h>
#include <stddef.h>
#include <stdint.h>

/* The version of this header and of the library, which is also that of the command. */
#define NSCC_VERSION "1.0.0"

#ifdef __cplusplus
extern "C" {
#endif

/* Why a call was refused. */
enum nscc_refusal {
    NSCC_ACCEPTED = 0,
    NSCC_REFUSED_SETTING = 1,       /* a setting is outside its range */
    NSCC_REFUSED_UNSOUND = 2,       /* state, flows or buffers don't hold together, or a length is wrong */
    NSCC_REFUSED_TIME = 3,          /* time before the held clock, or 2^48 or more */
    NSCC_REFUSED_SIZE = 4,          /* a packet's size is outside 41..MTU */
    NSCC_REFUSED_BACKLOG = 5,       /* a new packet larger than its flow's backlog */
    NSCC_REFUSED_WINDOW_FULL = 6,   /* in-flight + MTU is over the window */
    NSCC_REFUSED_RING_FULL = 7,     /* no slot for a new packet in its flow's ring */
    NSCC_REFUSED_WRONG_PSN = 8,     /* a new packet's PSN is not next; a resend's is not marked, or its size differs */
    NSCC_REFUSED_UNSENT_OR_OLD = 9, /* an ACK that names an unsent packet, or is too old */
    NSCC_REFUSED_NOT_FLYING = 10,   /* a NACK or a loss of a packet that does not fly */
    NSCC_REFUSED_SINKS = 11,        /* in-flight would fall below -2^24 */
    NSCC_REFUSED_MALFORMED = 12,    /* nscc_replay, nscc_chunk: a log record is malformed */
    NSCC_REFUSED_BYTES = 20,        /* new data of 0 bytes, or a flow's backlog over 2^40 */
    NSCC_REFUSED_COUNT = 21,        /* a received count of 2^24 or more */
    NSCC_REFUSED_REASON = 22,       /* a NACK's reason over 2 */
    NSCC_REFUSED_EV = 23,           /* an EV that is not below the EV count */
    NSCC_REFUSED_TRIGGER = 24,      /* an ACK that does not cover its trigger */
    NSCC_REFUSED_FLOW = 25,         /* a flow that the table does not have */
    NSCC_REFUSED_PLAN_TOO_LONG = 27, /* nscc_judge: a plan of more than NSCC_PLAN_SENDS_MAX sends */
    NSCC_REFUSED_LOG_TOO_LONG = 28  /* nscc_chunk: with the chunk the log would have 2^48 bytes or more */
};

/*
 * What an accepted ACK or NACK says of its packet's round trip: a sample, or the first of these
 * that applies of why there is none. A gone packet is one that is neither flying nor marked before
 * the call; a resend is ambiguous unless the packet was sent once and retx is clear, or twice and
 * retx is set.
 */
enum nscc_sample {
    NSCC_SAMPLE_UNTOLD = 0,      /* no accepted ACK or NACK */
    NSCC_SAMPLE_TAKEN = 1,       /* a sample of at most 2^20 ticks */
    NSCC_SAMPLE_CUT = 2,         /* a longer one, cut to 2^20 */
    NSCC_SAMPLE_GONE = 3,        /* none: the packet is gone */
    NSCC_SAMPLE_AMBIGUOUS = 4,   /* none: an ambiguous resend */
    NSCC_SAMPLE_NOT_POSITIVE = 5 /* none: time - send time - service is under 1 */
};

/* The twelve settings, in this order, as nscc_set_up takes them. */
enum nscc_setting {
    NSCC_SETTING_MTU,             /* 1024..16384 bytes */
    NSCC_SETTING_MAXWND,          /* MTU..2^26 bytes; the window's own bound is at NSCC_STATE_CWND */
    NSCC_SETTING_CONFIG_BASE_RTT, /* 1..2^14 ticks */
    NSCC_SETTING_TARGET_QDELAY,   /* 1..2^14 ticks */
    NSCC_SETTING_FI,              /* 0..2^20 */
    NSCC_SETTING_ETA,             /* 0..2^20 */
    NSCC_SETTING_ALPHA,           /* 0..2^14 */
    NSCC_SETTING_GAMMA,           /* 0..1024, parts of 1024 */
    NSCC_SETTING_MAX_MD_JUMP,     /* 0..1024, parts of 1024 */
    NSCC_SETTING_ADJUST_PERIOD,   /* 1..2^20 ticks */
    NSCC_SETTING_ADJUST_BYTES,    /* 1..2^26 bytes */
    NSCC_SETTING_QA_THRESHOLD,    /* 0..2^20 ticks */
    NSCC_SETTING_WORDS            /* how many there are */
};

/* The state's words, in this order; totals are over all flows. A word that no state has is refused with 2. */
enum nscc_state {
    /* 0..11: the twelve settings, as above */
    NSCC_STATE_FIRST_PSN = NSCC_SETTING_WORDS,
    NSCC_STATE_QUICK_ADAPT_OFF, /* 0 or 1 */
    NSCC_STATE_BACKLOG,         /* the sum of the flows' backlogs */
    NSCC_STATE_FLYING,          /* packets */
    NSCC_STATE_MARKED,          /* packets that wait to be sent again */
    NSCC_STATE_MARKED_BYTES,
    NSCC_STATE_IN_FLIGHT,       /* in-flight bytes + 2^24: in-flight itself may be below zero, and is at most MaxWnd */
    NSCC_STATE_CWND,            /* MTU..max(MTU, MaxWnd * base / config_base_rtt) bytes, rounded down */
    NSCC_STATE_BASE,            /* 1..config_base_rtt ticks; it only falls, and the window's bound with it */
    NSCC_STATE_AVG,             /* the delay average, in 1/1024 tick */
    NSCC_STATE_INC_BYTES,
    NSCC_STATE_RECEIVED,
    NSCC_STATE_ACHIEVED,
    NSCC_STATE_IGNORED,
    NSCC_STATE_BYTES_TO_IGNORE,
    NSCC_STATE_FI_COUNT,
    NSCC_STATE_FAST,            /* fast mode, 0 or 1 */
    NSCC_STATE_TRIGGER,         /* quick adapt's trigger, 0 or 1 */
    NSCC_STATE_QA_END,
    NSCC_STATE_LAST_ADJUST,
    NSCC_STATE_LAST_DEC,
    NSCC_STATE_CLOCK,
    NSCC_STATE_CURSOR,          /* the EV from which the next path is looked for: below the EV count */
    NSCC_STATE_PHASE,           /* 0 IDLE, 1 PENDING, 2 READY, 3 ACTIVE */
    NSCC_STATE_EV_COUNT,        /* how many EVs there are, and EV times: 256, 512, 1024, 2048 or 4096 */
    NSCC_STATE_TURN,            /* the held turn, the flow from which the next round starts: below the number of flows */
    NSCC_STATE_WORDS            /* how many there are: 38 */
};

/*
 * A flow's words, in this order: word w of flow k is flows[k * NSCC_FLOW_WORDS + w]. A word that no
 * flow has is refused with 2.
 */
enum nscc_flow {
    NSCC_FLOW_LOW,     /* the oldest PSN that is not done */
    NSCC_FLOW_NEXT,    /* the PSN of the next new packet */
    NSCC_FLOW_HELD,    /* the received count, in units of 256 bytes */
    NSCC_FLOW_BACKLOG, /* at most 2^40 bytes */
    NSCC_FLOW_WORDS    /* how many there are: 4 */
};

/* The table has one flow to so many: flows_len is NSCC_FLOW_WORDS times their number. */
#define NSCC_FLOWS_MAX 8

/* What is added to in-flight in its word. */
#define NSCC_IN_FLIGHT_ADDED 16777216

/* The EV count is a power of two from the one to the other. */
#define NSCC_EVS_MIN 256
#define NSCC_EVS_MAX 4096

/*
 * Sets a context up: 1, then 2 on lengths; settings that are not NSCC_SETTING_WORDS numbers can't be
 * read, and are 2 before all else. An EV count that is not allowed is 1 like a setting outside its
 * range. A table that is not of one to NSCC_FLOWS_MAX whole flows, and a ring buffer that is not as
 * many equal rings, are 2. Clears the ring buffer and the EV times, starts every flow at the first
 * PSN with a received count and a backlog of 0, and writes the state's words; a refusal changes
 * nothing. settings_len is NSCC_SETTING_WORDS, state_len NSCC_STATE_WORDS, evs_len the EV count.
 */
uint32_t nscc_set_up(const uint64_t *settings, size_t settings_len, uint32_t first_psn, bool quick_adapt_off, uint32_t ev_count,
                     uint64_t *state, size_t state_len, uint64_t *flows, size_t flows_len, uint64_t *outstanding, size_t outstanding_len,
                     uint64_t *marked, size_t marked_len, uint32_t *sizes, size_t sizes_len, uint64_t *sent, size_t sent_len,
                     uint64_t *evs, size_t evs_len);

/* New data in a flow's backlog: 2, 3, 25, 20. The ring buffer and the EV times are only read. */
uint32_t nscc_new_data(uint64_t *state, size_t state_len, uint64_t *flows, size_t flows_len,
                       const uint64_t *outstanding, size_t outstanding_len, const uint64_t *marked, size_t marked_len,
                       const uint32_t *sizes, size_t sizes_len, const uint64_t *sent, size_t sent_len, const uint64_t *evs, size_t evs_len,
                       uint64_t time, size_t flow, uint64_t bytes);

/* A new packet of that PSN and size, or a resend: 2, 3, 25, 4, 8, 5, 7, 6. The EV times are only read. */
uint32_t nscc_send(uint64_t *state, size_t state_len, uint64_t *flows, size_t flows_len, uint64_t *outstanding, size_t outstanding_len,
                   uint64_t *marked, size_t marked_len, uint32_t *sizes, size_t sizes_len, uint64_t *sent, size_t sent_len,
                   const uint64_t *evs, size_t evs_len, uint64_t time, size_t flow, uint32_t psn, uint32_t bytes, bool resend);

/*
 * An ACK: the number (2, 3, 25, 21, 23, 24, 9, 11) in the low 32 bits of the answer; above them what
 * the trigger's sample is (nscc_sample), 0 where it is refused. cum covers every PSN up to itself,
 * bit i of map covers cum + 1 + i; m_flag is the M flag.
 */
uint64_t nscc_ack(uint64_t *state, size_t state_len, uint64_t *flows, size_t flows_len, uint64_t *outstanding, size_t outstanding_len,
                  uint64_t *marked, size_t marked_len, uint32_t *sizes, size_t sizes_len, uint64_t *sent, size_t sent_len,
                  uint64_t *evs, size_t evs_len, uint64_t time, size_t flow, uint32_t cum, uint64_t map, uint32_t trigger, uint32_t count,
                  uint32_t service, uint32_t ev, bool m_flag, bool retx);

/*
 * A NACK: the number (2, 3, 25, 22, 23, 10, 11) in the low 32 bits of the answer; above them what
 * its packet's sample is (nscc_sample), 0 where it is refused; NSCC_SAMPLE_GONE is not among them,
 * since the packet flies. reason is 0 trimmed, 1 trimmed at the last hop, 2 other; m_flag is the M
 * flag. Of the ring buffer only marked is written.
 */
uint64_t nscc_nack(uint64_t *state, size_t state_len, uint64_t *flows, size_t flows_len,
                   const uint64_t *outstanding, size_t outstanding_len, uint64_t *marked, size_t marked_len,
                   const uint32_t *sizes, size_t sizes_len, const uint64_t *sent, size_t sent_len, uint64_t *evs, size_t evs_len,
                   uint64_t time, size_t flow, uint32_t psn, uint32_t ev, uint32_t reason, bool m_flag, bool retx);

/* A packet taken for lost: 2, 3, 25, 23, 10, 11. Of the ring buffer only marked is written. */
uint32_t nscc_loss(uint64_t *state, size_t state_len, uint64_t *flows, size_t flows_len,
                   const uint64_t *outstanding, size_t outstanding_len, uint64_t *marked, size_t marked_len,
                   const uint32_t *sizes, size_t sizes_len, const uint64_t *sent, size_t sent_len, uint64_t *evs, size_t evs_len,
                   uint64_t time, size_t flow, uint32_t psn, uint32_t ev);

/*
 * The next path, which is the same for every flow: the number (2, 3, 25) in the low 32 bits of the
 * answer; above them the EV, 0 where it is refused. The table, the ring buffer and the EV times are
 * only read.
 */
uint64_t nscc_path(uint64_t *state, size_t state_len, const uint64_t *flows, size_t flows_len,
                   const uint64_t *outstanding, size_t outstanding_len, const uint64_t *marked, size_t marked_len,
                   const uint32_t *sizes, size_t sizes_len, const uint64_t *sent, size_t sent_len, const uint64_t *evs, size_t evs_len,
                   uint64_t time, size_t flow);

/* The words of what a choice names, all 0 where it is nobody. */
enum nscc_turn {
    NSCC_TURN_NAMED,  /* 1 where a flow is named, 0 where nobody is */
    NSCC_TURN_FLOW,   /* the flow */
    NSCC_TURN_RESEND, /* 1: its marked packet nearest to low; 0: a new packet */
    NSCC_TURN_PSN,    /* the marked packet's PSN, or next */
    NSCC_TURN_WORDS   /* how many words there are: 4 */
};

/*
 * Which flow sends next, and what, in the caller's words of turn: 2, also where turn_len is not
 * NSCC_TURN_WORDS; a refusal leaves these words as they were. A choice has no time, and a log has no
 * record of it.
 *   - A flow is ready if it has a marked packet, or backlog and a slot for a new packet in its ring.
 *     A marked packet goes first.
 *   - The first ready flow from the held turn (NSCC_STATE_TURN) on is named; after the last flow
 *     comes flow 0. The held turn is then the flow after the one named, whether that sends or not.
 *   - Nobody is named where no flow is ready, or in-flight + MTU is over the window. The held turn
 *     then stays.
 * So a flow that is ready at every choice is named within as many choices that name somebody as
 * there are flows, whatever events come between. What is named can be sent at once, or after
 * nscc_path: a marked packet with its size, a new one of 41 bytes up to the MTU and its flow's
 * backlog. A flow with a backlog of under 41 bytes is named as well. Only a choice moves the held
 * turn; a flow may also send out of turn. The table, the ring buffer and the EV times are only read,
 * and of the state only the held turn is written.
 */
uint32_t nscc_choose(uint64_t *state, size_t state_len, const uint64_t *flows, size_t flows_len,
                     const uint64_t *outstanding, size_t outstanding_len, const uint64_t *marked, size_t marked_len,
                     const uint32_t *sizes, size_t sizes_len, const uint64_t *sent, size_t sent_len, const uint64_t *evs, size_t evs_len,
                     uint64_t *turn, size_t turn_len);

/*
 * The numbers of a send in a plan, in this order: number w of send i is
 * plan[i * NSCC_PLANNED_WORDS + w].
 */
enum nscc_planned {
    NSCC_PLANNED_FLOW,   /* the flow */
    NSCC_PLANNED_RESEND, /* 0: a new packet; any other number: a marked one once more */
    NSCC_PLANNED_PSN,    /* its PSN */
    NSCC_PLANNED_SIZE,   /* its bytes */
    NSCC_PLANNED_WORDS   /* how many there are: 4 */
};

/* The most sends of a plan. */
#define NSCC_PLAN_SENDS_MAX 64

/*
 * Judges a plan, the sends that a scheduler proposes for one instant: accepted exactly if each of
 * them, made with nscc_send in that order at that time, would be. Else the number of the first send
 * that fails (25, 4, 8, 5, 7, 6) in the low 32 bits of the answer, and above them which one it is,
 * from 0. Before that 2, also where plan_len is not a multiple of NSCC_PLANNED_WORDS, 3, and 27
 * where the plan has more than NSCC_PLAN_SENDS_MAX sends; these three name no send, and the bits
 * above are 0. A plan of no sends is accepted. A marked packet can be sent again once in a plan:
 * then it flies. Nothing is written.
 */
uint64_t nscc_judge(const uint64_t *state, size_t state_len, const uint64_t *flows, size_t flows_len,
                    const uint64_t *outstanding, size_t outstanding_len, const uint64_t *marked, size_t marked_len,
                    const uint32_t *sizes, size_t sizes_len, const uint64_t *sent, size_t sent_len, const uint64_t *evs, size_t evs_len,
                    uint64_t time, const uint32_t *plan, size_t plan_len);

/*
 * Plans what nscc_choose and nscc_send would do by turns at one instant: for the flow that is named
 * its marked packet nearest to low, or else a new packet of `bytes` bytes. The plan ends where
 * nobody is named, where a send would be refused (a new packet of a size that is out of range, or
 * over its flow's backlog), after NSCC_PLAN_SENDS_MAX sends, or where plan has no room for another
 * whole send. The number (2, 3) is in the low 32 bits of the answer; above them how many sends the
 * plan has, 0 where it is refused. Judged at the same time the plan is accepted. Only the plan's
 * sends are written: the room behind them is left as it was, and the held turn does not move.
 */
uint64_t nscc_plan(const uint64_t *state, size_t state_len, const uint64_t *flows, size_t flows_len,
                   const uint64_t *outstanding, size_t outstanding_len, const uint64_t *marked, size_t marked_len,
                   const uint32_t *sizes, size_t sizes_len, const uint64_t *sent, size_t sent_len, const uint64_t *evs, size_t evs_len,
                   uint64_t time, uint32_t bytes, uint32_t *plan, size_t plan_len);

/* What a flow's ring shows of a PSN. */
enum nscc_status {
    NSCC_STATUS_NONE = 0,   /* it is not one of low..next-1 */
    NSCC_STATUS_FLYING = 1, /* sent, and neither acknowledged nor taken for lost */
    NSCC_STATUS_MARKED = 2, /* taken for lost, and waits to be sent again */
    NSCC_STATUS_DONE = 3    /* acknowledged, while an older packet is not */
};

/*
 * What a flow's ring shows of a PSN: the number (2, 25) in the low 32 bits of the answer; above them
 * its status (nscc_status), 0 where it is refused. Nothing is written.
 */
uint64_t nscc_status(const uint64_t *state, size_t state_len, const uint64_t *flows, size_t flows_len,
                     const uint64_t *outstanding, size_t outstanding_len, const uint64_t *marked, size_t marked_len,
                     const uint32_t *sizes, size_t sizes_len, const uint64_t *sent, size_t sent_len, const uint64_t *evs, size_t evs_len,
                     size_t flow, uint32_t psn);

/*
 * A flow's first marked packet from a PSN on, that PSN included: the number (2, 25) in the low 32
 * bits of the answer; above them the packet's PSN, 0 where it is refused. Where no packet from there
 * up to next-1 is marked, or the PSN is not one of low..next-1, it is next. So the marked packets
 * are met one after the other from low on, each time from the PSN behind the last one. Nothing is
 * written.
 */
uint64_t nscc_next_marked(const uint64_t *state, size_t state_len, const uint64_t *flows, size_t flows_len,
                          const uint64_t *outstanding, size_t outstanding_len, const uint64_t *marked, size_t marked_len,
                          const uint32_t *sizes, size_t sizes_len, const uint64_t *sent, size_t sent_len,
                          const uint64_t *evs, size_t evs_len, size_t flow, uint32_t psn);

/* The words of a place in a log, all 0 at its start. */
enum nscc_place {
    NSCC_PLACE_AT,       /* the offset of the first record that is not done */
    NSCC_PLACE_DONE,     /* how many records are done */
    NSCC_PLACE_STOPPED,  /* 0 or 1: record 1 was refused, or a record with 12 */
    NSCC_PLACE_ANSWERED, /* how many answers the last call gave */
    NSCC_PLACE_WORDS     /* how many words there are */
};

/*
 * Replays a log's bytes from a place on, until the answers' room is full, the log ends or replay
 * stops; call again, with room for at least one answer, until NSCC_PLACE_ANSWERED is 0. Answers 0,
 * or 2 with nothing changed: a wrong length of place or state, NSCC_PLACE_STOPPED over 1, more
 * records done than NSCC_PLACE_AT, or a state, flows and buffers that don't hold together. An answer
 * is the record's number of refusal in its low 32 bits, and above them the EV of an accepted path
 * choice, or what the sample of an accepted ACK or NACK is (nscc_sample), and 0 for every other
 * record; the room behind the answers given is left as it was. A record that names no flow is of
 * flow 0. The first record sets the context up: the words of state and table are looked at only
 * between an accepted settings record and a stop. Settings whose EV count is not the number of times
 * lent are refused with 2, and so are any where the lengths of table and ring buffer are wrong; that
 * is the record's answer and stops the replay. A first record that is refused with 1 or 2 leaves the
 * words of a state of zeros, and the table as it was.
 */
uint32_t nscc_replay(uint64_t *place, size_t place_len, uint64_t *state, size_t state_len, uint64_t *flows, size_t flows_len,
                     uint64_t *outstanding, size_t outstanding_len, uint64_t *marked, size_t marked_len, uint32_t *sizes, size_t sizes_len,
                     uint64_t *sent, size_t sent_len, uint64_t *evs, size_t evs_len, const uint8_t *log, size_t log_len,
                     uint64_t *answers, size_t answers_len);

/* The words of a log that comes in chunks, all 0 at its start. */
enum nscc_part {
    NSCC_PART_AT,       /* the offset of the first record that is not done, in the joined log: below 2^48 */
    NSCC_PART_DONE,     /* how many records are done: at most NSCC_PART_AT */
    NSCC_PART_STOPPED,  /* 0 or 1: record 1 was refused, or a record with 12 */
    NSCC_PART_PIECE,    /* how many bytes the piece holds: at most NSCC_PIECE_BYTES */
    NSCC_PART_ANSWERED, /* how many answers the last call gave */
    NSCC_PART_TAKEN,    /* how many bytes of its chunk the last call took */
    NSCC_PART_WORDS     /* how many words there are: 6 */
};

/* The room of the piece, which holds the record that is not whole yet: exactly so many bytes. */
#define NSCC_PIECE_BYTES 61

/*
 * Replays a log that comes in chunks of any length, possibly of none, with records cut anywhere:
 * the piece's bytes, then the chunk's. ended says that the log has ended with this chunk; a chunk
 * of no bytes may say so by itself. The answers of all calls are those of nscc_replay on the joined
 * log. Answers 0, 2 or 28, the latter two with nothing changed:
 *   - 2: a wrong length of part, piece or state, a word of part that is not as above, or a state,
 *     flows and buffers that don't hold together;
 *   - else 0 where replay has stopped: the whole chunk is taken, and nothing changes but
 *     NSCC_PART_ANSWERED and NSCC_PART_TAKEN;
 *   - else 28: NSCC_PART_AT, the piece and the chunk have 2^48 bytes or more. No byte is taken, and
 *     the chunk is no part of the log.
 * Else records are answered as nscc_replay answers them until nothing whole is left, replay stops
 * or the answers' room is full. A length and a kind that are no record's are refused with 12 as
 * soon as both are there, a record that is not whole only where the log has ended. Where the room
 * is full, no byte is taken that no answer needed: hand in the rest of the chunk again, with room
 * for at least one answer. Else the whole chunk is taken, and what is left of it stays in the
 * piece; nothing where replay has stopped. The piece's room behind what it holds is then zeros. The
 * room behind the answers given is left as it was. The words of state and table are looked at and
 * written as by nscc_replay.
 */
uint32_t nscc_chunk(uint64_t *part, size_t part_len, uint8_t *piece, size_t piece_len, uint64_t *state, size_t state_len,
                    uint64_t *flows, size_t flows_len, uint64_t *outstanding, size_t outstanding_len, uint64_t *marked, size_t marked_len,
                    uint32_t *sizes, size_t sizes_len, uint64_t *sent, size_t sent_len, uint64_t *evs, size_t evs_len,
                    const uint8_t *chunk, size_t chunk_len, bool ended, uint64_t *answers, size_t answers_len);

#ifdef __cplusplus
}
#endif

#endif

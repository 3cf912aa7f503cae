/*
 * A card's first steps with nscc.h: the requirements' worked example by calls, then a packet that is trimmed, sent again and acknowledged twice, all on flow
 * 0; then a packet of flow 1 under the same window; then a send loop for both, by turns; then a plan of sends, judged before they are made.
 *
 *     gcc -std=c99 -Wall -Wextra -Werror -Iinclude examples/card.c target/lib/libnscc.a
 *
 * The archive is for x86-64. card.out has what this program prints.
 */
#include "nscc.h"

#include <stdio.h>
#include <stdlib.h>
#include <string.h>

/* One to eight flows. Powers of two: a ring of 64..4096 slots for each flow, 256..4096 EVs. Two of the ring buffer's arrays have a bit for each slot. */
enum { FLOWS = 2, CAPACITY = 64, EVS = NSCC_EVS_MIN };
enum { TABLE_WORDS = FLOWS * NSCC_FLOW_WORDS, SLOTS = FLOWS * CAPACITY, BIT_WORDS = SLOTS / 64 };

/* All the memory of one context. It is the card's: the library keeps nothing between calls. */
struct card {
    uint64_t state[NSCC_STATE_WORDS];
    uint64_t flows[TABLE_WORDS];
    uint64_t outstanding[BIT_WORDS];
    uint64_t marked[BIT_WORDS];
    uint32_t sizes[SLOTS];
    uint64_t sent[SLOTS];
    uint64_t evs[EVS];
};

/* What every call is lent: each array with its length. */
#define LENT(card)                                                                                                                                   \
    (card)->state, NSCC_STATE_WORDS, (card)->flows, TABLE_WORDS, (card)->outstanding, BIT_WORDS, (card)->marked, BIT_WORDS, (card)->sizes, SLOTS,    \
        (card)->sent, SLOTS, (card)->evs, EVS

/* Settings E of the requirements, in the order of enum nscc_setting. */
static const uint64_t settings[NSCC_SETTING_WORDS] = {4096, 614400, 96, 72, 4096, 1024, 224, 819, 512, 96, 32768, 288};

/* In the order of enum nscc_status. */
static const char *const statuses[] = {"none", "flying", "marked", "done"};

static const char *const phases[] = {"IDLE", "PENDING", "READY", "ACTIVE"};

/* In the order of enum nscc_sample. */
static const char *const samples[] = {"refused", "a sample", "a sample cut to 2^20", "packet gone", "ambiguous resend", "not positive"};

/* How often each came: too few samples, and the window lives on old news. */
static unsigned sampled[sizeof samples / sizeof samples[0]];

/* In-flight is held with an offset, since it may be below zero. */
static long long in_flight(const struct card *card)
{
    return (long long)card->state[NSCC_STATE_IN_FLIGHT] - NSCC_IN_FLIGHT_ADDED;
}

static void show(const char *call, uint32_t answer, const struct card *card)
{
    const uint64_t *state = card->state;
    printf("%s %u %lld %llu %llu %llu %llu %s\n", call, (unsigned)answer, in_flight(card), (unsigned long long)state[NSCC_STATE_CWND],
           (unsigned long long)state[NSCC_STATE_FLYING], (unsigned long long)state[NSCC_STATE_MARKED], (unsigned long long)state[NSCC_STATE_BACKLOG],
           phases[state[NSCC_STATE_PHASE]]);
}

/* The answer of an ACK or a NACK says above its number whether there was a sample, or why not. */
static void show_sample(const char *call, uint64_t answer, const struct card *card)
{
    uint32_t sample = (uint32_t)(answer >> 32);
    show(call, (uint32_t)answer, card);
    printf("%s: %s\n", call, samples[sample]);
    sampled[sample]++;
}

/* A refusal must leave the whole context as it was. */
static void unchanged(const struct card *before, const struct card *card)
{
    bool same = memcmp(before->state, card->state, sizeof card->state) == 0 && memcmp(before->flows, card->flows, sizeof card->flows) == 0 &&
                memcmp(before->outstanding, card->outstanding, sizeof card->outstanding) == 0 &&
                memcmp(before->marked, card->marked, sizeof card->marked) == 0 && memcmp(before->sizes, card->sizes, sizeof card->sizes) == 0 &&
                memcmp(before->sent, card->sent, sizeof card->sent) == 0 && memcmp(before->evs, card->evs, sizeof card->evs) == 0;
    if (!same) {
        puts("the refusal changed something");
        exit(EXIT_FAILURE);
    }
    puts("refused, and nothing changed");
}

/* A send of a PSN that is not next. */
static void refused_send(struct card *card)
{
    const struct card before = *card;
    show("send-2", nscc_send(LENT(card), 20, 0, 2, 4096, false), card);
    unchanged(&before, card);
}

/* New data of a flow that the table does not have: they are numbered from 0 on. */
static void refused_flow(struct card *card)
{
    const struct card before = *card;
    show("flow-2-new-data", nscc_new_data(LENT(card), 600, FLOWS, 4096), card);
    unchanged(&before, card);
}

/* The EV to send the next packet with. */
static uint32_t next_path(struct card *card, uint64_t time, size_t flow)
{
    uint64_t answer = nscc_path(LENT(card), time, flow);
    uint32_t ev = (uint32_t)(answer >> 32);
    show("path", (uint32_t)answer, card);
    printf("EV %u\n", (unsigned)ev);
    return ev;
}

/* What became of a packet, without a look into the ring. */
static void show_status(const struct card *card, size_t flow, uint32_t psn)
{
    printf("flow %u, PSN %u: %s\n", (unsigned)flow, (unsigned)psn, statuses[nscc_status(LENT(card), flow, psn) >> 32]);
}

/* A word of a flow. */
static uint64_t flow_word(const struct card *card, size_t flow, enum nscc_flow word)
{
    return card->flows[flow * NSCC_FLOW_WORDS + word];
}

/* A flow's oldest packet that waits to be sent again: next where none does. */
static uint32_t oldest_marked(const struct card *card, size_t flow)
{
    return (uint32_t)(nscc_next_marked(LENT(card), flow, (uint32_t)flow_word(card, flow, NSCC_FLOW_LOW)) >> 32);
}

/* Flow 1 has PSNs, a ring and a received count of its own; the window, the next path and the clock go on from where flow 0 has brought them. */
static void other_flow(struct card *card)
{
    show("flow-1-new-data", nscc_new_data(LENT(card), 350, 1, 4096), card);
    uint32_t ev = next_path(card, 355, 1);
    show("flow-1-send-0", nscc_send(LENT(card), 360, 1, 0, 4096, false), card);
    show_status(card, 1, 0);
    show_status(card, 0, 0);
    show_sample("flow-1-ack-0", nscc_ack(LENT(card), 460, 1, 0, 0, 0, 16, 4, ev, false, false), card);
    for (size_t flow = 0; flow < FLOWS; flow++)
        printf("flow %u: next %llu, received %llu * 256\n", (unsigned)flow, (unsigned long long)flow_word(card, flow, NSCC_FLOW_NEXT),
               (unsigned long long)flow_word(card, flow, NSCC_FLOW_HELD));
}

/* Sends what a choice has named, on the next path; whether that was accepted. All packets here have 4096 bytes. A new one may have any size up to the MTU
   and its flow's backlog, a marked one has the size with which it was sent first. */
static bool send_named(struct card *card, uint64_t time, const uint64_t *turn)
{
    size_t flow = (size_t)turn[NSCC_TURN_FLOW];
    uint32_t psn = (uint32_t)turn[NSCC_TURN_PSN];
    bool resend = turn[NSCC_TURN_RESEND] == 1;
    uint32_t ev = (uint32_t)(nscc_path(LENT(card), time, flow) >> 32);
    printf("flow %u: PSN %u%s on EV %u\n", (unsigned)flow, (unsigned)psn, resend ? " again" : "", (unsigned)ev);
    uint32_t answer = nscc_send(LENT(card), time, flow, psn, 4096, resend);
    show("send", answer, card);
    return answer == NSCC_ACCEPTED;
}

/* The send loop, until nobody is named. A refused packet ends it too: a flow with less backlog than its packet has would be named again and again. */
static void send_by_turns(struct card *card, uint64_t time)
{
    uint64_t turn[NSCC_TURN_WORDS];
    uint32_t answer;
    do
        answer = nscc_choose(LENT(card), turn, NSCC_TURN_WORDS);
    while (answer == NSCC_ACCEPTED && turn[NSCC_TURN_NAMED] == 1 && send_named(card, time, turn));
    show("choose", answer, card);
    printf("the next round starts with flow %llu\n", (unsigned long long)card->state[NSCC_STATE_TURN]);
}

/* Both flows have data. The receiver had no room for what flow 1 sent on EV 4: it goes first when flow 1 has its turn again. */
static void both_flows(struct card *card)
{
    show("flow-0-new-data", nscc_new_data(LENT(card), 470, 0, 12288), card);
    show("flow-1-new-data", nscc_new_data(LENT(card), 470, 1, 8192), card);
    send_by_turns(card, 480);
    show_sample("flow-1-nack-1", nscc_nack(LENT(card), 580, 1, 1, 4, 2, false, false), card);
    show("flow-1-new-data", nscc_new_data(LENT(card), 585, 1, 4096), card);
    show("flow-0-new-data", nscc_new_data(LENT(card), 585, 0, 4096), card);
    send_by_turns(card, 590);
}

/* Where a send's numbers stand in a plan. */
static uint32_t *planned(uint32_t *plan, size_t send)
{
    return plan + send * NSCC_PLANNED_WORDS;
}

/* Whether so many sends of a plan would all be accepted; the first that would not is named. Nothing has happened yet. */
static bool judged(const struct card *card, uint64_t time, const uint32_t *plan, size_t sends)
{
    uint64_t answer = nscc_judge(LENT(card), time, plan, sends * NSCC_PLANNED_WORDS);
    if ((uint32_t)answer == NSCC_ACCEPTED)
        printf("a plan of %u sends: accepted\n", (unsigned)sends);
    else
        printf("a plan of %u sends: send %u is refused with %u\n", (unsigned)sends, (unsigned)(answer >> 32), (unsigned)(uint32_t)answer);
    return (uint32_t)answer == NSCC_ACCEPTED;
}

/* Makes a send of a plan. */
static void send_planned(struct card *card, uint64_t time, const uint32_t *send)
{
    size_t flow = send[NSCC_PLANNED_FLOW];
    bool resend = send[NSCC_PLANNED_RESEND] != 0;
    printf("flow %u: PSN %u%s as planned\n", (unsigned)flow, (unsigned)send[NSCC_PLANNED_PSN], resend ? " again" : "");
    show("send", nscc_send(LENT(card), time, flow, send[NSCC_PLANNED_PSN], send[NSCC_PLANNED_SIZE], resend), card);
}

/* Flow 0 has data, and flow 1 a packet that goes again. The planner has room for three sends here. A scheduler that nobody trusts puts flow 1's packet behind
   them once more: that plan is refused, and no send of it is made. */
static void planned_sends(struct card *card)
{
    enum { SENDS = 3 };
    const uint64_t time = 595;
    uint32_t plan[(SENDS + 1) * NSCC_PLANNED_WORDS] = {0};
    show_sample("flow-1-nack-2", nscc_nack(LENT(card), 592, 1, 2, 6, 2, false, false), card);
    show("flow-0-new-data", nscc_new_data(LENT(card), 592, 0, 12288), card);
    size_t sends = (size_t)(nscc_plan(LENT(card), time, 4096, plan, SENDS * NSCC_PLANNED_WORDS) >> 32);
    memcpy(planned(plan, sends), planned(plan, 1), NSCC_PLANNED_WORDS * sizeof *plan);
    if (!judged(card, time, plan, sends + 1) && judged(card, time, plan, sends))
        for (size_t send = 0; send < sends; send++)
            send_planned(card, time, planned(plan, send));
    printf("the next round starts with flow %llu\n", (unsigned long long)card->state[NSCC_STATE_TURN]);
}

int main(void)
{
    static struct card card;
    puts("call ans inflight cwnd flying waiting backlog state");
    show("set-up", nscc_set_up(settings, NSCC_SETTING_WORDS, 0, false, EVS, LENT(&card)), &card);

    /* The worked example. */
    show("new-data", nscc_new_data(LENT(&card), 0, 0, 8192), &card);
    show("send-0", nscc_send(LENT(&card), 10, 0, 0, 4096, false), &card);
    refused_send(&card);
    show_sample("ack-0", nscc_ack(LENT(&card), 110, 0, 0, 0, 0, 16, 4, 0, false, false), &card);

    /* PSN 1 goes out on the next path, and is trimmed there: its EV is avoided for a while. */
    uint32_t ev = next_path(&card, 120, 0);
    show("send-1", nscc_send(LENT(&card), 130, 0, 1, 4096, false), &card);
    show_sample("nack-1", nscc_nack(LENT(&card), 230, 0, 1, ev, 0, false, false), &card);
    printf("EV %u is avoided until %llu\n", (unsigned)ev, (unsigned long long)card.evs[ev]);

    /* The marked packet is sent again on another path. Its ACK has the retx flag, so it gives a sample; a copy of that ACK finds the packet gone and moves
       no average. */
    uint32_t again = oldest_marked(&card, 0);
    show_status(&card, 0, again);
    ev = next_path(&card, 235, 0);
    show("resend-1", nscc_send(LENT(&card), 240, 0, again, 4096, true), &card);
    show_status(&card, 0, again);
    show_sample("ack-1", nscc_ack(LENT(&card), 340, 0, 1, 0, 1, 32, 4, ev, false, true), &card);
    show_status(&card, 0, again);
    show_sample("copy", nscc_ack(LENT(&card), 341, 0, 1, 0, 1, 32, 4, ev, false, true), &card);
    printf("base %llu, average %llu/1024 ticks\n", (unsigned long long)card.state[NSCC_STATE_BASE], (unsigned long long)card.state[NSCC_STATE_AVG]);

    other_flow(&card);
    both_flows(&card);
    planned_sends(&card);
    printf("samples %u, cut %u, gone %u, ambiguous %u, not positive %u\n", sampled[NSCC_SAMPLE_TAKEN], sampled[NSCC_SAMPLE_CUT], sampled[NSCC_SAMPLE_GONE],
           sampled[NSCC_SAMPLE_AMBIGUOUS], sampled[NSCC_SAMPLE_NOT_POSITIVE]);

    /* Firmware that hands in insane numbers is told so. */
    refused_flow(&card);
    card.state[NSCC_STATE_CWND] = 0;
    printf("a window of 0: %u\n", (unsigned)nscc_new_data(LENT(&card), 600, 0, 1));
    return EXIT_SUCCESS;
}

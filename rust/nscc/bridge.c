/*
 * Calls the library for a caller on another processor, under an emulator.
 *
 * A request on standard input: the function's number, ten arguments, the lengths of twelve arrays, then the arrays. The answer on standard output: what the
 * function answered, whether memory beside the arrays is untouched, then the arrays again but for the log. Numbers have 64 bits, the least significant byte first.
 */
#include "nscc.h"

#include <stdio.h>
#include <stdlib.h>
#include <string.h>

enum function { SET_UP, NEW_DATA, SEND, ACK, NACK, LOSS, PATH, REPLAY, CHUNK, STATUS, NEXT_MARKED, CHOOSE, JUDGE, PLAN };

/* First are the settings of setting up, the place of a replay, the part of a log in chunks, or the turn of a choice; the log may be a chunk of one;
   planned is a plan, or room for one. */
enum array { FIRST, STATE, FLOWS, OUTSTANDING, MARKED, SIZES, SENT, EVS, ANSWERS, PIECE, PLANNED, LOG, ARRAYS };

enum { ARGUMENTS = 10, FENCE = 64, ODD = 0xa5 };

static const size_t width[ARRAYS] = {8, 8, 8, 8, 8, 4, 8, 8, 8, 1, 4, 1};

struct request {
    uint64_t function;
    uint64_t argument[ARGUMENTS];
    uint64_t length[ARRAYS];
};

/* Each array's bytes between two fences. */
static unsigned char *fenced[ARRAYS];
static size_t room[ARRAYS];

static void get(void *bytes, size_t many)
{
    if (fread(bytes, 1, many, stdin) != many)
        exit(1);
}

static void put(const void *bytes, size_t many)
{
    if (fwrite(bytes, 1, many, stdout) != many)
        exit(1);
}

static void get_array(size_t array, size_t bytes)
{
    if (room[array] < bytes + 2 * FENCE) {
        room[array] = bytes + 2 * FENCE;
        fenced[array] = realloc(fenced[array], room[array]);
        if (fenced[array] == NULL)
            exit(1);
    }
    memset(fenced[array], ODD, FENCE);
    get(fenced[array] + FENCE, bytes);
    memset(fenced[array] + FENCE + bytes, ODD, FENCE);
}

static bool whole(size_t array, size_t bytes)
{
    const unsigned char *front = fenced[array], *back = front + FENCE + bytes;
    for (size_t i = 0; i < FENCE; i++)
        if (front[i] != ODD || back[i] != ODD)
            return false;
    return true;
}

#define LENT(array) (void *)(fenced[array] + FENCE), n[array]
#define CONTEXT LENT(STATE), LENT(FLOWS), LENT(OUTSTANDING), LENT(MARKED), LENT(SIZES), LENT(SENT), LENT(EVS)

static uint64_t call(const struct request *request)
{
    const uint64_t *a = request->argument, *n = request->length;
    switch (request->function) {
    case SET_UP:
        return nscc_set_up(LENT(FIRST), a[0], a[1], a[2], CONTEXT);
    case NEW_DATA:
        return nscc_new_data(CONTEXT, a[0], a[1], a[2]);
    case SEND:
        return nscc_send(CONTEXT, a[0], a[1], a[2], a[3], a[4]);
    case ACK:
        return nscc_ack(CONTEXT, a[0], a[1], a[2], a[3], a[4], a[5], a[6], a[7], a[8], a[9]);
    case NACK:
        return nscc_nack(CONTEXT, a[0], a[1], a[2], a[3], a[4], a[5], a[6]);
    case LOSS:
        return nscc_loss(CONTEXT, a[0], a[1], a[2], a[3]);
    case PATH:
        return nscc_path(CONTEXT, a[0], a[1]);
    case REPLAY:
        return nscc_replay(LENT(FIRST), CONTEXT, LENT(LOG), LENT(ANSWERS));
    case CHUNK:
        return nscc_chunk(LENT(FIRST), LENT(PIECE), CONTEXT, LENT(LOG), a[0], LENT(ANSWERS));
    case STATUS:
        return nscc_status(CONTEXT, a[0], a[1]);
    case NEXT_MARKED:
        return nscc_next_marked(CONTEXT, a[0], a[1]);
    case CHOOSE:
        return nscc_choose(CONTEXT, LENT(FIRST));
    case JUDGE:
        return nscc_judge(CONTEXT, a[0], LENT(PLANNED));
    case PLAN:
        return nscc_plan(CONTEXT, a[0], a[1], LENT(PLANNED));
    default:
        exit(1);
    }
}

int main(void)
{
    struct request request;
    while (fread(&request, 1, sizeof request, stdin) == sizeof request) {
        for (size_t i = 0; i < ARRAYS; i++)
            get_array(i, request.length[i] * width[i]);
        uint64_t answer[2] = {call(&request), 1};
        for (size_t i = 0; i < ARRAYS; i++)
            answer[1] &= whole(i, request.length[i] * width[i]);
        put(answer, sizeof answer);
        for (size_t i = 0; i < LOG; i++)
            put(fenced[i] + FENCE, request.length[i] * width[i]);
        fflush(stdout);
    }
    return 0;
}

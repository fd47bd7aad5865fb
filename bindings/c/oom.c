/* Three replicas, whose every allocation fails in turn: each refusal is a status, the same call succeeds when it is asked again, the run ends as one without a
   refusal, and nothing is left in memory; but for a change of generation, which may lose its replica. Built with -Wl,--wrap=malloc,--wrap=realloc,--wrap=free over libepaxos.a. */
#include "epaxos.h"

#include <stdio.h>
#include <stdlib.h>
#include <string.h>

enum { REPLICAS = 3, FRAMES = 8192, LONGEST = 400 };

static long until = -1, asked, live;

void *__real_malloc(size_t size);
void *__real_realloc(void *at, size_t size);
void __real_free(void *at);

/* Whether this allocation is refused. */
static int is_refused(void)
{
    asked++;
    return until >= 0 && until-- == 0;
}

void *__wrap_malloc(size_t size)
{
    void *at = is_refused() ? NULL : __real_malloc(size);
    live += at != NULL;
    return at;
}

void *__wrap_realloc(void *at, size_t size)
{
    void *moved = is_refused() ? NULL : __real_realloc(at, size);
    live += !at && moved;
    return moved;
}

void __wrap_free(void *at)
{
    live -= at != NULL;
    __real_free(at);
}

static struct ep_replica replicas[REPLICAS];
static uint32_t told[REPLICAS];
static struct { uint8_t to; size_t len; uint8_t bytes[LONGEST]; } frames[FRAMES];
static size_t given, sent;
static unsigned long sum;
static long refusals;

/* Whether a call is to be asked again; ends the program where it is refused for another reason than this one. */
static int again(const char *call, uint8_t status, uint8_t other)
{
    if (status == EP_MEMORY)
        return ++refusals != 0;
    if (status != EP_DONE && status != other) {
        printf("%s answers status %d\n", call, status);
        exit(1);
    }
    return 0;
}

#define ask(call, words) do { } while (again(#call, call words, EP_DONE))

static void add(const uint8_t *at, size_t len)
{
    while (len--)
        sum = sum * 31 + *at++;
}

static uint32_t number(const uint8_t *at)
{
    return (uint32_t)at[0] << 24 | (uint32_t)at[1] << 16 | (uint32_t)at[2] << 8 | at[3];
}

/* One round: what is written and what is told counts in the sum, and the frames are sent. */
static void turn(int me)
{
    struct ep_bytes log, answers;
    uint8_t is_anew;
    ask(ep_ready, (&replicas[me], &log, &is_anew));
    add(log.at, log.len);
    if (me == 2)
        ask(ep_prepare_all, (&replicas[me], told[me], 2));
    ask(ep_synced, (&replicas[me], log.len));
    if (me == 2)
        ask(ep_told, (&replicas[me], &answers));
    else
        ask(ep_answers_all, (&replicas[me], told[me], 2, &answers));
    add(answers.at, answers.len);
    /* (what was asked is answered before the answer of kind 9, behind which is that of kind 13) */
    const uint8_t *at = answers.at;
    while (at[4] != 9)
        at += 4 + number(at);
    told[me] = number(at + 5);
    uint32_t count = number(at + 10);
    for (at += 14; count--; at += frames[sent++].len) {
        frames[sent].to = at[0];
        frames[sent].len = number(at + 1);
        at += 5;
        if (frames[sent].len > LONGEST || sent + 1 == FRAMES)
            exit(2);
        memcpy(frames[sent].bytes, at, frames[sent].len);
    }
}

/* Hands over frames until none is on its way. */
static void settle(void)
{
    for (; given < sent; given++) {
        int to = frames[given].to;
        ask(ep_handle, (&replicas[to], frames[given].bytes, frames[given].len));
        ask(ep_execute_all, (&replicas[to]));
        turn(to);
    }
}

/* Goes on in the next generation, once a seal was executed. Where memory is refused the replica, or its file, is gone; what there is of them is let go. */
static void go_on(uint8_t me)
{
    static const uint8_t digest[32] = { 1 };
    struct ep_checkpoint checkpoint = EP_CLOSED;
    struct ep_succession next = { { digest, sizeof digest }, EP_EMPTY, REPLICAS, me, 1 };
    struct ep_place place;
    struct ep_bytes piece;
    if (!again("ep_succeed", ep_succeed(&replicas[me], &checkpoint, &next, &place), EP_DONE))
        for (uint8_t status = EP_DONE; status != EP_NONE; again("ep_checkpoint_next", status, EP_NONE))
            status = ep_checkpoint_next(&checkpoint, 10, &piece);
    ep_checkpoint_free(&checkpoint);
}

/* How a replica starts by what its folder has, what a reference says, and files that are written without a replica. */
static void plan(void)
{
    static const uint8_t zeros[32] = { 0 };
    const struct ep_held_generation held[] = { { 1, 0, 1, 0, 0 }, { 2, 0, 0, 1, 0 } };
    const struct ep_start_wish wish = { 0, 1, 0 };
    const struct ep_closed_log closed = { { zeros, sizeof zeros }, 43, 2, 3 };
    struct ep_start_plan plan = { 0, 0, 0 };
    struct ep_reference_head head = { 0, 0, 0 };
    struct ep_place place;
    uint32_t newest = 0, first = 0;
    static const uint8_t map[] = { 0, 0, 0, 1, 1, 0, 0, 0, 1, 'a', '1' };
    const struct ep_opening_parts parts = { { zeros, 1 }, { map, sizeof map }, 5, 2, 3 };
    uint8_t reference[82], binding[69], opening[71];
    size_t len;
    ask(ep_plan, (held, 2, &wish, &plan, &place));
    ask(ep_newest, (held, 2, &newest));
    ask(ep_first, (held, 2, 2, &first));
    ask(ep_reference, (&closed, reference, sizeof reference, &len));
    ask(ep_read_reference, (reference, len, &head, &place));
    ask(ep_binding, (zeros, sizeof zeros, zeros, sizeof zeros, binding, sizeof binding, &len));
    add(binding, len);
    ask(ep_opening, (&parts, opening, sizeof opening, &len, &place));
    ask(ep_check_opening, (opening, len, &place));
    add(opening, len);
    add((uint8_t[]){ (uint8_t)plan.generation, plan.log, (uint8_t)newest, (uint8_t)first, (uint8_t)head.length }, 5);
}

static void once(void)
{
    static const uint8_t key[] = "k", value[] = "v", other[] = "other", state[] = { 0, 0, 0, 1, 11 };
    /* what interferes with a read of `k`, and a read for which 0.1 was found */
    static const uint8_t look[] = { 0, 0, 0, 2, 16, 'k' }, read[] = { 0, 0, 0, 10, 17, 1, 'k', 0, 0, 0, 1, 0, 0, 1 };
    /* `j` must have no value, and is deleted; `k` is told, and gets `w` */
    static const uint8_t many[] = { 0, 2, 1, 10, 'j', 0, 1, 5, 'k', 0, 0, 0, 1, 'w' };
    uint8_t first[64], report[256];
    struct ep_bytes opening = { first, 0 }, none = EP_EMPTY, lent;
    struct ep_place place;
    struct ep_instance found, nothing = { 0, 0 };
    size_t len;
    memset(told, 0, sizeof told);
    given = sent = 0, sum = 0, refusals = 0;
    plan();
    ask(ep_first_opening, (REPLICAS, first, sizeof first, &opening.len));
    for (uint8_t me = 0; me < REPLICAS; me++) {
        struct ep_setup setup = { opening, none, REPLICAS, me, 1 };
        ask(ep_open, (&replicas[me], &setup, &place));
        turn(me);
    }
    for (uint32_t request = 1; request <= 3; request++)
        for (int me = 0; me < REPLICAS; me++) {
            struct ep_call call = { 0, (uint32_t)me + 1, request, 0, 0 };
            struct ep_exchange exchange = { { value, 1 }, { other, 5 }, request > 1, 1 };
            if (request == 2)
                ask(ep_propose_cas, (&replicas[me], &call, key, 1, &exchange));
            else if (request == 3)
                ask(ep_propose_tx, (&replicas[me], &call, many, sizeof many));
            else
                ask(ep_propose_put, (&replicas[me], &call, key, 1, value, 1));
            ask(ep_ask, (&replicas[me], state, sizeof state));
            ask(ep_ask, (&replicas[me], look, sizeof look));
            ask(ep_ask, (&replicas[me], read, sizeof read));
            turn(me);
            settle();
            while (again("ep_get", ep_get(&replicas[me], key, 1, &lent), EP_NONE)) { }
            add(lent.at, lent.len);
            while (again("ep_next_open", ep_next_open(&replicas[me], nothing, &found), EP_NONE)) { }
        }
    while (again("ep_close", ep_close(&replicas[0], 5, &lent), EP_NOT_SEALED)) { }
    while (again("ep_audit", ep_audit(value, 1, report, sizeof report, &len), EP_BAD_BUNDLE)) { }
    add(report, len);
    struct ep_call last = { 0, 9, 1, 0, 0 };
    ask(ep_propose_seal, (&replicas[0], &last, value, 1));
    turn(0);
    settle();
    for (uint8_t me = 0; me < REPLICAS; me++) {
        /* (a Commit that came last is executed by the next call) */
        ask(ep_execute_all, (&replicas[me]));
        turn(me);
        go_on(me);
        ep_free(&replicas[me]);
    }
}

int main(void)
{
    once();
    unsigned long want = sum;
    long all = asked, seen = 0;
    for (long place = 0; place < all; place++) {
        until = place;
        once();
        seen += refusals;
        if (sum != want || live != 0) {
            printf("allocation %ld refused: another end, or %ld blocks are left\n", place, live);
            return 1;
        }
    }
    printf("%ld allocations, each refused once: the same end each time, %ld refusals were told, nothing is left\n", all, seen);
    return 0;
}

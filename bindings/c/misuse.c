/* Calls that a program makes by mistake: each is a status, and changes nothing. */
#include "epaxos.h"
#include "epaxos_answers.h"

#include <stdio.h>
#include <string.h>

static int wrong;

static void want(const char *what, int status, int wanted)
{
    if (status != wanted)
        printf("%s answers %d, not %d\n", what, status, wanted), wrong = 1;
}

#define WANT(wanted, call) want(#call, call, wanted)

static int is(const char *text, const char *wanted)
{
    return !strcmp(text, wanted);
}

/* What is told of one proposal is read whole, and no part of it is. */
static void read_whole(struct ep_bytes answers)
{
    struct ep_report report;
    struct ep_frame frame;
    struct ep_receipt receipt;
    struct ep_instance instance;
    struct ep_open_instance open = { { 0, 0 }, 0, { 0, 0 } };
    for (size_t len = 0; len < answers.len; len++)
        WANT(0, ep_read_report((struct ep_bytes){ answers.at, len }, &report));
    WANT(1, ep_read_report(answers, &report));
    WANT(1, (int)report.entries);
    WANT(0, report.is_sealed);
    WANT(1, ep_next_frame(&report, &frame));
    WANT(1, frame.to);
    WANT(0, memcmp(frame.bytes.at, "EP\3\1", 4));
    WANT(0, ep_next_frame(&report, &frame));
    WANT(0, ep_next_receipt(&report, &receipt));
    WANT(0, ep_next_committed(&report, &instance));
    WANT(0, ep_next_executed(&report, &instance));
    WANT(1, ep_next_open_instance(&report, &open));
    WANT(101, open.instance.number + 100 * open.leading.phase + 1000 * open.instance.replica);
    WANT(0, ep_next_open_instance(&report, &open));
}

/* The answer to a request; of no bytes where none comes. */
static struct ep_bytes asked(struct ep_replica *replica, const uint8_t *request, size_t len)
{
    struct ep_bytes answers = EP_EMPTY, answer = EP_EMPTY;
    WANT(EP_DONE, ep_ask(replica, request, len));
    WANT(EP_DONE, ep_answers(replica, 9, 0, &answers));
    WANT(1, ep_next_answer(&answers, &answer));
    return answer;
}

/* Reads of what is no key, or by no instance, and answers that are cut or to another request. 0.1 to 0.3 are puts of
   `k`, none of which is committed. */
static void read_nothing(struct ep_replica *replica)
{
    static uint8_t request[EP_READ_SIZE(255, EP_MOST_FOUND)];
    static struct ep_instance found[EP_MOST_FOUND + 1];
    static const uint8_t malformed[] = { 7, 23, 0, 0, 0, 0, 0, 0, 0, 11 }, ordered[] = { 12, 4 };
    uint8_t long_key[256] = { 1 };
    const uint8_t *key = (const uint8_t *)"k";
    struct ep_items instances;
    struct ep_reading reading;
    struct ep_bytes answer;

    WANT(0, (int)ep_write_interfering(request, sizeof request, key, 0));
    WANT(0, (int)ep_write_interfering(request, sizeof request, long_key, 256));
    WANT(0, (int)ep_write_interfering(request, 5, key, 1));
    WANT(EP_MOST_INTERFERING, (int)ep_write_interfering(request, sizeof request, long_key, 255));
    WANT(0, (int)ep_write_read(request, sizeof request, key, 0, found, 0));
    WANT(0, (int)ep_write_read(request, sizeof request, long_key, 256, found, 0));
    WANT(0, (int)ep_write_read(request, 13, key, 1, found, 1));
    WANT(0, (int)ep_write_read(request, sizeof request, key, 1, found, EP_MOST_FOUND + 1));
    WANT((int)sizeof request, (int)ep_write_read(request, sizeof request, long_key, 255, found, EP_MOST_FOUND));

    answer = asked(replica, request, ep_write_interfering(request, 6, key, 1));
    for (size_t len = 0; len < answer.len; len++)
        WANT(0, ep_read_interfering((struct ep_bytes){ answer.at, len }, &instances));
    WANT(0, ep_read_reading(answer, &reading));
    WANT(1, ep_read_interfering(answer, &instances));
    for (int number = 1; number <= 3; number++) {
        WANT(1, ep_next_instance(&instances, &found[3 - number]));
        WANT(number, found[3 - number].number + found[3 - number].replica);
    }
    WANT(0, ep_next_instance(&instances, &found[3]));

    /* the least of them is waited for, in whatever order they stand; and none where none was found */
    WANT(20, (int)ep_write_read(request, 20, key, 1, found, 3));
    WANT(0, memcmp(request, "\0\0\0\20\21\1k\0\0\0\3\0\0\3\0\0\2\0\0\1", 20));
    answer = asked(replica, request, 20);
    for (size_t len = 0; len < answer.len; len++)
        WANT(0, ep_read_reading((struct ep_bytes){ answer.at, len }, &reading));
    WANT(0, ep_read_interfering(answer, &instances));
    WANT(1, ep_read_reading(answer, &reading));
    WANT(EP_READ_WAITS, reading.reply);
    WANT(1, reading.instance.number + reading.instance.replica);
    answer = asked(replica, request, ep_write_read(request, sizeof request, key, 1, found, 0));
    WANT(1, ep_read_reading(answer, &reading));
    WANT(EP_REPLY_ABSENT, reading.reply + (int)reading.value.len + reading.instance.number);
    WANT(0, ep_read_reading((struct ep_bytes){ ordered, sizeof ordered }, &reading));

    /* no instance of three replicas is malformed */
    found[0] = (struct ep_instance){ 1, 3 };
    answer = asked(replica, request, ep_write_read(request, sizeof request, key, 1, found, 1));
    if (answer.len != sizeof malformed || memcmp(answer.at, malformed, sizeof malformed))
        puts("what is malformed is answered otherwise"), wrong = 1;
    WANT(0, ep_read_reading(answer, &reading));
}

static struct ep_bytes text(const char *words)
{
    return (struct ep_bytes){ (const uint8_t *)words, strlen(words) };
}

/* Items that are no command over many keys have no body, and bodies that are none aren't proposed. */
static void write_many(struct ep_replica *replica, struct ep_call *call)
{
    static uint8_t body[EP_TX_LONGEST + 1], value[65536];
    static struct ep_tx_item many[EP_TX_MOST_KEYS + 1];
    static uint8_t keys[EP_TX_MOST_KEYS + 1][2];
    static const uint8_t worked[] = { 0, 2, 1, 6, 'x', 0, 0, 0, 0, 1, '1', 1, 1, 'y' };
    const struct ep_bytes none = EP_EMPTY, longest = { value, 65535 }, longer = { value, 65536 };
    struct ep_tx_item two[] = {
        { text("x"), EP_TX_REQUIRE_NONE | EP_TX_PUT, none, text("1") },
        { text("y"), EP_TX_TELL, none, none },
    };
    const struct ep_tx_item bad[] = {
        { none, EP_TX_TELL, none, none }, { { value, 256 }, EP_TX_TELL, none, none },
        { text("x"), 0, none, none }, { text("x"), 32, none, none },
        { text("x"), EP_TX_PUT | EP_TX_DEL, none, none }, { text("x"), EP_TX_REQUIRE | EP_TX_REQUIRE_NONE, none, none },
        { text("x"), EP_TX_PUT, none, longer }, { text("x"), EP_TX_REQUIRE, longer, none },
    };
    const struct ep_bytes turned[][2] = {
        { text("x"), text("x") }, { text("y"), text("x") }, { text("xy"), text("x") }, { text("\x80"), text("\x7f") },
    };

    WANT((int)sizeof worked, (int)ep_write_tx(body, sizeof worked, two, 2));
    WANT(0, memcmp(body, worked, sizeof worked));
    WANT(0, (int)ep_write_tx(body, sizeof worked - 1, two, 2));
    WANT(0, (int)ep_write_tx(body, sizeof body, two, 0));
    for (size_t at = 0; at < sizeof bad / sizeof *bad; at++)
        WANT(0, (int)ep_write_tx(body, sizeof body, &bad[at], 1));
    for (size_t at = 0; at < sizeof turned / sizeof *turned; at++) {
        two[0].key = turned[at][0], two[1].key = turned[at][1];
        WANT(0, (int)ep_write_tx(body, sizeof body, two, 2));
    }
    for (int place = 0; place <= EP_TX_MOST_KEYS; place++) {
        keys[place][0] = (uint8_t)(place / 256), keys[place][1] = (uint8_t)place;
        many[place] = (struct ep_tx_item){ { keys[place], 2 }, place < 17 ? EP_TX_TELL : EP_TX_DEL, none, none };
    }
    WANT(0, (int)ep_write_tx(body, sizeof body, many, 17));
    many[16].says = EP_TX_DEL;
    WANT(0, (int)ep_write_tx(body, sizeof body, many, EP_TX_MOST_KEYS + 1));
    WANT(2 + 4 * EP_TX_MOST_KEYS, (int)ep_write_tx(body, sizeof body, many, EP_TX_MOST_KEYS));
    /* two values, of which the first is as long as can be: a count, and each with a key of 1 byte, 2 bytes before it
       and 4 behind */
    two[0] = (struct ep_tx_item){ text("x"), EP_TX_PUT, none, longest };
    two[1] = (struct ep_tx_item){ text("y"), EP_TX_PUT, none, longest };
    two[1].put.len = EP_TX_LONGEST - 2 - 7 - 65535 - 7;
    WANT(EP_TX_LONGEST, (int)ep_write_tx(body, sizeof body, two, 2));
    two[1].put.len++;
    WANT(0, (int)ep_write_tx(body, sizeof body, two, 2));

    memcpy(body, worked, sizeof worked);
    for (size_t len = 0; len < sizeof worked; len++)
        WANT(EP_OUT_OF_RANGE, ep_propose_tx(replica, call, body, len));
    WANT(EP_OUT_OF_RANGE, ep_propose_tx(replica, call, body, sizeof worked + 1));
    /* flags of nothing, of both writes, and of none that there is; keys that don't rise; no items */
    for (int flags = 0; flags < 256; flags++) {
        const uint8_t one[] = { 0, 1, 1, (uint8_t)flags, 'x' };
        if (flags != EP_TX_TELL && flags != EP_TX_DEL && flags != EP_TX_TELL + EP_TX_DEL)
            WANT(EP_OUT_OF_RANGE, ep_propose_tx(replica, call, one, sizeof one));
    }
    body[13] = 'x';
    WANT(EP_OUT_OF_RANGE, ep_propose_tx(replica, call, body, sizeof worked));
    body[13] = 'y', body[1] = 0;
    WANT(EP_OUT_OF_RANGE, ep_propose_tx(replica, call, body, sizeof worked));
}

/* A receipt that tells two values, of which the first is none: it is read whole, and no part of it is. */
static void read_told(void)
{
    static const uint8_t done[] = {
        0, 0, 0, 9, 0, 0, 0, 2, 1, 1, 2, 0, 0, 0, 0, 0, 0, 0, 3, 1, 0, 0, 0, 4, 0, 0, 0, 0, 0, 0, 0, 5,
        EP_REPLY_DONE, 0, 2, 0, 1, 0, 0, 0, 3, 'o', 'l', 'd',
    };
    struct ep_told_value told = { 7, EP_EMPTY };
    for (size_t len = 0; len < sizeof done; len++) {
        struct ep_reader reader = ep_reader_of((struct ep_bytes){ done, len });
        ep_read_receipt(&reader);
        WANT(1, reader.is_cut);
    }
    struct ep_reader reader = ep_reader_of((struct ep_bytes){ done, sizeof done });
    struct ep_receipt receipt = ep_read_receipt(&reader);
    WANT(0, reader.is_cut + (int)reader.left);
    WANT(9, (int)receipt.client);
    WANT((int)sizeof done, (int)receipt.bytes.len);
    WANT(EP_REPLY_DONE, receipt.reply);
    WANT(0, (int)receipt.value.len);
    WANT(2, (int)receipt.told.left);
    WANT(1, ep_next_told(&receipt, &told));
    WANT(0, told.is_there + (int)told.value.len);
    WANT(1, ep_next_told(&receipt, &told));
    WANT(1, told.is_there);
    WANT(3, (int)told.value.len);
    WANT(0, memcmp(told.value.at, "old", 3));
    WANT(0, ep_next_told(&receipt, &told));
}

/* When to wait no longer: mistakes, and one own proposal of replica 0 of three, whose member took 100, three times (SRTT 100, RTTVAR 27: a time-out of 208). */
static void wait_no_longer(void)
{
    struct ep_patience patience = EP_CLOSED;
    struct ep_waits waits = { 7, 100, 1000, 1500, 20000, 3, 3 };
    struct ep_bytes late = EP_EMPTY;
    struct ep_instance nowhere = { 9001, 1 }, other = { 1, 1 };
    uint8_t open[] = { 0, 0, 1, 0, 0, 0, 1, 1, 1, 2 };
    uint64_t due = 5;

    WANT(EP_OUT_OF_RANGE, ep_patience_begin(&patience, &waits));
    waits.replica = 0, waits.replicas = 4;
    WANT(EP_OUT_OF_RANGE, ep_patience_begin(&patience, &waits));
    for (int twice = 0; twice < 2; twice++) {
        WANT(EP_NO_PATIENCE, ep_patience_measure(&patience, 1, 100));
        WANT(EP_NO_PATIENCE, ep_patience_reach(&patience, 1, 0));
        WANT(EP_NO_PATIENCE, ep_patience_hurry(&patience));
        WANT(EP_NO_PATIENCE, ep_patience_put_off(&patience, other, 1, 0));
        WANT(EP_NO_PATIENCE, ep_patience_turn(&patience, 0, open, sizeof open, &late));
        WANT(EP_NO_PATIENCE, ep_patience_due(&patience, &due));
        WANT(EP_DONE, ep_patience_free(&patience));
        waits.replicas = 3;
        WANT(EP_DONE, ep_patience_begin(&patience, &waits));
        WANT(EP_HAS_PATIENCE, ep_patience_begin(&patience, &waits));
        if (twice)
            break;
        WANT(EP_DONE, ep_patience_free(&patience));
    }
    for (int times = 0; times < 3; times++)
        WANT(EP_DONE, ep_patience_measure(&patience, 1, 100));
    WANT(EP_OUT_OF_RANGE, ep_patience_measure(&patience, 7, 100));
    WANT(EP_OUT_OF_RANGE, ep_patience_reach(&patience, 7, 0));
    WANT(EP_OUT_OF_RANGE, ep_patience_put_off(&patience, nowhere, 1, 0));
    WANT(EP_DONE, ep_patience_put_off(&patience, other, 1, 0));
    WANT(EP_NONE, ep_patience_due(&patience, &due));
    WANT(5, (int)due);
    WANT(EP_OUT_OF_RANGE, ep_patience_turn(&patience, 0, open, 9, &late));
    WANT(EP_DONE, ep_patience_turn(&patience, 0, open, sizeof open, &late));
    WANT(0, (int)late.len);
    WANT(EP_DONE, ep_patience_due(&patience, &due));
    WANT(208, (int)due);
    WANT(EP_DONE, ep_patience_turn(&patience, 208, open, sizeof open, &late));
    if (late.len != 4 || memcmp(late.at, (uint8_t[]){ 3, 0, 0, 1 }, 4))
        puts("something else is late"), wrong = 1;
    WANT(EP_DONE, ep_patience_reach(&patience, 1, 0));
    WANT(EP_DONE, ep_patience_hurry(&patience));
    WANT(EP_DONE, ep_patience_free(&patience));
}

/* A change of generation that can't be: nothing is sealed, or what is given is wrong. What is told of the replica is as it was. */
static void go_on(struct ep_replica *replica)
{
    static const uint8_t digest[32] = { 1 };
    struct ep_checkpoint checkpoint = EP_CLOSED;
    struct ep_replica none = EP_CLOSED;
    struct ep_succession next = { { digest, 32 }, EP_EMPTY, 3, 0, 1 };
    struct ep_closed_log closed = { { digest, 32 }, 43, 2, 3 };
    struct ep_place place = { 5, 6 };
    struct ep_bytes piece = { digest, 7 };
    uint8_t out[82] = { 9 };
    size_t len = 3;

    WANT(EP_NO_REPLICA, ep_succeed(&none, &checkpoint, &next, &place));
    WANT(EP_NO_CHECKPOINT, ep_checkpoint_next(&checkpoint, 100, &piece));
    WANT(EP_NO_CHECKPOINT, ep_checkpoint_rest(&checkpoint));
    WANT(EP_DONE, ep_checkpoint_free(&checkpoint));
    WANT(EP_NOT_SEALED, ep_succeed(replica, &checkpoint, &next, &place));
    next.digest.len = 31;
    WANT(EP_OUT_OF_RANGE, ep_succeed(replica, &checkpoint, &next, &place));
    WANT(EP_OUT_OF_RANGE, ep_open_bound(&none, digest, 1, &next, &place));
    next.digest.len = 32, next.replicas = 4;
    WANT(EP_OUT_OF_RANGE, ep_succeed(replica, &checkpoint, &next, &place));
    next.replicas = 3, next.log = piece;
    WANT(EP_LOG_EXISTS, ep_succeed(replica, &checkpoint, &next, &place));
    WANT(EP_LOG_EXISTS, ep_open_bound(&none, digest, 1, &next, &place));
    WANT(EP_HAS_REPLICA, ep_open_bound(replica, digest, 1, &next, &place));
    closed.length = 42;
    WANT(EP_OUT_OF_RANGE, ep_reference(&closed, out, sizeof out, &len));
    closed.length = 43, closed.generation = 1;
    WANT(EP_OUT_OF_RANGE, ep_reference(&closed, out, sizeof out, &len));
    closed.generation = 2, closed.replicas = 6;
    WANT(EP_OUT_OF_RANGE, ep_reference(&closed, out, sizeof out, &len));
    closed.replicas = 3, closed.sum.len = 33;
    WANT(EP_OUT_OF_RANGE, ep_reference(&closed, out, sizeof out, &len));
    WANT(3, (int)len);
    closed.sum.len = 32;
    WANT(EP_TOO_SHORT, ep_reference(&closed, out, 81, &len));
    if (place.at != 5 || place.by != 6 || piece.len != 7 || checkpoint.at || none.at || len != 82 || out[0] != 9)
        puts("something was written"), wrong = 1;
    WANT(EP_DONE, ep_reference(&closed, out, sizeof out, &len));
    WANT(0, memcmp(out, "EPOR\3\3\0\0\0\2", 10));
    WANT(EP_TOO_SHORT, ep_sum(digest, 0, out, 31, &len));
    WANT(EP_DONE, ep_sum(digest, 0, out, 32, &len));
    WANT(0, memcmp(out, "\xe3\xb0\xc4\x42", 4));
    next.log.len = 0;
    WANT(EP_OPENING_SHORT, ep_open_bound(&none, digest, 1, &next, &place));
    WANT(1, (int)place.at);
}

int main(void)
{
    static const uint8_t key[] = "k", damaged[43] = "EPLG";
    uint8_t first[64], none[1], is_anew = 7, long_key[256] = { 1 };
    struct ep_replica replica = EP_CLOSED;
    struct ep_bytes log = { key, 7 }, value = log, empty = EP_EMPTY;
    struct ep_place place = { 5, 6 };
    struct ep_instance instance = { 9, 1 }, nowhere = { 1, 7 }, here = { 1, 0 };
    struct ep_leading leading = { 8, 8 };
    struct ep_call call = { 0, 1, 1, 0, 0 };
    struct ep_exchange exchange = { empty, empty, 0, 1 };
    struct ep_touching touching = { { key, 1 }, { key, 1 }, 1, 0 };
    struct ep_setup setup = { empty, empty, 3, 0, 1 };
    struct ep_items contents;
    struct ep_key_value pair;
    uint32_t count = 77;
    size_t len = 3;

    /* as `free` does */
    WANT(EP_DONE, ep_free(NULL));
    if (!is(ep_status_name(EP_DONE), "EP_DONE") || !is(ep_status_name(32), "EP_NO_REPLICA") || !is(ep_status_name(63), "EP_OTHER_OPENING") || !is(ep_status_name(200), "EP_UNKNOWN"))
        puts("a status has another name"), wrong = 1;

    /* no replica: null, and after it was freed */
    for (int twice = 0; twice < 2; twice++) {
        WANT(EP_NO_REPLICA, ep_cut(&replica, &place));
        WANT(EP_NO_REPLICA, ep_propose_get(&replica, &call, key, 1));
        WANT(EP_NO_REPLICA, ep_propose_put(&replica, &call, key, 1, key, 1));
        WANT(EP_NO_REPLICA, ep_propose_del(&replica, &call, key, 1));
        WANT(EP_NO_REPLICA, ep_propose_swap(&replica, &call, key, 1, (const uint8_t *)"l", 1));
        WANT(EP_NO_REPLICA, ep_propose_cas(&replica, &call, key, 1, &exchange));
        WANT(EP_OUT_OF_RANGE, ep_propose_opaque(&replica, &call, &touching, key, 1));
        touching.has_second = 0;
        WANT(EP_NO_REPLICA, ep_propose_opaque(&replica, &call, &touching, key, 1));
        touching.has_second = 1;
        WANT(EP_OUT_OF_RANGE, ep_propose_tx(&replica, &call, key, 1));
        WANT(EP_NO_REPLICA, ep_propose_tx(&replica, &call, (const uint8_t *)"\0\1\1\1k", 5));
        WANT(EP_NO_REPLICA, ep_propose_seal(&replica, &call, key, 1));
        WANT(EP_NO_REPLICA, ep_give_up(&replica, here));
        WANT(EP_NO_REPLICA, ep_recover(&replica, here));
        WANT(EP_NO_REPLICA, ep_execute(&replica, here, &instance));
        WANT(EP_NO_REPLICA, ep_advance(&replica));
        WANT(EP_NO_REPLICA, ep_execute_all(&replica));
        WANT(EP_NO_REPLICA, ep_ready(&replica, &log, &is_anew));
        WANT(EP_NO_REPLICA, ep_synced(&replica, 0));
        WANT(EP_NO_REPLICA, ep_answers(&replica, 0, 0, &value));
        WANT(EP_NO_REPLICA, ep_prepare(&replica, 0, 0));
        WANT(EP_NO_REPLICA, ep_told(&replica, &value));
        WANT(EP_NO_REPLICA, ep_ask(&replica, key, 1));
        WANT(EP_NO_REPLICA, ep_get(&replica, key, 1, &value));
        WANT(EP_NO_REPLICA, ep_contents(&replica, &value));
        WANT(EP_NO_REPLICA, ep_handled(&replica, 1, &count));
        WANT(EP_NO_REPLICA, ep_next_open(&replica, here, &instance));
        WANT(EP_NO_REPLICA, ep_leads(&replica, here, &leading));
        WANT(EP_NO_REPLICA, ep_close(&replica, 3, &value));
        WANT(EP_DONE, ep_free(&replica));
    }
    /* nothing was written */
    if (place.at != 5 || place.by != 6 || log.len != 7 || value.at != key || is_anew != 7 || count != 77 || instance.number != 9 || leading.phase != 8 || replica.at)
        puts("something was written"), wrong = 1;

    /* what isn't a replica of a cluster */
    setup.replicas = 4;
    WANT(EP_OUT_OF_RANGE, ep_open(&replica, &setup, &place));
    setup.replicas = 3, setup.replica = 3;
    WANT(EP_OUT_OF_RANGE, ep_open(&replica, &setup, &place));
    setup.replica = 0, setup.is_new = 0;
    WANT(EP_NO_LOG, ep_open(&replica, &setup, &place));
    setup.log = (struct ep_bytes){ damaged, sizeof damaged };
    WANT(EP_OTHER_VERSION, ep_open(&replica, &setup, &place));
    setup.log.len = 3;
    WANT(EP_NO_HEADER, ep_open(&replica, &setup, &place));
    setup.is_new = 1;
    WANT(EP_LOG_EXISTS, ep_open(&replica, &setup, &place));
    setup.log = empty, setup.opening = (struct ep_bytes){ key, 1 };
    WANT(EP_OPENING_SHORT, ep_open(&replica, &setup, &place));
    WANT(1, (int)place.at);
    WANT(EP_OUT_OF_RANGE, ep_first_opening(6, first, sizeof first, &len));
    WANT(EP_TOO_SHORT, ep_first_opening(5, none, sizeof none, &len));
    WANT(59, (int)len);
    WANT(EP_DONE, ep_first_opening(5, first, sizeof first, &len));
    setup.opening = (struct ep_bytes){ first, len };
    WANT(EP_OTHER_OPENING, ep_open(&replica, &setup, &place));
    WANT(5, (int)place.at);
    first[50] ^= 1;
    WANT(EP_OPENING_DAMAGED, ep_open(&replica, &setup, &place));
    WANT(27, (int)place.at);
    WANT(EP_DONE, ep_first_opening(3, first, sizeof first, &len));
    WANT(EP_DONE, ep_open(&replica, &setup, &place));
    WANT(EP_HAS_REPLICA, ep_open(&replica, &setup, &place));
    WANT(EP_NONE, ep_cut(&replica, &place));

    /* the log comes first */
    WANT(EP_LENT, ep_propose_get(&replica, &call, key, 1));
    WANT(EP_LENT, ep_advance(&replica));
    WANT(EP_LENT, ep_ask(&replica, (const uint8_t *)"\0\0\0\1\13", 5));
    WANT(EP_UNSYNCED, ep_answers(&replica, 0, 0, &value));
    WANT(EP_UNSYNCED, ep_get(&replica, key, 1, &value));
    WANT(EP_UNSYNCED, ep_contents(&replica, &value));
    WANT(EP_UNSYNCED, ep_next_open(&replica, here, &instance));
    WANT(EP_UNSYNCED, ep_leads(&replica, here, &leading));
    WANT(EP_UNSYNCED, ep_close(&replica, 3, &value));
    WANT(EP_DONE, ep_ready(&replica, &log, &is_anew));
    WANT(1, is_anew);
    WANT(EP_NOT_ALL, ep_synced(&replica, log.len + 1));
    WANT(EP_DONE, ep_synced(&replica, log.len));
    WANT(EP_NOT_LENT, ep_synced(&replica, log.len));
    WANT(EP_DONE, ep_ready(&replica, &log, &is_anew));
    WANT(0, (int)log.len + is_anew);
    WANT(EP_DONE, ep_synced(&replica, 0));

    /* what is no command, no frame, no instance, no request */
    WANT(EP_OUT_OF_RANGE, ep_propose_get(&replica, &call, empty.at, 0));
    WANT(EP_OUT_OF_RANGE, ep_propose_put(&replica, &call, long_key, 256, key, 1));
    WANT(EP_OUT_OF_RANGE, ep_propose_swap(&replica, &call, key, 1, key, 1));
    WANT(EP_OUT_OF_RANGE, ep_propose_opaque(&replica, &call, &touching, key, 1));
    write_many(&replica, &call);
    call.client = 0;
    WANT(EP_OUT_OF_RANGE, ep_propose_get(&replica, &call, key, 1));
    call.client = 1, call.seen = (1ull << 40) + 1;
    WANT(EP_STAMP_FULL, ep_propose_get(&replica, &call, key, 1));
    call.seen = 0;
    /* only the two others are spared; a number that isn't named is ignored */
    for (call.has_spared = 1, call.spared = 3; call.spared; call.spared++)
        WANT(EP_OUT_OF_RANGE, ep_propose_get(&replica, &call, key, 1));
    WANT(EP_OUT_OF_RANGE, ep_propose_get(&replica, &call, key, 1));
    call.has_spared = 0, call.spared = 255;
    WANT(EP_BAD_FRAME, ep_handle(&replica, key, 1));
    WANT(EP_OUT_OF_RANGE, ep_give_up(&replica, nowhere));
    WANT(EP_OUT_OF_RANGE, ep_recover(&replica, nowhere));
    WANT(EP_OUT_OF_RANGE, ep_execute(&replica, nowhere, &instance));
    WANT(EP_OUT_OF_RANGE, ep_leads(&replica, nowhere, &leading));
    WANT(EP_OUT_OF_RANGE, ep_next_open(&replica, nowhere, &instance));
    WANT(EP_OUT_OF_RANGE, ep_close(&replica, 4, &value));
    WANT(EP_OUT_OF_RANGE, ep_get(&replica, long_key, 256, &value));
    WANT(EP_OUT_OF_RANGE, ep_handled(&replica, 7, &count));
    WANT(77, (int)count);
    WANT(EP_NOT_ONE, ep_ask(&replica, (const uint8_t *)"\0\0\0\1\13x", 6));
    WANT(EP_NOT_ONE, ep_ask(&replica, (const uint8_t *)"\0\0\0\2\13", 5));
    WANT(EP_NOT_SEALED, ep_close(&replica, 3, &value));
    go_on(&replica);
    WANT(EP_NONE, ep_get(&replica, key, 1, &value));
    WANT(EP_DONE, ep_handled(&replica, 1, &count));
    WANT(0, (int)count);
    WANT(EP_DONE, ep_contents(&replica, &value));
    WANT(4, (int)value.len);
    contents = ep_read_contents(value);
    WANT(0, (int)contents.left + ep_next_pair(&contents, &pair));
    WANT(EP_NONE, ep_leads(&replica, here, &leading));
    WANT(EP_NONE, ep_next_open(&replica, (struct ep_instance){ 0, 0 }, &instance));

    /* none of it was taken; and what the core refuses */
    WANT(EP_DONE, ep_ready(&replica, &log, &is_anew));
    WANT(0, (int)log.len);
    WANT(EP_NOT_COMMITTED, ep_execute(&replica, here, &instance));
    if (instance.number != here.number || instance.replica != here.replica)
        puts("another instance is waited for"), wrong = 1;
    WANT(EP_NOT_LEADING, ep_give_up(&replica, here));
    WANT(EP_DONE, ep_propose_put(&replica, &call, key, 1, key, 1));
    WANT(EP_TOO_FEW_ANSWERS, ep_give_up(&replica, here));
    WANT(EP_DONE, ep_ready(&replica, &log, &is_anew));
    WANT(EP_DONE, ep_synced(&replica, log.len));
    WANT(EP_DONE, ep_leads(&replica, here, &leading));
    WANT(10, leading.phase * 10 + leading.answers);
    WANT(EP_DONE, ep_next_open(&replica, (struct ep_instance){ 0, 0 }, &instance));
    WANT(1, instance.number + instance.replica);
    WANT(EP_DONE, ep_answers(&replica, 0, 64, &value));
    read_whole(value);

    /* more is taken while the first is being written: it is lent next, and not told of before */
    call.request = 2;
    WANT(EP_DONE, ep_propose_put(&replica, &call, key, 1, key, 1));
    WANT(EP_NONE, ep_told(&replica, &value));
    WANT(EP_UNSYNCED, ep_prepare(&replica, 1, 0));
    WANT(EP_DONE, ep_ready(&replica, &log, &is_anew));
    WANT(EP_DONE, ep_prepare(&replica, 1, 0));
    WANT(EP_UNTOLD, ep_prepare(&replica, 1, 0));
    WANT(EP_UNSYNCED, ep_told(&replica, &value));
    call.request = 3;
    WANT(EP_DONE, ep_propose_put(&replica, &call, key, 1, key, 1));
    WANT(EP_DONE, ep_execute_all(&replica));
    size_t lent = log.len;
    WANT(EP_DONE, ep_ready(&replica, &log, &is_anew));
    WANT((int)lent, (int)log.len);
    WANT(EP_UNSYNCED, ep_get(&replica, key, 1, &value));
    WANT(EP_DONE, ep_synced(&replica, log.len));
    WANT(EP_UNSYNCED, ep_answers(&replica, 1, 0, &value));
    WANT(EP_UNTOLD, ep_prepare(&replica, 1, 0));
    WANT(EP_DONE, ep_told(&replica, &value));
    WANT(2, value.at[8]);
    WANT(EP_NONE, ep_told(&replica, &value));
    WANT(EP_DONE, ep_ready(&replica, &log, &is_anew));
    WANT(EP_DONE, ep_synced(&replica, log.len));
    WANT(EP_DONE, ep_answers(&replica, 2, 0, &value));
    WANT(3, value.at[8]);
    read_nothing(&replica);

    /* audits */
    char said[64];
    WANT(EP_BAD_BUNDLE, ep_audit(key, 1, (uint8_t *)said, sizeof said, &len));
    if (len != strlen("bundle refused E12 at byte 0\n") || memcmp(said, "bundle refused E12 at byte 0\n", len))
        puts("another line says why bytes are no bundle"), wrong = 1;
    WANT(EP_TOO_SHORT, ep_audit(key, 1, none, sizeof none, &len));
    WANT(EP_DONE, ep_free(&replica));
    read_told();
    wait_no_longer();
    if (!wrong)
        puts("each mistake is a status");
    return wrong;
}

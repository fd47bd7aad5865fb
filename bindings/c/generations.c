/* Three replicas in one process that go through three generations without a stop, and come back: ./generations

   What a disk would have of each is in memory here, in its order: the reference, then the log that the next generation begins, then (a mark, and) that it is
   synced; and the file that it opens with, in pieces, when there is time. At the end each replica is opened again: by the first generation's file and all
   logs, and by the last file that was written and the logs since. A program of yours has one replica, and a disk. */
#include "epaxos.h"
#include "epaxos_answers.h"

#include <stdarg.h>
#include <stdio.h>
#include <stdlib.h>
#include <string.h>

enum { REPLICAS = 3, GENERATIONS = 3, PUTS = 20, KEYS = 5, REFERENCE = 82, DIGEST = 32 };

/* Says what is wrong, and ends the program. */
static void stop(const char *words, ...)
{
    va_list more;
    va_start(more, words);
    vfprintf(stderr, words, more);
    va_end(more);
    fputc('\n', stderr);
    exit(1);
}

static void check(const char *call, uint8_t status, uint8_t wanted)
{
    if (status != wanted)
        stop("%s answers %s, and not %s", call, ep_status_name(status), ep_status_name(wanted));
}

#define WANT(wanted, call) check(#call, call, wanted)
#define DO(call) WANT(EP_DONE, call)

/* ---- What is on a disk ---- */

struct file {
    uint8_t *bytes;
    size_t len;
};

static void append(struct file *file, struct ep_bytes bytes)
{
    if (!bytes.len)
        return;
    if (!(file->bytes = realloc(file->bytes, file->len + bytes.len)))
        stop("out of memory");
    memcpy(file->bytes + file->len, bytes.at, bytes.len);
    file->len += bytes.len;
}

static struct ep_bytes all(struct file file)
{
    return (struct ep_bytes){ file.bytes ? file.bytes : (const uint8_t *)"", file.len };
}

static int is_same(struct file one, struct file other)
{
    return one.len == other.len && (!one.len || !memcmp(one.bytes, other.bytes, one.len));
}

/* ---- A replica ---- */

struct node {
    struct ep_replica replica;
    uint32_t told; /* how many entries were reported */
    int is_sealed;
    /* of each generation: its log, the reference that it was begun by, and the file that it opens with */
    struct file logs[GENERATIONS + 2], references[GENERATIONS + 2], openings[GENERATIONS + 2];
};

static struct node nodes[REPLICAS];
static int generation = 1;

/* Frames on their way. */
static struct frame { uint8_t to; size_t len; uint8_t *bytes; } *frames;
static size_t sent;

static void send_frame(struct ep_frame frame)
{
    struct file copy = { NULL, 0 };
    append(&copy, frame.bytes);
    if (!(frames = realloc(frames, (sent + 1) * sizeof *frames)))
        stop("out of memory");
    frames[sent++] = (struct frame){ frame.to, copy.len, copy.bytes };
}

/* The log first, and then what it tells. */
static void turn(struct node *node)
{
    struct ep_bytes log, answers;
    struct ep_report report;
    struct ep_frame frame;
    uint8_t is_anew;
    DO(ep_ready(&node->replica, &log, &is_anew));
    if (is_anew)
        free(node->logs[generation].bytes), node->logs[generation] = (struct file){ NULL, 0 };
    append(&node->logs[generation], log);
    DO(ep_synced(&node->replica, log.len));
    DO(ep_answers(&node->replica, node->told, 0, &answers));
    if (!ep_read_report(answers, &report))
        stop("an answer is cut short");
    node->told = report.entries, node->is_sealed = report.is_sealed;
    while (ep_next_frame(&report, &frame))
        send_frame(frame);
}

/* Executes what is ready and hands over what is sent, until nothing is on its way. */
static void settle(void)
{
    do {
        struct frame *given = frames;
        size_t count = sent;
        frames = NULL, sent = 0;
        for (size_t at = 0; at < count; at++) {
            DO(ep_handle(&nodes[given[at].to].replica, given[at].bytes, given[at].len));
            free(given[at].bytes);
        }
        free(given);
        for (int me = 0; me < REPLICAS; me++) {
            DO(ep_execute_all(&nodes[me].replica));
            turn(&nodes[me]);
        }
    } while (sent);
}

/* Each replica's client puts values, and one seals the generation. */
static void play(void)
{
    for (uint32_t request = 1; request <= PUTS; request++) {
        for (uint32_t me = 0; me < REPLICAS; me++) {
            char key[16], value[32];
            struct ep_call call = { .client = (uint32_t)(REPLICAS * generation) + me, .request = request };
            int keys = snprintf(key, sizeof key, "%u", request % KEYS), values = snprintf(value, sizeof value, "%u.%u", call.client, request);
            DO(ep_propose_put(&nodes[me].replica, &call, (uint8_t *)key, (size_t)keys, (uint8_t *)value, (size_t)values));
        }
        settle();
    }
    struct ep_call call = { .client = 1, .request = (uint32_t)generation };
    DO(ep_propose_seal(&nodes[0].replica, &call, (const uint8_t *)"next", 4));
    settle();
}

/* Takes all pieces: the file that the generation opens with. */
static struct file written(struct ep_checkpoint *checkpoint, size_t most)
{
    struct file file = { NULL, 0 };
    struct ep_bytes piece;
    uint8_t status;
    DO(ep_checkpoint_rest(checkpoint));
    /* (nothing is left any more) */
    DO(ep_checkpoint_rest(checkpoint));
    while ((status = ep_checkpoint_next(checkpoint, most, &piece)) == EP_DONE)
        append(&file, piece);
    check("ep_checkpoint_next", status, EP_NONE);
    DO(ep_checkpoint_free(checkpoint));
    return file;
}

/* Goes on in the next generation; its file is the one that ep_close tells. */
static void next(struct node *node, uint8_t me)
{
    struct ep_checkpoint checkpoint = EP_CLOSED, begun = EP_CLOSED;
    struct ep_bytes told;
    struct ep_place place = { 0, 0 };
    struct file closing = { NULL, 0 }, *log = &node->logs[generation];
    uint8_t sum[DIGEST], reference[REFERENCE];
    size_t len;
    if (!node->is_sealed)
        stop("no seal was executed");
    DO(ep_close(&node->replica, REPLICAS, &told));
    append(&closing, told);
    DO(ep_sum(log->bytes, log->len, sum, sizeof sum, &len));
    struct ep_closed_log closed = { { sum, len }, log->len, (uint32_t)generation + 1, REPLICAS };
    DO(ep_reference(&closed, reference, sizeof reference, &len));
    append(&node->references[generation + 1], (struct ep_bytes){ reference, len });
    struct ep_succession succession = { { reference + len - DIGEST, DIGEST }, EP_EMPTY, REPLICAS, me, 1 };
    DO(ep_succeed(&node->replica, &checkpoint, &succession, &place));
    /* it is new there: its log comes first, and no seal was executed */
    WANT(EP_LENT, ep_advance(&node->replica));
    WANT(EP_UNSYNCED, ep_succeed(&node->replica, &begun, &succession, &place));
    WANT(EP_HAS_CHECKPOINT, ep_succeed(&node->replica, &checkpoint, &succession, &place));
    node->openings[generation + 1] = written(&checkpoint, 100);
    if (!is_same(closing, node->openings[generation + 1]))
        stop("the pieces aren't the file that ep_close tells");
    WANT(EP_NO_CHECKPOINT, ep_checkpoint_next(&checkpoint, 100, &told));
    free(closing.bytes);
    node->told = 0;
}

/* The replica of the last generation, by the file of this one and the logs from there on, and whether it lends the log and has the map that it had. */
static void start(const struct node *node, uint8_t me, int first)
{
    struct ep_replica replica = EP_CLOSED, was = node->replica;
    struct ep_bytes lent, opening = all(node->openings[first]), log = all(node->logs[first]);
    struct ep_place place = { 0, 0 };
    struct file map = { NULL, 0 }, again = { NULL, 0 };
    uint8_t is_anew;
    if (first == 1) {
        struct ep_setup setup = { opening, log, REPLICAS, me, 0 };
        DO(ep_open(&replica, &setup, &place));
    } else {
        /* (its log names the reference; that this stood for the file is what a binding says on a disk) */
        struct ep_succession bound = { { node->references[first].bytes + REFERENCE - DIGEST, DIGEST }, log, REPLICAS, me, 0 };
        DO(ep_open_bound(&replica, opening.at, opening.len, &bound, &place));
    }
    for (int number = first; number < generation; number++) {
        struct ep_checkpoint checkpoint = EP_CLOSED;
        struct ep_succession succession = { { node->references[number + 1].bytes + REFERENCE - DIGEST, DIGEST }, all(node->logs[number + 1]), REPLICAS, me, 0 };
        DO(ep_synced(&replica, node->logs[number].len));
        DO(ep_succeed(&replica, &checkpoint, &succession, &place));
        DO(ep_checkpoint_free(&checkpoint));
    }
    DO(ep_ready(&replica, &lent, &is_anew));
    if (lent.len != node->logs[generation].len || memcmp(lent.at, node->logs[generation].bytes, lent.len))
        stop("a start lends another log");
    DO(ep_synced(&replica, lent.len));
    DO(ep_contents(&replica, &lent));
    append(&again, lent);
    DO(ep_contents(&was, &lent));
    append(&map, lent);
    if (!is_same(map, again))
        stop("a start has another map");
    free(map.bytes), free(again.bytes);
    ep_free(&replica);
}

/* Starts all of them, and lets go of all that they have. */
static void finish(void)
{
    for (uint8_t me = 0; me < REPLICAS; me++) {
        for (int first = 1; first <= generation; first++)
            start(&nodes[me], me, first);
        ep_free(&nodes[me].replica);
        for (int number = 1; number <= generation; number++)
            free(nodes[me].logs[number].bytes), free(nodes[me].references[number].bytes), free(nodes[me].openings[number].bytes);
    }
}

int main(void)
{
    if (ep_version() != EP_VERSION)
        stop("the library is of another version than the header");
    for (uint8_t me = 0; me < REPLICAS; me++) {
        uint8_t first[64];
        struct ep_bytes opening = { first, 0 };
        struct ep_place place = { 0, 0 };
        DO(ep_first_opening(REPLICAS, first, sizeof first, &opening.len));
        append(&nodes[me].openings[1], opening);
        struct ep_setup setup = { opening, EP_EMPTY, REPLICAS, me, 1 };
        DO(ep_open(&nodes[me].replica, &setup, &place));
        turn(&nodes[me]);
    }
    while (generation <= GENERATIONS) {
        play();
        for (uint8_t me = 0; me < REPLICAS; me++)
            next(&nodes[me], me);
        generation++;
        for (int me = 0; me < REPLICAS; me++)
            turn(&nodes[me]);
    }
    finish();
    printf("generation %d, and each start is in it\n", generation);
    return 0;
}

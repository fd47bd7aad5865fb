/* Three replicas in one process, with a file each for a log: ./example FOLDER

   Begins them in the folder, which has to be there, or goes on with those that are in it. Each of three clients puts 20 values, at a replica of its own; the
   keys are the same three for all. After each round one more client reads, at each replica in turn. Then the maps are
   compared, with one another and with what a command over all three keys tells. A program of yours has one replica, and
   sends frames to others. What the generation opened with is kept beside the logs, for an audit. */
#include "epaxos.h"
#include "epaxos_answers.h"

#include <fcntl.h>
#include <stdarg.h>
#include <stdio.h>
#include <stdlib.h>
#include <string.h>
#include <unistd.h>

enum { REPLICAS = 3, PUTS = 20, KEYS = 3 };

/* Says what is wrong, and ends the program. */
static void stop(const char *words, ...)
{
    va_list more;
    va_start(more, words);
    vfprintf(stderr, words, more);
    va_end(more);
    fputc('\n', stderr);
    exit(1);
}

static void check(const char *call, uint8_t status)
{
    if (status != EP_DONE)
        stop("%s answers %s", call, ep_status_name(status));
}

/* ---- A replica and its file ---- */

struct node {
    struct ep_replica replica;
    char path[4096];
    uint32_t told; /* how many entries were reported */
    uint64_t seen; /* the greatest stamp that its client was told */
    int answered;  /* how many answers its client got */
    char values[KEYS][32]; /* what its client's command over all keys was told */
    char mirrored[KEYS][32]; /* the map, by the commands that it executed */
};

static struct node nodes[REPLICAS];

/* Frames on their way. */
static struct frame { uint8_t to; size_t len; uint8_t *bytes; } *frames;
static size_t sent, room;

static void send_frame(uint8_t to, const uint8_t *bytes, size_t len)
{
    if (sent == room) {
        room = room ? 2 * room : 64;
        if (!(frames = realloc(frames, room * sizeof *frames)))
            stop("out of memory");
    }
    uint8_t *copy = malloc(len);
    if (!copy)
        stop("out of memory");
    frames[sent++] = (struct frame){ to, len, memcpy(copy, bytes, len) };
}

/* Puts the bytes on the disk: behind what is there, or in the place of all, at once. */
static void keep(const struct node *node, struct ep_bytes log, int is_anew)
{
    char path[sizeof node->path + 8], folder[sizeof node->path];
    snprintf(path, sizeof path, "%s%s", node->path, is_anew ? ".new" : "");
    int file = open(path, O_WRONLY | O_CREAT | (is_anew ? O_TRUNC : O_APPEND), 0666);
    if (file < 0)
        stop("%s can't be opened", path);
    for (size_t at = 0; at < log.len;) {
        ssize_t count = write(file, log.at + at, log.len - at);
        if (count < 0)
            stop("%s can't be written", path);
        at += (size_t)count;
    }
    if (fsync(file) || close(file))
        stop("%s can't be written", path);
    if (!is_anew)
        return;
    if (rename(path, node->path))
        stop("%s can't be renamed", path);
    strcpy(folder, node->path);
    *strrchr(folder, '/') = 0;
    file = open(*folder ? folder : "/", O_RDONLY);
    if (file < 0 || fsync(file) || close(file))
        stop("%s can't be written", folder);
}

/* Notes what a command over all keys was told. */
static void read_values(struct node *node, struct ep_receipt *receipt)
{
    struct ep_told_value told;
    for (int place = 0; place < KEYS && ep_next_told(receipt, &told); place++) {
        struct ep_bytes had = told.value;
        snprintf(node->values[place], sizeof node->values[place], "%.*s", (int)had.len, (const char *)had.at);
    }
}

/* Does again what the replica executed, to a map beside it: each put has to be answered what that has. */
static void mirror(struct node *node, const struct ep_followed *one)
{
    enum { PUT = 3 };
    if (one->op != PUT)
        return;
    char had[32], *here = node->mirrored[one->key.at[one->key.len - 1] - '0'];
    snprintf(had, sizeof had, "%.*s", (int)one->value.len, (const char *)one->value.at);
    if (strcmp(had, here))
        stop("a put is answered %s, and not %s", had, here);
    snprintf(here, sizeof had, "%.*s", (int)one->body.len, (const char *)one->body.at);
}

/* The instances that were executed are those of the report, in its order. */
static void follow(struct node *node, struct ep_bytes answers, struct ep_report *report)
{
    struct ep_reader followed;
    struct ep_followed one;
    struct ep_instance instance;
    if (!ep_read_followed(answers, &followed))
        stop("what was done isn't told");
    while (ep_next_followed(&followed, &one)) {
        if (!one.is_executed)
            continue;
        if (!ep_next_executed(report, &instance) || instance.number != one.instance.number
            || instance.replica != one.instance.replica)
            stop("another instance was executed");
        mirror(node, &one);
    }
    if (followed.is_cut || ep_next_executed(report, &instance))
        stop("what was done is cut short");
}

/* Sends the frames that are told, and counts the answers that clients got. */
static void read_ready(struct node *node, struct ep_bytes answers)
{
    struct ep_report report;
    struct ep_frame frame;
    struct ep_receipt receipt;
    if (!ep_read_report(answers, &report))
        stop("an answer is cut short");
    node->told = report.entries;
    while (ep_next_frame(&report, &frame))
        send_frame(frame.to, frame.bytes.at, frame.bytes.len);
    while (ep_next_receipt(&report, &receipt)) {
        node->seen = receipt.stamp > node->seen ? receipt.stamp : node->seen;
        node->answered++;
        read_values(node, &receipt);
    }
    follow(node, answers, &report);
}

/* One round: the log first, and then what it tells. */
static void turn(struct node *node)
{
    struct ep_bytes log, answers;
    uint8_t is_anew;
    check("ep_ready", ep_ready(&node->replica, &log, &is_anew));
    if (log.len)
        keep(node, log, is_anew);
    check("ep_synced", ep_synced(&node->replica, log.len));
    check("ep_answers_all", ep_answers_all(&node->replica, node->told, 0, &answers));
    read_ready(node, answers);
}

/* All bytes of a file; none where there is none. */
static struct ep_bytes read_file(const char *path)
{
    struct ep_bytes bytes = EP_EMPTY;
    FILE *file = fopen(path, "rb");
    if (!file)
        return bytes;
    if (fseek(file, 0, SEEK_END) || (bytes.len = (size_t)ftell(file)) > 1u << 30)
        stop("%s can't be read", path);
    uint8_t *read = malloc(bytes.len + 1);
    rewind(file);
    if (!read || fread(read, 1, bytes.len, file) != bytes.len)
        stop("%s can't be read", path);
    fclose(file);
    bytes.at = read;
    return bytes;
}

/* At the first start alone a replica is new: one whose log is lost must not come back. */
static void open_node(struct node *node, const char *folder, uint8_t me, struct ep_bytes opening, int is_new)
{
    snprintf(node->path, sizeof node->path, "%s/%d.log", folder, me);
    struct ep_bytes log = read_file(node->path);
    struct ep_setup setup = { .opening = opening, .log = log, .replicas = REPLICAS, .replica = me, .is_new = (uint8_t)is_new };
    struct ep_place place = { 0, 0 };
    uint8_t status = ep_open(&node->replica, &setup, &place);
    if (status != EP_DONE)
        stop("%s: %s, at %llu", node->path, ep_status_name(status), (unsigned long long)place.at);
    if (ep_cut(&node->replica, &place) == EP_DONE)
        fprintf(stderr, "%s: cut at byte %llu\n", node->path, (unsigned long long)place.at);
    if (!is_new)
        free((void *)log.at);
    turn(node);
}

/* Executes what is ready and hands over what is sent, until nothing is on its way. */
static void settle(void)
{
    do {
        struct frame *given = frames;
        size_t count = sent;
        frames = NULL, sent = room = 0;
        for (size_t at = 0; at < count; at++) {
            check("ep_handle", ep_handle(&nodes[given[at].to].replica, given[at].bytes, given[at].len));
            free(given[at].bytes);
        }
        free(given);
        for (int me = 0; me < REPLICAS; me++) {
            check("ep_execute_all", ep_execute_all(&nodes[me].replica));
            turn(&nodes[me]);
        }
    } while (sent);
}

/* Asks a replica all of whose entries are on the disk: its answer. */
static struct ep_bytes asked(struct node *node, const uint8_t *request, size_t len)
{
    struct ep_bytes answers, answer;
    check("ep_ask", ep_ask(&node->replica, request, len));
    check("ep_answers", ep_answers(&node->replica, node->told, 0, &answers));
    if (!ep_next_answer(&answers, &answer))
        stop("an answer is cut short");
    return answer;
}

/* A client's read at a replica, which writes nothing: once the client has asked, this one and another tell what
   interferes. What the key has lies in the reader. */
static struct ep_bytes read_key(int me, const uint8_t *key, size_t len)
{
    uint8_t request[EP_READ_SIZE(255, 256)];
    struct ep_instance found[256];
    struct ep_items instances;
    struct ep_reading reading;
    size_t count = 0, size = ep_write_interfering(request, sizeof request, key, len);
    for (int look = 0; look < 2; look++) {
        if (!ep_read_interfering(asked(&nodes[(me + look) % REPLICAS], request, size), &instances))
            stop("what interferes isn't told");
        /* (what both tell may be named twice) */
        while (count < 256 && ep_next_instance(&instances, &found[count]))
            count++;
    }
    size = ep_write_read(request, sizeof request, key, len, found, count);
    if (!ep_read_reading(asked(&nodes[me], request, size), &reading))
        stop("what is read isn't told");
    /* (where frames are under way a host asks again once the instance is executed; here all are handed over) */
    if (count == 256 || reading.reply == EP_READ_WAITS)
        stop("too much is found, or %d.%d isn't executed", reading.instance.replica, reading.instance.number);
    return reading.value;
}

/* How often the program was started here before: each start has clients' numbers of its own, since a number and a request name one command over all starts. */
static uint32_t starts(const char *folder)
{
    char path[4096];
    unsigned count = 0;
    snprintf(path, sizeof path, "%s/starts", folder);
    FILE *file = fopen(path, "r");
    if (file) {
        if (fscanf(file, "%u", &count) != 1)
            stop("%s has no number", path);
        fclose(file);
    }
    file = fopen(path, "w");
    if (!file || fprintf(file, "%u", count + 1) < 0 || fclose(file))
        stop("%s can't be written", path);
    return count;
}

static void write_opening(const char *folder, struct ep_bytes opening)
{
    char path[4096];
    snprintf(path, sizeof path, "%s/1.opening", folder);
    FILE *file = fopen(path, "wb");
    if (!file || fwrite(opening.at, 1, opening.len, file) != opening.len || fclose(file))
        stop("%s can't be written", path);
}

/* Each replica is read to have one of the values that were put in this round, the same one. */
static void check_reads(uint32_t request)
{
    char key[16], first[32] = "";
    int keys = snprintf(key, sizeof key, "key %u", request % KEYS);
    for (int me = 0; me < REPLICAS; me++) {
        char value[32];
        struct ep_bytes read = read_key(me, (uint8_t *)key, (size_t)keys);
        snprintf(value, sizeof value, "%.*s", (int)read.len, (const char *)read.at);
        if (!me)
            strcpy(first, value);
        if (strcmp(first, value) || !strchr(value, '.') || strtoul(strchr(value, '.') + 1, NULL, 10) != request)
            stop("%s is read to have %s, and not %s", key, value, first);
    }
}

/* A client asks for all keys at once: so what it is told is of one moment. */
static void ask_for_all(struct node *node, uint32_t client)
{
    char keys[KEYS][16];
    uint8_t body[256];
    struct ep_tx_item items[KEYS];
    struct ep_call call = { .seen = node->seen, .client = client, .request = PUTS + 1 };
    for (int place = 0; place < KEYS; place++) {
        size_t len = (size_t)snprintf(keys[place], sizeof keys[place], "key %d", place);
        items[place] = (struct ep_tx_item){ .key = { (uint8_t *)keys[place], len }, .says = EP_TX_TELL };
    }
    check("ep_propose_tx", ep_propose_tx(&node->replica, &call, body, ep_write_tx(body, sizeof body, items, KEYS)));
    settle();
}

int main(int count, char **words)
{
    if (count != 2)
        stop("usage: %s FOLDER", words[0]);
    if (ep_version() != EP_VERSION)
        stop("the library is of another version than the header");
    uint8_t first[64];
    struct ep_bytes opening = { first, 0 };
    check("ep_first_opening", ep_first_opening(REPLICAS, first, sizeof first, &opening.len));
    write_opening(words[1], opening);
    uint32_t client = REPLICAS * starts(words[1]) + 1;
    for (uint8_t me = 0; me < REPLICAS; me++)
        open_node(&nodes[me], words[1], me, opening, client == 1);
    settle();
    for (uint32_t request = 1; request <= PUTS; request++) {
        for (uint8_t me = 0; me < REPLICAS; me++) {
            char key[16], value[32];
            int keys = snprintf(key, sizeof key, "key %u", request % KEYS), values = snprintf(value, sizeof value, "%u.%u", client + me, request);
            struct ep_call call = { .seen = nodes[me].seen, .client = client + me, .request = request };
            check("ep_propose_put", ep_propose_put(&nodes[me].replica, &call, (uint8_t *)key, (size_t)keys, (uint8_t *)value, (size_t)values));
        }
        settle();
        check_reads(request);
    }
    ask_for_all(&nodes[0], client);
    for (int place = 0; place < KEYS; place++) {
        char key[16], values[REPLICAS][32];
        int keys = snprintf(key, sizeof key, "key %d", place);
        for (int me = 0; me < REPLICAS; me++) {
            struct ep_bytes value;
            check("ep_get", ep_get(&nodes[me].replica, (uint8_t *)key, (size_t)keys, &value));
            snprintf(values[me], sizeof values[me], "%.*s", (int)value.len, (const char *)value.at);
        }
        if (strcmp(values[0], values[1]) || strcmp(values[1], values[2]) || strcmp(values[0], nodes[0].values[place]))
            stop("the maps differ, or %s was told otherwise", key);
        printf("%s %s\n", key, values[0]);
    }
    for (int me = 0; me < REPLICAS; me++) {
        if (nodes[me].answered < PUTS)
            stop("a client lacks an answer");
        ep_free(&nodes[me].replica);
    }
    printf("three replicas agree\n");
    return 0;
}

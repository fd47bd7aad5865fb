/* Reads what ep_answers and ep_contents lend, and writes commands over many keys and requests of reads
 * (docs/FORMATS.md, sections 1 and 10).
 * A header alone, for C11 and C++: it copies nothing that is lent, and reads no byte that isn't there.
 *
 *     struct ep_report report;
 *     struct ep_frame frame;
 *     struct ep_receipt receipt;
 *     if (!ep_read_report(answers, &report)) ..
 *     while (ep_next_frame(&report, &frame)) ..             send frame.bytes to frame.to
 *     while (ep_next_receipt(&report, &receipt)) ..         answer receipt.client
 *     told = report.entries;
 *
 * A command over many keys is proposed by its body, which is written of what it says of each of them, in rising order
 * of keys. Its receipt has what those keys had that it tells:
 *
 *     len = ep_write_tx(body, sizeof body, items, count);                    ep_propose_tx
 *     if (receipt.reply == EP_REPLY_DONE) ..                                 or EP_REPLY_UNDONE: nothing was written
 *     while (ep_next_told(&receipt, &value)) ..
 *
 * A client's read that writes nothing (docs/EMBEDDING.md, section 18) begins at F + 1 replicas, which are asked after
 * the client asked. What they tell, all together, is what was found:
 *
 *     len = ep_write_interfering(request, sizeof request, key, key_len);     ep_ask, and, once synced, ep_answers
 *     if (!ep_next_answer(&answers, &answer) || !ep_read_interfering(answer, &instances)) ..
 *     while (ep_next_instance(&instances, &instance)) ..
 *
 * Then the reader, mostly one of them, is asked, once more while reading.reply is EP_READ_WAITS:
 *
 *     len = ep_write_read(request, sizeof request, key, key_len, found, count);
 *     if (!ep_next_answer(&answers, &answer) || !ep_read_reading(answer, &reading)) ..
 *
 * What is read lies in the bytes that were lent, and stays as long as they do: until the next call with the replica. Each list may be read at any time, once.
 */
#ifndef EPAXOS_ANSWERS_H
#define EPAXOS_ANSWERS_H

#include "epaxos.h"
#include <string.h>

#ifdef __cplusplus
extern "C" {
#endif

/* What is left to read of some bytes. */
struct ep_reader {
    const uint8_t *at;
    size_t left;
    /* 1 once more was asked for than was left. From then on nothing is left, and numbers are 0. */
    uint8_t is_cut;
};

/* The items of a list that are left. */
struct ep_items {
    struct ep_reader reader;
    uint32_t left;
};

/* What there is to tell: what ep_answers lends last. */
struct ep_report {
    /* How many entries there are: hand it in as `told` the next time. */
    uint32_t entries;
    /* 1: a seal was executed. */
    uint8_t is_sealed;
    struct ep_items frames;
    struct ep_items receipts;
    struct ep_items committed;
    struct ep_items executed;
    struct ep_items open;
};

/* A frame that is to be sent. */
struct ep_frame {
    /* The replica to which it goes. */
    uint8_t to;
    struct ep_bytes bytes;
};

/* What a command was answered. */
enum {
    /* Its first key had no value before it. */
    EP_REPLY_ABSENT = 0,
    /* Its first key had this value before it. */
    EP_REPLY_PRESENT = 1,
    /* It was not done, and never will be: a no-op took its instance. */
    EP_REPLY_LOST = 2,
    /* It was not done, and never will be in this generation, which a seal has ended: ask in the next one. */
    EP_REPLY_CLOSED = 3,
    /* It is for a machine of your own, which does it now. */
    EP_REPLY_ORDERED = 4,
    /* It is over many keys, and was done: all that it requires was there. */
    EP_REPLY_DONE = 5,
    /* It is over many keys, and has written nothing: not all that it requires was there. This is final, too. */
    EP_REPLY_UNDONE = 6
};

/* What a client may be told. */
struct ep_receipt {
    uint32_t client;
    uint32_t request;
    /* The instance that has the command. */
    struct ep_instance instance;
    /* The stamp that the client had seen, as it was proposed. */
    uint64_t seen;
    /* The replica that proposed it, and its entry that executed it. */
    uint8_t replica;
    uint32_t entry;
    /* Hand it in as `seen` with what the client proposes next. */
    uint64_t stamp;
    /* EP_REPLY_ABSENT .. EP_REPLY_UNDONE. */
    uint8_t reply;
    /* The value of EP_REPLY_PRESENT; else of no bytes. */
    struct ep_bytes value;
    /* What each key had that the command tells, in rising order of keys: of EP_REPLY_DONE and EP_REPLY_UNDONE. */
    struct ep_items told;
    /* All of the receipt, as `epaxos collect` reads it of a file. */
    struct ep_bytes bytes;
};

/* What an entry did: what ep_answers_all lends last. */
struct ep_followed {
    /* 1: it executed an instance, whoever proposed its command; 0: its proposal took the instance. */
    uint8_t is_executed;
    struct ep_instance instance;
    /* Of a proposal: whose it is. */
    uint32_t client;
    uint32_t request;
    /* Of what was executed: the command's op, 1 if there is none, and its parts. */
    uint8_t op;
    struct ep_bytes key;
    struct ep_bytes second_key;
    struct ep_bytes body;
    /* What it was answered, as in a receipt. */
    uint8_t reply;
    struct ep_bytes value;
    struct ep_items told;
};

/* What a key had that a command over many keys tells. */
struct ep_told_value {
    /* 0: it had no value. */
    uint8_t is_there;
    /* The value; else of no bytes. */
    struct ep_bytes value;
};

/* What a command over many keys says of one of them. */
struct ep_tx_item {
    struct ep_bytes key;
    /* The sum of what it says, of EP_TX_TELL .. EP_TX_REQUIRE_NONE. */
    uint8_t says;
    /* The value of EP_TX_REQUIRE, and that of EP_TX_PUT; else ignored. */
    struct ep_bytes required;
    struct ep_bytes put;
};

enum {
    /* The answer tells what the key had before. */
    EP_TX_TELL = 1,
    /* The key must have this value, or nothing is written. */
    EP_TX_REQUIRE = 2,
    /* It gets this value. */
    EP_TX_PUT = 4,
    /* Its value is taken away. Not with EP_TX_PUT. */
    EP_TX_DEL = 8,
    /* It must have no value, or nothing is written. Not with EP_TX_REQUIRE. */
    EP_TX_REQUIRE_NONE = 16,
    /* So many keys may be named, so many told, and a body has at most so many bytes. */
    EP_TX_MOST_KEYS = 1024,
    EP_TX_MOST_TOLD = 16,
    EP_TX_LONGEST = 131080
};

/* An instance that isn't committed here. */
struct ep_open_instance {
    struct ep_instance instance;
    /* The first entry that is about it; 0: it is known as a dependency of others alone. */
    uint32_t since;
    /* How far it is led here; of phase 0: it isn't. */
    struct ep_leading leading;
};

/* What a read that writes nothing is answered (request 17). */
struct ep_reading {
    /* EP_REPLY_ABSENT; EP_REPLY_PRESENT; EP_REPLY_CLOSED: ask anew in the next generation, the other replicas too;
       EP_READ_WAITS: ask again, with what was found, once the instance is executed. */
    uint8_t reply;
    /* The value of EP_REPLY_PRESENT; else of no bytes. */
    struct ep_bytes value;
    /* The instance of EP_READ_WAITS: the least of those that were found and isn't executed. */
    struct ep_instance instance;
};

enum {
    /* In the place of EP_REPLY_LOST, which no read is. */
    EP_READ_WAITS = 2,
    /* A request for what interferes has at most so many bytes. */
    EP_MOST_INTERFERING = 260,
    /* So many instances may be named for a read. */
    EP_MOST_FOUND = 63000
};

/* How many bytes a request for a read has, where the key has `key` of them, and so many instances were found. */
#define EP_READ_SIZE(key, found) (10 + (size_t)(key) + 3 * (size_t)(found))

/* A key, and what it has. */
struct ep_key_value {
    struct ep_bytes key;
    struct ep_bytes value;
};

/* ---- Bytes ---- */

static inline struct ep_reader ep_reader_of(struct ep_bytes bytes)
{
    struct ep_reader reader = { bytes.at, bytes.len, 0 };
    return reader;
}

/* So many bytes; none where there aren't so many. */
static inline struct ep_bytes ep_read_bytes(struct ep_reader *reader, size_t count)
{
    struct ep_bytes bytes = { reader->at, count };
    if (reader->left < count) {
        reader->is_cut = 1;
        bytes.len = reader->left = 0;
        return bytes;
    }
    reader->at += count;
    reader->left -= count;
    return bytes;
}

/* A number of so many bytes, 1 to 8, the highest first. */
static inline uint64_t ep_read_number(struct ep_reader *reader, size_t count)
{
    struct ep_bytes bytes = ep_read_bytes(reader, count);
    uint64_t number = 0;
    for (size_t at = 0; at < bytes.len; at++)
        number = number << 8 | bytes.at[at];
    return number;
}

/* A list begins here: its number, of so many bytes, and its items, of which each has at least one byte. */
static inline struct ep_items ep_begin_items(struct ep_reader *reader, size_t count)
{
    struct ep_items items;
    items.left = (uint32_t)ep_read_number(reader, count);
    if (items.left > reader->left)
        ep_read_bytes(reader, items.left);
    items.reader = *reader;
    return items;
}

/* 1: there is one more item, which counts as read. */
static inline int ep_take_item(struct ep_items *items)
{
    return items->left > 0 && items->left--;
}

static inline struct ep_instance ep_read_instance(struct ep_reader *reader)
{
    struct ep_instance instance;
    instance.replica = (uint8_t)ep_read_number(reader, 1);
    instance.number = (uint16_t)ep_read_number(reader, 2);
    return instance;
}

static inline struct ep_frame ep_read_frame(struct ep_reader *reader)
{
    struct ep_frame frame;
    frame.to = (uint8_t)ep_read_number(reader, 1);
    frame.bytes = ep_read_bytes(reader, (size_t)ep_read_number(reader, 4));
    return frame;
}

static inline struct ep_told_value ep_read_told_value(struct ep_reader *reader)
{
    struct ep_told_value told;
    told.is_there = (uint8_t)ep_read_number(reader, 1);
    told.value = ep_read_bytes(reader, told.is_there ? (size_t)ep_read_number(reader, 4) : 0);
    return told;
}

/* What a command was answered: EP_REPLY_ABSENT .. EP_REPLY_UNDONE. */
static inline uint8_t ep_read_reply(struct ep_reader *reader, struct ep_bytes *value, struct ep_items *told)
{
    uint8_t reply = (uint8_t)ep_read_number(reader, 1);
    uint32_t left;
    *value = ep_read_bytes(reader, reply == EP_REPLY_PRESENT ? (size_t)ep_read_number(reader, 4) : 0);
    told->left = 0;
    told->reader = *reader;
    if (reply == EP_REPLY_DONE || reply == EP_REPLY_UNDONE)
        *told = ep_begin_items(reader, 2);
    for (left = told->left; left && !reader->is_cut; left--)
        ep_read_told_value(reader);
    return reply;
}

static inline struct ep_receipt ep_read_receipt(struct ep_reader *reader)
{
    struct ep_receipt receipt;
    receipt.bytes.at = reader->at;
    receipt.client = (uint32_t)ep_read_number(reader, 4);
    receipt.request = (uint32_t)ep_read_number(reader, 4);
    receipt.instance = ep_read_instance(reader);
    receipt.seen = ep_read_number(reader, 8);
    receipt.replica = (uint8_t)ep_read_number(reader, 1);
    receipt.entry = (uint32_t)ep_read_number(reader, 4);
    receipt.stamp = ep_read_number(reader, 8);
    receipt.reply = ep_read_reply(reader, &receipt.value, &receipt.told);
    receipt.bytes.len = (size_t)(reader->at - receipt.bytes.at);
    return receipt;
}

static inline struct ep_open_instance ep_read_open(struct ep_reader *reader)
{
    struct ep_open_instance open;
    open.instance = ep_read_instance(reader);
    open.since = (uint32_t)ep_read_number(reader, 4);
    open.leading.phase = (uint8_t)ep_read_number(reader, 1);
    open.leading.answers = (uint8_t)ep_read_number(reader, 1);
    return open;
}

/* ---- Lists ---- */

/* The next frame that is to be sent: 1, or 0 where there is none. */
static inline int ep_next_frame(struct ep_report *report, struct ep_frame *frame)
{
    return ep_take_item(&report->frames) && (*frame = ep_read_frame(&report->frames.reader), 1);
}

/* The next thing that a client may be told: 1, or 0 where there is none. */
static inline int ep_next_receipt(struct ep_report *report, struct ep_receipt *receipt)
{
    return ep_take_item(&report->receipts) && (*receipt = ep_read_receipt(&report->receipts.reader), 1);
}

/* What the next key had that the command tells: 1, or 0 where there is none. */
static inline int ep_next_told(struct ep_receipt *receipt, struct ep_told_value *told)
{
    return ep_take_item(&receipt->told) && (*told = ep_read_told_value(&receipt->told.reader), 1);
}

/* The next instance that got committed, own or another's: 1, or 0 where there is none. */
static inline int ep_next_committed(struct ep_report *report, struct ep_instance *instance)
{
    return ep_take_item(&report->committed) && (*instance = ep_read_instance(&report->committed.reader), 1);
}

/* The next instance that was executed, own or another's, in order: 1, or 0 where there is none. */
static inline int ep_next_executed(struct ep_report *report, struct ep_instance *instance)
{
    return ep_take_item(&report->executed) && (*instance = ep_read_instance(&report->executed.reader), 1);
}

/* The next one of the least instances that are open, as many as ep_answers was asked for: 1, or 0 where there is none. */
static inline int ep_next_open_instance(struct ep_report *report, struct ep_open_instance *open)
{
    return ep_take_item(&report->open) && (*open = ep_read_open(&report->open.reader), 1);
}

/* ---- What is lent ---- */

/* Takes the next answer from what ep_answers lends, its kind and its body: 1, or 0 where there is none, or none that is whole. */
static inline int ep_next_answer(struct ep_bytes *answers, struct ep_bytes *answer)
{
    struct ep_reader reader = ep_reader_of(*answers);
    *answer = ep_read_bytes(&reader, (size_t)ep_read_number(&reader, 4));
    answers->at = reader.at;
    answers->len = reader.left;
    return !reader.is_cut && answer->len > 0;
}

/* Begins to read which instances interfere with a read, the answer to request 16: 1; or 0 where it isn't that. */
static inline int ep_read_interfering(struct ep_bytes answer, struct ep_items *instances)
{
    struct ep_reader reader = ep_reader_of(answer);
    if (ep_read_number(&reader, 1) != 11)
        return 0;
    *instances = ep_begin_items(&reader, 4);
    ep_read_bytes(&reader, (size_t)3 * instances->left);
    return !reader.is_cut && !reader.left;
}

/* The next of these instances, in rising order: 1, or 0 where there is none. */
static inline int ep_next_instance(struct ep_items *instances, struct ep_instance *instance)
{
    return ep_take_item(instances) && (*instance = ep_read_instance(&instances->reader), 1);
}

/* Reads what a read is answered, the answer to request 17: 1; or 0 where the answer isn't that. */
static inline int ep_read_reading(struct ep_bytes answer, struct ep_reading *reading)
{
    struct ep_reader reader = ep_reader_of(answer);
    if (ep_read_number(&reader, 1) != 12)
        return 0;
    reading->reply = (uint8_t)ep_read_number(&reader, 1);
    reading->value = ep_read_bytes(&reader, reading->reply == EP_REPLY_PRESENT ? ep_read_number(&reader, 2) : 0);
    reading->instance.replica = 0;
    reading->instance.number = 0;
    if (reading->reply == EP_READ_WAITS)
        reading->instance = ep_read_instance(&reader);
    return reading->reply <= EP_REPLY_CLOSED && !reader.is_cut && !reader.left;
}

/* Reads the report, the last of what ep_answers lends: 1; or 0 where the bytes aren't that. */
static inline int ep_read_report(struct ep_bytes answers, struct ep_report *report)
{
    struct ep_bytes next, answer = EP_EMPTY;
    struct ep_reader reader;
    uint32_t left;
    while (answers.len) {
        if (!ep_next_answer(&answers, &next))
            return 0;
        if (next.at[0] != 13)
            answer = next;
    }
    reader = ep_reader_of(answer);
    if (ep_read_number(&reader, 1) != 9)
        return 0;
    report->entries = (uint32_t)ep_read_number(&reader, 4);
    report->is_sealed = (uint8_t)ep_read_number(&reader, 1);
    report->frames = ep_begin_items(&reader, 4);
    for (left = report->frames.left; left && !reader.is_cut; left--)
        ep_read_frame(&reader);
    report->receipts = ep_begin_items(&reader, 4);
    for (left = report->receipts.left; left && !reader.is_cut; left--)
        ep_read_receipt(&reader);
    report->committed = ep_begin_items(&reader, 4);
    ep_read_bytes(&reader, (size_t)3 * report->committed.left);
    report->executed = ep_begin_items(&reader, 4);
    ep_read_bytes(&reader, (size_t)3 * report->executed.left);
    report->open = ep_begin_items(&reader, 1);
    ep_read_bytes(&reader, (size_t)9 * report->open.left);
    return !reader.is_cut && !reader.left;
}

/* Begins to read what entries did, the last of what ep_answers_all lends: 1; or 0 where the bytes aren't that. */
static inline int ep_read_followed(struct ep_bytes answers, struct ep_reader *followed)
{
    struct ep_bytes answer = EP_EMPTY;
    while (answers.len)
        if (!ep_next_answer(&answers, &answer))
            return 0;
    *followed = ep_reader_of(answer);
    return ep_read_number(followed, 1) == 13;
}

/* What was done next: 1, or 0 where there is nothing, or it isn't whole. */
static inline int ep_next_followed(struct ep_reader *followed, struct ep_followed *one)
{
    size_t key, second_key;
    memset(one, 0, sizeof *one);
    if (!followed->left)
        return 0;
    one->is_executed = ep_read_number(followed, 1) == 2;
    if (!one->is_executed) {
        one->client = (uint32_t)ep_read_number(followed, 4);
        one->request = (uint32_t)ep_read_number(followed, 4);
    }
    one->instance = ep_read_instance(followed);
    if (one->is_executed) {
        one->op = (uint8_t)ep_read_number(followed, 1);
        key = (size_t)ep_read_number(followed, 1);
        second_key = (size_t)ep_read_number(followed, 1);
        one->body.len = (size_t)ep_read_number(followed, 4);
        one->key = ep_read_bytes(followed, key);
        one->second_key = ep_read_bytes(followed, second_key);
        one->body = ep_read_bytes(followed, one->body.len);
        one->reply = ep_read_reply(followed, &one->value, &one->told);
    }
    return !followed->is_cut;
}

/* Begins to read what ep_contents lends. */
static inline struct ep_items ep_read_contents(struct ep_bytes contents)
{
    struct ep_reader reader = ep_reader_of(contents);
    return ep_begin_items(&reader, 4);
}

/* The next key, and what it has: 1, or 0 where there is none, or none that is whole. */
static inline int ep_next_pair(struct ep_items *contents, struct ep_key_value *pair)
{
    size_t key, value;
    if (!ep_take_item(contents))
        return 0;
    key = (size_t)ep_read_number(&contents->reader, 1);
    value = (size_t)ep_read_number(&contents->reader, 4);
    pair->key = ep_read_bytes(&contents->reader, key);
    pair->value = ep_read_bytes(&contents->reader, value);
    return !contents->reader.is_cut;
}

/* ---- Requests of reads that write nothing ---- */

/* A number of so many bytes, the highest first: where it ends. */
static inline uint8_t *ep_write_number(uint8_t *out, uint64_t number, size_t count)
{
    for (size_t at = count; at > 0; number >>= 8)
        out[--at] = (uint8_t)number;
    return out + count;
}

/* A request's length and kind: where its body begins; or NULL where there is no room for it, or the key is none. */
static inline uint8_t *ep_begin_request(uint8_t *out, size_t out_len, size_t len, uint8_t kind, size_t key_len)
{
    if (key_len < 1 || key_len > 255 || out_len < len)
        return NULL;
    return ep_write_number(ep_write_number(out, len - 4, 4), kind, 1);
}

static inline uint8_t *ep_write_key(uint8_t *out, const uint8_t *key, size_t key_len)
{
    while (key_len--)
        *out++ = *key++;
    return out;
}

/* Writes request 16, what interferes with a read of the key: how many bytes it has, for ep_ask; or 0 where the key
   hasn't 1 to 255 bytes, or `out` has no room for them. */
static inline size_t ep_write_interfering(uint8_t *out, size_t out_len, const uint8_t *key, size_t key_len)
{
    const size_t len = 5 + key_len;
    uint8_t *at = ep_begin_request(out, out_len, len, 16, key_len);
    return at ? (ep_write_key(at, key, key_len), len) : 0;
}

/* Writes request 17, a read of the key for which these instances were found, in any order: how many bytes it has,
   EP_READ_SIZE; or 0 as above, or where the instances are more than EP_MOST_FOUND. */
static inline size_t ep_write_read(uint8_t *out, size_t out_len, const uint8_t *key, size_t key_len,
                                   const struct ep_instance *found, size_t found_len)
{
    const size_t len = EP_READ_SIZE(key_len, found_len);
    uint8_t *at = found_len > EP_MOST_FOUND ? NULL : ep_begin_request(out, out_len, len, 17, key_len);
    if (!at)
        return 0;
    at = ep_write_number(ep_write_key(ep_write_number(at, key_len, 1), key, key_len), found_len, 4);
    for (size_t place = 0; place < found_len; place++)
        at = ep_write_number(ep_write_number(at, found[place].replica, 1), found[place].number, 2);
    return len;
}

/* ---- Commands over many keys ---- */

/* 1: the other key stands above this one, as unsigned bytes, where a beginning of a key stands below it. */
static inline int ep_is_above(struct ep_bytes key, struct ep_bytes other)
{
    size_t at = 0;
    while (at < key.len && at < other.len && key.at[at] == other.at[at])
        at++;
    return at < other.len && (at == key.len || key.at[at] < other.at[at]);
}

/* How many bytes an item has in a body; 0 where it is none. */
static inline size_t ep_tx_item_size(const struct ep_tx_item *item)
{
    const int is_guarded = (item->says & EP_TX_REQUIRE) != 0, is_put = (item->says & EP_TX_PUT) != 0;
    const int is_free = (item->says & EP_TX_REQUIRE_NONE) != 0, is_gone = (item->says & EP_TX_DEL) != 0;
    if (item->key.len < 1 || item->key.len > 255 || !item->says || item->says > 31)
        return 0;
    if ((is_guarded && is_free) || (is_put && is_gone))
        return 0;
    if ((is_guarded && item->required.len > 65535) || (is_put && item->put.len > 65535))
        return 0;
    const size_t guard = is_guarded ? 5 + item->required.len : (size_t)is_free;
    return 2 + item->key.len + guard + (is_put ? 4 + item->put.len : 0);
}

static inline uint8_t *ep_write_block(uint8_t *out, struct ep_bytes bytes)
{
    out = ep_write_number(out, bytes.len, 4);
    return ep_write_key(out, bytes.at, bytes.len);
}

static inline uint8_t *ep_write_tx_item(uint8_t *out, const struct ep_tx_item *item)
{
    const int is_guarded = (item->says & (EP_TX_REQUIRE | EP_TX_REQUIRE_NONE)) != 0;
    out = ep_write_number(out, item->key.len, 1);
    out = ep_write_number(out, (item->says & 13u) | (is_guarded ? 2u : 0u), 1);
    out = ep_write_key(out, item->key.at, item->key.len);
    if (is_guarded)
        *out++ = (item->says & EP_TX_REQUIRE) != 0;
    if (item->says & EP_TX_REQUIRE)
        out = ep_write_block(out, item->required);
    return item->says & EP_TX_PUT ? ep_write_block(out, item->put) : out;
}

/* Writes the body of the command that these items say, which stand in rising order of keys, each once: how many bytes
   it has, for ep_propose_tx; or 0 where they aren't 1 to EP_TX_MOST_KEYS, a key hasn't 1 to 255 bytes, or a value has
   more than 65,535, what one says can't be, more than EP_TX_MOST_TOLD are told, or `out` has no room for it, or it has
   more than EP_TX_LONGEST bytes. */
static inline size_t ep_write_tx(uint8_t *out, size_t out_len, const struct ep_tx_item *items, size_t count)
{
    size_t len = 2, told = 0, size;
    if (count < 1 || count > EP_TX_MOST_KEYS)
        return 0;
    for (size_t at = 0; at < count; at++) {
        size = ep_tx_item_size(&items[at]);
        len += size;
        told += items[at].says & EP_TX_TELL;
        if (!size || told > EP_TX_MOST_TOLD || (at && !ep_is_above(items[at - 1].key, items[at].key)))
            return 0;
    }
    if (len > out_len || len > EP_TX_LONGEST)
        return 0;
    out = ep_write_number(out, count, 2);
    for (size_t at = 0; at < count; at++)
        out = ep_write_tx_item(out, &items[at]);
    return len;
}

#ifdef __cplusplus
}
#endif

#endif

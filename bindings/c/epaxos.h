/* libepaxos: one replica of a replicated key-value core without a leader, as a C library. README.md begins with an example.
 *
 * The library has no socket, no timer, no thread and no file: you own those. A replica takes what happened (ep_propose_.., ep_handle, ..), lends the bytes
 * that you write to its log (ep_ready), and, once you say that they are on the disk (ep_synced), tells what to send and whom to answer (ep_answers). While the
 * disk works it may take more: then what there is to tell is made before (ep_prepare), and lent after (ep_told).
 *
 * What holds of all calls:
 *
 *   - Each answers a status, and a call's comment names those that it may answer. Unless it says otherwise, a status that isn't EP_DONE says that the
 *     replica is as it was, and that nothing was written through the pointers.
 *   - What is wrong with a replica is a status: none was opened (EP_NO_REPLICA), it is opened twice (EP_HAS_REPLICA), it is freed twice (EP_DONE).
 *   - Pointers point to what they say, and none is NULL, but for that of ep_free. That holds where a length is 0 too: NULL may seem to work there, and no
 *     proof covers it; EP_EMPTY has an address. Nothing that is handed in is used after the call.
 *   - Bytes that are lent lie in the replica, and stay until the next call with it; those of ep_ready stay until ep_synced or ep_free.
 *   - A replica is used by one call at a time. It may go to another thread in between, by a lock or a join. Two calls at once are undefined; EP_NO_REPLICA
 *     of a replica that is there is a sign of it. No call comes from a signal handler. The same holds of a checkpoint, by itself: its pieces may be taken
 *     while another thread is in a call with the replica that it is of, and after that has ended.
 *   - In bytes, numbers have the highest byte first; docs/FORMATS.md has them all: section 10 requests and answers, 9 logs, 12 openings, 2 bundles.
 *     epaxos_answers.h, a header alone, reads what is told.
 */
#ifndef EPAXOS_H
#define EPAXOS_H

#include <stddef.h>
#include <stdint.h>

#ifdef __cplusplus
extern "C" {
#endif

/* What ep_version() answers of the library that this header is of. */
#define EP_VERSION 9

/* Begins a struct ep_bytes of no bytes, and a struct ep_replica of no replica. */
#define EP_EMPTY { (const uint8_t *)"", 0 }
#define EP_CLOSED { 0 }

/* tools/generate writes what follows, from crates/ep_library/src. */

/* A node on the heap, or none, as one pointer. C begins it with a null pointer, and changes nothing in it. So each
   call sees whether a handle has no node, was freed, or has one already, and none is undefined. */
struct ep_replica {
    void *at;
};

/* When to give up and when to recover, on the heap, or none, as one pointer. C begins it with a null pointer, and
   changes nothing in it. So each call sees whether it has none, was freed, or has one already, and none is
   undefined. */
struct ep_patience {
    void *at;
};

/* A run of bytes: where it begins, and how many they are. */
struct ep_bytes {
    /* Where the first of them stands. Where there is none, it may be any address. */
    const uint8_t *at;
    /* How many they are. */
    size_t len;
};

/* Whose command is proposed. */
struct ep_call {
    /* The greatest stamp of the receipts that the client has seen; 0 if it has seen none. */
    uint64_t seen;
    /* The client, from 1. */
    uint32_t client;
    /* Its request, from 1. A client's number and its request's name one command, over all starts: what is proposed
       twice is done twice. */
    uint32_t request;
    /* 0: the replica just below this one is spared (the last one, if this is replica 0), and `spared` is ignored.
       Versions 1 and 2 have no other. */
    uint8_t has_spared;
    /* The other replica that isn't asked at first: the slowest one, or one that can't be reached. All others have to
       answer before the command is committed in one round trip. */
    uint8_t spared;
};

/* A file that is given in pieces, on the heap, or none, as one pointer. C begins it with a null pointer, and changes
   nothing in it. So each call sees whether it has none, was freed, or has one already, and none is undefined. */
struct ep_checkpoint {
    void *at;
};

/* A log whose generation is closed, and the generation that opens with what it leaves. */
struct ep_closed_log {
    /* The SHA-256 of the log's bytes, of 32 bytes. */
    struct ep_bytes sum;
    /* How many bytes it has. */
    uint64_t length;
    /* The generation after it, from 2. */
    uint32_t generation;
    /* How many replicas that has: 3, 5 or 7. */
    uint8_t replicas;
};

/* What a key has to have, and what it then gets. */
struct ep_exchange {
    /* The value that the key has to have. */
    struct ep_bytes expected;
    /* The value that it then gets. */
    struct ep_bytes desired;
    /* 0: the key has to have no value, and `expected` is ignored. */
    uint8_t has_expected;
    /* 0: the key then has no value, and `desired` is ignored. */
    uint8_t has_desired;
};

/* A part of the header of a frame of version 3 (docs/FORMATS.md, section 1.2). */
struct ep_frame_head {
    /* The entry of its sender that it is of. */
    uint32_t entry;
    /* The generation. */
    uint32_t generation;
    /* At which of the frame's bytes the body of its command begins, behind both keys: a seal's value is there. */
    uint32_t body_at;
    /* How many bytes the body has; 0 where there is none. */
    uint32_t body_len;
    /* The number of its instance. */
    uint16_t number;
    /* The counter of its ballot; 0 of a Commit. */
    uint16_t ballot;
    /* How many dependencies it has. */
    uint16_t dependencies;
    /* The replica that leads the instance. */
    uint8_t replica;
    /* The replica that sent it. */
    uint8_t from;
    /* The replica that it is for. */
    uint8_t to;
    /* 1: PreAccept; 2: its answer; 3: Accept; 4: its answer; 5: Commit; 6: Prepare; 7: its answer; 8: a refusal. */
    uint8_t kind;
    /* The op of its command, 1 to 10 (9 is a seal); 0 where it has none. */
    uint8_t op;
};

/* What the folder of a generation has (docs/FORMATS.md, section 13). */
struct ep_held_generation {
    /* The generation, from 1. */
    uint32_t number;
    /* The later generation that its mark names, as ep_left_in reads it; 0 where it has no mark. */
    uint32_t left_for;
    /* 0: its opening isn't there. */
    uint8_t has_opening;
    /* 0: no reference is there. */
    uint8_t has_reference;
    /* 0: no binding is there that has the digests of both. */
    uint8_t is_bound;
};

/* An instance, which is a place for one command. */
struct ep_instance {
    /* Its number among those of its leader, from 1 to 9,000, in version 2 to 2,000. */
    uint16_t number;
    /* The replica that leads it, from 0. */
    uint8_t replica;
};

/* How far a replica leads an instance. */
struct ep_leading {
    /* 1: it waits for the answers to its proposal; 2: for votes on what it has chosen; 3: it recovers the instance. */
    uint8_t phase;
    /* How many others have answered. */
    uint8_t answers;
};

/* What a log says before its records (docs/FORMATS.md, section 9). */
struct ep_log_head {
    /* The generation; 0 of a replica of version 2. */
    uint32_t generation;
    /* How many replicas the cluster has. */
    uint8_t replicas;
    /* The replica's number. */
    uint8_t replica;
};

/* What an opening file says before its map (docs/FORMATS.md, section 12). */
struct ep_opening_head {
    /* The stamp that clocks go on from. */
    uint64_t base_stamp;
    /* At which of the file's bytes its map begins, by how many keys that has (4 bytes). */
    uint64_t map_at;
    /* The generation. */
    uint32_t generation;
    /* How many bytes the value of the seal has that began the generation, from byte 23 on; 0 of generation 1. */
    uint32_t seal_len;
    /* How many keys have a value. */
    uint32_t keys;
    /* How many replicas the cluster has. */
    uint8_t replicas;
    /* 1: a seal began the generation; 0 of generation 1. */
    uint8_t has_seal;
};

/* What an opening file is made of that no replica's log has led to. */
struct ep_opening_parts {
    /* The value of the seal, of at most 65,535 bytes, that is to stand for the one that began the generation. */
    struct ep_bytes seal;
    /* The map, as ep_contents lends one and opening files have it, with the number of its keys. */
    struct ep_bytes map;
    /* The stamp that clocks go on from. */
    uint64_t base_stamp;
    /* The generation, from 2. */
    uint32_t generation;
    /* How many replicas it has: 3, 5 or 7. */
    uint8_t replicas;
};

/* A key and its value, as they stand in the bytes of a map. */
struct ep_pair {
    /* How many bytes both take, with their lengths before them: behind these the next ones begin. */
    uint64_t len;
    /* At which byte the key begins. */
    uint32_t key_at;
    /* How many bytes it has. */
    uint32_t key_len;
    /* At which byte the value begins. */
    uint32_t value_at;
    /* How many bytes it has. */
    uint32_t value_len;
};

/* Where bytes are refused: as the status says, an offset counted from 0, or a number. */
struct ep_place {
    /* The first number of which the status speaks; else 0. */
    uint64_t at;
    /* The second one; else 0. */
    uint64_t by;
};

/* What a reference says (docs/FORMATS.md, section 12.3). The SHA-256 of its log's bytes stands from byte 18 on, and
   from byte 50 on its own digest. */
struct ep_reference_head {
    /* How many bytes its log has. */
    uint64_t length;
    /* The generation after that log, from 2. */
    uint32_t generation;
    /* How many replicas that has. */
    uint8_t replicas;
};

/* What a replica is opened as. */
struct ep_setup {
    /* The file that its generation opens with, as ep_first_opening or ep_close gives it; of no bytes for a replica
       of version 2. */
    struct ep_bytes opening;
    /* All bytes of its log; none of a new replica. */
    struct ep_bytes log;
    /* How many replicas the cluster has: 3, 5 or 7. */
    uint8_t replicas;
    /* Which of them this is, from 0. */
    uint8_t replica;
    /* 0: the replica goes on from its log; else it is new. A replica whose log is lost must never be new again: it
       would have forgotten what it told. */
    uint8_t is_new;
};

/* How a replica starts. */
struct ep_start_plan {
    /* In which generation. */
    uint32_t generation;
    /* 1: its opening is written into its place first; else 0. */
    uint8_t writes;
    /* 1: its log is begun, since there is none; 2: it is gone on with, or begun where there is none; 3: it is gone
       on with. */
    uint8_t log;
};

/* What a replica's start on its folder is asked for. */
struct ep_start_wish {
    /* Of 3: of which generation the opening is; else ignored. */
    uint32_t generation;
    /* 1: to go on with what is there; 2: to begin generation 1, of a replica that is new; 3: to take the opening of
       a generation, which a peer has, or which was made as the one before was closed. */
    uint8_t kind;
    /* Of 2 and 3: 0 if the opening's bytes aren't those of the newest one in the folder; else ignored. */
    uint8_t is_same;
};

/* What the next generation begins as. */
struct ep_succession {
    /* The digest that its log names, of 32 bytes: the last ones of ep_reference's, or of an opening file. */
    struct ep_bytes digest;
    /* All bytes of its log; none of a new replica. */
    struct ep_bytes log;
    /* How many replicas it has: 3, 5 or 7. */
    uint8_t replicas;
    /* Which of them this is, from 0. */
    uint8_t replica;
    /* 0: the replica goes on from this log, as after a start; else it is new there. */
    uint8_t is_new;
};

/* The keys of a command of a machine of your own. */
struct ep_touching {
    /* A key. */
    struct ep_bytes first;
    /* A second one, which differs. */
    struct ep_bytes second;
    /* 0: there is no second key, and `second` is ignored. */
    uint8_t has_second;
    /* 0: the command may change what belongs to the keys; else it only reads that. */
    uint8_t is_reading;
};

/* How long a replica waits, in the unit of the caller's times. Count in microseconds: numbers are rounded down. */
struct ep_waits {
    /* From which the random waits are drawn. Replicas of a cluster have different ones. */
    uint64_t seed;
    /* G of RFC 6298: a peer's time-out is SRTT + max (G, 4 RTTVAR). 100 ms are a good choice. */
    uint32_t granularity;
    /* The time-out of a peer that was never measured, 1 s in RFC 6298. */
    uint32_t initial;
    /* How long to wait for a Commit of which a peer has told. 1.5 s are a good choice. */
    uint32_t told;
    /* Waits double up to this one. 20 s are a good choice. */
    uint32_t longest;
    /* How many replicas the cluster has: 3, 5 or 7. */
    uint8_t replicas;
    /* Which of them this is, from 0. */
    uint8_t replica;
};

/* Statuses. Those below 16 are the numbers of the faults' names (docs/FORMATS.md, section 7). */
enum {
    /* The call did what it was to do. */
    EP_DONE = 0,
    /* There is no memory: the same call may succeed later. */
    EP_MEMORY = 1,
    /* A number or a length is out of its range. */
    EP_OUT_OF_RANGE = 3,
    /* The replica's numbers of this generation are used up: propose at another one, or propose a seal. */
    EP_SPACE_FULL = 4,
    /* The numbers that order commands are used up. */
    EP_SEQ_EXHAUSTED = 5,
    /* The replica doesn't lead the instance, or doesn't any more. */
    EP_NOT_LEADING = 6,
    /* Fewer than a slow quorum has answered: wait on, and send the proposal's frames again. */
    EP_TOO_FEW_ANSWERS = 7,
    /* The instance is committed: execute it. */
    EP_ALREADY_COMMITTED = 8,
    /* The instance was recovered too often. */
    EP_BALLOTS_EXHAUSTED = 9,
    /* It waits for an instance that isn't committed here. */
    EP_NOT_COMMITTED = 10,
    /* A journal of the bundle isn't what a replica leaves. */
    EP_NOT_A_RUN = 11,
    /* The bytes are no bundle. */
    EP_BAD_BUNDLE = 12,
    /* The frame is for another replica. */
    EP_NOT_MINE = 13,
    /* The bytes are no frame of this version and generation. */
    EP_BAD_FRAME = 14,
    /* The seen stamp is too far ahead, or the replica's stamps are used up. */
    EP_STAMP_FULL = 15,
    /* No generation is in the folder. */
    EP_NO_GENERATION = 16,
    /* The replica is new, and generation `at` is in its folder. */
    EP_HAS_GENERATION = 17,
    /* The replica has begun the log of generation `at`, whose opening isn't in its folder: it mustn't act in any up
       to it. */
    EP_LEFT = 18,
    /* The opening is of a generation before `at`, which is in the folder. */
    EP_OLDER = 19,
    /* Generation `at` has another opening in the folder. */
    EP_OTHER_FILE = 20,
    /* Of this generation the folder has neither an opening nor a reference that can be read, and a later one rests
       on it. */
    EP_BROKEN = 21,
    /* There is no replica: none was opened, it was freed, or another thread is in a call with it, which has to be
       kept out. */
    EP_NO_REPLICA = 32,
    /* There is a replica already. */
    EP_HAS_REPLICA = 33,
    /* The whole log is lent, and isn't on the disk yet, so nothing is taken: write it, and say so by ep_synced. */
    EP_LENT = 34,
    /* Not all that was taken is on the disk, so nothing is reported: ep_ready lends it. Or, of ep_prepare, not all
       of it is lent. */
    EP_UNSYNCED = 35,
    /* Nothing is lent. */
    EP_NOT_LENT = 36,
    /* So many bytes aren't all that are lent. */
    EP_NOT_ALL = 37,
    /* There is none: no value, no such instance, nothing that was cut off. */
    EP_NONE = 38,
    /* The buffer is too short; how many bytes it needs is reported. */
    EP_TOO_SHORT = 39,
    /* The bytes aren't one request: its length is out of range, or isn't that of the bytes. */
    EP_NOT_ONE = 40,
    /* The audit refuses the bundle; its report says why. */
    EP_REFUSED = 41,
    /* No seal was executed. */
    EP_NOT_SEALED = 42,
    /* There is no generation after it. */
    EP_LAST_GENERATION = 43,
    /* Nothing was begun that says when to wait no longer, it was freed, or another thread is in a call with it. */
    EP_NO_PATIENCE = 44,
    /* It was begun already. */
    EP_HAS_PATIENCE = 45,
    /* What ep_prepare made before wasn't reported: ep_told lends it. */
    EP_UNTOLD = 46,
    /* There is no file that is given in pieces: none was begun, it was freed, or another thread is in a call with
       it. */
    EP_NO_CHECKPOINT = 30,
    /* There is such a file already: free it before. */
    EP_HAS_CHECKPOINT = 31,
    /* The log has no bytes, and the replica isn't new. */
    EP_NO_LOG = 48,
    /* The log has bytes, and the replica is new. */
    EP_LOG_EXISTS = 49,
    /* The log is of another replica or cluster. */
    EP_OTHER_LOG = 50,
    /* The bytes begin as no log does. */
    EP_NO_HEADER = 51,
    /* The log is of another version. */
    EP_OTHER_VERSION = 52,
    /* The log was begun with another opening. */
    EP_OTHER_GENERATION = 53,
    /* The length of the log's record at byte `at` is wrong. */
    EP_BAD_LENGTH = 54,
    /* The checksum of the log's record at byte `at` is wrong. */
    EP_BAD_CHECKSUM = 55,
    /* The entry of the log's record at byte `at` is wrong. */
    EP_BAD_ENTRY = 56,
    /* The entry of the log's record at byte `at` isn't the next one. */
    EP_NOT_NEXT = 57,
    /* The log's record at byte `at` was changed: it was on the disk, by the record at byte `by`. */
    EP_TURNED = 58,
    /* The log's entry of number `at` has a stamp that no clock gave it. */
    EP_NOT_CLOCKED = 59,
    /* The opening has `at` bytes, fewer than the shortest. */
    EP_OPENING_SHORT = 60,
    /* The opening's digest, which begins at byte `at`, isn't that of the bytes before it. */
    EP_OPENING_DAMAGED = 61,
    /* The opening's field at byte `at` is wrong. */
    EP_OPENING_WRONG = 62,
    /* The opening is of a cluster of `at` replicas. */
    EP_OTHER_OPENING = 63
};

/* The name of a status, such as "EP_MEMORY"; of a number that is none, "EP_UNKNOWN". */
static inline const char *ep_status_name(uint8_t status)
{
    switch (status) {
    case EP_DONE:
        return "EP_DONE";
    case EP_MEMORY:
        return "EP_MEMORY";
    case EP_OUT_OF_RANGE:
        return "EP_OUT_OF_RANGE";
    case EP_SPACE_FULL:
        return "EP_SPACE_FULL";
    case EP_SEQ_EXHAUSTED:
        return "EP_SEQ_EXHAUSTED";
    case EP_NOT_LEADING:
        return "EP_NOT_LEADING";
    case EP_TOO_FEW_ANSWERS:
        return "EP_TOO_FEW_ANSWERS";
    case EP_ALREADY_COMMITTED:
        return "EP_ALREADY_COMMITTED";
    case EP_BALLOTS_EXHAUSTED:
        return "EP_BALLOTS_EXHAUSTED";
    case EP_NOT_COMMITTED:
        return "EP_NOT_COMMITTED";
    case EP_NOT_A_RUN:
        return "EP_NOT_A_RUN";
    case EP_BAD_BUNDLE:
        return "EP_BAD_BUNDLE";
    case EP_NOT_MINE:
        return "EP_NOT_MINE";
    case EP_BAD_FRAME:
        return "EP_BAD_FRAME";
    case EP_STAMP_FULL:
        return "EP_STAMP_FULL";
    case EP_NO_GENERATION:
        return "EP_NO_GENERATION";
    case EP_HAS_GENERATION:
        return "EP_HAS_GENERATION";
    case EP_LEFT:
        return "EP_LEFT";
    case EP_OLDER:
        return "EP_OLDER";
    case EP_OTHER_FILE:
        return "EP_OTHER_FILE";
    case EP_BROKEN:
        return "EP_BROKEN";
    case EP_NO_REPLICA:
        return "EP_NO_REPLICA";
    case EP_HAS_REPLICA:
        return "EP_HAS_REPLICA";
    case EP_LENT:
        return "EP_LENT";
    case EP_UNSYNCED:
        return "EP_UNSYNCED";
    case EP_NOT_LENT:
        return "EP_NOT_LENT";
    case EP_NOT_ALL:
        return "EP_NOT_ALL";
    case EP_NONE:
        return "EP_NONE";
    case EP_TOO_SHORT:
        return "EP_TOO_SHORT";
    case EP_NOT_ONE:
        return "EP_NOT_ONE";
    case EP_REFUSED:
        return "EP_REFUSED";
    case EP_NOT_SEALED:
        return "EP_NOT_SEALED";
    case EP_LAST_GENERATION:
        return "EP_LAST_GENERATION";
    case EP_NO_PATIENCE:
        return "EP_NO_PATIENCE";
    case EP_HAS_PATIENCE:
        return "EP_HAS_PATIENCE";
    case EP_UNTOLD:
        return "EP_UNTOLD";
    case EP_NO_CHECKPOINT:
        return "EP_NO_CHECKPOINT";
    case EP_HAS_CHECKPOINT:
        return "EP_HAS_CHECKPOINT";
    case EP_NO_LOG:
        return "EP_NO_LOG";
    case EP_LOG_EXISTS:
        return "EP_LOG_EXISTS";
    case EP_OTHER_LOG:
        return "EP_OTHER_LOG";
    case EP_NO_HEADER:
        return "EP_NO_HEADER";
    case EP_OTHER_VERSION:
        return "EP_OTHER_VERSION";
    case EP_OTHER_GENERATION:
        return "EP_OTHER_GENERATION";
    case EP_BAD_LENGTH:
        return "EP_BAD_LENGTH";
    case EP_BAD_CHECKSUM:
        return "EP_BAD_CHECKSUM";
    case EP_BAD_ENTRY:
        return "EP_BAD_ENTRY";
    case EP_NOT_NEXT:
        return "EP_NOT_NEXT";
    case EP_TURNED:
        return "EP_TURNED";
    case EP_NOT_CLOCKED:
        return "EP_NOT_CLOCKED";
    case EP_OPENING_SHORT:
        return "EP_OPENING_SHORT";
    case EP_OPENING_DAMAGED:
        return "EP_OPENING_DAMAGED";
    case EP_OPENING_WRONG:
        return "EP_OPENING_WRONG";
    case EP_OTHER_OPENING:
        return "EP_OTHER_OPENING";
    default:
        return "EP_UNKNOWN";
    }
}

/* ---- A replica's life ---- */

/* Opens a replica, if there is none, of version 2 or of a generation: a new one, or one that goes on from its log.
   The first thing to do then is `ep_ready`, which lends the whole log, written anew; nothing is taken or reported
   before that is on the disk. `ep_free` ends it. EP_HAS_REPLICA, EP_MEMORY; EP_OUT_OF_RANGE: `replicas` isn't 3, 5
   or 7, or `replica` isn't below it; and each status from EP_NO_LOG on, by which the log or the opening is refused:
   `place` becomes the numbers that the status names. */
uint8_t ep_open(struct ep_replica *replica, const struct ep_setup *setup, struct ep_place *place);

/* Says what was cut off the log's end as the replica was opened, if a crash had left bytes that are no whole record:
   from byte `at` on, `by` bytes. Pass it on to whoever runs the replica. EP_NO_REPLICA; EP_NONE: nothing was cut
   off. */
uint8_t ep_cut(struct ep_replica *replica, struct ep_place *place);

/* Ends the replica, if there is one. Its log is as what was said to be on the disk; `ep_open` goes on from there.
   EP_DONE. */
uint8_t ep_free(struct ep_replica *replica);

/* ---- What clients ask for ---- */

/* A client asks for the value of a key. As any command it is put in order with all others that name the key, so it
   sees all that was answered before. Its answer, like every command's, comes by `ep_answers`, as a receipt, once the
   command was executed. EP_NO_REPLICA, EP_LENT, EP_MEMORY; EP_OUT_OF_RANGE: a key hasn't 1 to 255 bytes, a value has
   more than 65,535, two keys are the same, a client or a request is 0, the spared replica isn't another one of the
   cluster, or the version hasn't what is asked (version 2 has get, put, del and swap, values of up to 1,024 bytes,
   and spares the usual replica); EP_SPACE_FULL; EP_SEQ_EXHAUSTED; EP_STAMP_FULL. */
uint8_t ep_propose_get(struct ep_replica *replica, const struct ep_call *call, const uint8_t *key, size_t key_len);

/* A client gives a key a value. The answer is what it had. Statuses are those of `ep_propose_get`. */
uint8_t ep_propose_put(struct ep_replica *replica, const struct ep_call *call, const uint8_t *key, size_t key_len,
                       const uint8_t *value, size_t value_len);

/* A client takes a key's value away. The answer is what it had. Statuses are those of `ep_propose_get`. */
uint8_t ep_propose_del(struct ep_replica *replica, const struct ep_call *call, const uint8_t *key, size_t key_len);

/* A client has the values of two different keys change places. The answer is what the first had. Statuses are those
   of `ep_propose_get`. */
uint8_t ep_propose_swap(struct ep_replica *replica, const struct ep_call *call, const uint8_t *first, size_t first_len,
                        const uint8_t *second, size_t second_len);

/* A client compares and sets: if the key has what is expected, it gets what is desired. The answer is what it had,
   so the client knows whether that was done. Statuses are those of `ep_propose_get`. */
uint8_t ep_propose_cas(struct ep_replica *replica, const struct ep_call *call, const uint8_t *key, size_t key_len,
                       const struct ep_exchange *exchange);

/* A client asks for a command of a machine of your own: the core puts it in order by its keys, and `ep_answers` says
   when it is executed; what its body says only your machine knows. Statuses are those of `ep_propose_get`. */
uint8_t ep_propose_opaque(struct ep_replica *replica, const struct ep_call *call, const struct ep_touching *touching,
                          const uint8_t *body, size_t body_len);

/* A client asks for a command over 1 to 1,024 keys, as the body says (docs/FORMATS.md, section 1): what each of some
   keys must have, which at most 16 keys the answer tells, and what is written. If each has what it must, all is
   written, and the answer is EP_REPLY_DONE; else nothing is, and it is EP_REPLY_UNDONE. `ep_write_tx` writes bodies.
   Statuses are those of `ep_propose_get`; EP_OUT_OF_RANGE, too: the body is none. */
uint8_t ep_propose_tx(struct ep_replica *replica, const struct ep_call *call, const uint8_t *body, size_t body_len);

/* A client closes the map, and so ends the generation. The value is yours: say who takes part in the next one.
   Statuses are those of `ep_propose_get`. */
uint8_t ep_propose_seal(struct ep_replica *replica, const struct ep_call *call, const uint8_t *value,
                        size_t value_len);

/* ---- What happened to a replica ---- */

/* A frame came from a peer: its bytes, as that one's `ep_answers` gave them. EP_NO_REPLICA, EP_LENT, EP_MEMORY;
   EP_BAD_FRAME; EP_NOT_MINE; EP_OUT_OF_RANGE: a replica of which it speaks isn't of the cluster; EP_SEQ_EXHAUSTED;
   EP_STAMP_FULL. */
uint8_t ep_handle(struct ep_replica *replica, const uint8_t *frame, size_t frame_len);

/* The replica stops waiting for its whole fast quorum in an instance that it leads: it goes on by the slow path.
   EP_NO_REPLICA, EP_LENT, EP_MEMORY; EP_OUT_OF_RANGE: there is no such instance; EP_NOT_LEADING; EP_TOO_FEW_ANSWERS;
   EP_STAMP_FULL. */
uint8_t ep_give_up(struct ep_replica *replica, struct ep_instance instance);

/* The replica stops waiting for the one that leads the instance, and takes it over. EP_NO_REPLICA, EP_LENT,
   EP_MEMORY; EP_OUT_OF_RANGE: there is no such instance; EP_ALREADY_COMMITTED; EP_BALLOTS_EXHAUSTED; EP_STAMP_FULL. */
uint8_t ep_recover(struct ep_replica *replica, struct ep_instance instance);

/* Executes all instances that the replica leads and that are ready, in rising order, each with all that it waits
   for, until none is. EP_NO_REPLICA; EP_LENT; EP_MEMORY and EP_STAMP_FULL: some may have been executed, and the next
   call goes on. */
uint8_t ep_advance(struct ep_replica *replica);

/* Executes all instances that are ready, whoever leads them: before a local read, or if a machine of your own is to
   keep up. EP_NO_REPLICA; EP_LENT; EP_MEMORY: some may have been executed, and the next call goes on. */
uint8_t ep_execute_all(struct ep_replica *replica);

/* ---- Executing an instance ---- */

/* Executes the instance, and before it all that it depends on. EP_NO_REPLICA, EP_LENT, EP_MEMORY; EP_OUT_OF_RANGE:
   there is no such instance; EP_NOT_COMMITTED: `waits_for` becomes the least instance that it waits for and that
   isn't committed here; EP_STAMP_FULL. */
uint8_t ep_execute(struct ep_replica *replica, struct ep_instance instance, struct ep_instance *waits_for);

/* ---- The log, and the answers that wait for it ---- */

/* Lends the bytes that are to be written to the log: the records of all that was taken and wasn't lent before, after
   the log, or, if `is_anew` becomes 1, in place of all that was there, at once (write another file, sync it, rename
   it). The first call after `ep_open` is such a one, and nothing is taken before that is on the disk (EP_LENT). If
   all is on the disk, there are none. The bytes stay where they are, and a second call lends the same, until
   `ep_synced` says that they are on the disk; or until `ep_free`. Meanwhile more may be taken, which is lent next,
   and another thread may read them. If writing them fails, free the replica and open it from its log. EP_NO_REPLICA,
   EP_MEMORY. */
uint8_t ep_ready(struct ep_replica *replica, struct ep_bytes *log, uint8_t *is_anew);

/* Says that what `ep_ready` lent is on the disk (fsync has returned): all of it, `count` bytes; 0 if nothing is
   lent. From now on no crash takes what was taken before that call. EP_NO_REPLICA, EP_NOT_LENT, EP_NOT_ALL. */
uint8_t ep_synced(struct ep_replica *replica, size_t count);

/* Lends the answers of all that was asked by `ep_ask` since the last time, in that order, and after them one of kind
   9: all frames, receipts, commits and executions of the entries after the first `told`, each once, and at most
   `most` open instances. It says how many entries there are: hand that in as `told` the next time; at first 0. All
   that is reported is on the disk. EP_NO_REPLICA; EP_UNSYNCED; EP_MEMORY: what was asked still waits for the next
   call. */
uint8_t ep_answers(struct ep_replica *replica, uint32_t told, uint8_t most, struct ep_bytes *answers);

/* Makes what `ep_answers` would lend if all that was taken were on the disk, and holds it until `ep_told` asks for
   it then. So answers are made while the disk works, and more may be taken after it: call it between `ep_ready` and
   the next event. EP_NO_REPLICA; EP_UNSYNCED: something was taken that isn't lent; EP_UNTOLD; EP_MEMORY: what was
   asked still waits. */
uint8_t ep_prepare(struct ep_replica *replica, uint32_t told, uint8_t most);

/* Lends what `ep_answers` lends, and behind it one answer more, of kind 13: what the entries after the first `told`
   proposed and executed, in their order. For each proposal 1, the client (4), the request (4) and the instance that
   it took (3); for each instance that was executed, whoever proposed its command, 2, the instance (3), the command
   as a proposal has it (op, lengths of both keys and of the body, and these), and its answer as a receipt has it.
   Statuses are those of `ep_answers`. */
uint8_t ep_answers_all(struct ep_replica *replica, uint32_t told, uint8_t most, struct ep_bytes *answers);

/* Makes what `ep_answers_all` would lend if all that was taken were on the disk, and holds it until `ep_told` asks
   for it then, as `ep_prepare` does, whose statuses it has. */
uint8_t ep_prepare_all(struct ep_replica *replica, uint32_t told, uint8_t most);

/* Lends what `ep_prepare` made, once. All that it reports is on the disk. EP_NO_REPLICA; EP_NONE: it made nothing;
   EP_UNSYNCED: what was lent then isn't on the disk yet. */
uint8_t ep_told(struct ep_replica *replica, struct ep_bytes *answers);

/* Does what a request asks: the bytes of one, from its length on. What it is answered, also if it is refused or
   malformed, comes by `ep_answers`. EP_NO_REPLICA, EP_LENT; EP_NOT_ONE; EP_MEMORY: nothing was done, but of kinds 6
   and 12, which execute several instances: some may have been executed, no answer comes, and asking again goes on. */
uint8_t ep_ask(struct ep_replica *replica, const uint8_t *request, size_t request_len);

/* ---- What a replica knows ---- */

/* Lends the value that the replica's own map has at the key, after all that it executed: a local read, which may be
   old. EP_NO_REPLICA, EP_UNSYNCED, EP_MEMORY; EP_NONE: the map has none; EP_OUT_OF_RANGE: the key hasn't 1 to 255
   bytes. */
uint8_t ep_get(struct ep_replica *replica, const uint8_t *key, size_t key_len, struct ep_bytes *value);

/* Lends what all keys of the replica's own map have, after all that it executed: a local read, which may be old.
   First how many keys have a value (4 bytes), and then, in rising order of keys, each with the length of the key
   (1), that of the value (4), the key and the value. EP_NO_REPLICA, EP_UNSYNCED, EP_MEMORY. */
uint8_t ep_contents(struct ep_replica *replica, struct ep_bytes *contents);

/* Says how many entries of a peer the replica knows of, by its log: the greatest number among the entries whose
   frames it has handled; 0 if it has handled none. A peer whose log has fewer has lost what it promised, or was put
   back to an older copy, and must not go on. EP_NO_REPLICA; EP_OUT_OF_RANGE: there is no such replica. */
uint8_t ep_handled(struct ep_replica *replica, uint8_t peer, uint32_t *entries);

/* Reports the least instance that the replica knows of and hasn't committed, above this one, or, if its number is 0,
   of all. EP_NO_REPLICA, EP_UNSYNCED; EP_NONE: there is none; EP_OUT_OF_RANGE: there is no such instance. */
uint8_t ep_next_open(struct ep_replica *replica, struct ep_instance above, struct ep_instance *instance);

/* Says how far the replica leads the instance. EP_NO_REPLICA, EP_UNSYNCED; EP_NONE: it doesn't lead it;
   EP_OUT_OF_RANGE: there is no such instance. */
uint8_t ep_leads(struct ep_replica *replica, struct ep_instance instance, struct ep_leading *leading);

/* Lends the file that the next generation opens with, in a cluster of this many replicas, once a seal was executed
   here. The replica goes on, and those that lag may still need it. EP_NO_REPLICA, EP_UNSYNCED, EP_MEMORY;
   EP_NOT_SEALED; EP_LAST_GENERATION; EP_OUT_OF_RANGE: a cluster has 3, 5 or 7 replicas. */
uint8_t ep_close(struct ep_replica *replica, uint8_t replicas, struct ep_bytes *opening);

/* ---- The next generation in the place of the one before ---- */

/* Copies the reference to a log whose generation is closed: what the generation after it opens with is what this log
   leaves. It has 82 bytes, of which the last 32 are its digest, which ep_succeed has the next log name; `len`
   becomes how many it has. Have it on the disk before that log. EP_TOO_SHORT: nothing was copied; EP_MEMORY;
   EP_OUT_OF_RANGE: `sum` hasn't 32 bytes, the length is less than that of a header, 43, the generation isn't from 2,
   or `replicas` isn't 3, 5 or 7. */
uint8_t ep_reference(const struct ep_closed_log *closed, uint8_t *out, size_t out_len, size_t *len);

/* Copies what says that the opening file of this digest is the one for which the reference of that digest stood:
   have it on the disk once the file is, and then the file is read in the reference's place. It has 69 bytes, and no
   others say so; `len` becomes how many it has. EP_TOO_SHORT: nothing was copied; EP_MEMORY; EP_OUT_OF_RANGE: a
   digest hasn't 32 bytes. */
uint8_t ep_binding(const uint8_t *reference, size_t reference_len, const uint8_t *opening, size_t opening_len,
                   uint8_t *out, size_t out_len, size_t *len);

/* Goes on in the next generation, once a seal was executed here, all is on the disk and nothing is lent: the replica
   is then that of the next generation, new, with the map as it is, of which nothing is copied. What was asked and
   not answered, prepared and not told, or taken and not told is dropped: call ep_answers, or ep_told, before.
   ep_ready lends the header of its log, which names the digest. Behind `checkpoint` is then the file that it opened
   with, which shares the map, and what is left of this generation: write it, and let the rest go
   (ep_checkpoint_rest), when there is time. After a start the replica goes through the generations since the last
   whole opening by this call, with the log of each. EP_NO_REPLICA, EP_UNSYNCED; EP_NOT_SEALED; EP_LAST_GENERATION;
   EP_HAS_CHECKPOINT; EP_LOG_EXISTS; EP_OUT_OF_RANGE: `digest` hasn't 32 bytes, `replicas` isn't 3, 5 or 7, or
   `replica` isn't below it: all is as it was. EP_MEMORY, and each other status from EP_NO_LOG on, by which the log
   is refused, where `place` becomes the numbers that the status names: the replica, or the checkpoint, may be gone;
   what was said to be on the disk is there, and ep_open goes on from it. */
uint8_t ep_succeed(struct ep_replica *replica, struct ep_checkpoint *checkpoint,
                   const struct ep_succession *succession, struct ep_place *place);

/* Lends the next bytes of the opening file: at most `most` of them, or 189,004 where that is more, since no field is
   cut. All pieces, one after the other, are the file; each has some bytes, and the last one is its digest alone.
   They lie there until the next call with this checkpoint, which any thread may make, whatever the replica does.
   EP_NO_CHECKPOINT, EP_MEMORY; EP_NONE: all was given. */
uint8_t ep_checkpoint_next(struct ep_checkpoint *checkpoint, size_t most, struct ep_bytes *piece);

/* Lets go what is left of the generation before, which goes with the checkpoint else: when there is time, and by any
   thread, since that takes the longer the more the generation did. EP_DONE, also where nothing is left;
   EP_NO_CHECKPOINT. */
uint8_t ep_checkpoint_rest(struct ep_checkpoint *checkpoint);

/* Lets the file go, if it is there. EP_DONE. */
uint8_t ep_checkpoint_free(struct ep_checkpoint *checkpoint);

/* ---- A replica whose log names a reference ---- */

/* Opens a replica as ep_open does, of a generation that was begun by a reference, once its opening file was written:
   its log names the reference's digest, and that is what `succession` has. Only the binding on the disk says that
   the file is the one for which the reference stood: look there before. EP_HAS_REPLICA, EP_MEMORY; EP_OUT_OF_RANGE:
   `digest` hasn't 32 bytes, `replicas` isn't 3, 5 or 7, or `replica` isn't below it; and each status from EP_NO_LOG
   on, as ep_open has them. */
uint8_t ep_open_bound(struct ep_replica *replica, const uint8_t *opening, size_t opening_len,
                      const struct ep_succession *succession, struct ep_place *place);

/* ---- When to give up, and when to recover ---- */

/* Begins to say when a replica is to wait no longer, if nothing was begun: any answer is safe, and this one is wise
   by the time that peers take to answer, which you report. All peers are taken to be reached, and nothing is waited
   for. Times are numbers of a clock of yours, which doesn't turn back; the first is any. `ep_patience_free` ends it.
   EP_HAS_PATIENCE, EP_MEMORY; EP_OUT_OF_RANGE: `replicas` isn't 3, 5 or 7, or `replica` isn't below it. */
uint8_t ep_patience_begin(struct ep_patience *patience, const struct ep_waits *waits);

/* Ends it, if it was begun. EP_DONE. */
uint8_t ep_patience_free(struct ep_patience *patience);

/* Says that an answer of this peer to an own proposal (a frame PreAcceptOK) came so long after the proposal's frame
   was sent to it, which is after the sync. Not where that frame was sent twice: it isn't known then which one is
   answered (Karn's rule). Of a peer that proposals spare, say now and then how long a message of yours and its
   answer took: else nothing is known of it, and its time-out stays at `initial`. EP_NO_PATIENCE; EP_OUT_OF_RANGE:
   `peer` is above 6. */
uint8_t ep_patience_measure(struct ep_patience *patience, uint8_t peer, uint32_t took);

/* Says that frames to this peer arrive, as far as you know, or, if `is_reached` is 0, that they don't: its
   connection is lost. Where one is reached again, what was asked for is hurried. EP_NO_PATIENCE; EP_OUT_OF_RANGE:
   `peer` is above 6. */
uint8_t ep_patience_reach(struct ep_patience *patience, uint8_t peer, uint8_t is_reached);

/* Has the next turn wait no longer for what was asked for before than as if that had been asked for once: when a
   seal is committed, say, as it waits for all. EP_NO_PATIENCE. */
uint8_t ep_patience_hurry(struct ep_patience *patience);

/* Says that somebody recovers this instance: a Prepare or an Accept of it was sent or handled here, at a ballot of
   this counter. Another recovery would be in its way, so it is put off, if it is waited for. EP_NO_PATIENCE;
   EP_OUT_OF_RANGE: there is no such instance. */
uint8_t ep_patience_put_off(struct ep_patience *patience, struct ep_instance instance, uint16_t ballot, uint64_t now);

/* Has a turn at this time, at which just these instances are open, and lends what to ask the replica for.
   `instances` has ten bytes for each, in rising order: nine as the answer of kind 9 has them (docs/FORMATS.md,
   section 10), and the replica that your proposal of it spares (the one just below you where it names none; of
   another's any); one that isn't open here, and of which a peer says that it is committed, has the phase 4. `late`
   has four bytes for each of at most 64 events: 3 (give up) or 4 (recover), and the instance, as in a request.
   EP_NO_PATIENCE, EP_MEMORY; EP_OUT_OF_RANGE: the bytes aren't open instances in rising order. */
uint8_t ep_patience_turn(struct ep_patience *patience, uint64_t now, const uint8_t *instances, size_t instances_len,
                         struct ep_bytes *late);

/* Says when to have the next turn at the latest, if no instance is opened before. EP_NO_PATIENCE; EP_NONE: nothing
   is waited for, or too few peers are reached. */
uint8_t ep_patience_due(struct ep_patience *patience, uint64_t *due);

/* ---- Frames, as a host reads them that passes them on ---- */

/* Says what the header of a frame says, by its first 48 bytes. Of these no more is looked at than that the frame is
   of version 3: a host that passes frames on needs to know what goes by, and ep_handle judges them. EP_BAD_FRAME:
   there are fewer than 48, or they begin as no frame of version 3 does. */
uint8_t ep_frame_head(const uint8_t *frame, size_t frame_len, struct ep_frame_head *head);

/* ---- What opening files say before their maps ---- */

/* Reports what an opening file says before its map, by its first bytes: 65,562 are always enough. It doesn't look at
   the digest, as ep_open does. So a host knows of which generation a file is that it is sent, and whom its seal
   names, before it has all of it; and what the first pieces of a checkpoint say. EP_OPENING_SHORT: more bytes are
   needed; EP_OPENING_WRONG: no opening begins so. */
uint8_t ep_opening_head(const uint8_t *opening, size_t opening_len, struct ep_opening_head *head);

/* ---- Opening files, whole ---- */

/* Reads an opening file, exactly: what is refused is none. Of what is wrong the first is reported, in the order of
   length, format, digest, and then the other fields as they stand in the file. EP_MEMORY; EP_OPENING_SHORT,
   EP_OPENING_DAMAGED, EP_OPENING_WRONG, where `place` becomes the numbers that the status names. */
uint8_t ep_check_opening(const uint8_t *opening, size_t opening_len, struct ep_place *place);

/* Copies the opening file that these parts make, before which nothing was executed: for a cluster that begins anew
   with a map that is left, as after the loss of a majority. `len` becomes how many bytes it has: 59, and those of
   seal and map. EP_TOO_SHORT: nothing was copied; EP_MEMORY; EP_OUT_OF_RANGE: the seal has more than 65,535 bytes;
   EP_OPENING_WRONG: the parts make none, and `place` becomes the numbers that the status names. */
uint8_t ep_opening(const struct ep_opening_parts *parts, uint8_t *out, size_t out_len, size_t *len,
                   struct ep_place *place);

/* ---- References, as a host reads them ---- */

/* Reads a reference, of 82 bytes, exactly: what is refused no reference has. EP_MEMORY; EP_OPENING_SHORT,
   EP_OPENING_DAMAGED, EP_OPENING_WRONG, where `place` becomes the numbers that the status names. */
uint8_t ep_read_reference(const uint8_t *reference, size_t reference_len, struct ep_reference_head *read,
                          struct ep_place *place);

/* ---- Logs, as a host reads them ---- */

/* Says whose log it is, by its first 43 bytes, behind which its records begin; from byte 11 on stands the digest of
   what the generation opened with, 32 bytes. EP_NO_HEADER: there are fewer than 43, or they begin as no log of
   version 3 does. */
uint8_t ep_log_head(const uint8_t *log, size_t log_len, struct ep_log_head *head);

/* Says how many bytes the first record takes of a log's bytes from behind its header on; with those behind it, the
   next one; and so on. Its checksum isn't looked at: ask so of a log that ep_open has read, as far as it wasn't cut
   (ep_cut). EP_NONE: there isn't a whole one. */
uint8_t ep_record(const uint8_t *records, size_t records_len, uint64_t *len);

/* ---- The keys of maps in bytes ---- */

/* Says where the first key and its value stand of the bytes of a map, as ep_contents lends them and opening files
   have them, from behind the 4 bytes on that say how many keys it has; with the bytes behind these, the next one;
   and so on. EP_NONE: there isn't a whole one. */
uint8_t ep_pair(const uint8_t *pairs, size_t pairs_len, struct ep_pair *pair);

/* ---- How a replica starts, by what its folder has ---- */

/* Plans how a replica starts, by what its folder has of its generations, in any order, and by what is asked for. By
   such a plan a replica never acts in a generation that it has left, and never begins a log that it has begun
   before, as long as its marks are there. EP_MEMORY; EP_OUT_OF_RANGE: `kind` is none; and those by which it isn't
   started, where `place` becomes the generation that they name: EP_NO_GENERATION, EP_HAS_GENERATION, EP_LEFT,
   EP_OLDER, EP_OTHER_FILE. */
uint8_t ep_plan(const struct ep_held_generation *held, size_t held_len, const struct ep_start_wish *wish,
                struct ep_start_plan *plan, struct ep_place *place);

/* Says which is the greatest generation of which the folder has an opening or a reference; 0 if there is none.
   EP_MEMORY. */
uint8_t ep_newest(const struct ep_held_generation *held, size_t held_len, uint32_t *newest);

/* Says from which generation on logs are replayed to open this one: `first` becomes the greatest up to it whose
   opening can be read, where those above it, up to this one, have references. EP_MEMORY; EP_BROKEN: `first` becomes
   the generation that has neither. */
uint8_t ep_first(const struct ep_held_generation *held, size_t held_len, uint32_t generation, uint32_t *first);

/* Says which generation the name of a folder spells: in decimal, without a zero in front. EP_NONE: it spells none. */
uint8_t ep_generation_in(const uint8_t *name, size_t name_len, uint32_t *generation);

/* The later generation that the mark of this one names, by the mark's bytes. What can't be read stands for every
   later one: 2^32 - 1. */
uint32_t ep_left_in(const uint8_t *mark, size_t mark_len, uint32_t generation);

/* ---- Calls that need no replica ---- */

/* Which library this is: EP_VERSION of the header that it was built with. Another number is another set of calls. */
uint32_t ep_version(void);

/* Copies the file that generation 1 opens with, in a cluster of this many replicas; its map is empty. `len` becomes
   how many bytes it has. EP_TOO_SHORT: nothing was copied; EP_MEMORY; EP_OUT_OF_RANGE: a cluster has 3, 5 or 7
   replicas. */
uint8_t ep_first_opening(uint8_t replicas, uint8_t *out, size_t out_len, size_t *len);

/* Copies the SHA-256 of the bytes, which has 32, such as that of a log that is closed (ep_reference). `len` becomes
   32. A megabyte takes some milliseconds: a host that can, adds what it writes to a sum of its own, and has it at
   once. EP_TOO_SHORT: nothing was copied. */
uint8_t ep_sum(const uint8_t *bytes, size_t bytes_len, uint8_t *out, size_t out_len, size_t *len);

/* Audits a bundle, of any version, and copies the report of what it finds; of bytes that are no bundle the line that
   says why. `len` becomes how many bytes that has. EP_DONE: the audit accepts; EP_REFUSED: it refuses; EP_NOT_A_RUN,
   EP_BAD_BUNDLE; EP_TOO_SHORT: nothing was copied; EP_MEMORY. */
uint8_t ep_audit(const uint8_t *bundle, size_t bundle_len, uint8_t *out, size_t out_len, size_t *len);

/* What tools/generate writes ends here. */

/* As `free` does, ep_free takes NULL too, and then does nothing. (A call of the library's own, by its address, doesn't.) */
static inline uint8_t ep_free_any(struct ep_replica *replica)
{
    return replica ? (ep_free)(replica) : (uint8_t)EP_DONE;
}
#define ep_free(replica) ep_free_any(replica)

#ifdef __cplusplus
}
#endif

#endif

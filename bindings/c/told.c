/* What the library tells without a replica: what frames and openings say in front, and how a replica starts by what its
   folder has. The bytes are the worked ones of docs/FORMATS.md. */
#include "epaxos.h"

#include <stdio.h>
#include <string.h>

static int wrong;

static void want(const char *what, uint64_t value, uint64_t wanted)
{
    if (value != wanted)
        printf("%s is %llu, not %llu\n", what, (unsigned long long)value, (unsigned long long)wanted), wrong = 1;
}

#define WANT(wanted, ...) want(#__VA_ARGS__, __VA_ARGS__, wanted)

/* The bytes that digits spell. */
static size_t bytes_of(const char *digits, uint8_t *out)
{
    size_t len = 0;
    unsigned byte;
    for (; sscanf(digits, "%2x", &byte) == 1; digits += 2)
        out[len++] = (uint8_t)byte;
    return len;
}

/* A PreAccept, and the Commit of a seal, with a number of its own in each field. */
static void read_frames(void)
{
    static uint8_t frame[64];
    struct ep_frame_head head = { .entry = 7 };
    size_t len = bytes_of("4550030100010000" "00000001" "0000000000000001" "00" "0001" "0000" "00" "00" "0000" "00"
                          "00000001" "03" "01" "0000" "0000" "00000001" "00000001" "78" "31", frame);
    WANT(50, len);
    WANT(EP_BAD_FRAME, ep_frame_head(frame, 47, &head));
    WANT(7, head.entry);
    for (size_t at = 0; at < 3; at++) {
        frame[at] ^= 1;
        WANT(EP_BAD_FRAME, ep_frame_head(frame, len, &head));
        frame[at] ^= 1;
    }
    WANT(EP_DONE, ep_frame_head(frame, 48, &head));
    WANT(1, head.entry);
    WANT(1, head.generation);
    WANT(1, head.kind);
    WANT(3, head.op);
    WANT(1, head.number);
    WANT(0, head.replica + head.from + head.ballot + head.dependencies);
    WANT(1, head.to);
    WANT(49, head.body_at);
    WANT(1, head.body_len);
    WANT('1', frame[head.body_at]);
    /* in the order of the fields, from the kind on */
    len = bytes_of("4550030504060000" "00000102" "0000000000000009" "02" "012c" "0708" "01" "00" "0000" "00"
                   "00000001" "09" "02" "0003" "0304" "00000506" "00000002", frame);
    WANT(48, len);
    WANT(EP_DONE, ep_frame_head(frame, len, &head));
    WANT(5, head.kind);
    WANT(4, head.from);
    WANT(6, head.to);
    WANT(258, head.entry);
    WANT(2, head.replica);
    WANT(300, head.number);
    WANT(1800, head.ballot);
    WANT(9, head.op);
    WANT(48 + 2 + 3, head.body_at);
    WANT(772, head.dependencies);
    WANT(1286, head.generation);
    WANT(2, head.body_len);
}

/* Both files of docs/FORMATS.md, section 12.2, and what they would be if a field were another one. */
static void read_openings(void)
{
    static uint8_t file[128];
    struct ep_opening_head head = { .keys = 7 };
    size_t len = bytes_of("45504f50" "03" "03" "00000001" "0000000000000000" "00" "00000000" "00000000"
                          "eb5a8aa78654c433ae5ae2e8b6468a4d6af5d3dde105ada9fd77d626eb39478e", file);
    WANT(59, len);
    for (size_t front = 0; front < 23; front++)
        WANT(EP_OPENING_SHORT, ep_opening_head(file, front, &head));
    WANT(7, head.keys);
    WANT(EP_DONE, ep_opening_head(file, 23, &head));
    WANT(3, head.replicas);
    WANT(1, head.generation);
    WANT(19, head.map_at);
    WANT(0, head.base_stamp + head.seal_len + head.keys + head.has_seal);
    file[18] = 1;
    WANT(EP_OPENING_WRONG, ep_opening_head(file, len, &head));
    len = bytes_of("45504f50" "03" "03" "00000002" "0000000000000005" "01" "00000001" "78"
                   "00000001" "01" "00000001" "61" "31" "00000002" "00" "0001" "02" "0007", file);
    for (size_t front = 0; front < 28; front++)
        WANT(EP_OPENING_SHORT, ep_opening_head(file, front, &head));
    WANT(EP_DONE, ep_opening_head(file, 28, &head));
    WANT(3, head.replicas);
    WANT(2, head.generation);
    WANT(5, head.base_stamp);
    WANT(1, head.has_seal);
    WANT(1, head.seal_len);
    WANT('x', file[23]);
    WANT(24, head.map_at);
    WANT(1, head.keys);
    /* the magic, the version, the replicas, the generation, the stamp, the mark, the length of the seal */
    static const struct {
        uint8_t at, is;
    } turned[] = { { 0, 0 }, { 3, 0 }, { 4, 2 }, { 5, 4 }, { 9, 0 }, { 11, 1 }, { 18, 0 }, { 18, 2 }, { 20, 1 } };
    for (size_t k = 0; k < sizeof turned / sizeof *turned; k++) {
        uint8_t was = file[turned[k].at];
        file[turned[k].at] = turned[k].is;
        head.keys = 7;
        WANT(EP_OPENING_WRONG, ep_opening_head(file, len, &head));
        WANT(7, head.keys);
        file[turned[k].at] = was;
    }
    file[5] = 7;
    WANT(EP_DONE, ep_opening_head(file, len, &head));
    WANT(7, head.replicas);
}

/* A reference of generation 258 and 5 replicas, to 772 bytes whose sum is 0, 1, 2 ..; one cut, one damaged, and one of
   generation 1, with the digest that it would have. */
static void read_references(void)
{
    static uint8_t file[96];
    struct ep_reference_head head = { .length = 7 };
    struct ep_place place = { 9, 9 };
    size_t len = bytes_of("45504f52" "03" "05" "00000102" "0000000000000304"
                          "000102030405060708090a0b0c0d0e0f101112131415161718191a1b1c1d1e1f"
                          "9a7a04e9aef0d8363299542f92b012891675ea1d1feb49f2f18e91dd2a76ad4c", file);
    WANT(82, len);
    WANT(EP_OPENING_SHORT, ep_read_reference(file, 81, &head, &place));
    WANT(81, place.at);
    file[20] ^= 1;
    WANT(EP_OPENING_DAMAGED, ep_read_reference(file, len, &head, &place));
    WANT(50, place.at);
    file[20] ^= 1;
    WANT(7, head.length);
    place.at = 9;
    WANT(EP_DONE, ep_read_reference(file, len, &head, &place));
    WANT(772, head.length);
    WANT(258, head.generation);
    WANT(5, head.replicas);
    WANT(9, place.at);
    bytes_of("00000001", file + 6);
    bytes_of("1cbb2b21ea96a528e71f274d31a65c87ed82630ee531d7cfd0518f049654cb1d", file + 50);
    WANT(EP_OPENING_WRONG, ep_read_reference(file, len, &head, &place));
    WANT(6, place.at);
    WANT(772, head.length);
}

/* Whose log it is: replica 4 of 5, in generation 258; and what isn't a log's. Behind it are two records, of 2 bytes and
   of none, and one whose lengths aren't each other's complement. */
static void read_logs(void)
{
    static uint8_t log[128];
    struct ep_log_head head = { 7, 7, 7 };
    uint64_t record = 7;
    size_t len = bytes_of("45504c47" "03" "05" "04" "00000102"
                          "000102030405060708090a0b0c0d0e0f101112131415161718191a1b1c1d1e1f"
                          "00000002" "fffffffd" "000000000000002b" "6162" "0000000000000000"
                          "00000000" "ffffffff" "000000000000002b" "0000000000000000"
                          "00000000" "fffffffe" "000000000000002b" "0000000000000000", log);
    WANT(43 + 26 + 24 + 24, len);
    for (size_t front = 0; front < 43; front++)
        WANT(EP_NO_HEADER, ep_log_head(log, front, &head));
    static const struct {
        uint8_t at, is;
    } turned[] = { { 0, 0 }, { 3, 0 }, { 4, 2 }, { 5, 4 }, { 5, 3 }, { 6, 5 } };
    for (size_t k = 0; k < sizeof turned / sizeof *turned; k++) {
        uint8_t was = log[turned[k].at];
        log[turned[k].at] = turned[k].is;
        WANT(EP_NO_HEADER, ep_log_head(log, len, &head));
        log[turned[k].at] = was;
    }
    WANT(777, head.generation * 100 + head.replicas * 10 + head.replica);
    WANT(EP_DONE, ep_log_head(log, 43, &head));
    WANT(258, head.generation);
    WANT(54, head.replicas * 10 + head.replica);
    for (size_t front = 0; front < 26; front++)
        WANT(EP_NONE, ep_record(log + 43, front, &record));
    WANT(7, record);
    WANT(EP_DONE, ep_record(log + 43, len - 43, &record));
    WANT(26, record);
    WANT(EP_DONE, ep_record(log + 69, 24, &record));
    WANT(24, record);
    WANT(EP_NONE, ep_record(log + 93, 24, &record));
    WANT(24, record);
}

/* What binds a file of one digest to the reference of the other; and an opening file that is made of parts, judged, and
   damaged. */
static void write_files(void)
{
    static uint8_t one[32], other[32], out[128], file[128];
    static const uint8_t seal[65536] = "x", map[] = "\0\0\0\1\1\0\0\0\1a1";
    struct ep_opening_parts parts = { { seal, 1 }, { map, sizeof map - 1 }, 772, 258, 5 };
    struct ep_place place = { 9, 9 };
    size_t bound, made = 7, len = bytes_of("45504f50" "03" "05" "00000102" "0000000000000304" "01" "00000001" "78"
                                           "00000001" "01" "00000001" "61" "31" "00000000"
                                           "02d4ce400bc9eae0e4edb8a46165976f387278c9ce03519b6934134941acaaa0", file);
    memset(one, 1, sizeof one), memset(other, 2, sizeof other);
    WANT(EP_OUT_OF_RANGE, ep_binding(one, 31, other, 32, out, sizeof out, &made));
    WANT(EP_OUT_OF_RANGE, ep_binding(one, 32, other, 33, out, sizeof out, &made));
    WANT(7, made);
    WANT(EP_TOO_SHORT, ep_binding(one, 32, other, 32, out, 68, &bound));
    WANT(0, bound == 69 ? out[0] : 1);
    WANT(EP_DONE, ep_binding(one, 32, other, 32, out, sizeof out, &bound));
    WANT(69, bound);
    WANT(0, memcmp(out, "EPOB\3", 5) || memcmp(out + 5, one, 32) || memcmp(out + 37, other, 32));

    WANT(EP_TOO_SHORT, ep_opening(&parts, out, len - 1, &made, &place));
    WANT(len, made);
    WANT(0, memcmp(out, "EPOB", 4));
    WANT(EP_DONE, ep_opening(&parts, out, sizeof out, &made, &place));
    WANT(0, made != len || memcmp(out, file, len));
    WANT(EP_DONE, ep_check_opening(file, len, &place));
    WANT(9, place.at);
    made = 7;
    /* as many replicas as no cluster has, a generation before which no seal stands, a stamp above all, no map */
    parts.replicas = 4;
    WANT(EP_OPENING_WRONG, ep_opening(&parts, out, sizeof out, &made, &place));
    WANT(5, place.at);
    parts.replicas = 3, parts.generation = 0;
    WANT(EP_OPENING_WRONG, ep_opening(&parts, out, sizeof out, &made, &place));
    WANT(6, place.at);
    parts.generation = 1;
    WANT(EP_OPENING_WRONG, ep_opening(&parts, out, sizeof out, &made, &place));
    WANT(18, place.at);
    parts.generation = 2, parts.base_stamp = (uint64_t)1 << 48;
    WANT(EP_OPENING_WRONG, ep_opening(&parts, out, sizeof out, &made, &place));
    WANT(10, place.at);
    parts.base_stamp = 0, parts.map.len = 7;
    WANT(EP_OPENING_WRONG, ep_opening(&parts, out, sizeof out, &made, &place));
    parts.seal.len = 65536;
    place.at = 9;
    WANT(EP_OUT_OF_RANGE, ep_opening(&parts, out, sizeof out, &made, &place));
    WANT(9, place.at);
    WANT(7, made);
    for (size_t front = 0; front < 59; front++) {
        WANT(EP_OPENING_SHORT, ep_check_opening(file, front, &place));
        WANT(front, place.at);
    }
    for (size_t at = 0; at < len; at++) {
        file[at] ^= 1;
        WANT(at < 5 ? EP_OPENING_WRONG : EP_OPENING_DAMAGED, ep_check_opening(file, len, &place));
        WANT(at < 4 ? 0 : at < 5 ? 4 : len - 32, place.at);
        file[at] ^= 1;
    }
}

/* The pairs of a map, `a` with 1 and `bc` with nothing, one after the other, and what is cut. */
static void read_pairs(void)
{
    static uint8_t map[16];
    struct ep_pair pair = { .len = 7 };
    size_t len = bytes_of("01" "00000001" "61" "31" "02" "00000000" "6263", map);
    WANT(14, len);
    for (size_t front = 0; front < 7; front++)
        WANT(EP_NONE, ep_pair(map, front, &pair));
    WANT(7, pair.len);
    WANT(EP_DONE, ep_pair(map, len, &pair));
    WANT(7, pair.len);
    WANT(1, pair.key_len);
    WANT(1, pair.value_len);
    WANT('a', map[pair.key_at]);
    WANT('1', map[pair.value_at]);
    for (size_t front = 7; front < len; front++)
        WANT(EP_NONE, ep_pair(map + 7, front - 7, &pair));
    WANT(EP_DONE, ep_pair(map + 7, len - 7, &pair));
    WANT(7, pair.len);
    WANT(5, pair.key_at);
    WANT(2, pair.key_len);
    WANT(7, pair.value_at);
    WANT(0, pair.value_len);
    memset(map, 0xff, sizeof map);
    WANT(EP_NONE, ep_pair(map, sizeof map, &pair));
}

/* A plan in one number: the generation, whether the opening is written, and how the log is started. */
static uint64_t planned(const struct ep_held_generation *held, size_t len, struct ep_start_wish wish)
{
    struct ep_start_plan plan = { 0, 0, 0 };
    struct ep_place place = { 9, 9 };
    WANT(EP_DONE, ep_plan(held, len, &wish, &plan, &place));
    WANT(9, place.at);
    return plan.generation * 100 + plan.writes * 10 + plan.log;
}

/* Why there is none, in one number: the status, and the generation that it names. */
static uint64_t refused(const struct ep_held_generation *held, size_t len, struct ep_start_wish wish)
{
    struct ep_start_plan plan = { 7, 7, 7 };
    struct ep_place place = { 9, 9 };
    uint8_t status = ep_plan(held, len, &wish, &plan, &place);
    WANT(777, plan.generation * 100 + plan.writes * 10 + plan.log);
    return status * 100 + place.at;
}

enum { GO_ON = 1, NEW, TAKE };

static void plan_starts(void)
{
    const struct ep_held_generation first[] = { { 1, 0, 1, 0, 0 } };
    const struct ep_held_generation written[] = { { 2, 0, 1, 0, 0 }, { 1, 0, 1, 0, 0 } };
    const struct ep_held_generation marked[] = { { 1, 2, 1, 0, 0 }, { 2, 0, 1, 0, 0 } };
    const struct ep_held_generation left[] = { { 1, 2, 1, 0, 0 } };
    const struct ep_held_generation named[] = { { 4, 0, 0, 1, 0 }, { 2, 3, 1, 0, 0 }, { 3, 0, 1, 1, 0 } };
    WANT(111, planned(first, 0, (struct ep_start_wish){ 0, NEW, 0 }));
    WANT(512, planned(first, 0, (struct ep_start_wish){ 5, TAKE, 0 }));
    WANT(103, planned(first, 1, (struct ep_start_wish){ 0, GO_ON, 0 }));
    WANT(101, planned(first, 1, (struct ep_start_wish){ 0, NEW, 1 }));
    WANT(102, planned(first, 1, (struct ep_start_wish){ 1, TAKE, 2 }));
    WANT(202, planned(written, 2, (struct ep_start_wish){ 0, GO_ON, 0 }));
    WANT(203, planned(marked, 2, (struct ep_start_wish){ 0, GO_ON, 0 }));
    WANT(312, planned(left, 1, (struct ep_start_wish){ 3, TAKE, 0 }));
    WANT(402, planned(named, 3, (struct ep_start_wish){ 0, GO_ON, 0 }));
    WANT(100 * EP_NO_GENERATION, refused(first, 0, (struct ep_start_wish){ 0, GO_ON, 0 }));
    WANT(100 * EP_HAS_GENERATION + 1, refused(first, 1, (struct ep_start_wish){ 0, NEW, 0 }));
    WANT(100 * EP_OTHER_FILE + 1, refused(first, 1, (struct ep_start_wish){ 1, TAKE, 0 }));
    WANT(100 * EP_OLDER + 2, refused(marked, 2, (struct ep_start_wish){ 1, TAKE, 0 }));
    WANT(100 * EP_LEFT + 2, refused(left, 1, (struct ep_start_wish){ 0, GO_ON, 0 }));
    WANT(100 * EP_OUT_OF_RANGE + 9, refused(left, 1, (struct ep_start_wish){ 0, 0, 0 }));
    WANT(100 * EP_OUT_OF_RANGE + 9, refused(left, 1, (struct ep_start_wish){ 0, 4, 0 }));
}

static uint64_t first_of(const struct ep_held_generation *held, size_t len, uint32_t generation)
{
    uint32_t first = 9;
    uint64_t status = ep_first(held, len, generation, &first);
    return status * 100 + first;
}

static void replay(void)
{
    /* 3 isn't bound, or is; 4 has a reference alone */
    struct ep_held_generation held[] = { { 4, 0, 0, 1, 0 }, { 2, 3, 1, 0, 0 }, { 3, 0, 1, 1, 0 }, { 1, 2, 1, 0, 0 } };
    WANT(2, first_of(held, 4, 4));
    WANT(1, first_of(held, 4, 1));
    WANT(100 * EP_BROKEN + 2, first_of(held, 1, 2));
    WANT(100 * EP_BROKEN + 3, first_of(held, 2, 4));
    WANT(100 * EP_BROKEN, first_of(held, 4, 0));
    held[2].is_bound = 1;
    WANT(3, first_of(held, 4, 4));
    uint32_t newest = 9;
    WANT(EP_DONE, ep_newest(held, 4, &newest));
    WANT(4, newest);
    held[0].has_reference = 0;
    WANT(EP_DONE, ep_newest(held, 4, &newest));
    WANT(3, newest);
    WANT(EP_DONE, ep_newest(held, 0, &newest));
    WANT(0, newest);
}

/* The generation that a name spells; 0 where it spells none. */
static uint64_t named(const char *name)
{
    uint32_t generation = 0;
    uint8_t status = ep_generation_in((const uint8_t *)name, strlen(name), &generation);
    WANT(generation ? EP_DONE : EP_NONE, status);
    return generation;
}

static uint64_t left_in(const char *mark, uint32_t generation)
{
    return ep_left_in((const uint8_t *)mark, strlen(mark), generation);
}

static void read_names(void)
{
    static const char *const none[] = { "", "0", "01", "+1", "-1", "x", "1x", "4294967296" };
    static const char *const bad[] = { "", "?", "+3", "3\n", "2", "1", "4294967296", "00000000003", "\xff" };
    for (size_t k = 0; k < sizeof none / sizeof *none; k++)
        WANT(0, named(none[k]));
    WANT(1, named("1"));
    WANT(4294967295, named("4294967295"));
    for (size_t k = 0; k < sizeof bad / sizeof *bad; k++)
        WANT(4294967295, left_in(bad[k], 2));
    WANT(3, left_in("3", 2));
    WANT(3, left_in("0003", 2));
}

int main(void)
{
    read_frames();
    read_openings();
    read_references();
    read_logs();
    write_files();
    read_pairs();
    plan_starts();
    replay();
    read_names();
    if (!wrong)
        puts("all is told as the formats say");
    return wrong;
}

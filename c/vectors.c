/* vectors.c: sets of data read and written. Each line of a file of sets that shows one is decoded and described as `ecall
 * decode` does, but for the remarks; the octets that `ecall_encode` writes of it are decoded again, and are the same set.
 * Behind them stand the sets that are made of facts, and the octets of frames. */
#include "ecall.h"
#include "print.h"
#include <stdlib.h>
#include <string.h>
#include <time.h>

#define CHECK(holds) do { if (!(holds)) { fprintf(stderr, "vectors.c:%d: %s\n", __LINE__, #holds); exit(1); } } while (0)

static void print_bits(const uint8_t *octets, const struct ecall_part *part) {
    for (uint32_t i = part->start; i + 8 <= part->start + part->len; i += 8) {
        unsigned octet = 0;
        for (uint32_t j = i; j < i + 8; j++) octet = 2 * octet + (octets[j / 8] >> (7 - j % 8) & 1);
        printf("%02x", octet);
    }
}

static const char *yes(bool holds) { return holds ? "yes" : "no"; }

static void print_way(const char *name, const struct ecall_way *way) {
    if (way->present) printf("%s %d %d\n", name, way->latitude, way->longitude);
    else printf("%s none\n", name);
}

static void describe(const struct ecall_set *set, const uint8_t *octets) {
    static const char *const kinds[] = {"", "M1", "M2", "M3", "N1", "N2", "N3", "L1e", "L2e", "L3e", "L4e", "L5e", "L6e", "L7e"};
    time_t seconds = set->time;
    char date[40];
    strftime(date, sizeof date, "%FT%TZ", gmtime(&seconds));
    printf("format %u\nmessage %u\nautomatic %s\ntest %s\ntrusted %s\n", set->format, set->message, yes(set->automatic),
           yes(set->test), yes(set->trusted));
    printf("kind %s\nvin %.17s\nfuel %d%d%d%d%d%d", kinds[set->kind], (const char *)set->vin, set->gasoline, set->diesel,
           set->natural_gas, set->propane, set->electric, set->hydrogen);
    if (set->format == 2) printf("%d", set->other);
    printf("\nfuel_more %s\ntime %u %s\nlatitude %d\nlongitude %d\nheading %u\n", set->fuel_more.present ? "some" : "none",
           set->time, date, set->latitude, set->longitude, set->heading);
    print_way("before1", &set->before1);
    print_way("before2", &set->before2);
    if (set->has_passengers) printf("passengers %u\n", set->passengers);
    else printf("passengers none\n");
    printf("set_more %s\nextra ", set->set_more.present ? "some" : "none");
    if (set->oid.present) {
        print_bits(octets, &set->oid);
        printf(" ");
        print_bits(octets, &set->content);
    } else printf("none");
    printf("\nmessage_more %s\n", set->message_more.present ? "some" : "none");
}

/* The same set, whatever the places of its parts. */
static bool is_alike(struct ecall_set one, struct ecall_set other) {
    struct ecall_part *parts[] = {&one.fuel_more, &one.set_more, &one.oid, &one.content, &one.message_more,
        &other.fuel_more, &other.set_more, &other.oid, &other.content, &other.message_more};
    for (int i = 0; i < 10; i++) parts[i]->start = 0;
    return one.time == other.time && one.latitude == other.latitude && one.longitude == other.longitude
        && one.oid.present == other.oid.present && one.oid.len == other.oid.len && one.content.len == other.content.len
        && one.fuel_more.present == other.fuel_more.present && one.set_more.present == other.set_more.present
        && one.message_more.present == other.message_more.present && one.before1.present == other.before1.present
        && one.before2.present == other.before2.present && memcmp(one.vin, other.vin, 17) == 0
        && one.format == other.format && one.message == other.message && one.heading == other.heading
        && one.kind == other.kind && one.kind_is_added == other.kind_is_added && one.automatic == other.automatic
        && one.test == other.test && one.trusted == other.trusted && one.gasoline == other.gasoline
        && one.other == other.other && one.has_passengers == other.has_passengers && one.passengers == other.passengers;
}

static void take_line(const char *line) {
    uint8_t octets[200];
    size_t len = read_octets(line, octets, sizeof octets);
    struct ecall_decoded read = ecall_decode(octets, len);
    if (read.refusal.reason != ECALL_IS_SET) {
        printf("refused %u %u %llu\n", read.refusal.place, read.refusal.reason, (unsigned long long)read.refusal.value);
        return;
    }
    describe(&read.set, octets);
    struct ecall_encoded written = ecall_encode(&read.set, octets, len);
    CHECK(written.fault == ECALL_WRITTEN);
    struct ecall_decoded again = ecall_decode(written.octets, written.len);
    CHECK(again.refusal.reason == ECALL_IS_SET && is_alike(read.set, again.set));
    struct ecall_encoded twice = ecall_encode(&again.set, written.octets, written.len);
    CHECK(twice.len == written.len && memcmp(twice.octets, written.octets, written.len) == 0);
}

/* A set is this line of hexadecimal digits. */
static void is_set(struct ecall_encoded set, const char *digits) {
    uint8_t octets[200];
    size_t len = read_octets(digits, octets, sizeof octets);
    CHECK(set.fault == ECALL_WRITTEN && set.len == len && memcmp(set.octets, octets, len) == 0);
}

static void make(void) {
    struct ecall_facts facts = {
        .time = 1577836800, .latitude = 173880000, .longitude = 41700000, .vin = "WM9VDSVDSYA123456",
        .format = 2, .kind = 1, .heading = 45, .trusted = true,
    };
    is_set(ecall_spell(&facts, ECALL_AUTOMATIC, 1), "02000681d54970d65c3597ca0420c4146005e0be1008a5d32c0827c4aa02d0");
    facts.format = 1;
    is_set(ecall_spell(&facts, ECALL_AUTOMATIC, 1), "01000681d54970d65c3597ca0420c414600bc17c20114ba658104f895405a0");
    facts.gasoline = facts.other = true;
    is_set(ecall_spell(&facts, ECALL_AUTOMATIC, 1), "01000681d54970d65c3597ca0420c4146415e0be1008a5d32c0827c4aa02d0");
    facts.format = 2;
    facts.other = false;
    is_set(ecall_spell(&facts, ECALL_AUTOMATIC, 1), "02000681d54970d65c3597ca0420c414640af05f080452e9960413e2550168");
    struct ecall_encoded manual = ecall_spell(&facts, ECALL_MANUAL, 7);
    struct ecall_decoded read = ecall_decode(manual.octets, manual.len);
    CHECK(!read.set.automatic && !read.set.test && read.set.message == 7);
    uint8_t set[ECALL_OCTETS] = {1};
    CHECK(ecall_make(&facts, ECALL_MANUAL, 7, set));
    CHECK(memcmp(set, manual.octets, manual.len) == 0 && set[manual.len] == 0 && set[139] == 0);
    /* wrong numbers say so, and change nothing */
    CHECK(!ecall_make(&facts, 3, 7, set) && ecall_spell(&facts, 3, 7).fault == ECALL_NO_SET);
    facts.kind = 14;
    CHECK(!ecall_make(&facts, ECALL_TEST, 8, set) && memcmp(set, manual.octets, manual.len) == 0);
    read.set.before1.present = true;
    read.set.before1.latitude = 512;
    CHECK(ecall_encode(&read.set, manual.octets, manual.len).fault == ECALL_NO_SET);
}

static void frames(void) {
    static const struct { struct ecall_frame frame; uint8_t octets[3], len; } rows[] = {
        {{.kind = ECALL_INIT}, {1}, 1},
        {{.kind = ECALL_START, .request = 1}, {2, 1}, 2},
        {{.kind = ECALL_NACK, .request = 1}, {4, 1}, 2},
        {{.kind = ECALL_ACK, .request = 6}, {5, 6}, 2},
        {{.kind = ECALL_POSITIVE, .request = 255}, {6, 255, 1}, 3},
        {{.kind = ECALL_CLEAR, .request = 255}, {6, 255, 2}, 3},
    };
    for (size_t i = 0; i < sizeof rows / sizeof *rows; i++) {
        struct ecall_frame_octets written = ecall_frame_write(&rows[i].frame);
        CHECK(written.is_frame && written.len == rows[i].len && memcmp(written.octets, rows[i].octets, written.len) == 0);
    }
    struct ecall_frame content = {.kind = ECALL_CONTENT, .request = 1, .attempt = 9, .octets = {7, 8}};
    struct ecall_frame_octets written = ecall_frame_write(&content);
    CHECK(written.len == 143 && memcmp(written.octets, "\3\1\x9\7\x8", 6) == 0);
    content.request = 0;
    CHECK(!ecall_frame_write(&content).is_frame);
    content.kind = 7;
    content.request = 1;
    CHECK(!ecall_frame_write(&content).is_frame);
}

/* Frames are read from octets as they were written, whole and cut short; an octet with which none goes on is told. */
static void read_frames(void) {
    for (unsigned kind = 0; kind <= ECALL_CLEAR; kind++) {
        struct ecall_frame frame = {.kind = (uint8_t)kind, .request = kind ? 200 : 0};
        if (kind == ECALL_CONTENT) frame.attempt = frame.octets[0] = frame.octets[139] = 5;
        struct ecall_frame_octets written = ecall_frame_write(&frame);
        struct ecall_frame_read read = ecall_frame_read(written.octets, written.len);
        CHECK(read.verdict == ECALL_FRAME && read.taken == written.len && memcmp(&read.frame, &frame, sizeof frame) == 0);
        CHECK(ecall_frame_read(written.octets, written.len - 1u).verdict == ECALL_MORE);
    }
    struct ecall_frame_read read = ecall_frame_read((const uint8_t *)"\1\7", 2);
    CHECK(read.verdict == ECALL_FRAME && read.taken == 1);
    read = ecall_frame_read((const uint8_t *)"\7", 1);
    CHECK(read.verdict == ECALL_STOPPED && read.taken == 0 && read.fault == 1 && read.octet == 7);
    read = ecall_frame_read((const uint8_t *)"\4\0", 2);
    CHECK(read.verdict == ECALL_STOPPED && read.taken == 1 && read.fault == 2 && read.octet == 0);
    read = ecall_frame_read((const uint8_t *)"\6\1\3", 3);
    CHECK(read.verdict == ECALL_STOPPED && read.taken == 2 && read.fault == 3 && read.octet == 3);
}

static void parts(void) {
    struct ecall_message_part part = {.call = 0x01020304, .kind = ECALL_LEAVES};
    struct ecall_part_octets written = ecall_part_write(&part);
    CHECK(written.is_part && written.len == 5 && memcmp(written.octets, "\x12\1\2\3\4", 5) == 0);
    part = (struct ecall_message_part){.call = 7, .kind = ECALL_CARRIES, .frame = {.kind = ECALL_ACK, .request = 9}};
    written = ecall_part_write(&part);
    CHECK(written.is_part && written.len == 7 && memcmp(written.octets, "\x20\0\0\0\7\5\x9", 7) == 0);
    part.call = 0;
    CHECK(!ecall_part_write(&part).is_part);
    part.kind = ECALL_DIALS;
    written = ecall_part_write(&part);
    CHECK(written.is_part && written.len == 1 && written.octets[0] == 16);
}

/* A message is read part by part as it was written; an octet with which none goes on is told. */
static void read_messages(void) {
    static const struct ecall_message_part given[] = {
        {.call = 7, .kind = ECALL_LEAVES},
        {.call = 0x01020304, .kind = ECALL_CARRIES, .frame = {.kind = ECALL_CONTENT, .request = 9, .attempt = 2, .octets = {1, 2, 3}}},
        {.call = 1, .kind = ECALL_CARRIES, .frame = {.kind = ECALL_INIT}},
        {.kind = ECALL_DIALS},
    };
    uint8_t octets[400];
    size_t len = 0, at = 0;
    for (size_t i = 0; i < sizeof given / sizeof *given; i++) {
        struct ecall_part_octets part = ecall_part_write(&given[i]);
        memcpy(octets + len, part.octets, part.len);
        len += part.len;
    }
    octets[len++] = 0;
    for (size_t i = 0; i < sizeof given / sizeof *given; i++) {
        struct ecall_message_read read = ecall_message_read(octets + at, len - at, true);
        CHECK(read.verdict == ECALL_PART_READ && memcmp(&read.part, &given[i], sizeof *given) == 0);
        CHECK(ecall_message_read(octets + at, read.taken - 1, true).verdict == ECALL_PART_MORE);
        at += read.taken;
    }
    struct ecall_message_read read = ecall_message_read(octets + at, len - at, true);
    CHECK(read.verdict == ECALL_MESSAGE_END && read.taken == 1 && at + 1 == len);
    CHECK(ecall_message_read((const uint8_t *)"0", 1, true).verdict == ECALL_SCRIPT_END);
    /* what only the point is sent, a number 0, a frame that is none */
    read = ecall_message_read((const uint8_t *)"\x10", 1, false);
    CHECK(read.verdict == ECALL_PART_STOPPED && read.taken == 0 && read.fault == 4 && read.octet == 16);
    read = ecall_message_read((const uint8_t *)"\x12\0\0\0\0", 5, false);
    CHECK(read.verdict == ECALL_PART_STOPPED && read.taken == 4 && read.fault == 5 && read.octet == 0);
    read = ecall_message_read((const uint8_t *)"\x20\0\0\0\1\6\1\3", 8, true);
    CHECK(read.verdict == ECALL_PART_STOPPED && read.taken == 7 && read.fault == 3 && read.octet == 3);
}

int main(int argc, char **argv) {
    static char line[1000];
    make();
    frames();
    read_frames();
    parts();
    read_messages();
    for (int i = 1; i < argc; i++) {
        FILE *file = fopen(argv[i], "r");
        CHECK(file);
        while (fgets(line, sizeof line, file))
            if (line[0] != '#' && line[0] != '\n') take_line(line);
        fclose(file);
    }
    return 0;
}

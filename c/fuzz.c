/* fuzz.c: a million changed sets and frames, each in front of a page that nobody may touch. It stops early where the
 * seconds given are over, and says how many there were. */
#define _GNU_SOURCE
#include "ecall.h"
#include "print.h"
#include <stdlib.h>
#include <string.h>
#include <sys/mman.h>
#include <time.h>
#include <unistd.h>

static uint64_t state = 1;

/* The next number of a sequence that is always the same. */
static uint32_t next(uint32_t below) {
    state = state * 6364136223846793005u + 1442695040888963407u;
    return (uint32_t)(state >> 33) % below;
}

/* The end of a page behind which nobody may read or write. */
static uint8_t *guarded(void) {
    size_t page = (size_t)sysconf(_SC_PAGESIZE);
    uint8_t *at = mmap(NULL, 2 * page, PROT_READ | PROT_WRITE, MAP_PRIVATE | MAP_ANONYMOUS, -1, 0);
    if (at == MAP_FAILED || mprotect(at + page, page, PROT_NONE)) exit(2);
    return at + page;
}

static const char *const sets[] = {
    "02000681d54970d65c3597ca0420c4146005e0be1008a5d32c0827c4aa02d0",
    "02200681d54970d65c3597ca0420c4146005e0be1008a5d32c0827c4aa02d0103abcdef0",
    "01000681d54970d65c3597ca0420c4146415e0be1008a5d32c0827c4aa02d0",
    "025c0681d54970d65c3597ca0420c41467ffebc17c20114ba658104f895405b053ec007fe040202c6000000000000000000000000000000000",
};
static uint8_t *page_end;
static struct ecall_items *items;
static unsigned shown, refused, unwritten, heard, unheard;

static void change_set(void) {
    uint8_t octets[200];
    size_t len = read_octets(sets[next(4)], octets, sizeof octets);
    if (next(2)) len = next((uint32_t)len + 1);
    if (!len) len = 1;
    for (uint32_t n = next(4); n; n--) octets[next((uint32_t)len)] ^= (uint8_t)(1u << next(8));
    uint8_t *at = page_end - len;
    memcpy(at, octets, len);
    struct ecall_decoded read = ecall_decode(at, len);
    if (read.refusal.reason != ECALL_IS_SET) {
        refused++;
        if (read.refusal.reason > ECALL_SIZE || read.refusal.place > 8 * len) abort();
    } else {
        shown++;
        if (ecall_encode(&read.set, at, len).fault != ECALL_WRITTEN) abort();
    }
    /* any numbers at all in the struct, but the bools */
    struct ecall_set set = read.set;
    struct ecall_part *parts[] = {&set.fuel_more, &set.set_more, &set.oid, &set.content, &set.message_more};
    struct ecall_part *part = parts[next(5)];
    *part = (struct ecall_part){next(4) ? next(1200) : next(UINT32_MAX), next(4) ? next(200) : next(UINT32_MAX), next(2)};
    set.kind = (uint8_t)next(256);
    set.kind_is_added = next(2);
    set.format = (uint8_t)next(4);
    if (!next(4)) set.vin[next(17)] = (uint8_t)next(256);
    if (ecall_encode(&set, at, len).fault == ECALL_NO_SET) unwritten++;
}

/* Octets that may begin a frame; a frame that they have is written as they are. */
static void change_stream(void) {
    size_t len = 1 + next(200);
    uint8_t *at = page_end - len;
    for (size_t i = 0; i < len; i++) at[i] = (uint8_t)(i < 3 ? next(8) : next(256));
    struct ecall_frame_read read = ecall_frame_read(at, len);
    if (read.verdict > ECALL_STOPPED || read.taken > len) abort();
    if (read.verdict != ECALL_FRAME) return;
    struct ecall_frame_octets written = ecall_frame_write(&read.frame);
    if (!written.is_frame || written.len != read.taken || memcmp(written.octets, at, written.len)) abort();
}

/* Octets that may begin a message; a part that they have is written as they are. */
static void change_message(void) {
    static const uint8_t first[] = {0, 16, 17, 18, 19, 20, 32, 48};
    size_t len = 1 + next(200);
    uint8_t *at = page_end - len;
    for (size_t i = 0; i < len; i++) at[i] = (uint8_t)(i < 8 ? next(8) : next(256));
    at[0] = first[next(8)];
    struct ecall_message_read read = ecall_message_read(at, len, next(2));
    if (read.verdict > ECALL_SCRIPT_END || read.taken > len) abort();
    if (read.verdict != ECALL_PART_READ) return;
    struct ecall_part_octets written = ecall_part_write(&read.part);
    if (!written.is_part || written.len != read.taken || memcmp(written.octets, at, written.len)) abort();
}

static _Alignas(8) unsigned char vehicle_room[ECALL_VEHICLE_ROOM], point_room[ECALL_POINT_ROOM];
static struct ecall_vehicle vehicle = {vehicle_room};
static struct ecall_point point = {point_room};

static void count(bool was_right) {
    if (was_right) heard++;
    else unheard++;
    if (items->count > ECALL_MOST_ITEMS) abort();
}

static void change_frame(void) {
    struct ecall_point_event *at = (struct ecall_point_event *)page_end - 1;
    *at = (struct ecall_point_event){.kind = (uint8_t)(next(8) ? 0 : next(12)),
        .frame = {.kind = (uint8_t)next(8), .request = (uint8_t)(next(4) ? next(3) : next(256)), .attempt = (uint8_t)next(256)}};
    at->frame.octets[next(140)] = (uint8_t)next(256);
    struct ecall_frame_octets octets = ecall_frame_write(&at->frame);
    if (octets.is_frame != (octets.len > 0) || octets.len > 143) abort();
    count(ecall_point_hear(&point, at, items));
    count(ecall_point_pass(&point, next(20), items));
    struct ecall_vehicle_event event = {.kind = (uint8_t)next(17), .call = next(3), .frame = at->frame};
    struct ecall_vehicle_event *there = (struct ecall_vehicle_event *)(void *)(page_end - sizeof event);
    *there = event;
    count(ecall_vehicle_hear(&vehicle, there, items));
    count(ecall_vehicle_pass(&vehicle, next(60), items));
    if (next(100)) return;
    /* the end of a call, and room again */
    point = (struct ecall_point){point_room};
    if (next(2)) ecall_point_arriving(&point, 1, items);
    else ecall_point_called(&point, 1, items);
}

int main(int argc, char **argv) {
    unsigned wanted = argc > 1 ? (unsigned)atoi(argv[1]) : 1000000, seconds = argc > 2 ? (unsigned)atoi(argv[2]) : 60, done = 0;
    time_t start = time(NULL);
    uint8_t set[ECALL_OCTETS];
    memset(set, 0, sizeof set);
    page_end = guarded();
    items = (struct ecall_items *)(void *)(guarded() - sizeof *items);
    ecall_vehicle_new(&vehicle, set);
    ecall_point_arriving(&point, 1, items);
    for (; done < wanted; done++) {
        if (done % 4096 == 0 && time(NULL) - start >= (time_t)seconds) break;
        if (done & 1) change_set();
        else {
            change_stream();
            change_message();
            change_frame();
        }
    }
    printf("%u changed: %u sets, %u none, %u structs that are no set, %u events, %u wrong ones\n", done, shown, refused,
           unwritten, heard, unheard);
    return !(shown && refused && unwritten && heard && unheard);
}

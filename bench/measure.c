/* The C library measured.
 *
 *   measure decode ROUNDS   decodes the sets of standard input, lines of hexadecimal, held in memory, so many times over, and
 *   measure encode ROUNDS   prints the seconds of processor time that this took; encodes them the same way
 *   measure steps           nanoseconds of an event heard and of ticks passed, of both ends
 *   measure stack           bytes of stack that each function takes, by painting
 */
#define _GNU_SOURCE
#include "ecall.h"
#include <stdio.h>
#include <stdlib.h>
#include <string.h>
#include <time.h>
#include <ucontext.h>

struct set { size_t size; uint8_t octets[ECALL_OCTETS]; };

static double seconds_now(void) {
    struct timespec now;
    clock_gettime(CLOCK_PROCESS_CPUTIME_ID, &now);
    return now.tv_sec + now.tv_nsec / 1e9;
}

static size_t unhex(const char *digits, uint8_t *octets, size_t room) {
    size_t len = 0;
    unsigned octet;
    while (len < room && sscanf(digits + 2 * len, "%2x", &octet) == 1) octets[len++] = (uint8_t)octet;
    return len;
}

static int in_memory(int encodes, long rounds) {
    static char line[600];
    size_t room = 1024, count = 0, good = 0;
    struct set *sets = malloc(room * sizeof *sets);
    while (sets && fgets(line, sizeof line, stdin)) {
        sets[count].size = unhex(line, sets[count].octets, ECALL_OCTETS);
        if (++count == room) sets = realloc(sets, (room *= 2) * sizeof *sets);
    }
    struct ecall_decoded *read = malloc((count + 1) * sizeof *read);
    if (!sets || !read) return 6;
    for (size_t i = 0; i < count; i++) read[i] = ecall_decode(sets[i].octets, sets[i].size);
    double begin = seconds_now();
    for (long round = 0; round < rounds; round++)
        for (size_t i = 0; i < count; i++)
            if (encodes) good += ecall_encode(&read[i].set, sets[i].octets, sets[i].size).fault == ECALL_WRITTEN;
            else good += ecall_decode(sets[i].octets, sets[i].size).refusal.reason == ECALL_IS_SET;
    printf("%.6f %zu of %ld\n", seconds_now() - begin, good, rounds * (long)count);
    return 0;
}

static _Alignas(8) unsigned char vehicle_room[ECALL_VEHICLE_ROOM], point_room[ECALL_POINT_ROOM];
static struct ecall_vehicle vehicle = {vehicle_room};
static struct ecall_point point = {point_room};
static struct ecall_items items;
static struct ecall_facts facts = {.time = 1577836800, .vin = "WM9VDSVDSYA123456", .format = 2, .kind = 1};
static struct ecall_vehicle_event to_vehicle;
static struct ecall_point_event to_point;
static struct ecall_frame frame = {.kind = ECALL_CONTENT, .request = 1};
static struct ecall_decoded decoded;
static struct ecall_encoded encoded;
static struct ecall_frame_octets frame_octets;
static struct ecall_frame_read frame_read;
static struct ecall_message_part part = {.call = 1, .kind = ECALL_CARRIES, .frame = {.kind = ECALL_CONTENT, .request = 1}};
static struct ecall_part_octets part_octets;
static struct ecall_message_read message_read;
static uint8_t set[ECALL_OCTETS];

static void decode(void) { decoded = ecall_decode(set, sizeof set); }
static void encode(void) { encoded = ecall_encode(&decoded.set, set, sizeof set); }
static void spell(void) { encoded = ecall_spell(&facts, ECALL_AUTOMATIC, 1); }
static void make(void) { ecall_make(&facts, ECALL_AUTOMATIC, 1, set); }
static void write_frame(void) { frame_octets = ecall_frame_write(&frame); }
static void read_frame(void) { frame_read = ecall_frame_read(frame_octets.octets, frame_octets.len); }
static void write_part(void) { part_octets = ecall_part_write(&part); }
static void read_message(void) { message_read = ecall_message_read(part_octets.octets, part_octets.len, true); }
static void vehicle_new(void) { vehicle.at = vehicle_room; ecall_vehicle_new(&vehicle, set); }
static void vehicle_knows(void) { vehicle.at = vehicle_room; ecall_vehicle_knows(&vehicle, &facts); }
static void vehicle_hear(void) { ecall_vehicle_hear(&vehicle, &to_vehicle, &items); }
static void vehicle_due(void) { ecall_vehicle_due(&vehicle); }
static void vehicle_pass(void) { ecall_vehicle_pass(&vehicle, 1, &items); }
static void point_arriving(void) { point.at = point_room; ecall_point_arriving(&point, 1, &items); }
static void point_called(void) { point.at = point_room; ecall_point_called(&point, 1, &items); }
static void point_hear(void) { ecall_point_hear(&point, &to_point, &items); }
static void point_due(void) { ecall_point_due(&point); }
static void point_pass(void) { ecall_point_pass(&point, 1, &items); }

static void at_vehicle(uint8_t kind, uint8_t frame_kind) {
    to_vehicle = (struct ecall_vehicle_event){.call = 1, .kind = kind, .frame = {.kind = frame_kind, .request = 1}};
}

static unsigned char stack[65536] __attribute__((aligned(64)));
static ucontext_t back, there;
static size_t taken_by_nothing;

/* How many bytes of a painted stack a function changes. */
static size_t used(void (*function)(void)) {
    memset(stack, 0xA5, sizeof stack);
    getcontext(&there);
    there.uc_stack.ss_sp = stack;
    there.uc_stack.ss_size = sizeof stack;
    there.uc_link = &back;
    makecontext(&there, function, 0);
    swapcontext(&back, &there);
    size_t clean = 0;
    while (clean < sizeof stack && stack[clean] == 0xA5) clean++;
    return sizeof stack - clean;
}

static void nothing(void) {}
static void paint(const char *what, void (*function)(void)) {
    printf("  %-42s %6zu bytes\n", what, used(function) - taken_by_nothing);
}

static int paint_all(void) {
    unhex("02000681d54970d65c3597ca0420c414640af05f080452e9960413e2550168", set, sizeof set);
    taken_by_nothing = used(nothing);
    paint("ecall_decode", decode);
    paint("ecall_encode", encode);
    paint("ecall_spell", spell);
    paint("ecall_make", make);
    paint("ecall_frame_write", write_frame);
    paint("ecall_frame_read", read_frame);
    paint("ecall_part_write", write_part);
    paint("ecall_message_read", read_message);
    paint("ecall_point_arriving", point_arriving);
    paint("ecall_point_due", point_due);
    paint("ecall_point_hear, an initiation", point_hear);
    to_point.frame = frame;
    paint("ecall_point_hear, a set", point_hear);
    paint("ecall_point_pass", point_pass);
    paint("ecall_point_called", point_called);
    paint("ecall_vehicle_new", vehicle_new);
    paint("ecall_vehicle_knows", vehicle_knows);
    at_vehicle(ECALL_VEHICLE_SENSOR, 0);
    paint("ecall_vehicle_hear, a trigger", vehicle_hear);
    at_vehicle(ECALL_VEHICLE_ANSWERED, 0);
    paint("ecall_vehicle_hear, answered", vehicle_hear);
    paint("ecall_vehicle_due", vehicle_due);
    at_vehicle(ECALL_VEHICLE_FRAME, ECALL_START);
    paint("ecall_vehicle_hear, a request", vehicle_hear);
    paint("ecall_vehicle_pass", vehicle_pass);
    at_vehicle(ECALL_VEHICLE_FRAME, ECALL_POSITIVE);
    paint("ecall_vehicle_hear, an acknowledgement", vehicle_hear);
    printf("  %-42s %6zu bytes\n", "memory of a vehicle", ecall_vehicle_size());
    printf("  %-42s %6zu bytes\n", "memory of a point's session", ecall_point_size());
    return 0;
}

/* The least nanoseconds of a step, of nine rounds of many. */
static void cost(const char *what, void (*function)(void)) {
    double least = 1;
    enum { MANY = 200000 };
    for (int round = 0; round < 9; round++) {
        double begin = seconds_now();
        for (int i = 0; i < MANY; i++) function();
        double took = (seconds_now() - begin) / MANY;
        if (took < least) least = took;
    }
    printf("  %-42s %6.0f ns\n", what, least * 1e9);
}

/* A call is lost, and another one comes up, so that a timer runs. */
static void vehicle_in_call(void) {
    vehicle_knows();
    at_vehicle(ECALL_VEHICLE_SENSOR, 0);
    vehicle_hear();
    at_vehicle(ECALL_VEHICLE_ANSWERED, 0);
    vehicle_hear();
}

static int steps(void) {
    point_arriving();
    cost("ecall_point_hear, an initiation again", point_hear);
    to_point.frame = frame;
    cost("ecall_point_hear, a set again", point_hear);
    vehicle_in_call();
    at_vehicle(ECALL_VEHICLE_FRAME, ECALL_NACK);
    cost("ecall_vehicle_hear, a frame to no end", vehicle_hear);
    cost("ecall_vehicle_knows, a trigger, answered", vehicle_in_call);
    cost("ecall_vehicle_due", vehicle_due);
    at_vehicle(ECALL_VEHICLE_FRAME, ECALL_START);
    vehicle_in_call();
    at_vehicle(ECALL_VEHICLE_FRAME, ECALL_START);
    vehicle_hear();
    cost("ecall_vehicle_pass, one tick", vehicle_pass);
    point_arriving();
    to_point = (struct ecall_point_event){.kind = ECALL_POINT_FRAME};
    point_hear();
    cost("ecall_point_pass, one tick", point_pass);
    cost("ecall_point_due", point_due);
    return 0;
}

int main(int count, char **words) {
    if (count == 3) return in_memory(words[1][0] == 'e', atol(words[2]));
    if (count == 2 && !strcmp(words[1], "steps")) return steps();
    if (count == 2 && !strcmp(words[1], "stack")) return paint_all();
    fprintf(stderr, "usage: measure decode ROUNDS|encode ROUNDS|steps|stack\n");
    return 1;
}

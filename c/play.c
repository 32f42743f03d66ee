/* play.c SCRIPT: plays a script of examples/ over both ends, as `ecall run` does, and writes its trace. It is a world of one
 * vehicle: each call has the point's session and the frames that were sent in it, and a script says what arrives. A line that
 * isn't known ends it with status 1. */
#include "ecall.h"
#include "print.h"
#include <stdlib.h>
#include <string.h>

enum { UP, DOWN, WAYS, MOST_CALLS = 16, MOST_FRAMES = 1024 };

/* What was sent one way in a call. */
struct frames {
    struct { unsigned sent; struct ecall_frame frame; } all[MOST_FRAMES];
    unsigned count;
};

struct call {
    _Alignas(8) unsigned char room[ECALL_POINT_ROOM];
    struct ecall_point point;
    bool point_up;
    struct frames ways[WAYS];
};

static _Alignas(8) unsigned char vehicle_room[ECALL_VEHICLE_ROOM];
static struct ecall_vehicle vehicle = {vehicle_room};
static struct call calls[MOST_CALLS + 1]; /* by number, from 1 */
static uint32_t last_call, vehicle_call;  /* the number drawn last; the call that the vehicle is in, or 0 */
static unsigned now, flows[WAYS];

static void fail(const char *what) {
    fprintf(stderr, "play.c: %s\n", what);
    exit(1);
}

static void nothing(void) {
    print_item(now, &(struct ecall_item){.kind = ECALL_NOTHING});
}

static void hear_vehicle(uint8_t kind, uint32_t call, const struct ecall_frame *frame);
static void hear_point(uint32_t call, uint8_t kind, const struct ecall_frame *frame);

/* An end gave an item: it is written, and what it sends is kept. */
static void tell(const struct ecall_item *item) {
    print_item(now, item);
    struct call *call = &calls[item->call];
    if (item->kind == ECALL_SEND) {
        struct frames *way = &call->ways[item->at_point ? DOWN : UP];
        if (way->count == MOST_FRAMES) fail("too many frames");
        way->all[way->count].sent = now;
        way->all[way->count++].frame = item->frame;
    }
    if (item->kind != ECALL_UP && item->kind != ECALL_DOWN) return;
    if (item->at_point) call->point_up = item->kind == ECALL_UP;
    else vehicle_call = item->kind == ECALL_UP ? item->call : 0;
    if (item->kind == ECALL_DOWN && !call->point_up && vehicle_call != item->call)
        call->ways[UP].count = call->ways[DOWN].count = 0;
}

/* What an end gave in a step; and then what the other end hears of it. */
static void carry(const struct ecall_items *items) {
    for (int i = 0; i < items->count; i++) tell(&items->items[i]);
    for (int i = 0; i < items->count; i++) {
        const struct ecall_item *item = &items->items[i];
        if (item->kind != ECALL_DOWN || item->number == ECALL_LOST) continue;
        if (item->at_point && vehicle_call == item->call) hear_vehicle(ECALL_VEHICLE_HANGUP, 0, NULL);
        if (!item->at_point && item->number == ECALL_RELEASE && calls[item->call].point_up)
            hear_point(item->call, ECALL_POINT_RELEASED, NULL);
    }
}

static void hear_vehicle(uint8_t kind, uint32_t call, const struct ecall_frame *frame) {
    struct ecall_items items = {0};
    struct ecall_vehicle_event event = {.kind = kind, .call = call};
    if (frame) event.frame = *frame;
    if (!ecall_vehicle_hear(&vehicle, &event, &items)) fail("an event of the vehicle is wrong");
    carry(&items);
}

/* The session of a call hears it, if its leg is up; whether it is. */
static bool try_point(uint32_t call, uint8_t kind, const struct ecall_frame *frame) {
    if (call == 0 || call > last_call || !calls[call].point_up) return false;
    struct ecall_items items = {0};
    struct ecall_point_event event = {.kind = kind};
    if (frame) event.frame = *frame;
    if (!ecall_point_hear(&calls[call].point, &event, &items)) fail("an event of the point is wrong");
    carry(&items);
    return true;
}

static void hear_point(uint32_t call, uint8_t kind, const struct ecall_frame *frame) {
    if (!try_point(call, kind, frame)) nothing();
}

/* The vehicle is answered or called; where it takes that, the call has a number, and a session. */
static void comes_up(uint8_t kind, void (*session)(struct ecall_point *, uint32_t, struct ecall_items *)) {
    struct ecall_items items = {0};
    struct ecall_vehicle_event event = {.kind = kind, .call = last_call + 1};
    if (!ecall_vehicle_hear(&vehicle, &event, &items)) fail("a call is wrong");
    bool taken = items.items[0].kind != ECALL_NOTHING;
    if (taken && ++last_call > MOST_CALLS) fail("too many calls");
    carry(&items);
    if (!taken) return;
    struct call *call = &calls[last_call];
    call->point = (struct ecall_point){call->room};
    session(&call->point, last_call, &items);
    carry(&items);
}

/* A frame reaches its receiver, if that one's leg of the call is up; whether it is. */
static bool hand(int way, uint32_t call, unsigned at) {
    struct ecall_frame frame = calls[call].ways[way].all[at].frame;
    if (way == UP) return try_point(call, ECALL_POINT_FRAME, &frame);
    if (vehicle_call != call) return false;
    hear_vehicle(ECALL_VEHICLE_FRAME, 0, &frame);
    return true;
}

static void flow(int way) {
    for (uint32_t call = 1; flows[way] && call <= last_call; call++)
        for (unsigned at = 0; at < calls[call].ways[way].count; at++)
            if (calls[call].ways[way].all[at].sent + flows[way] == now) hand(way, call, at);
}

static void tick(void) {
    struct ecall_items items = {0};
    now++;
    if (!ecall_vehicle_pass(&vehicle, 1, &items)) fail("a tick of the vehicle is wrong");
    carry(&items);
    for (uint32_t call = 1; call <= last_call; call++) {
        if (!calls[call].point_up) continue;
        if (!ecall_point_pass(&calls[call].point, 1, &items)) fail("a tick of the point is wrong");
        carry(&items);
    }
    flow(UP);
    flow(DOWN);
}

static void drop_both(uint32_t call) {
    bool in_it = vehicle_call == call;
    if (in_it) hear_vehicle(ECALL_VEHICLE_LOST, 0, NULL);
    if (!try_point(call, ECALL_POINT_LOST, NULL) && !in_it) nothing();
}

static void deliver(int way, uint32_t call, unsigned k) {
    if (call > last_call || k > calls[call].ways[way].count || !hand(way, call, k - 1)) nothing();
}

static void reset_point(void) {
    for (uint32_t call = 1; call <= last_call; call++) try_point(call, ECALL_POINT_RESET, NULL);
    print_item(now, &(struct ecall_item){.kind = ECALL_RESTART, .at_point = 1});
}

/* A fact line; whether it is one. */
static bool take_fact(const char *line, struct ecall_facts *facts) {
    unsigned a, fuel[7] = {0};
    int latitude, longitude;
    char word[300];
    if (sscanf(line, "vin %17s", word) == 1) memcpy(facts->vin, word, 17);
    else if (sscanf(line, "kind %u", &a) == 1) facts->kind = (uint8_t)a;
    else if (sscanf(line, "time %u", &a) == 1) facts->time = a;
    else if (sscanf(line, "heading %u", &a) == 1) facts->heading = (uint8_t)a;
    else if (sscanf(line, "trusted %3s", word) == 1) facts->trusted = word[0] == 'y';
    else if (sscanf(line, "place %d %d", &latitude, &longitude) == 2) facts->latitude = latitude, facts->longitude = longitude;
    else if (sscanf(line, "fuel %1u%1u%1u%1u%1u%1u%1u", fuel, fuel + 1, fuel + 2, fuel + 3, fuel + 4, fuel + 5, fuel + 6) == 7)
        facts->gasoline = fuel[0], facts->diesel = fuel[1], facts->natural_gas = fuel[2], facts->propane = fuel[3],
        facts->electric = fuel[4], facts->hydrogen = fuel[5], facts->other = fuel[6];
    else return false;
    return true;
}

static const struct { const char *line; uint8_t kind; } of_vehicle[] = {
    {"trigger auto", ECALL_VEHICLE_SENSOR}, {"trigger manual", ECALL_VEHICLE_PERSON}, {"trigger test", ECALL_VEHICLE_TEST},
    {"cancel", ECALL_VEHICLE_CANCEL}, {"net up", ECALL_VEHICLE_NET_UP}, {"net down", ECALL_VEHICLE_NET_DOWN},
    {"fail", ECALL_VEHICLE_FAILED}, {"sleep", ECALL_VEHICLE_SLEEP}, {"fault vehicle", ECALL_VEHICLE_FAULT},
    {"drop vehicle", ECALL_VEHICLE_LOST}, {"reset vehicle", ECALL_VEHICLE_RESET},
}, of_point[] = {
    {"fault point %u", ECALL_POINT_FAULT}, {"damaged %u", ECALL_POINT_DAMAGED}, {"request %u", ECALL_POINT_REQUEST},
    {"clear %u", ECALL_POINT_CLEAR}, {"hangup %u", ECALL_POINT_HANGUP}, {"drop point %u", ECALL_POINT_LOST},
};

/* An event line of one end; whether it is one. */
static bool take_end(const char *line) {
    unsigned call;
    for (size_t i = 0; i < sizeof of_vehicle / sizeof *of_vehicle; i++)
        if (strcmp(line, of_vehicle[i].line) == 0) return hear_vehicle(of_vehicle[i].kind, 0, NULL), true;
    for (size_t i = 0; i < sizeof of_point / sizeof *of_point; i++)
        if (sscanf(line, of_point[i].line, &call) == 1) return hear_point(call, of_point[i].kind, NULL), true;
    return false;
}

static void take_event(const char *line) {
    unsigned a, b;
    if (take_end(line)) return;
    if (strcmp(line, "answer") == 0) comes_up(ECALL_VEHICLE_ANSWERED, ecall_point_arriving);
    else if (strcmp(line, "callback") == 0) comes_up(ECALL_VEHICLE_INCOMING, ecall_point_called);
    else if (strcmp(line, "reset point") == 0) reset_point();
    else if (sscanf(line, "drop both %u", &a) == 1) drop_both(a);
    else if (sscanf(line, "deliver up %u %u", &a, &b) == 2) deliver(UP, a, b);
    else if (sscanf(line, "deliver down %u %u", &a, &b) == 2) deliver(DOWN, a, b);
    else if (sscanf(line, "flow up %u", &a) == 1) flows[UP] = a;
    else if (sscanf(line, "flow down %u", &a) == 1) flows[DOWN] = a;
    else if (sscanf(line, "tick %u", &a) == 1) while (a--) tick();
    else fail(line);
}

int main(int argc, char **argv) {
    static char line[600];
    struct ecall_facts facts = {.format = 2, .heading = ECALL_UNKNOWN_HEADING, .latitude = ECALL_UNKNOWN_PLACE,
        .longitude = ECALL_UNKNOWN_PLACE};
    uint8_t set[ECALL_OCTETS] = {0};
    bool has_set = false, has_begun = false;
    FILE *script = argc == 2 ? fopen(argv[1], "r") : NULL;
    if (!script) fail("a script is wanted");
    while (fgets(line, sizeof line, script)) {
        line[strcspn(line, "\n")] = 0;
        if (line[0] == 0 || line[0] == '#') continue;
        if (!has_begun && strncmp(line, "set ", 4) == 0) {
            has_set = read_octets(line + 4, set, sizeof set) > 0;
            continue;
        }
        if (!has_begun && take_fact(line, &facts)) continue;
        if (!has_begun && has_set) ecall_vehicle_new(&vehicle, set);
        else if (!has_begun && !ecall_vehicle_knows(&vehicle, &facts)) fail("the facts are wrong");
        has_begun = true;
        take_event(line);
    }
    fclose(script);
    return 0;
}

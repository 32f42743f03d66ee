/* call.c: a whole call played between both ends, over a channel that takes 3 ticks each way, ten seconds of it. It writes
 * the trace of examples/timed-call.script, which the program `ecall` writes too. */
#include "ecall.h"
#include "print.h"
#include <stdlib.h>

enum { LAG = 3, TICKS = 100, MOST = 256 };

/* The frames that are under way in one direction. */
struct channel {
    struct { unsigned sent; struct ecall_frame frame; } under_way[MOST];
    int first, end;
};

static _Alignas(8) unsigned char vehicle_room[ECALL_VEHICLE_ROOM], point_room[ECALL_POINT_ROOM];
static struct ecall_vehicle vehicle = {vehicle_room};
static struct ecall_point point = {point_room};
static struct ecall_items items;
static struct channel up, down;
static unsigned now;

/* Prints what an end did, and sends what it gave to send. */
static void carry(bool was_right) {
    if (!was_right) exit(1);
    for (int i = 0; i < items.count; i++) {
        const struct ecall_item *item = &items.items[i];
        print_item(now, item);
        if (item->kind != ECALL_SEND) continue;
        struct channel *to = item->at_point ? &down : &up;
        to->under_way[to->end].sent = now;
        to->under_way[to->end++].frame = item->frame;
    }
}

static bool arrives(const struct channel *channel) {
    return channel->first < channel->end && channel->under_way[channel->first].sent + LAG <= now;
}

static void hear(uint8_t kind, uint32_t call, const struct ecall_frame *frame) {
    struct ecall_vehicle_event event = {.kind = kind, .call = call};
    if (frame) event.frame = *frame;
    carry(ecall_vehicle_hear(&vehicle, &event, &items));
}

static void tick(void) {
    bool vehicle_waits = ecall_vehicle_due(&vehicle) != 0, point_waits = ecall_point_due(&point) != 0;
    now++;
    if (vehicle_waits) carry(ecall_vehicle_pass(&vehicle, 1, &items));
    if (point_waits) carry(ecall_point_pass(&point, 1, &items));
    while (arrives(&up)) {
        struct ecall_point_event event = {.kind = ECALL_POINT_FRAME, .frame = up.under_way[up.first++].frame};
        carry(ecall_point_hear(&point, &event, &items));
    }
    while (arrives(&down)) hear(ECALL_VEHICLE_FRAME, 0, &down.under_way[down.first++].frame);
}

int main(void) {
    const struct ecall_facts facts = {
        .time = 1577836800, .latitude = 173880000, .longitude = 41700000, .vin = "WM9VDSVDSYA123456",
        .format = 2, .kind = 1, .heading = 45, .trusted = true, .gasoline = true,
    };
    if (ecall_version() != ECALL_VERSION) return 1;
    if (ecall_vehicle_size() > sizeof vehicle_room || ecall_point_size() > sizeof point_room) return 1;
    if (!ecall_vehicle_knows(&vehicle, &facts)) return 1;
    hear(ECALL_VEHICLE_SENSOR, 0, NULL);
    hear(ECALL_VEHICLE_ANSWERED, 1, NULL);
    ecall_point_arriving(&point, 1, &items);
    carry(true);
    while (now < TICKS) tick();
    return 0;
}

/* print.h: items as the lines of a trace, and octets in hexadecimal, for the examples of this folder. */
#ifndef PRINT_H
#define PRINT_H
#include "ecall.h"
#include <stdio.h>

static inline void print_octets(const uint8_t *octets, size_t len) {
    for (size_t i = 0; i < len; i++) printf("%02x", octets[i]);
}

/* The octets of a line of hexadecimal digits, up to the first other character; how many. */
static inline size_t read_octets(const char *digits, uint8_t *octets, size_t room) {
    size_t len = 0;
    unsigned octet;
    while (len < room && sscanf(digits + 2 * len, "%2x", &octet) == 1) octets[len++] = (uint8_t)octet;
    return len;
}

static inline const char *print_end(const struct ecall_item *item) { return item->at_point ? "point" : "vehicle"; }

static inline void print_frame(const struct ecall_frame *frame) {
    static const char *const names[] = {"init", "start", "data", "nack", "ack", "app", "app"};
    printf("%s", names[frame->kind]);
    if (frame->kind != ECALL_INIT) printf(" %u", frame->request);
    if (frame->kind == ECALL_POSITIVE) printf(" positive");
    if (frame->kind == ECALL_CLEAR) printf(" clear");
    if (frame->kind == ECALL_CONTENT) {
        printf(" %u ", frame->attempt);
        print_octets(frame->octets, ECALL_OCTETS);
    }
}

/* What a trace says of the octets of a set that was shown. */
static inline void print_summary(const uint8_t octets[ECALL_OCTETS]) {
    struct ecall_decoded read = ecall_decode(octets, ECALL_OCTETS);
    if (read.refusal.reason != ECALL_IS_SET)
        printf(" refused %u %u %llu", read.refusal.place, read.refusal.reason, (unsigned long long)read.refusal.value);
    else
        printf(" ok %u %.17s %u %d %d", read.set.message, (const char *)read.set.vin, read.set.time,
               read.set.latitude, read.set.longitude);
}

/* The item as a line of a trace, at this tick. */
static inline void print_item(unsigned tick, const struct ecall_item *item) {
    static const char *const words[] = {"nothing", "dial", "failed", "gaveup", "seeking", "arming", "cancelled", "standby",
        "idle", "net", "up", "down", "voice", "send", "shown", "acked", "ended", "fault", "busy", "spent", "unshown", "restart"};
    static const char *const why[] = {"release", "hangup", "lost"};
    static const char *const timers[] = {"", "T1", "T2", "T3", "T4", "T5", "T6", "T7", "T8", "", "T10", "TD", "TW", "sum"};
    printf("%u %s", tick, words[item->kind]);
    switch (item->kind) {
    case ECALL_DIAL: case ECALL_FAILED:
        printf(" %u", item->number);
        break;
    case ECALL_NET:
        printf(item->up ? " up" : " down");
        break;
    case ECALL_UP: case ECALL_AUDIO_FAULT:
        printf(" %s %u", print_end(item), item->call);
        break;
    case ECALL_DOWN:
        printf(" %s %u %s", print_end(item), item->call, why[item->number]);
        break;
    case ECALL_VOICE:
        printf(" %s %u %s %s", print_end(item), item->call, item->up ? "open" : "muted", item->down ? "open" : "muted");
        break;
    case ECALL_SEND:
        printf(" %s %u ", print_end(item), item->call);
        print_frame(&item->frame);
        break;
    case ECALL_SHOWN: case ECALL_ACKED:
        printf(" %u %u ", item->call, item->frame.request);
        print_octets(item->frame.octets, ECALL_OCTETS);
        if (item->kind == ECALL_SHOWN) print_summary(item->frame.octets);
        break;
    case ECALL_ENDED:
        printf(" %s %u %s", print_end(item), item->call, timers[item->number]);
        break;
    case ECALL_BUSY: case ECALL_SPENT: case ECALL_UNSHOWN:
        printf(" %u", item->call);
        break;
    case ECALL_RESTART:
        printf(" %s", print_end(item));
        break;
    default:
        break;
    }
    printf("\n");
}
#endif

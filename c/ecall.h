/* ecall.h: both ends of an emergency call for C and C++: the minimum set of data read and written, the set that a
 * vehicle makes, the in-vehicle system, the answering point's session of a call, and the octets of frames.
 *
 * No function allocates, blocks, calls back, or keeps anything of its own between two calls. What is kept of an end stands
 * in memory of the caller's. The library needs memcpy, memmove and memset, and nothing else of a C library.
 *
 * What a caller owes to every function:
 *   - Each pointer is not null, is aligned for its type, and points to as many bytes as its type has, or as the length
 *     behind it says; one to octets with the length 0 may point anywhere but is not null either. No function can tell.
 *     With GCC and clang the declarations say so (`nonnull`), and -Wnonnull and -fsanitize=undefined report a null.
 *   - Every `bool` is 0 or 1.
 *   - What a function writes to overlaps nothing else that it is given.
 *   - A struct that a function writes to was initialised before, as by `= {0}`.
 *   - An end takes one call at a time, all from the thread that began it. Other ends may be on other threads, and what
 *     needs no end may be called from any.
 *
 * A wrong number (of a kind, a format, a cause, a request, of ticks ..) is never an error of the caller's: the function
 * says that it is wrong, and changes nothing.
 *
 * Time is counted in ticks of 100 ms. A call's number is any that both ends use for it, and 0 is of no call. */
#ifndef ECALL_H
#define ECALL_H
#include <stdbool.h>
#include <stddef.h>
#include <stdint.h>
#ifdef __cplusplus
extern "C" {
#endif
#if defined __GNUC__ && !defined ECALL_NULL_IS_MINE
#define ECALL_GIVEN __attribute__((nonnull))
#else
#define ECALL_GIVEN
#endif

/* The version of this header. ecall_version() is that of the library; a caller compares them once. It grows with each
 * change of a type, a number or a function. */
#define ECALL_VERSION 1u

#define ECALL_OCTETS 140 /* how many octets a set has at most */
#define ECALL_FRAME_OCTETS 144 /* room for the octets of a frame, which has at most 143 */
#define ECALL_MOST_ITEMS 8 /* how many items a step of an end gives at most */
#define ECALL_UNKNOWN_PLACE 2147483647 /* a latitude or a longitude that isn't known */
#define ECALL_UNKNOWN_HEADING 255

/* ---- Sets of data ---- */

/* A part of variable length, by its place among the octets of the set that it was read from. Where `present` is
 * false it isn't there, and the two numbers mean nothing. */
struct ecall_part {
    uint32_t start; /* its first bit, from 0 */
    uint32_t len;   /* how many bits */
    bool present;
};

/* The way from a recent location to the present one, in units of 100 milliarcseconds. */
struct ecall_way {
    int16_t latitude;  /* -512 to 511, to the north */
    int16_t longitude; /* -512 to 511, to the east */
    bool present;
};

/* A minimum set of data. It borrows no octets: its parts are places in them. */
struct ecall_set {
    uint32_t time;                  /* seconds since 1970-01-01T00:00:00Z */
    int32_t latitude;               /* milliarcseconds to the north, or ECALL_UNKNOWN_PLACE */
    int32_t longitude;              /* milliarcseconds to the east, or ECALL_UNKNOWN_PLACE */
    struct ecall_part fuel_more;    /* additions of a later version to the energies */
    struct ecall_part set_more;     /* to the structure */
    struct ecall_part oid;          /* additional data: what it is, as the octets of a relative object identifier */
    struct ecall_part content;      /* and its octets, at most 127; there exactly where `oid` is */
    struct ecall_part message_more; /* additions to the message */
    struct ecall_way before1;       /* from the most recent location before */
    struct ecall_way before2;       /* from the one before that */
    uint8_t vin[17];                /* ASCII: digits and capital letters but I, O and Q; no 0 behind it */
    uint8_t format;                 /* 1 or 2 */
    uint8_t message;                /* the number of the set within its incident */
    uint8_t heading;                /* steps of 2 degrees from north, clockwise, or ECALL_UNKNOWN_HEADING */
    uint8_t kind;                   /* 1 to 13: M1 M2 M3 N1 N2 N3 L1e L2e L3e L4e L5e L6e L7e */
    bool kind_is_added;             /* a kind of a later version: `kind` is then its number among them, 0 to 63 */
    bool automatic;                 /* the vehicle triggered the call by itself */
    bool test;
    bool trusted;                   /* the location can be trusted */
    bool gasoline, diesel, natural_gas, propane, electric, hydrogen; /* the energies that are stored */
    bool other;                     /* false in format 1 */
    bool has_passengers;
    uint8_t passengers;
};

/* Why octets are no set. */
enum ecall_reason {
    ECALL_IS_SET = 0,
    ECALL_SHORT = 1,        /* fewer bits are left than an element has; the value is how many it has */
    ECALL_OUT_OF_RANGE = 2, /* a number above its range; the value is what its bits read */
    ECALL_LONG_LENGTH = 3,  /* a length above 127; the value is its first eight bits */
    ECALL_SMALL_LARGE = 4,  /* a small number above 63; the value is its first seven bits */
    ECALL_NO_ADDITION = 5,  /* a section of additions with none; the value is the number of its presence bits */
    ECALL_EMPTY_OPEN = 6,   /* an open type without octets */
    ECALL_BAD_OID = 7,      /* no relative object identifier; the value is the octet, or 0 where there is none */
    ECALL_FORMAT = 8,       /* an unknown format; the value is its number */
    ECALL_PAD_BITS = 9,     /* a bit that pads to a whole octet is 1 */
    ECALL_TRAILING = 10,    /* an octet behind the set isn't 0; the value is that octet */
    ECALL_SIZE = 11         /* no octet, or more than 140; the value is their number, at most 141 */
};

struct ecall_refusal {
    uint64_t value;
    uint32_t place; /* the place in bits, from the first bit of the octets */
    uint8_t reason; /* of enum ecall_reason */
};

/* A set where the reason is ECALL_IS_SET; else the set is all zeros. */
struct ecall_decoded {
    struct ecall_refusal refusal;
    struct ecall_set set;
};

/* The set that these octets show, or the first place where they stop being one. Octets 0 may stand behind it. */
struct ecall_decoded ecall_decode(const uint8_t *octets, size_t len) ECALL_GIVEN;

enum ecall_fault {
    ECALL_WRITTEN = 0,
    ECALL_TOO_LONG = 1, /* more than 140 octets */
    ECALL_NO_SET = 2    /* a wrong number, character or part: no set is like that */
};

struct ecall_encoded {
    uint32_t bits; /* how many bits the set would have, where the fault is ECALL_TOO_LONG */
    uint8_t fault; /* of enum ecall_fault */
    uint8_t len;   /* how many octets were written, 1 to 140; 0 at a fault */
    uint8_t octets[ECALL_OCTETS];
};

/* The canonical octets of a set. `octets`, at most 65,535 of them, are those that its parts are places in: those
 * that it was decoded from, or any that hold them. A set without parts needs none, and the length may be 0. */
struct ecall_encoded ecall_encode(const struct ecall_set *set, const uint8_t *octets, size_t len) ECALL_GIVEN;

/* ---- What a vehicle knows, and the set that it makes of it ---- */

enum ecall_cause { ECALL_AUTOMATIC = 0, ECALL_MANUAL = 1, ECALL_TEST = 2 };

/* Additional data that the vehicle offers: the octets of a relative object identifier, and behind them those of the
 * content, together at most 110. */
struct ecall_extra {
    uint8_t octets[110];
    uint8_t oid_len;     /* 1 or more */
    uint8_t content_len;
    bool present;
};

struct ecall_facts {
    uint32_t time;
    int32_t latitude, longitude;
    struct ecall_way before1, before2;
    uint8_t vin[17];
    uint8_t format, kind, heading; /* as in a set; a kind is 1 to 13 */
    bool trusted;
    bool gasoline, diesel, natural_gas, propane, electric, hydrogen;
    bool other;                    /* isn't written in format 1 */
    bool has_passengers;
    uint8_t passengers;
    struct ecall_extra extras[4];  /* the one that is wanted most first */
};

/* The canonical octets of the set with these facts, this cause (of enum ecall_cause) and this message number. Its
 * additional data is the first that is offered with which the set has at most 140 octets. The fault is
 * ECALL_WRITTEN, or ECALL_NO_SET for a wrong number among the facts or of the cause. */
struct ecall_encoded ecall_spell(const struct ecall_facts *facts, uint8_t cause, uint8_t message) ECALL_GIVEN;

/* The same octets, and octets 0 behind them: what a frame carries. False for a wrong number; then nothing is
 * written. */
bool ecall_make(const struct ecall_facts *facts, uint8_t cause, uint8_t message, uint8_t set[ECALL_OCTETS]) ECALL_GIVEN;

/* ---- Frames ---- */

enum ecall_frame_kind {
    ECALL_INIT = 0,     /* up: the vehicle is there and has a set to send; it has no request */
    ECALL_START = 1,    /* down: the point asks for a set */
    ECALL_CONTENT = 2,  /* up: a set, in answer to a request; `attempt` counts its repeats, and stays at 255 */
    ECALL_NACK = 3,     /* down: what came was damaged */
    ECALL_ACK = 4,      /* down: the set came */
    ECALL_POSITIVE = 5, /* down: the application acknowledges it */
    ECALL_CLEAR = 6     /* down: and lets the vehicle go */
};

struct ecall_frame {
    uint8_t kind;                 /* of enum ecall_frame_kind */
    uint8_t request;              /* 1 to 255 */
    uint8_t attempt;              /* of a set alone */
    uint8_t octets[ECALL_OCTETS]; /* of a set alone */
};

struct ecall_frame_octets {
    bool is_frame; /* false for a wrong kind or request */
    uint8_t len;   /* how many octets, 1 to 143 */
    uint8_t octets[ECALL_FRAME_OCTETS];
};

/* The octets of a frame, as they go over the link. */
struct ecall_frame_octets ecall_frame_write(const struct ecall_frame *frame) ECALL_GIVEN;

enum ecall_verdict {
    ECALL_FRAME = 0, /* a frame is at the front */
    ECALL_MORE = 1,  /* they are the beginning of a frame, or none */
    ECALL_STOPPED = 2 /* no frame goes on with an octet */
};

struct ecall_frame_read {
    uint64_t taken;  /* how many octets the frame has; or how many stand before the octet; or 0 */
    uint8_t verdict; /* of enum ecall_verdict */
    uint8_t fault;   /* of the octet: 1 no kind, 2 a request 0, 3 no answer */
    uint8_t octet;
    struct ecall_frame frame;
};

/* The frame at the front of a stream's octets. A stream that comes in pieces is kept by the caller, at most 143
 * octets of it from where the last frame ended; with more octets it is asked again. */
struct ecall_frame_read ecall_frame_read(const uint8_t *octets, size_t len) ECALL_GIVEN;

/* ---- Messages of live ends ---- */

enum ecall_part_kind {
    ECALL_DIALS = 0,   /* the vehicle dials; it has no number */
    ECALL_ANSWERS = 1, /* the point takes the call, and this is its number */
    ECALL_LEAVES = 2,  /* the end left the call */
    ECALL_RINGS = 3,   /* the point calls the vehicle */
    ECALL_TAKES = 4,   /* the vehicle takes the point's call */
    ECALL_CARRIES = 5  /* a frame of a call */
};

/* A part of a message. A message is the octets of its parts, and then an octet 0; an octet 48 in place of one says
 * that the vehicle's script is at its end. */
struct ecall_message_part {
    uint32_t call; /* 1 or more */
    uint8_t kind;  /* of enum ecall_part_kind */
    struct ecall_frame frame;
};

struct ecall_part_octets {
    bool is_part; /* false for a wrong kind or number, or what is no frame */
    uint8_t len;  /* how many octets, 1 to 148 */
    uint8_t octets[149];
};

/* The octets of a part. */
struct ecall_part_octets ecall_part_write(const struct ecall_message_part *part) ECALL_GIVEN;

enum ecall_message_verdict {
    ECALL_PART_READ = 0,    /* a part is at the front */
    ECALL_PART_MORE = 1,    /* they are the beginning of a part, or none */
    ECALL_PART_STOPPED = 2, /* no part goes on with an octet */
    ECALL_MESSAGE_END = 3,  /* the end of the message is at the front */
    ECALL_SCRIPT_END = 4    /* the vehicle's script is at its end; behind a part of a message that is wrong, as fault 4 */
};

struct ecall_message_read {
    uint64_t taken;  /* how many octets the part or the end has; or how many stand before the octet; or 0 */
    uint8_t verdict; /* of enum ecall_message_verdict */
    uint8_t fault;   /* of the octet: 1 to 3 as of a frame, 4 no part that comes to this end, 5 the last of a number 0 */
    uint8_t octet;
    struct ecall_message_part part;
};

/* What is at the front of the octets that the other end sent: to the point, or else to the vehicle. A stream that comes in
 * pieces is kept by the caller, at most 148 octets of it from where the last part or message ended; with more octets it is
 * asked again. */
struct ecall_message_read ecall_message_read(const uint8_t *octets, size_t len, bool at_point) ECALL_GIVEN;

/* ---- What the ends do ---- */

enum ecall_item_kind {
    ECALL_NOTHING = 0,    /* the event changes nothing */
    ECALL_DIAL = 1,       /* the vehicle dials; `number` is that of the attempt */
    ECALL_FAILED = 2,     /* the attempt of this number failed */
    ECALL_GAVE_UP = 3,
    ECALL_SEEKING = 4,    /* it waits for the network */
    ECALL_ARMING = 5,     /* a person's trigger may be taken back for 5 seconds */
    ECALL_CANCELLED = 6,
    ECALL_STANDBY = 7,    /* the point may call back */
    ECALL_IDLE = 8,
    ECALL_NET = 9,        /* `up`: the network is there */
    ECALL_UP = 10,        /* the leg of this end comes up */
    ECALL_DOWN = 11,      /* it goes down; `number` is of enum ecall_why */
    ECALL_VOICE = 12,     /* `up` from the vehicle, `down` to it: open or muted */
    ECALL_SEND = 13,      /* `frame` is to be sent */
    ECALL_SHOWN = 14,     /* the point shows the set of `frame.request`, which is `frame.octets` */
    ECALL_ACKED = 15,     /* the vehicle counts its set as acknowledged, in the same way */
    ECALL_ENDED = 16,     /* a timer ended; `number` is of enum ecall_timer */
    ECALL_AUDIO_FAULT = 17,
    ECALL_BUSY = 18,      /* the desk's wish comes too early */
    ECALL_SPENT = 19,     /* all 255 requests were made */
    ECALL_UNSHOWN = 20,   /* no set was shown, so the vehicle isn't let go */
    ECALL_RESTART = 21    /* the vehicle restarted */
};

enum ecall_why { ECALL_RELEASE = 0, ECALL_HANGUP = 1, ECALL_LOST = 2 };

/* The timers after EN 16062; the last bounds all muting of a stretch. */
enum ecall_timer {
    ECALL_T1 = 1, ECALL_T2, ECALL_T3, ECALL_T4, ECALL_T5, ECALL_T6, ECALL_T7, ECALL_T8,
    ECALL_T10 = 10, ECALL_TD = 11, ECALL_TW = 12, ECALL_SUM = 13
};

/* What an end does, as an observer sees it. What a kind doesn't name is 0. */
struct ecall_item {
    uint32_t call;
    uint8_t kind;     /* of enum ecall_item_kind */
    uint8_t at_point; /* 0 for the vehicle, 1 for the point */
    uint8_t number;
    bool up, down;
    struct ecall_frame frame;
};

/* The items of one step, in order. Those behind the first `count` are those of earlier steps. */
struct ecall_items {
    uint8_t count; /* 0 to 8 */
    struct ecall_item items[ECALL_MOST_ITEMS];
};

/* Where an end is kept: `at` is memory of the caller's, aligned to 8, of ecall_vehicle_size() or ecall_point_size()
 * bytes (ECALL_VEHICLE_ROOM and ECALL_POINT_ROOM are never less).
 *   1. It is room. The first call is ecall_vehicle_new, or ecall_vehicle_knows until it says true, or
 *      ecall_point_arriving or ecall_point_called.
 *   2. From then on the library alone reads and writes it, and the struct stays as it is. It isn't copied elsewhere, and
 *      there is nothing to give back: whoever is done with an end uses the memory otherwise.
 *   3. With a fresh struct, as { at }, it is room again.
 * A call out of this order no function can tell. */
#define ECALL_VEHICLE_ROOM 1024
#define ECALL_POINT_ROOM 512
struct ecall_vehicle { void *at; };
struct ecall_point { void *at; };

size_t ecall_vehicle_size(void);
size_t ecall_point_size(void);

/* ---- The vehicle ---- */

/* A vehicle that sends this set whatever is asked, which may even be none. */
void ecall_vehicle_new(struct ecall_vehicle *vehicle, const uint8_t set[ECALL_OCTETS]) ECALL_GIVEN;

/* A vehicle that makes its sets of these facts, each with the cause of its call and the next message number. False
 * for a wrong number among the facts: then it is room still. */
bool ecall_vehicle_knows(struct ecall_vehicle *vehicle, const struct ecall_facts *facts) ECALL_GIVEN;

enum ecall_vehicle_event_kind {
    ECALL_VEHICLE_FRAME = 0,    /* `frame` came in the present call */
    ECALL_VEHICLE_SENSOR = 1,   /* a trigger by a sensor */
    ECALL_VEHICLE_PERSON = 2,   /* by a person */
    ECALL_VEHICLE_TEST = 3,     /* for a test */
    ECALL_VEHICLE_CANCEL = 4,   /* the person takes it back */
    ECALL_VEHICLE_NET_UP = 5,
    ECALL_VEHICLE_NET_DOWN = 6,
    ECALL_VEHICLE_ANSWERED = 7, /* the point took the call that is dialled; `call` is its number */
    ECALL_VEHICLE_FAILED = 8,   /* the attempt to dial failed */
    ECALL_VEHICLE_INCOMING = 9, /* the point calls; `call` is the call's number */
    ECALL_VEHICLE_SLEEP = 10,   /* it is to leave its standby */
    ECALL_VEHICLE_FAULT = 11,   /* the audio or the modem failed */
    ECALL_VEHICLE_HANGUP = 12,  /* the point hung up */
    ECALL_VEHICLE_LOST = 13,    /* the call was lost */
    ECALL_VEHICLE_RESET = 14    /* it restarts */
};

struct ecall_vehicle_event {
    uint32_t call;
    uint8_t kind; /* of enum ecall_vehicle_event_kind */
    struct ecall_frame frame;
};

/* What the vehicle does at an event, into `items`. False for a wrong kind or a frame that is none: then nothing
 * changed. */
bool ecall_vehicle_hear(struct ecall_vehicle *vehicle, const struct ecall_vehicle_event *event,
                        struct ecall_items *items) ECALL_GIVEN;

/* After how many ticks from now it does something; 0 where it does nothing however many pass. */
uint32_t ecall_vehicle_due(struct ecall_vehicle *vehicle) ECALL_GIVEN;

/* Lets n ticks pass: at least one, and at most those that are due, where some are. False for another n: then nothing
 * changed. Whoever calls it each tick passes 1. */
bool ecall_vehicle_pass(struct ecall_vehicle *vehicle, uint32_t n, struct ecall_items *items) ECALL_GIVEN;

/* ---- The point's session of one call ---- */

/* A call of this number comes in that the vehicle placed: its session, and what the point does. */
void ecall_point_arriving(struct ecall_point *point, uint32_t call, struct ecall_items *items) ECALL_GIVEN;

/* The point places a call of this number. */
void ecall_point_called(struct ecall_point *point, uint32_t call, struct ecall_items *items) ECALL_GIVEN;

enum ecall_point_event_kind {
    ECALL_POINT_FRAME = 0,    /* `frame` came in this call */
    ECALL_POINT_DAMAGED = 1,  /* something came that the link could not read */
    ECALL_POINT_REQUEST = 2,  /* the desk asks for another set */
    ECALL_POINT_CLEAR = 3,    /* it lets the vehicle go */
    ECALL_POINT_FAULT = 4,    /* the audio or the modem failed */
    ECALL_POINT_HANGUP = 5,   /* the desk hangs up */
    ECALL_POINT_RELEASED = 6, /* the vehicle released the call */
    ECALL_POINT_HUNG_UP = 7,  /* or hung up */
    ECALL_POINT_LOST = 8,     /* or the call was lost */
    ECALL_POINT_RESET = 9     /* the point restarts, and loses this session */
};

struct ecall_point_event {
    uint8_t kind; /* of enum ecall_point_event_kind */
    struct ecall_frame frame;
};

/* As those of the vehicle. */
bool ecall_point_hear(struct ecall_point *point, const struct ecall_point_event *event,
                      struct ecall_items *items) ECALL_GIVEN;
uint32_t ecall_point_due(struct ecall_point *point) ECALL_GIVEN;
bool ecall_point_pass(struct ecall_point *point, uint32_t n, struct ecall_items *items) ECALL_GIVEN;

/* ---- This library ---- */

uint32_t ecall_version(void);

#ifdef __cplusplus
}
#define ECALL_SIZE(type, n) static_assert(sizeof(type) == n, "the library was built for another layout")
#else
#define ECALL_SIZE(type, n) _Static_assert(sizeof(type) == n, "the library was built for another layout")
#endif
ECALL_SIZE(void *, 8);
ECALL_SIZE(struct ecall_part, 12);
ECALL_SIZE(struct ecall_way, 6);
ECALL_SIZE(struct ecall_set, 120);
ECALL_SIZE(struct ecall_decoded, 136);
ECALL_SIZE(struct ecall_encoded, 148);
ECALL_SIZE(struct ecall_extra, 113);
ECALL_SIZE(struct ecall_facts, 508);
ECALL_SIZE(struct ecall_frame, 143);
ECALL_SIZE(struct ecall_frame_octets, 146);
ECALL_SIZE(struct ecall_frame_read, 160);
ECALL_SIZE(struct ecall_message_part, 148);
ECALL_SIZE(struct ecall_part_octets, 151);
ECALL_SIZE(struct ecall_message_read, 160);
ECALL_SIZE(struct ecall_item, 152);
ECALL_SIZE(struct ecall_items, 1220);
ECALL_SIZE(struct ecall_vehicle_event, 148);
ECALL_SIZE(struct ecall_point_event, 144);
#undef ECALL_SIZE
#endif

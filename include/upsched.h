/*
 * upsched.h: the upstream scheduler of DOCSIS (CM-SP-MULPIv3.1, MAP version 1) for C and C++: the codec of MAP bodies,
 * the scheduler and the modem.
 *
 * The calls are those of the crate upsched_c, behind a test for NULL. Of each is proved what it answers and changes,
 * that it returns, and that it is defined for all arguments but those that break a rule below.
 *
 * UNITS     A time (uint64_t) is a minislot number of the channel, not wrapped, below 2^63. MAP bodies carry its low 32
 *           bits; the library makes and restores them. Sizes, lengths and offsets are minislots, unless a name says
 *           bytes. A back-off is an exponent of two.
 * POINTERS  NULL is answered as such, but beside a length of 0, where it is good. What a call may write shares no byte
 *           with another argument of it, and is initialised memory, whatever is in it. No pointer is kept.
 * HANDLES   A handle is a struct of yours, all zero at first, which is closed. An open call opens it, upsched_close
 *           closes it and lets go of what it holds; closing a closed one does nothing. Write nothing into it. It may be
 *           moved by memcpy, if the old copy isn't used again. One that is copied, or not initialised, is undefined.
 * THREADS   There is no global state: two threads may use two handles at once. A handle may go from one thread to
 *           another, by a lock, a thread's start or join, or a sequentially consistent atomic; one call at a time uses
 *           it. No call from a signal handler, or from the forked child of a process with threads.
 * MEMORY    malloc, realloc and free. A call that lacks memory says so, and changes nothing.
 * STATUS    A call answers UPSCHED_OK, or why not; what a handle holds is then as it was, and arguments are written
 *           only as the call says. First comes NULL, then the handle, then the fields, room, and memory.
 * VERSION   Of this header. Numbers are never used again for something else.
 * NAMES     Each call upsched_X is the archive's upsched_c_X behind a test for NULL. Other languages bind upsched_c_X.
 */
#ifndef UPSCHED_H
#define UPSCHED_H

#include <stddef.h>
#include <stdint.h>
#include <string.h>

#define UPSCHED_VERSION "0.3.0"
#define UPSCHED_VERSION_NUMBER 0x000300

#ifdef __cplusplus
extern "C" {
#endif

/* ---- Statuses ---- */

enum {
    UPSCHED_OK = 0,
    UPSCHED_CLOSED = 1,        /* the handle is closed */
    UPSCHED_OTHER_KIND = 2,    /* the handle is open as another kind */
    UPSCHED_OPEN = 3,          /* the handle is open already */
    UPSCHED_NO_ROOM = 4,       /* the room given is too small; how much is wanted is told */
    UPSCHED_BAD_FIELD = 5,     /* a field can't hold that value, or bytes spell no command */
    UPSCHED_OUT_OF_MEMORY = 6, /* there is no memory */
    UPSCHED_NONE = 7,          /* there is no such item */
    UPSCHED_NULL = 8,          /* a pointer is NULL; this comes first of all */

    UPSCHED_MAP_SHORT = 101,        /* fewer bytes than the count asks for, or fewer than 16 */
    UPSCHED_MAP_TRAILING = 102,     /* more bytes than the count asks for */
    UPSCHED_MAP_EXPANSION = 103,    /* an element has IUC 15 */
    UPSCHED_MAP_OUT_OF_ORDER = 104, /* an element up to the Null begins before the one before it */
    UPSCHED_MAP_NO_NULL = 105,      /* no element has IUC 7 */
    UPSCHED_MAP_TOO_MANY = 107,     /* more than 255 elements */

    UPSCHED_ROWS_SHORT = 201,      /* saved bytes end within a field, or before it */
    UPSCHED_ROWS_TRAILING = 202,   /* bytes follow the last field */
    UPSCHED_ROWS_NO_CHANNEL = 203, /* a byte begins no channel, or one of its values isn't within its limits */
    UPSCHED_ROWS_NO_FLOW = 204,    /* likewise of a service, or of a last request */
    UPSCHED_ROWS_NO_REQUEST = 205, /* a waiting request hasn't 1 to 255 minislots */
    UPSCHED_ROWS_NOT_FIRM = 206,   /* no commands could leave the table of a channel behind those before it */

    UPSCHED_WANT_NOT_MINE = 301, /* no lease of the SID ends at the channel's clock or later */
    UPSCHED_WANT_WAITING = 302,  /* a want of the SID is there */
    UPSCHED_WANT_BAD_SIZE = 303, /* not 1 to 255 minislots */

    UPSCHED_TIME_BACK = 401 /* a tick before the channel's clock */
};

/* ---- MAP bodies ---- */

#define UPSCHED_BODY_BYTES 1036  /* the most that a body has: 16 + 4 * 255 */
#define UPSCHED_ELEMENTS 255     /* the most elements of a body */
#define UPSCHED_EVERYBODY 0x3FFF /* the SID that addresses every modem */

/* Interval usage codes (IUC). */
enum {
    UPSCHED_IUC_REQUEST = 1,
    UPSCHED_IUC_INITIAL_MAINTENANCE = 3,
    UPSCHED_IUC_STATION_MAINTENANCE = 4,
    UPSCHED_IUC_SHORT_GRANT = 5,
    UPSCHED_IUC_LONG_GRANT = 6,
    UPSCHED_IUC_NULL = 7,
    UPSCHED_IUC_ADVANCED_SHORT_GRANT = 9,
    UPSCHED_IUC_ADVANCED_LONG_GRANT = 10,
    UPSCHED_IUC_ADVANCED_UNSOLICITED_GRANT = 11
};

typedef struct upsched_map_head {
    uint32_t start; /* Alloc Start Time: the low 32 bits of a time */
    uint32_t ack;   /* Ack Time: likewise */
    uint8_t channel, ucd;
    uint8_t ranging_start, ranging_end, data_start, data_end; /* back-offs */
} upsched_map_head;

/* From its offset on, until the next element's, the minislots are the SID's. */
typedef struct upsched_map_element {
    uint16_t sid;    /* 0 to 0x3FFF */
    uint16_t offset; /* minislots after the start, 0 to 0x3FFF */
    uint8_t iuc;     /* 0 to 15 */
} upsched_map_element;

typedef struct upsched_map_cell {
    uint16_t sid;
    uint8_t iuc;
} upsched_map_cell;

/* Reads a body. OK: *head, and the first *count of the elements. NO_ROOM, exactly where the bytes are a body of more
 * elements than there is room for: *count is how many there are. A fault MAP_..: *count is the element that it is of,
 * from 0, and 0 where it is of none. */
int32_t upsched_c_map_decode(const uint8_t *bytes, size_t len, upsched_map_head *head, upsched_map_element *elements,
                             size_t room, size_t *count);
static inline int32_t upsched_map_decode(const uint8_t *bytes, size_t len, upsched_map_head *head,
                                         upsched_map_element *elements, size_t room, size_t *count)
{
    const uint8_t no_bytes[1] = {0};
    upsched_map_element no_elements[1] = {{0, 0, 0}};
    if (!head || !count || (!bytes && len) || (!elements && room)) return UPSCHED_NULL;
    return upsched_c_map_decode(bytes ? bytes : no_bytes, len, head, elements ? elements : no_elements, room, count);
}

/* Writes a body. OK: the first *written of the bytes. NO_ROOM, exactly where the elements make a body of more bytes
 * than there is room for: *written is how many there are. BAD_FIELD and a fault MAP_..: *written is the element that
 * it is of, from 0, and 0 where it is of none. */
int32_t upsched_c_map_encode(const upsched_map_head *head, const upsched_map_element *elements, size_t count,
                             uint8_t *bytes, size_t room, size_t *written);
static inline int32_t upsched_map_encode(const upsched_map_head *head, const upsched_map_element *elements,
                                         size_t count, uint8_t *bytes, size_t room, size_t *written)
{
    const upsched_map_element no_elements[1] = {{0, 0, 0}};
    uint8_t no_bytes[1] = {0};
    if (!head || !written || (!elements && count) || (!bytes && room)) return UPSCHED_NULL;
    return upsched_c_map_encode(head, elements ? elements : no_elements, count, bytes ? bytes : no_bytes, room,
                                written);
}

/* Whose minislot x of a body is, counted from its start. NONE: no interval has it. */
int32_t upsched_c_map_cell_at(const uint8_t *bytes, size_t len, uint16_t x, upsched_map_cell *cell);
static inline int32_t upsched_map_cell_at(const uint8_t *bytes, size_t len, uint16_t x, upsched_map_cell *cell)
{
    const uint8_t no_bytes[1] = {0};
    if (!cell || (!bytes && len)) return UPSCHED_NULL;
    return upsched_c_map_cell_at(bytes ? bytes : no_bytes, len, x, cell);
}

/* ---- Handles ---- */

/* All zero is closed. What is in it is the library's. */
typedef struct upsched_handle {
    void *private_at;
    uint64_t private_state;
} upsched_handle;

void upsched_c_close(upsched_handle *handle);
static inline void upsched_close(upsched_handle *handle)
{
    if (handle) upsched_c_close(handle);
}

/* ---- A MAP that many modems hear ---- */

/* Reads a body once, into a handle. A fault MAP_..: the bytes are no body. */
int32_t upsched_c_map_open(upsched_handle *map, const uint8_t *body, size_t len);
static inline int32_t upsched_map_open(upsched_handle *map, const uint8_t *body, size_t len)
{
    const uint8_t no_body[1] = {0};
    if (!map || (!body && len)) return UPSCHED_NULL;
    return upsched_c_map_open(map, body ? body : no_body, len);
}

/* ---- The scheduler ---- */

enum {
    UPSCHED_NOOP = 0,
    UPSCHED_CHANNEL = 1,
    UPSCHED_FLOW = 2,
    UPSCHED_DROP = 3,
    UPSCHED_REQUEST = 4,
    UPSCHED_CUT = 5,
    UPSCHED_CUT_SET = 6, /* a cut with settings of its own */
    UPSCHED_CHANGE = 7   /* other settings of a channel, from its next MAP on */
};
/* Services of flows. STATION: intervals in which its modem ranges; INITIAL: openings for first ranging, of everybody. */
enum { UPSCHED_BEST_EFFORT = 0, UPSCHED_UGS = 1, UPSCHED_POLL = 2, UPSCHED_STATION = 3, UPSCHED_INITIAL = 4 };
enum { UPSCHED_TDMA = 0, UPSCHED_ADVANCED = 1 };
#define UPSCHED_LAST_TIME (UINT64_C(1) << 62) /* the last minislot of a lease without an end */

/* A command: its kind, and the fields that the kind has. The others aren't read. Calls that make some are below. */
typedef struct upsched_command {
    uint32_t kind;
    uint32_t modem, tag;                /* FLOW */
    uint32_t interval, jitter;          /* FLOW but BEST_EFFORT: 1 to 1,000,000 minislots; below the interval */
    uint64_t base;                      /* CHANNEL: start of its first MAP; FLOW: the first due time */
    uint64_t last;                      /* FLOW: last minislot of the SID's lease. UPSCHED_LAST_TIME: it has no end. 0
                                         * is a time too, and refused where the next MAP begins behind it */
    uint64_t sent;                      /* REQUEST: when the modem sent it */
    uint64_t not_before, ack;           /* CUT, CUT_SET: the MAP starts no earlier; up to when requests were heard */
    uint16_t sid;                       /* DROP, REQUEST */
    uint16_t minislots;                 /* FLOW of UGS, STATION, INITIAL: of each; REQUEST; 1 to 255. CUT, CUT_SET: the
                                           MAP's, 1 to 4096 */
    uint16_t short_max;                 /* CHANNEL, CHANGE: up to so many minislots a grant is a short one */
    uint16_t keep;                      /* CUT_SET: requests leave at least so many minislots free, 0 to 4096 */
    uint8_t ch, ucd, phy;               /* all but NOOP; CHANNEL and CHANGE; likewise */
    uint8_t service, priority;          /* FLOW; FLOW of BEST_EFFORT: 0 to 7 */
    uint8_t ranging_start, ranging_end; /* CHANNEL, CHANGE, CUT_SET: back-offs, 0 to 15; CUT_SET: 255 255 for the */
    uint8_t data_start, data_end;       /* channel's own */
} upsched_command;

enum { UPSCHED_NOTHING = 0, UPSCHED_CHANNEL_SET = 1, UPSCHED_ASSIGNED = 2, UPSCHED_MAP = 3, UPSCHED_REFUSED = 4 };

/* Refusals of a command, which changes nothing then. */
enum {
    UPSCHED_NO_CHANNEL = 1,
    UPSCHED_CHANNEL_THERE = 2,
    UPSCHED_NO_FLOW = 3,
    UPSCHED_SIDS_SPENT = 4,
    UPSCHED_BUSY = 5,
    UPSCHED_OLD_REQUEST = 6,
    UPSCHED_BAD_VALUE = 7
};

/* An output: its kind, and the fields that the kind has. The others are 0. */
typedef struct upsched_output {
    uint32_t kind;
    uint32_t modem;       /* ASSIGNED */
    uint64_t first, last; /* ASSIGNED: the first and the last minislot of the SID's lease */
    uint64_t start;       /* MAP */
    size_t body_len;      /* MAP: bytes of the body */
    uint16_t sid;         /* ASSIGNED */
    uint16_t minislots;   /* MAP */
    uint8_t ch, ucd;      /* CHANNEL_SET, ASSIGNED, MAP; CHANNEL_SET */
    uint8_t refusal;      /* REFUSED */
} upsched_output;

/* A scheduler that has no channel. */
int32_t upsched_c_machine_open(upsched_handle *machine);
static inline int32_t upsched_machine_open(upsched_handle *machine)
{
    if (!machine) return UPSCHED_NULL;
    return upsched_c_machine_open(machine);
}

/* Writes all that the scheduler holds as bytes, most significant byte first, the same for the same tables: of each
 * channel its settings, where its next MAP begins, its leases, flows and waiting requests. OK: the first *written of
 * the bytes. NO_ROOM, exactly where there are more: *written is how many there are. A channel has 509,296 at most. */
int32_t upsched_c_machine_save(upsched_handle *machine, uint8_t *bytes, size_t room, size_t *written);
static inline int32_t upsched_machine_save(upsched_handle *machine, uint8_t *bytes, size_t room, size_t *written)
{
    uint8_t no_bytes[1] = {0};
    if (!machine || !written || (!bytes && room)) return UPSCHED_NULL;
    return upsched_c_machine_save(machine, bytes ? bytes : no_bytes, room, written);
}

/* A scheduler that goes on as the one that was saved. A fault ROWS_..: no scheduler was saved so, and it is the first
 * from left to right. *ch is written at ROWS_NOT_FIRM alone: the channel. */
int32_t upsched_c_machine_open_saved(upsched_handle *machine, const uint8_t *bytes, size_t len, uint8_t *ch);
static inline int32_t upsched_machine_open_saved(upsched_handle *machine, const uint8_t *bytes, size_t len,
                                                 uint8_t *ch)
{
    const uint8_t no_bytes[1] = {0};
    if (!machine || !ch || (!bytes && len)) return UPSCHED_NULL;
    return upsched_c_machine_open_saved(machine, bytes ? bytes : no_bytes, len, ch);
}

/* Applies a command, once; body has room for UPSCHED_BODY_BYTES. OK: *output, which a refusal is too, and of a MAP the
 * first output->body_len bytes of body. BAD_FIELD: the kind, the service or the PHY is none. */
int32_t upsched_c_machine_apply(upsched_handle *machine, const upsched_command *command, upsched_output *output,
                                uint8_t *body);
static inline int32_t upsched_machine_apply(upsched_handle *machine, const upsched_command *command,
                                            upsched_output *output, uint8_t *body)
{
    if (!machine || !command || !output || !body) return UPSCHED_NULL;
    return upsched_c_machine_apply(machine, command, output, body);
}

/* The same of the command that bytes spell, as in values of the log. BAD_FIELD: they spell none. */
int32_t upsched_c_machine_apply_bytes(upsched_handle *machine, const uint8_t *command, size_t len,
                                      upsched_output *output, uint8_t *body);
static inline int32_t upsched_machine_apply_bytes(upsched_handle *machine, const uint8_t *command, size_t len,
                                                  upsched_output *output, uint8_t *body)
{
    const uint8_t no_command[1] = {0};
    if (!machine || !output || !body || (!command && len)) return UPSCHED_NULL;
    return upsched_c_machine_apply_bytes(machine, command ? command : no_command, len, output, body);
}

/* ---- What the scheduler has ---- */

/* None of these calls changes the scheduler, or wants memory. NONE: there is no such row. */

/* A channel: where its next MAP begins, and its Ack Time, 0 before the first MAP. */
typedef struct upsched_channel_state {
    uint64_t next_start, ack;
    uint32_t waiting; /* how many requests wait, 118 at most */
} upsched_channel_state;

/* A request that waits. */
typedef struct upsched_waiting_request {
    uint64_t sent; /* when the modem sent it */
    uint16_t sid;
    uint16_t minislots;
} upsched_waiting_request;

/* A flow: its next due time, and the lease of its SID. It is there until it is dropped, or its lease has ended. */
typedef struct upsched_flow_state {
    uint64_t due;         /* 0 of BEST_EFFORT, which is never due */
    uint64_t first, last; /* the first and the last minislot of the lease */
    uint32_t modem, tag;
    uint16_t sid;
    uint8_t service;
} upsched_flow_state;

int32_t upsched_c_machine_channel(upsched_handle *machine, uint8_t ch, upsched_channel_state *channel);
static inline int32_t upsched_machine_channel(upsched_handle *machine, uint8_t ch, upsched_channel_state *channel)
{
    if (!machine || !channel) return UPSCHED_NULL;
    return upsched_c_machine_channel(machine, ch, channel);
}

/* The channel's waiting request number k, by arrival, from 0. */
int32_t upsched_c_machine_waiting(upsched_handle *machine, uint8_t ch, uint32_t k, upsched_waiting_request *waiting);
static inline int32_t upsched_machine_waiting(upsched_handle *machine, uint8_t ch, uint32_t k,
                                              upsched_waiting_request *waiting)
{
    if (!machine || !waiting) return UPSCHED_NULL;
    return upsched_c_machine_waiting(machine, ch, k, waiting);
}

/* The channel's flow that has a SID. */
int32_t upsched_c_machine_flow(upsched_handle *machine, uint8_t ch, uint16_t sid, upsched_flow_state *flow);
static inline int32_t upsched_machine_flow(upsched_handle *machine, uint8_t ch, uint16_t sid,
                                           upsched_flow_state *flow)
{
    if (!machine || !flow) return UPSCHED_NULL;
    return upsched_c_machine_flow(machine, ch, sid, flow);
}

/* ---- The modem ---- */

/* How an output was heard. */
enum { UPSCHED_TAKEN = 0, UPSCHED_NOT_MINE = 1, UPSCHED_OTHER_UCD = 2, UPSCHED_PAST = 3, UPSCHED_UNREADABLE = 4 };

/* RANGING: it ranges in an interval of Station Maintenance of its SID. */
enum {
    UPSCHED_SENDS_NOTHING = 0,
    UPSCHED_SENDS_DATA = 1,
    UPSCHED_SENDS_POLLED = 2,
    UPSCHED_SENDS_REQUEST = 3,
    UPSCHED_SENDS_RANGING = 4
};

typedef struct upsched_sending {
    uint32_t kind;
    uint16_t sid;
    uint16_t minislots; /* POLLED, REQUEST: how many it asks for */
} upsched_sending;

/* GRANT: it sends data from now to the grant's last minislot. POLLED: it sends a request at a poll. CONTENTION: its
 * request takes part where all may send one: it is sent, or its number falls by 1. LEASE_END: its want goes. RANGING:
 * it ranges from now to the last minislot of its ranging opportunity. */
enum {
    UPSCHED_EVENT_GRANT = 1,
    UPSCHED_EVENT_POLLED = 2,
    UPSCHED_EVENT_CONTENTION = 3,
    UPSCHED_EVENT_LEASE_END = 4,
    UPSCHED_EVENT_RANGING = 5
};

typedef struct upsched_event {
    uint64_t slot;        /* when */
    uint64_t first, last; /* GRANT, RANGING: its first and its last minislot */
    uint32_t kind;
    uint16_t sid;
    uint16_t minislots; /* POLLED, CONTENTION */
    uint8_t iuc;        /* GRANT */
} upsched_event;

/* A modem that has heard nothing. */
int32_t upsched_c_modem_open(upsched_handle *modem, uint32_t id);
static inline int32_t upsched_modem_open(upsched_handle *modem, uint32_t id)
{
    if (!modem) return UPSCHED_NULL;
    return upsched_c_modem_open(modem, id);
}

/* Hears an output; *heard says how. A MAP's times are restored near a time. */
int32_t upsched_c_modem_hear_channel(upsched_handle *modem, uint8_t ch, uint8_t ucd, uint32_t *heard);
static inline int32_t upsched_modem_hear_channel(upsched_handle *modem, uint8_t ch, uint8_t ucd, uint32_t *heard)
{
    if (!modem || !heard) return UPSCHED_NULL;
    return upsched_c_modem_hear_channel(modem, ch, ucd, heard);
}
int32_t upsched_c_modem_hear_assigned(upsched_handle *modem, uint32_t id, uint8_t ch, uint16_t sid, uint64_t first,
                                      uint64_t last, uint32_t *heard);
static inline int32_t upsched_modem_hear_assigned(upsched_handle *modem, uint32_t id, uint8_t ch, uint16_t sid,
                                                  uint64_t first, uint64_t last, uint32_t *heard)
{
    if (!modem || !heard) return UPSCHED_NULL;
    return upsched_c_modem_hear_assigned(modem, id, ch, sid, first, last, heard);
}
int32_t upsched_c_modem_hear_map(upsched_handle *modem, const uint8_t *body, size_t len, uint64_t near_time,
                                 uint32_t *heard);
static inline int32_t upsched_modem_hear_map(upsched_handle *modem, const uint8_t *body, size_t len,
                                             uint64_t near_time, uint32_t *heard)
{
    const uint8_t no_body[1] = {0};
    if (!modem || !heard || (!body && len)) return UPSCHED_NULL;
    return upsched_c_modem_hear_map(modem, body ? body : no_body, len, near_time, heard);
}

/* Hears an open MAP as its body. It stays as it is, and may be heard again. CLOSED, OTHER_KIND: of the modem's handle,
 * else of the MAP's. */
int32_t upsched_c_modem_hear_open_map(upsched_handle *modem, upsched_handle *map, uint64_t near_time, uint32_t *heard);
static inline int32_t upsched_modem_hear_open_map(upsched_handle *modem, upsched_handle *map, uint64_t near_time,
                                                  uint32_t *heard)
{
    if (!modem || !map || !heard) return UPSCHED_NULL;
    return upsched_c_modem_hear_open_map(modem, map, near_time, heard);
}

/* Takes a want, which the modem asks for until it is granted, or gives it up after 16 tries. Refusals: WANT_.. */
int32_t upsched_c_modem_want(upsched_handle *modem, uint8_t ch, uint16_t sid, uint16_t minislots);
static inline int32_t upsched_modem_want(upsched_handle *modem, uint8_t ch, uint16_t sid, uint16_t minislots)
{
    if (!modem) return UPSCHED_NULL;
    return upsched_c_modem_want(modem, ch, sid, minislots);
}

/* What the modem sends at a minislot. Any number is good as random: the back-off is drawn from it. On a channel that it
 * doesn't know it sends nothing. BAD_FIELD: the minislot isn't below 2^63. */
int32_t upsched_c_modem_tick(upsched_handle *modem, uint8_t ch, uint64_t slot, uint64_t random,
                             upsched_sending *sending);
static inline int32_t upsched_modem_tick(upsched_handle *modem, uint8_t ch, uint64_t slot, uint64_t random,
                                         upsched_sending *sending)
{
    if (!modem || !sending) return UPSCHED_NULL;
    return upsched_c_modem_tick(modem, ch, slot, random, sending);
}

/* The first minislot of a channel, from one on, whose tick sends something or changes more than the clock, and what it
 * does. The ticks before it may be left out, until the modem hears or wants something. NONE: there is no such minislot,
 * or the channel isn't known. */
int32_t upsched_c_modem_next(upsched_handle *modem, uint8_t ch, uint64_t from, upsched_event *event);
static inline int32_t upsched_modem_next(upsched_handle *modem, uint8_t ch, uint64_t from, upsched_event *event)
{
    if (!modem || !event) return UPSCHED_NULL;
    return upsched_c_modem_next(modem, ch, from, event);
}

/* The first minislot that a tick may have. NONE: the channel isn't known. */
int32_t upsched_c_modem_clock(upsched_handle *modem, uint8_t ch, uint64_t *clock);
static inline int32_t upsched_modem_clock(upsched_handle *modem, uint8_t ch, uint64_t *clock)
{
    if (!modem || !clock) return UPSCHED_NULL;
    return upsched_c_modem_clock(modem, ch, clock);
}

/* ---- Is this header the archive's? ---- */

/* A struct of each kind. */
typedef struct upsched_samples_t {
    upsched_map_head head;
    upsched_map_element elements[2];
    upsched_map_cell cell;
    upsched_command command;
    upsched_output output;
    upsched_sending sending;
    upsched_event event;
    upsched_channel_state channel;
    upsched_waiting_request waiting;
    upsched_flow_state flow;
} upsched_samples_t;

/* The version number (0 at NULL), and each struct with its fields numbered from 1 in their order. A client that
 * compares them sees whether its header and the archive agree. */
uint32_t upsched_c_samples(upsched_samples_t *samples);
static inline uint32_t upsched_samples(upsched_samples_t *samples)
{
    return samples ? upsched_c_samples(samples) : 0;
}

/* ---- Commands made ---- */

/* Each makes a command of its kind. A flow's lease has no end: set `last` to give it one. A channel is TDMA with short
 * grants up to 16 minislots, the back-offs 2 to 5 for ranging and 3 to 8 for data; set the fields to have others. So
 * it is with a change, but for what it is given. A cut with settings keeps the channel's back-offs. */
static inline upsched_command upsched_noop(void)
{
    upsched_command c;
    memset(&c, 0, sizeof c);
    return c;
}

static inline upsched_command upsched_channel(uint8_t ch, uint8_t ucd, uint64_t base)
{
    upsched_command c = upsched_noop();
    c.kind = UPSCHED_CHANNEL;
    c.ch = ch;
    c.ucd = ucd;
    c.base = base;
    c.short_max = 16;
    c.ranging_start = 2;
    c.ranging_end = 5;
    c.data_start = 3;
    c.data_end = 8;
    return c;
}

static inline upsched_command upsched_change(uint8_t ch, uint8_t ucd, uint8_t phy, uint16_t short_max)
{
    upsched_command c = upsched_channel(ch, ucd, 0);
    c.kind = UPSCHED_CHANGE;
    c.phy = phy;
    c.short_max = short_max;
    return c;
}

static inline upsched_command upsched_best_effort(uint8_t ch, uint32_t modem, uint32_t tag, uint8_t priority)
{
    upsched_command c = upsched_noop();
    c.kind = UPSCHED_FLOW;
    c.ch = ch;
    c.modem = modem;
    c.tag = tag;
    c.last = UPSCHED_LAST_TIME;
    c.service = UPSCHED_BEST_EFFORT;
    c.priority = priority;
    return c;
}

static inline upsched_command upsched_poll(uint8_t ch, uint32_t modem, uint32_t tag, uint32_t interval,
                                           uint32_t jitter, uint64_t base)
{
    upsched_command c = upsched_best_effort(ch, modem, tag, 0);
    c.service = UPSCHED_POLL;
    c.interval = interval;
    c.jitter = jitter;
    c.base = base;
    return c;
}

static inline upsched_command upsched_ugs(uint8_t ch, uint32_t modem, uint32_t tag, uint16_t minislots,
                                          uint32_t interval, uint32_t jitter, uint64_t base)
{
    upsched_command c = upsched_poll(ch, modem, tag, interval, jitter, base);
    c.service = UPSCHED_UGS;
    c.minislots = minislots;
    return c;
}

static inline upsched_command upsched_station(uint8_t ch, uint32_t modem, uint32_t tag, uint16_t minislots,
                                              uint32_t interval, uint32_t jitter, uint64_t base)
{
    upsched_command c = upsched_ugs(ch, modem, tag, minislots, interval, jitter, base);
    c.service = UPSCHED_STATION;
    return c;
}

static inline upsched_command upsched_initial(uint8_t ch, uint32_t modem, uint32_t tag, uint16_t minislots,
                                              uint32_t interval, uint32_t jitter, uint64_t base)
{
    upsched_command c = upsched_ugs(ch, modem, tag, minislots, interval, jitter, base);
    c.service = UPSCHED_INITIAL;
    return c;
}

static inline upsched_command upsched_drop(uint8_t ch, uint16_t sid)
{
    upsched_command c = upsched_noop();
    c.kind = UPSCHED_DROP;
    c.ch = ch;
    c.sid = sid;
    return c;
}

static inline upsched_command upsched_request(uint8_t ch, uint16_t sid, uint16_t minislots, uint64_t sent)
{
    upsched_command c = upsched_drop(ch, sid);
    c.kind = UPSCHED_REQUEST;
    c.minislots = minislots;
    c.sent = sent;
    return c;
}

static inline upsched_command upsched_cut(uint8_t ch, uint16_t minislots, uint64_t not_before, uint64_t ack)
{
    upsched_command c = upsched_noop();
    c.kind = UPSCHED_CUT;
    c.ch = ch;
    c.minislots = minislots;
    c.not_before = not_before;
    c.ack = ack;
    return c;
}

static inline upsched_command upsched_cut_set(uint8_t ch, uint16_t minislots, uint64_t not_before, uint64_t ack,
                                              uint16_t keep)
{
    upsched_command c = upsched_cut(ch, minislots, not_before, ack);
    c.kind = UPSCHED_CUT_SET;
    c.keep = keep;
    c.ranging_start = c.ranging_end = c.data_start = c.data_end = 255;
    return c;
}

/* ---- Statuses and refusals in words ---- */

/* What a status says; also one of upsched_node.h. The text is there for good. */
static inline const char *upsched_status_text(int32_t status)
{
    switch (status) {
    case UPSCHED_OK: return "it is done";
    case UPSCHED_CLOSED: return "the handle is closed";
    case UPSCHED_OTHER_KIND: return "the handle is open as another kind";
    case UPSCHED_OPEN: return "the handle is open already";
    case UPSCHED_NO_ROOM: return "the room given is too small";
    case UPSCHED_BAD_FIELD: return "a field can't hold that value, or bytes spell nothing";
    case UPSCHED_OUT_OF_MEMORY: return "there is no memory";
    case UPSCHED_NONE: return "there is no such item";
    case UPSCHED_NULL: return "a pointer is NULL";
    case UPSCHED_MAP_SHORT: return "a MAP body has fewer bytes than its count asks for, or fewer than 16";
    case UPSCHED_MAP_TRAILING: return "a MAP body has more bytes than its count asks for";
    case UPSCHED_MAP_EXPANSION: return "an element of a MAP has IUC 15";
    case UPSCHED_MAP_OUT_OF_ORDER: return "an element of a MAP up to the Null begins before the one before it";
    case UPSCHED_MAP_NO_NULL: return "no element of a MAP has IUC 7";
    case UPSCHED_MAP_TOO_MANY: return "a MAP has more than 255 elements";
    case UPSCHED_ROWS_SHORT: return "saved tables end within a field, or before it";
    case UPSCHED_ROWS_TRAILING: return "bytes follow the last field of saved tables";
    case UPSCHED_ROWS_NO_CHANNEL: return "a channel of saved tables is none";
    case UPSCHED_ROWS_NO_FLOW: return "a flow of saved tables is none";
    case UPSCHED_ROWS_NO_REQUEST: return "a waiting request of saved tables hasn't 1 to 255 minislots";
    case UPSCHED_ROWS_NOT_FIRM: return "no commands could leave the saved table of a channel";
    case UPSCHED_WANT_NOT_MINE: return "no lease of the SID ends at the channel's clock or later";
    case UPSCHED_WANT_WAITING: return "a want of the SID is there";
    case UPSCHED_WANT_BAD_SIZE: return "a want isn't for 1 to 255 minislots";
    case UPSCHED_TIME_BACK: return "a tick is before the channel's clock";
    case 501: return "the node doesn't lead";
    case 502: return "the log is full";
    case 503: return "the node has no ballot above those that it knows of";
    case 504: return "the value has more than 64 bytes";
    default: return "no status of this header";
    }
}

/* Why a command is refused. The text is there for good. */
static inline const char *upsched_refusal_text(uint8_t refusal)
{
    switch (refusal) {
    case UPSCHED_NO_CHANNEL: return "the channel wasn't set";
    case UPSCHED_CHANNEL_THERE: return "the channel was set before";
    case UPSCHED_NO_FLOW: return "no flow has that SID";
    case UPSCHED_SIDS_SPENT: return "all SIDs of the channel are leased";
    case UPSCHED_BUSY: return "the SID has a request that waits, or 118 wait on the channel";
    case UPSCHED_OLD_REQUEST: return "it was sent no later than the last request, or before the lease";
    case UPSCHED_BAD_VALUE: return "a value is outside its limits";
    default: return "no refusal of this header";
    }
}

#ifdef __cplusplus
}
#endif
#endif

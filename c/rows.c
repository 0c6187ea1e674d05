/* Plans of examples/plans, and what modems do with their MAPs, through the library. Prints what `upsched maps` prints
 * of the plans, and then what is decoded, heard and sent. c/rows.stdout has the lines that are wanted. */
#include "lines.h"

#include <string.h>

enum { MOST = 8 };

static int faults;

#define GOOD(call)                                                              \
    do {                                                                        \
        int32_t status_ = (call);                                               \
        if (status_ != UPSCHED_OK) {                                            \
            faults++;                                                           \
            printf("%s:%d status %d\n", __FILE__, __LINE__, (int)status_);      \
        }                                                                       \
    } while (0)

static uint8_t bodies[MOST][UPSCHED_BODY_BYTES];
static upsched_output outputs[MOST];

/* The commands of the header, on channel 1. */
static upsched_command channel(uint64_t base)
{
    return upsched_channel(1, 7, base);
}

static upsched_command best_effort(uint32_t modem)
{
    return upsched_best_effort(1, modem, 1, 0);
}

static upsched_command ugs(uint32_t modem, uint16_t size, uint32_t interval, uint32_t jitter, uint64_t base)
{
    return upsched_ugs(1, modem, 1, size, interval, jitter, base);
}

/* Intervals or openings of 10 minislots, every 100 within 20. */
static upsched_command maintenance(uint8_t service, uint32_t modem, uint64_t base)
{
    upsched_command c = ugs(modem, 10, 100, 20, base);
    c.service = service;
    return c;
}

static upsched_command request(uint16_t sid, uint16_t n, uint64_t sent)
{
    return upsched_request(1, sid, n, sent);
}

static upsched_command cut(uint8_t ch, uint16_t len, uint64_t not_before, uint64_t ack)
{
    return upsched_cut(ch, len, not_before, ack);
}

static upsched_command cut_set(uint16_t len, uint64_t ack, uint16_t keep)
{
    return upsched_cut_set(1, len, 0, ack, keep);
}

static upsched_command change(uint8_t ucd, uint16_t short_max, uint8_t phy)
{
    return upsched_change(1, ucd, phy, short_max);
}

static upsched_command drop(uint16_t sid)
{
    return upsched_drop(1, sid);
}

/* Applies commands to a new scheduler, and keeps the outputs. */
static void run(const char *title, const upsched_command *commands, unsigned count)
{
    upsched_handle machine = {0};
    printf("-- %s\n", title);
    GOOD(upsched_machine_open(&machine));
    for (unsigned i = 0; i < count; i++) {
        GOOD(upsched_machine_apply(&machine, &commands[i], &outputs[i], bodies[i]));
        print_output(i + 1, &outputs[i], bodies[i]);
    }
    upsched_close(&machine);
    upsched_close(&machine);
}

#define RUN(title, commands) run(title, commands, (unsigned)(sizeof(commands) / sizeof(commands)[0]))

static void plans(void)
{
    const upsched_command smallest[] = {channel(1000), cut(1, 1, 0, 0)};
    RUN("smallest_map", smallest);
    const upsched_command large[] = {channel(1000), best_effort(50), request(1, 255, 990), cut(1, 100, 0, 995)};
    RUN("too_large", large);
    const upsched_command missed[] = {channel(1000),         ugs(50, 4, 40, 8, 1000), ugs(51, 4, 40, 8, 1000),
                                      ugs(52, 4, 40, 8, 1000), ugs(53, 4, 40, 8, 1000), cut(1, 40, 0, 0)};
    RUN("missed_grant", missed);
    const upsched_command wider[] = {channel(1000),           ugs(50, 4, 40, 12, 1000), ugs(51, 4, 40, 12, 1000),
                                     ugs(52, 4, 40, 12, 1000), ugs(53, 4, 40, 12, 1000), cut(1, 40, 0, 0)};
    RUN("wider_jitter", wider);
    const upsched_command waits[] = {channel(1000), ugs(50, 8, 40, 20, 1005), cut(1, 10, 0, 0), cut(1, 30, 0, 0)};
    RUN("grant_waits", waits);
    const upsched_command later[] = {channel(1000),      best_effort(50),      request(1, 20, 990), cut(1, 100, 0, 995),
                                     cut(1, 10, 1050, 0), cut(1, 10, 1200, 0), cut(1, 0, 0, 0),     cut(2, 10, 0, 0)};
    RUN("not_before", later);
    const upsched_command retired[] = {channel(1000), best_effort(50), best_effort(50),
                                       drop(1),       best_effort(51), request(1, 20, 990)};
    RUN("a SID is given once", retired);
    upsched_command back_offs = cut_set(1, 0, 0);
    back_offs.data_start = back_offs.data_end = 0;
    upsched_command own = cut(1, 1, 0, 0);
    own.keep = 4097;
    const upsched_command kept[] = {channel(1000), best_effort(50), request(1, 93, 990), cut_set(100, 995, 8),
                                    back_offs,     own,             cut_set(10, 0, 4097)};
    RUN("a cut that keeps minislots", kept);
    const upsched_command changed[] = {channel(1000),      best_effort(50),     request(1, 16, 990), cut(1, 10, 0, 0),
                                       change(8, 8, UPSCHED_TDMA), cut(1, 10, 0, 0), change(9, 8, UPSCHED_ADVANCED),
                                       change(11, 8, UPSCHED_TDMA)};
    RUN("a channel that changes", changed);
    const upsched_command ranges[] = {channel(1000), maintenance(UPSCHED_STATION, 50, 1000),
                                      maintenance(UPSCHED_INITIAL, 0, 1005), request(1, 5, 990), cut(1, 40, 0, 0)};
    RUN("intervals for ranging", ranges);
}

#define STATUS(what, call)                                                     \
    do {                                                                       \
        const int32_t status_ = (call);                                        \
        printf("%s: status %d element %zu\n", what, (int)status_, count);      \
    } while (0)

/* The body of a grant, read, written, asked and spoilt. */
static void codec(void)
{
    const upsched_command plan[] = {channel(1000), best_effort(50), request(1, 20, 990), cut(1, 100, 0, 995)};
    RUN("first_grant", plan);
    const uint8_t *body = bodies[3];
    const size_t len = outputs[3].body_len;
    upsched_map_head head = {0};
    upsched_map_element elements[UPSCHED_ELEMENTS] = {{0, 0, 0}};
    uint8_t again[UPSCHED_BODY_BYTES] = {0};
    size_t count = 0, written = 0;
    GOOD(upsched_map_decode(body, len, &head, elements, UPSCHED_ELEMENTS, &count));
    print_body(&head, elements, count);
    GOOD(upsched_map_encode(&head, elements, count, again, sizeof again, &written));
    printf("the same bytes: %s\n", written == len && memcmp(again, body, len) == 0 ? "yes" : "no");
    const uint16_t minislots[] = {0, 19, 20, 99, 100};
    for (size_t i = 0; i < sizeof minislots / sizeof minislots[0]; i++) {
        upsched_map_cell cell = {0, 0};
        const int32_t status = upsched_map_cell_at(body, len, minislots[i], &cell);
        printf("minislot %u: status %d sid %u iuc %u\n", minislots[i], (int)status, cell.sid, cell.iuc);
    }
    STATUS("room for 2", upsched_map_decode(body, len, &head, elements, 2, &count));
    STATUS("15 bytes", upsched_map_decode(body, 15, &head, elements, 3, &count));
    STATUS("a byte less", upsched_map_decode(body, len - 1, &head, elements, 3, &count));
    STATUS("a byte more", upsched_map_decode(body, len + 1, &head, elements, 3, &count));
    elements[0].iuc = 15;
    STATUS("expansion", upsched_map_encode(&head, elements, 3, again, sizeof again, &count));
    elements[0].iuc = 5;
    elements[1].offset = 0x4000;
    STATUS("bad field", upsched_map_encode(&head, elements, 3, again, sizeof again, &count));
    elements[0].offset = 10;
    elements[1].offset = 9;
    STATUS("out of order", upsched_map_encode(&head, elements, 3, again, sizeof again, &count));
    STATUS("no null", upsched_map_encode(&head, elements, 1, again, sizeof again, &count));
    STATUS("no room", upsched_map_encode(&head, elements + 2, 1, again, 19, &count));
    STATUS("no pointers", upsched_map_encode(&head, NULL, 0, NULL, 0, &count));
}

static void hear(upsched_handle *modem, unsigned i, uint64_t near_time)
{
    uint32_t heard = 99;
    GOOD(upsched_modem_hear_map(modem, bodies[i], outputs[i].body_len, near_time, &heard));
    printf("heard %" PRIu32 "\n", heard);
}

static void hear_open(upsched_handle *modem, upsched_handle *map, uint64_t near_time)
{
    uint32_t heard = 99;
    GOOD(upsched_modem_hear_open_map(modem, map, near_time, &heard));
    printf("heard %" PRIu32 "\n", heard);
}

static void tick(upsched_handle *modem, uint64_t slot, uint64_t random)
{
    upsched_sending s = {0, 0, 0};
    GOOD(upsched_modem_tick(modem, 1, slot, random, &s));
    printf("tick %" PRIu64 ": kind %" PRIu32 " sid %u minislots %u\n", slot, s.kind, s.sid, s.minislots);
}

static void next(upsched_handle *modem, uint64_t from)
{
    upsched_event e = {0, 0, 0, 0, 0, 0, 0};
    const int32_t status = upsched_modem_next(modem, 1, from, &e);
    printf("next from %" PRIu64 ": status %d", from, (int)status);
    if (status == UPSCHED_OK)
        printf(" at %" PRIu64 " kind %" PRIu32 " sid %u from %" PRIu64 " to %" PRIu64 " iuc %u minislots %u", e.slot,
               e.kind, e.sid, e.first, e.last, e.iuc, e.minislots);
    printf("\n");
}

/* Modem 50, which knows channel 1 and SID 1. */
static void open_modem(upsched_handle *modem)
{
    uint32_t heard = 99;
    GOOD(upsched_modem_open(modem, 50));
    GOOD(upsched_modem_hear_channel(modem, 1, 7, &heard));
    GOOD(upsched_modem_hear_assigned(modem, 50, 1, 1, 0, UPSCHED_LAST_TIME, &heard));
}

static void modems(void)
{
    upsched_handle modem = {0}, late = {0};
    const uint64_t end = UINT64_C(1) << 32;
    const upsched_command wraps[] = {channel(end - 10), best_effort(50), request(1, 20, end - 96),
                                     cut(1, 20, 0, end - 16)};
    RUN("32 bits wrap", wraps);
    open_modem(&modem);
    hear(&modem, 3, end - 12);
    tick(&modem, end, 0);
    open_modem(&late);
    hear(&late, 3, UINT64_C(6442450933));
    upsched_close(&modem);
    upsched_close(&late);

    const upsched_command voices[] = {channel(1000),    ugs(50, 4, 10, 4, 1000), ugs(51, 4, 10, 4, 1000),
                                      cut(1, 10, 0, 0), cut(1, 10, 0, 0),        cut(1, 10, 0, 0)};
    RUN("two voices", voices);
    open_modem(&modem);
    hear(&modem, 5, 1003);
    hear(&modem, 5, 1003);
    hear(&modem, 3, 1003);
    next(&modem, 0);
    tick(&modem, 1003, 0);
    next(&modem, 1004);
    tick(&modem, 1012, 0);
    tick(&modem, 1021, 0);
    hear(&modem, 3, 1022);
    tick(&modem, 1024, 0);
    next(&modem, 1025);
    upsched_sending s = {0, 0, 0};
    printf("a tick back: status %d\n", (int)upsched_modem_tick(&modem, 1, 1000, 0, &s));
    upsched_close(&modem);

    printf("-- a MAP that two modems hear\n");
    upsched_handle map = {0};
    GOOD(upsched_map_open(&map, bodies[3], outputs[3].body_len));
    open_modem(&modem);
    open_modem(&late);
    hear_open(&modem, &map, 1000);
    hear_open(&late, &map, 1003);
    next(&modem, 0);
    next(&late, 0);
    hear_open(&late, &map, 1010);
    next(&late, 0);
    upsched_close(&modem);
    upsched_close(&late);
    upsched_close(&map);

    const upsched_command open[] = {channel(1000), best_effort(50), cut(1, 100, 0, 0)};
    RUN("a request in the third minislot", open);
    open_modem(&modem);
    hear(&modem, 2, 1000);
    next(&modem, 1000);
    GOOD(upsched_modem_want(&modem, 1, 1, 20));
    printf("a second want: status %d\n", (int)upsched_modem_want(&modem, 1, 1, 20));
    next(&modem, 1000);
    tick(&modem, 1000, 10);
    tick(&modem, 1001, 0);
    tick(&modem, 1002, 0);
    uint64_t clock = 0;
    GOOD(upsched_modem_clock(&modem, 1, &clock));
    printf("clock %" PRIu64 "\n", clock);
    upsched_close(&modem);
}

/* A MAP of 10 minislots from 1000 on, in the first two of which SID 1 ranges. */
static void ranging(void)
{
    const uint8_t body[] = {1, 7, 3, 0, 0, 0, 3, 0xe8, 0, 0, 3, 0xe8, 2, 5, 3, 8,
                            0, 5, 0, 0, 0xff, 0xfc, 0x40, 2, 0, 1, 0xc0, 0x0a};
    upsched_handle modem = {0}, map = {0};
    printf("-- a modem that ranges\n");
    open_modem(&modem);
    GOOD(upsched_map_open(&map, body, sizeof body));
    hear_open(&modem, &map, 1000);
    next(&modem, 1000);
    tick(&modem, 1000, 0);
    tick(&modem, 1001, 0);
    next(&modem, 1002);
    upsched_close(&modem);
    upsched_close(&map);
}

/* What the handle of a MAP refuses, and a modem beside it. */
static void open_maps(upsched_handle *modem)
{
    upsched_handle map = {0}, other = {0};
    upsched_sending sending = {0, 0, 0};
    uint32_t heard = 99;
    printf("no body: %d\n", (int)upsched_map_open(&map, bodies[2], 15));
    printf("a closed MAP: %d\n", (int)upsched_modem_hear_open_map(modem, &map, 0, &heard));
    GOOD(upsched_map_open(&map, bodies[2], outputs[2].body_len));
    printf("a MAP open again: %d\n", (int)upsched_map_open(&map, bodies[2], outputs[2].body_len));
    printf("a MAP that ticks: %d\n", (int)upsched_modem_tick(&map, 1, 0, 0, &sending));
    printf("a closed modem: %d\n", (int)upsched_modem_hear_open_map(&other, &map, 0, &heard));
    GOOD(upsched_modem_open(&other, 2));
    printf("a modem as a MAP: %d\n", (int)upsched_modem_hear_open_map(modem, &other, 0, &heard));
    printf("a MAP at no time: %d\n", (int)upsched_modem_hear_open_map(modem, &map, UINT64_MAX, &heard));
    printf("no MAP: %d\n", (int)upsched_modem_hear_open_map(modem, NULL, 0, &heard));
    hear_open(modem, &map, 0);
    upsched_close(&map);
    upsched_close(&other);
}

/* What the scheduler has of channel 1: its row, its waiting requests, and its flows up to a SID. */
static void print_rows(upsched_handle *machine, uint16_t last_sid)
{
    upsched_channel_state c = {0, 0, 0};
    upsched_waiting_request w = {0, 0, 0};
    upsched_flow_state f = {0, 0, 0, 0, 0, 0, 0};
    GOOD(upsched_machine_channel(machine, 1, &c));
    printf("next %" PRIu64 " ack %" PRIu64 " waiting %u\n", c.next_start, c.ack, (unsigned)c.waiting);
    for (uint32_t k = 0; upsched_machine_waiting(machine, 1, k, &w) == UPSCHED_OK; k++)
        printf("waiting %u sid %u minislots %u sent %" PRIu64 "\n", (unsigned)k, w.sid, w.minislots, w.sent);
    for (uint16_t sid = 0; sid <= last_sid; sid++) {
        if (upsched_machine_flow(machine, 1, sid, &f) != UPSCHED_OK) continue;
        printf("sid %u modem %" PRIu32 " tag %" PRIu32 " first %" PRIu64 " last %" PRIu64 " service %u due %" PRIu64 "\n",
               f.sid, f.modem, f.tag, f.first, f.last, f.service, f.due);
    }
}

/* Rows of a scheduler, and what isn't there. */
static void queries(void)
{
    upsched_command urgent = upsched_best_effort(1, 51, 4, 7), poll = upsched_poll(1, 52, 1, 40, 8, 1010);
    const upsched_command before[] = {channel(1000), best_effort(50), (urgent.last = 5000, urgent), poll,
                                      request(1, 200, 990), request(2, 5, 980)};
    const upsched_command after[] = {cut(1, 100, 0, 995), request(2, 7, 996), drop(3)};
    upsched_handle machine = {0}, closed = {0}, modem = {0};
    upsched_output output;
    upsched_channel_state c = {1, 2, 3};
    upsched_waiting_request w = {1, 2, 3};
    upsched_flow_state f = {1, 2, 3, 4, 5, 6, 7};
    printf("-- rows of a scheduler\n");
    GOOD(upsched_machine_open(&machine));
    GOOD(upsched_modem_open(&modem, 1));
    for (unsigned i = 0; i < 6; i++) GOOD(upsched_machine_apply(&machine, &before[i], &output, bodies[0]));
    print_rows(&machine, 5);
    for (unsigned i = 0; i < 3; i++) GOOD(upsched_machine_apply(&machine, &after[i], &output, bodies[0]));
    print_rows(&machine, 5);
    printf("no channel: %d\n", (int)upsched_machine_channel(&machine, 2, &c));
    printf("no request: %d %d\n", (int)upsched_machine_waiting(&machine, 1, 2, &w),
           (int)upsched_machine_waiting(&machine, 1, UINT32_MAX, &w));
    printf("no flow: %d %d\n", (int)upsched_machine_flow(&machine, 1, 3, &f), (int)upsched_machine_flow(&machine, 2, 1, &f));
    printf("closed: %d\n", (int)upsched_machine_channel(&closed, 1, &c));
    printf("another kind: %d\n", (int)upsched_machine_waiting(&modem, 1, 0, &w));
    printf("nowhere: %d\n", (int)upsched_machine_flow(&machine, 1, 1, NULL));
    printf("untouched %" PRIu64 " %u %u\n", c.next_start, w.minislots, f.service);
    upsched_close(&machine);
    upsched_close(&modem);
}

/* What handles refuse. */
static void handles(void)
{
    upsched_handle modem = {0}, closed = {0};
    upsched_output output = {0, 0, 0, 0, 0, 0, 0, 0, 0, 0, 0};
    upsched_sending sending = {0, 0, 0};
    const upsched_command noop = upsched_noop();
    upsched_command bad = noop;
    const uint8_t bytes[] = {4, 1, 0, 1, 0, 20, 0, 0, 0, 0, 0, 0, 3, 0xde};
    bad.kind = 8;
    printf("-- handles\n");
    GOOD(upsched_modem_open(&modem, 1));
    printf("open again: %d\n", (int)upsched_machine_open(&modem));
    printf("another kind: %d\n", (int)upsched_machine_apply(&modem, &noop, &output, bodies[0]));
    printf("closed: %d\n", (int)upsched_modem_tick(&closed, 1, 0, 0, &sending));
    printf("a time that is none: %d\n", (int)upsched_modem_tick(&modem, 1, UINT64_MAX, 0, &sending));
    printf("another's SID: %d\n", (int)upsched_modem_want(&modem, 1, 1, 20));
    open_maps(&modem);
    upsched_close(&modem);
    GOOD(upsched_machine_open(&modem));
    printf("no kind: %d\n", (int)upsched_machine_apply(&modem, &bad, &output, bodies[0]));
    printf("no bytes: %d\n", (int)upsched_machine_apply_bytes(&modem, NULL, 0, &output, bodies[0]));
    printf("no output: %d\n", (int)upsched_machine_apply(&modem, &noop, NULL, bodies[0]));
    GOOD(upsched_machine_apply_bytes(&modem, bytes, sizeof bytes, &output, bodies[0]));
    print_output(1, &output, bodies[0]);
    upsched_close(&modem);
}

int main(void)
{
    codec();
    plans();
    modems();
    ranging();
    queries();
    handles();
    printf("faults %d\n", faults);
    return faults != 0;
}

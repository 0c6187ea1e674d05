/* Each malloc and realloc fails in turn. A call that lacks memory says so and changes nothing: made again it answers
 * what it answers where there is memory. A room that is too small is told of first. Link with
 * -Wl,--wrap=malloc,--wrap=realloc. */
#include <upsched.h>

#include <stdio.h>
#include <stdlib.h>
#include <string.h>

static unsigned long asked, failing; /* the request for memory that fails, from 1; none is 0 */
static unsigned lacking;             /* calls that lacked memory */

void *__real_malloc(size_t n);
void *__real_realloc(void *p, size_t n);
void *__wrap_malloc(size_t n);
void *__wrap_realloc(void *p, size_t n);

void *__wrap_malloc(size_t n)
{
    return ++asked == failing ? NULL : __real_malloc(n);
}

void *__wrap_realloc(void *p, size_t n)
{
    return ++asked == failing ? NULL : __real_realloc(p, n);
}

static uint8_t trace[8192];
static size_t traced;

static void note(const void *bytes, size_t len)
{
    if (traced + len > sizeof trace) abort();
    memcpy(trace + traced, bytes, len);
    traced += len;
}

/* Makes a call, and again where it lacks memory. What it may write has to be as it was then. */
#define CALL(call, out)                                                            \
    do {                                                                           \
        unsigned char before_[sizeof *(out)];                                      \
        memcpy(before_, (out), sizeof before_);                                    \
        int32_t status_ = (call);                                                  \
        if (status_ == UPSCHED_OUT_OF_MEMORY) {                                    \
            lacking++;                                                             \
            if (memcmp(before_, (out), sizeof before_) != 0) {                     \
                printf("%s:%d: changed for want of memory\n", __FILE__, __LINE__); \
                exit(1);                                                           \
            }                                                                      \
            status_ = (call);                                                      \
        }                                                                          \
        note(&status_, sizeof status_);                                            \
    } while (0)

typedef struct {
    uint8_t bytes[UPSCHED_BODY_BYTES];
} room;

static void apply(upsched_handle *machine, const upsched_command *c, upsched_output *o, room *body)
{
    CALL(upsched_machine_apply(machine, c, o, body->bytes), body);
    note(&o->kind, sizeof o->kind);
    note(body->bytes, o->body_len);
}

/* A room that is too small is told of whether or not there is memory. */
static void small_rooms(const room *body, size_t len, const upsched_map_head *head, upsched_map_element *elements,
                        size_t count)
{
    upsched_map_head read = *head;
    room again;
    size_t found = 0, written = 0;
    memset(&again, 0, sizeof again);
    if (upsched_map_decode(body->bytes, len, &read, elements, count - 1, &found) != UPSCHED_NO_ROOM || found != count ||
        upsched_map_encode(head, elements, count, again.bytes, len - 1, &written) != UPSCHED_NO_ROOM ||
        written != len) {
        printf("a room that is too small isn't told of\n");
        exit(1);
    }
}

static void run(void)
{
    upsched_handle machine = {0}, modem = {0}, other = {0};
    upsched_output o;
    room body;
    upsched_command c;
    uint32_t heard = 9;
    memset(&o, 0, sizeof o);
    memset(&body, 0, sizeof body);
    memset(&c, 0, sizeof c);
    CALL(upsched_machine_open(&machine), &machine);
    CALL(upsched_modem_open(&modem, 50), &modem);
    CALL(upsched_modem_open(&other, 50), &other);
    c.kind = UPSCHED_CHANNEL, c.ch = 1, c.ucd = 7, c.short_max = 16, c.data_start = 3, c.data_end = 8;
    apply(&machine, &c, &o, &body);
    CALL(upsched_modem_hear_channel(&modem, o.ch, o.ucd, &heard), &heard);
    CALL(upsched_modem_hear_channel(&other, o.ch, o.ucd, &heard), &heard);
    memset(&c, 0, sizeof c);
    c.kind = UPSCHED_FLOW, c.ch = 1, c.modem = 50, c.last = UPSCHED_LAST_TIME;
    apply(&machine, &c, &o, &body);
    CALL(upsched_modem_hear_assigned(&modem, o.modem, 1, o.sid, o.first, o.last, &heard), &heard);
    CALL(upsched_modem_hear_assigned(&other, o.modem, 1, o.sid, o.first, o.last, &heard), &heard);
    for (uint32_t i = 0; i < 6; i++) {
        memset(&c, 0, sizeof c);
        c.kind = UPSCHED_REQUEST, c.ch = 1, c.sid = 1, c.minislots = 20, c.sent = 40 * i;
        apply(&machine, &c, &o, &body);
        memset(&c, 0, sizeof c);
        c.kind = UPSCHED_CUT, c.ch = 1, c.minislots = 40, c.ack = 40 * i;
        apply(&machine, &c, &o, &body);
        CALL(upsched_modem_want(&modem, 1, 1, 20), &modem);
        CALL(upsched_modem_hear_map(&modem, body.bytes, o.body_len, o.start, &heard), &heard);
        note(&heard, sizeof heard);
        upsched_handle map = {0};
        CALL(upsched_map_open(&map, body.bytes, o.body_len), &map);
        CALL(upsched_modem_hear_open_map(&other, &map, o.start, &heard), &heard);
        note(&heard, sizeof heard);
        upsched_close(&map);
        upsched_map_head head;
        upsched_map_element elements[UPSCHED_ELEMENTS];
        size_t count = 0, written = 0;
        room again;
        upsched_map_cell cell;
        memset(&head, 0, sizeof head);
        memset(elements, 0, sizeof elements);
        memset(&again, 0, sizeof again);
        memset(&cell, 0, sizeof cell);
        CALL(upsched_map_decode(body.bytes, o.body_len, &head, elements, UPSCHED_ELEMENTS, &count), &elements);
        CALL(upsched_map_encode(&head, elements, count, again.bytes, sizeof again.bytes, &written), &again);
        small_rooms(&body, o.body_len, &head, elements, count);
        CALL(upsched_map_cell_at(again.bytes, written, 3, &cell), &cell);
        note(again.bytes, written);
        note(&cell.sid, sizeof cell.sid);
        for (uint64_t slot = o.start; slot < o.start + o.minislots; slot++) {
            upsched_sending s = {0, 0, 0};
            CALL(upsched_modem_tick(&modem, 1, slot, 5, &s), &s);
            note(&s.kind, sizeof s.kind);
        }
    }
    upsched_close(&machine);
    upsched_close(&modem);
    upsched_close(&other);
}

int main(void)
{
    uint8_t wanted[sizeof trace];
    size_t length;
    run();
    const unsigned long requests = asked;
    memcpy(wanted, trace, sizeof trace);
    length = traced;
    for (unsigned long n = 1; n <= requests; n++) {
        asked = traced = 0;
        failing = n;
        run();
        if (traced != length || memcmp(trace, wanted, length) != 0) {
            printf("request %lu for memory fails, and answers differ\n", n);
            return 1;
        }
    }
    printf("%lu requests for memory failed in turn, %u calls lacked memory, the same answers\n", requests, lacking);
    return 0;
}

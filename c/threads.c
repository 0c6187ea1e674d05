/* Two threads, each with a scheduler and a modem of its own, at once. */
#include <upsched.h>

#include <pthread.h>
#include <stdio.h>
#include <string.h>

typedef struct {
    uint32_t id;
    uint64_t sum;
    int faults;
} work;

static void *run(void *given)
{
    work *w = given;
    upsched_handle machine = {0}, modem = {0};
    upsched_output o;
    uint8_t body[UPSCHED_BODY_BYTES];
    upsched_command c;
    uint32_t heard = 0;
    memset(&o, 0, sizeof o);
    memset(body, 0, sizeof body);
    memset(&c, 0, sizeof c);
    w->faults += upsched_machine_open(&machine) != UPSCHED_OK;
    w->faults += upsched_modem_open(&modem, w->id) != UPSCHED_OK;
    c.kind = UPSCHED_CHANNEL, c.ch = 1, c.ucd = 7, c.short_max = 16;
    w->faults += upsched_machine_apply(&machine, &c, &o, body) != UPSCHED_OK;
    w->faults += upsched_modem_hear_channel(&modem, o.ch, o.ucd, &heard) != UPSCHED_OK;
    memset(&c, 0, sizeof c);
    c.kind = UPSCHED_FLOW, c.ch = 1, c.modem = w->id, c.last = UPSCHED_LAST_TIME, c.service = UPSCHED_UGS;
    c.minislots = 4, c.interval = 20, c.jitter = 8;
    w->faults += upsched_machine_apply(&machine, &c, &o, body) != UPSCHED_OK;
    w->faults += upsched_modem_hear_assigned(&modem, o.modem, 1, o.sid, o.first, o.last, &heard) != UPSCHED_OK;
    memset(&c, 0, sizeof c);
    c.kind = UPSCHED_CUT, c.ch = 1, c.minislots = 100;
    for (int i = 0; i < 50; i++) {
        w->faults += upsched_machine_apply(&machine, &c, &o, body) != UPSCHED_OK;
        w->faults += upsched_modem_hear_map(&modem, body, o.body_len, o.start, &heard) != UPSCHED_OK;
        for (uint64_t slot = o.start; slot < o.start + o.minislots; slot++) {
            upsched_sending s = {0, 0, 0};
            w->faults += upsched_modem_tick(&modem, 1, slot, 0, &s) != UPSCHED_OK;
            w->sum += s.kind == UPSCHED_SENDS_DATA;
        }
    }
    upsched_close(&machine);
    upsched_close(&modem);
    return NULL;
}

int main(void)
{
    work works[2] = {{1, 0, 0}, {2, 0, 0}};
    pthread_t threads[2];
    for (int i = 0; i < 2; i++)
        if (pthread_create(&threads[i], NULL, run, &works[i]) != 0) return 1;
    for (int i = 0; i < 2; i++)
        if (pthread_join(threads[i], NULL) != 0) return 1;
    for (int i = 0; i < 2; i++)
        printf("modem %u sends in %llu minislots, faults %d\n", (unsigned)works[i].id, (unsigned long long)works[i].sum,
               works[i].faults);
    return works[0].faults + works[1].faults != 0 || works[0].sum != 1000 || works[1].sum != 1000;
}

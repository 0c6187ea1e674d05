/* Is this header the archive's? Each field of each struct is compared, and what the structs take. */
#include <upsched.h>

#include <stdio.h>
#include <string.h>

static int faults;

static void is(const char *name, uint64_t found, uint64_t wanted)
{
    if (found == wanted) return;
    faults++;
    printf("%s is %llu, not %llu\n", name, (unsigned long long)found, (unsigned long long)wanted);
}

#define IS(field, wanted) is(#field, (uint64_t)(field), wanted)

static void head(const upsched_map_head *h)
{
    IS(h->start, 1), IS(h->ack, 2), IS(h->channel, 3), IS(h->ucd, 4);
    IS(h->ranging_start, 5), IS(h->ranging_end, 6), IS(h->data_start, 7), IS(h->data_end, 8);
}

static void command(const upsched_command *c)
{
    IS(c->kind, 1), IS(c->modem, 2), IS(c->tag, 3), IS(c->interval, 4), IS(c->jitter, 5), IS(c->base, 6);
    IS(c->last, 7), IS(c->sent, 8), IS(c->not_before, 9), IS(c->ack, 10), IS(c->sid, 11), IS(c->minislots, 12);
    IS(c->short_max, 13), IS(c->keep, 14), IS(c->ch, 15), IS(c->ucd, 16), IS(c->phy, 17), IS(c->service, 18);
    IS(c->priority, 19), IS(c->ranging_start, 20), IS(c->ranging_end, 21), IS(c->data_start, 22), IS(c->data_end, 23);
}

static void output(const upsched_output *o)
{
    IS(o->kind, 1), IS(o->modem, 2), IS(o->first, 3), IS(o->last, 4), IS(o->start, 5), IS(o->body_len, 6);
    IS(o->sid, 7), IS(o->minislots, 8), IS(o->ch, 9), IS(o->ucd, 10), IS(o->refusal, 11);
}

int main(void)
{
    upsched_samples_t s[2];
    memset(s, 0xa5, sizeof s);
    IS(upsched_samples(&s[0]), UPSCHED_VERSION_NUMBER);
    IS(upsched_samples(NULL), 0);
    head(&s[0].head);
    for (int i = 0; i < 2; i++) {
        const upsched_map_element *e = &s[0].elements[i];
        IS(e->sid, 1), IS(e->offset, 2), IS(e->iuc, 3);
    }
    IS(s[0].cell.sid, 1), IS(s[0].cell.iuc, 2);
    command(&s[0].command);
    output(&s[0].output);
    IS(s[0].sending.kind, 1), IS(s[0].sending.sid, 2), IS(s[0].sending.minislots, 3);
    IS(s[0].event.slot, 1), IS(s[0].event.first, 2), IS(s[0].event.last, 3), IS(s[0].event.kind, 4);
    IS(s[0].event.sid, 5), IS(s[0].event.minislots, 6), IS(s[0].event.iuc, 7);
    IS(s[0].channel.next_start, 1), IS(s[0].channel.ack, 2), IS(s[0].channel.waiting, 3);
    IS(s[0].waiting.sent, 1), IS(s[0].waiting.sid, 2), IS(s[0].waiting.minislots, 3);
    IS(s[0].flow.due, 1), IS(s[0].flow.first, 2), IS(s[0].flow.last, 3), IS(s[0].flow.modem, 4);
    IS(s[0].flow.tag, 5), IS(s[0].flow.sid, 6), IS(s[0].flow.service, 7);
    for (size_t i = 0; i < sizeof s[1]; i++) IS(((const unsigned char *)&s[1])[i], 0xa5);
    IS(sizeof(upsched_handle), 16);
    printf("faults %d\n", faults);
    return faults != 0;
}

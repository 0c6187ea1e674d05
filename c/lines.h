/* Outputs and bodies as lines of the program `upsched`. */
#ifndef UPSCHED_LINES_H
#define UPSCHED_LINES_H

#include <upsched.h>

#include <inttypes.h>
#include <stdio.h>

static inline void print_text(const upsched_output *o, const uint8_t *body)
{
    switch (o->kind) {
    case UPSCHED_NOTHING:
        printf("nothing");
        break;
    case UPSCHED_CHANNEL_SET:
        printf("channel %u ucd %u", o->ch, o->ucd);
        break;
    case UPSCHED_ASSIGNED:
        printf("assigned modem %" PRIu32 " channel %u sid %u", o->modem, o->ch, o->sid);
        if (o->first != 0 || o->last != UPSCHED_LAST_TIME)
            printf(" first %" PRIu64 " last %" PRIu64, o->first, o->last);
        break;
    case UPSCHED_MAP:
        printf("map channel %u start %" PRIu64 " len %u ", o->ch, o->start, o->minislots);
        for (size_t i = 0; i < o->body_len; i++) printf("%02x", body[i]);
        break;
    default:
        printf("refused %u", o->refusal);
    }
    printf("\n");
}

static inline void print_output(unsigned number, const upsched_output *o, const uint8_t *body)
{
    printf("%u ", number);
    print_text(o, body);
}

static inline void print_body(const upsched_map_head *head, const upsched_map_element *elements, size_t count)
{
    printf("channel %u ucd %u start %" PRIu32 " ack %" PRIu32 " ranging %u %u data %u %u\n", head->channel, head->ucd,
           head->start, head->ack, head->ranging_start, head->ranging_end, head->data_start, head->data_end);
    for (size_t i = 0; i < count; i++)
        printf("offset %u sid %u iuc %u\n", elements[i].offset, elements[i].sid, elements[i].iuc);
}

#endif

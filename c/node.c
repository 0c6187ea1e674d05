/* Three nodes in one process agree on the commands of examples/plans/first_grant.toml. Then node 0 crashes, is opened
 * again with its stored writes, and leads again. Prints what each node releases, and what is stored of it.
 * c/node.stdout has the lines that are wanted. */
#include "lines.h"
#include <upsched_node.h>

#include <stdlib.h>
#include <string.h>

enum { NODES = 3, MOST_WRITES = 64, MOST_LETTERS = 256, LETTER = 1024 };

/* A node, and what is stored of it: in a program this is a file, and each write is flushed to it. */
static upsched_node nodes[NODES];
static upsched_node_write stored[NODES][MOST_WRITES];
static size_t stored_count[NODES];

/* The letters that are on their way, in the order of their sending. */
static struct {
    size_t len;
    uint8_t bytes[LETTER];
} sent[MOST_LETTERS];
static size_t sent_count, carried;

static void good(int32_t status, const char *what)
{
    if (status == UPSCHED_OK) return;
    printf("%s: status %d\n", what, (int)status);
    exit(1);
}

/* The write of a call is stored. Only then its letters go. */
static void finish(unsigned id, const upsched_node_write *write, size_t letters)
{
    if (write->kind != UPSCHED_NO_WRITE) {
        if (stored_count[id] == MOST_WRITES) exit(1);
        stored[id][stored_count[id]++] = *write;
    }
    for (size_t i = 0; i < letters; i++) {
        if (sent_count == MOST_LETTERS) exit(1);
        good(upsched_node_letter(&nodes[id], i, sent[sent_count].bytes, LETTER, &sent[sent_count].len), "letter");
        sent_count++;
    }
}

static void lead(unsigned id)
{
    upsched_node_write write = {0};
    size_t letters = 0;
    good(upsched_node_lead(&nodes[id], &write, &letters), "lead");
    finish(id, &write, letters);
}

static void offer(unsigned id, const uint8_t *value, size_t len)
{
    upsched_node_write write = {0};
    size_t letters = 0;
    good(upsched_node_offer(&nodes[id], value, len, &write, &letters), "offer");
    finish(id, &write, letters);
}

/* Carries each letter to its receiver, and those that it is answered with. */
static void carry(void)
{
    for (; carried < sent_count; carried++) {
        const uint8_t *bytes = sent[carried].bytes;
        upsched_node_write write = {0};
        size_t letters = 0;
        if (bytes[2] >= NODES) exit(1);
        good(upsched_node_receive(&nodes[bytes[2]], bytes, sent[carried].len, &write, &letters), "receive");
        finish(bytes[2], &write, letters);
    }
    sent_count = carried = 0;
}

static void release(unsigned id)
{
    static uint8_t body[UPSCHED_BODY_BYTES];
    size_t outputs = 0;
    good(upsched_node_release(&nodes[id], 0, &outputs), "release");
    printf("node %u releases %zu\n", id, outputs);
    for (size_t i = 0; i < outputs; i++) {
        uint64_t place = 0;
        upsched_output output = {0};
        good(upsched_node_output(&nodes[id], i, &place, &output, body), "output");
        printf("place %" PRIu64 " ", place);
        print_text(&output, body);
    }
}

/* The commands of the plan, as values of the log, and a second cut. */
static const uint8_t channel[] = {1, 1, 7, 0, 16, 2, 5, 3, 8, 0, 0, 0, 0, 0, 0, 3, 0xe8};
static const uint8_t flow[] = {2, 1, 0, 0, 0, 50, 0, 0, 0, 1, 0, 0};
static const uint8_t request[] = {4, 1, 0, 1, 0, 20, 0, 0, 0, 0, 0, 0, 3, 0xde};
static const uint8_t cut[] = {5, 1, 0, 100, 0, 0, 0, 0, 0, 0, 0, 0, 0, 0, 0, 0, 0, 0, 3, 0xe3};

/* A number of eight bytes, most significant first. */
static uint64_t number(const uint8_t *bytes)
{
    uint64_t n = 0;
    for (unsigned i = 0; i < 8; i++) n = n << 8 | bytes[i];
    return n;
}

/* What is stored of node 0, field by field. */
static void print_writes(void)
{
    for (size_t i = 0; i < stored_count[0]; i++) {
        const upsched_node_write *w = &stored[0][i];
        printf("write %u of node %u: ballot %" PRIu64 " place %" PRIu64 " value ", w->kind, w->node, number(w->ballot),
               number(w->place));
        for (unsigned k = 0; k < w->value_len; k++) printf("%02x", w->value[k]);
        printf("\n");
    }
}

/* The first letter on its way as fields; and with another receiver as bytes again, which are those of the next one. */
static void fields(void)
{
    upsched_letter letter = {0};
    upsched_vote votes[1] = {{0, 0, 0, {0}}};
    uint8_t bytes[LETTER];
    size_t count = 0, written = 0;
    good(upsched_letter_decode(sent[0].bytes, sent[0].len, &letter, votes, 1, &count), "decode");
    printf("letter %u from %u to %u: ballot %" PRIu64 " place %" PRIu64 " votes %zu\n", letter.kind, letter.from,
           letter.to, letter.ballot, letter.place, count);
    letter.to = 1;
    good(upsched_letter_encode(&letter, votes, count, bytes, sizeof bytes, &written), "encode");
    printf("to node 1 it is the next one: %d\n",
           written == sent[1].len && memcmp(bytes, sent[1].bytes, written) == 0);
}

/* Statuses that change nothing. */
static void refusals(void)
{
    upsched_node closed = {0};
    upsched_node_write write = {0}, strange = {0};
    uint8_t letter[1] = {0};
    upsched_letter fields = {0};
    size_t count = 7;
    const int32_t found[] = {
        upsched_node_lead(&closed, &write, &count),
        upsched_node_lead(NULL, &write, &count),
        upsched_node_open(&nodes[0], 0, NODES, NULL, 0),
        upsched_node_open(&closed, 3, NODES, NULL, 0),
        upsched_node_open(&closed, 0, 4, NULL, 0),
        (strange.kind = 9, upsched_node_open(&closed, 0, NODES, &strange, 1)),
        upsched_node_open(&closed, 2, NODES, stored[0], stored_count[0]),
        upsched_node_offer(&nodes[1], cut, sizeof cut, &write, &count),
        upsched_node_receive(&nodes[1], letter, sizeof letter, &write, &count),
        upsched_node_letter(&nodes[1], 1000, letter, sizeof letter, &count),
        upsched_node_learned(&nodes[1], 1000, letter, sizeof letter, &count),
        upsched_node_tell(&nodes[1], 5, 1, &write, &count),
        upsched_letter_decode(letter, sizeof letter, &fields, NULL, 0, &count),
        upsched_letter_encode(&fields, NULL, 0, letter, sizeof letter, &count),
    };
    printf("refusals");
    for (size_t i = 0; i < sizeof found / sizeof found[0]; i++) printf(" %d", (int)found[i]);
    printf(", and nothing is told: %d\n", write.kind == UPSCHED_NO_WRITE && count == 7);
}

int main(void)
{
    if (sizeof(upsched_node) != 16 || sizeof(upsched_node_write) != 83) return 1;
    for (uint8_t id = 0; id < NODES; id++) good(upsched_node_open(&nodes[id], id, NODES, NULL, 0), "open");
    lead(0);
    fields();
    carry();
    offer(0, channel, sizeof channel);
    offer(0, flow, sizeof flow);
    offer(0, request, sizeof request);
    offer(0, cut, sizeof cut);
    carry();
    for (unsigned id = 0; id < NODES; id++) release(id);

    upsched_node_close(&nodes[0]);
    good(upsched_node_open(&nodes[0], 0, NODES, stored[0], stored_count[0]), "open again");
    release(0);
    lead(0);
    carry();
    offer(0, cut, sizeof cut);
    carry();
    for (unsigned id = 0; id < NODES; id++) release(id);
    refusals();
    for (unsigned id = 0; id < NODES; id++) printf("node %u has %zu writes stored\n", id, stored_count[id]);
    print_writes();
    for (unsigned id = 0; id < NODES; id++) upsched_node_close(&nodes[id]);
    return 0;
}

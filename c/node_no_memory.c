/* Each malloc and realloc of three nodes fails in turn. A call that lacks memory says so and changes nothing: made
 * again it answers what it answers where there is memory. Link with -Wl,--wrap=malloc,--wrap=realloc. */
#include <upsched_node.h>

#include <stdio.h>
#include <stdlib.h>
#include <string.h>

enum { NODES = 3, MOST_WRITES = 32, MOST_LETTERS = 64, LETTER = 512 };

static unsigned long asked, failing; /* the request for memory that fails, from 1; none is 0 */
static unsigned lacking;             /* calls that lacked memory */

void *__real_malloc(size_t n);
void *__real_realloc(void *p, size_t n);
void *__wrap_malloc(size_t n);
void *__wrap_realloc(void *p, size_t n);

void *__wrap_malloc(size_t n)
{
    return ++asked == failing ? NULL : __real_malloc(n);
}

void *__wrap_realloc(void *p, size_t n)
{
    return ++asked == failing ? NULL : __real_realloc(p, n);
}

static uint8_t trace[65536];
static size_t traced;

static void note(const void *bytes, size_t len)
{
    if (traced + len > sizeof trace) abort();
    memcpy(trace + traced, bytes, len);
    traced += len;
}

static upsched_node nodes[NODES];
static upsched_node_write writes[MOST_WRITES], write;
static size_t write_count, letters;

static uint8_t sent[MOST_LETTERS][LETTER];
static size_t lengths[MOST_LETTERS], sent_count, carried;

/* Makes a call, and again where it lacks memory. What it may write has to be as it was then. */
#define CALL(call)                                                                                      \
    do {                                                                                                \
        const upsched_node_write before_ = write;                                                       \
        const size_t letters_ = letters;                                                                \
        int32_t status_ = (call);                                                                       \
        if (status_ == UPSCHED_OUT_OF_MEMORY) {                                                         \
            lacking++;                                                                                  \
            if (letters != letters_ || memcmp(&before_, &write, sizeof write) != 0) {                   \
                printf("%s:%d: changed for want of memory\n", __FILE__, __LINE__);                      \
                exit(1);                                                                                \
            }                                                                                           \
            status_ = (call);                                                                           \
        }                                                                                               \
        note(&status_, sizeof status_);                                                                 \
    } while (0)

/* A letter is read as fields, and written again. */
static void fields(const uint8_t *bytes, size_t len)
{
    static uint8_t again[LETTER];
    upsched_letter letter;
    upsched_vote votes[4];
    size_t count = 0, written = 0;
    memset(&letter, 0, sizeof letter);
    memset(votes, 0, sizeof votes);
    CALL(upsched_letter_decode(bytes, len, &letter, votes, 4, &count));
    CALL(upsched_letter_encode(&letter, votes, count, again, sizeof again, &written));
    if (written != len || memcmp(again, bytes, len) != 0) {
        printf("other bytes\n");
        exit(1);
    }
}

/* The write of node 0 is kept, and the letters of a call are on their way. */
static void finish(unsigned id)
{
    note(&write, sizeof write);
    if (id == 0 && write.kind != UPSCHED_NO_WRITE) {
        if (write_count == MOST_WRITES) abort();
        writes[write_count++] = write;
    }
    for (size_t i = 0, count = letters; i < count; i++) {
        if (sent_count == MOST_LETTERS) abort();
        CALL(upsched_node_letter(&nodes[id], i, sent[sent_count], LETTER, &lengths[sent_count]));
        note(sent[sent_count], lengths[sent_count]);
        fields(sent[sent_count], lengths[sent_count]);
        sent_count++;
    }
}

static void carry(void)
{
    for (; carried < sent_count; carried++) {
        const unsigned to = sent[carried][2];
        CALL(upsched_node_receive(&nodes[to], sent[carried], lengths[carried], &write, &letters));
        finish(to);
    }
    sent_count = carried = 0;
}

static void run(void)
{
    static const uint8_t channel[] = {1, 1, 7, 0, 16, 2, 5, 3, 8, 0, 0, 0, 0, 0, 0, 3, 0xe8};
    static uint8_t body[UPSCHED_BODY_BYTES];
    size_t outputs = 0;
    uint64_t place = 0;
    upsched_output output;
    memset(&output, 0, sizeof output);
    asked = traced = write_count = 0;
    for (uint8_t id = 0; id < NODES; id++) CALL(upsched_node_open(&nodes[id], id, NODES, NULL, 0));
    CALL(upsched_node_lead(&nodes[0], &write, &letters));
    finish(0);
    carry();
    CALL(upsched_node_offer(&nodes[0], channel, sizeof channel, &write, &letters));
    finish(0);
    carry();
    upsched_node_close(&nodes[0]);
    CALL(upsched_node_open(&nodes[0], 0, NODES, writes, write_count));
    CALL(upsched_node_lead(&nodes[0], &write, &letters));
    finish(0);
    carry();
    CALL(upsched_node_tell(&nodes[1], 0, 1, &write, &letters));
    finish(1);
    carry();
    CALL(upsched_node_learned(&nodes[0], 1, body, sizeof body, &outputs));
    note(body, outputs);
    for (unsigned id = 0; id < NODES; id++) {
        CALL(upsched_node_release(&nodes[id], 0, &outputs));
        CALL(upsched_node_output(&nodes[id], 0, &place, &output, body));
        note(&place, sizeof place);
        note(&output, sizeof output);
    }
    for (unsigned id = 0; id < NODES; id++) upsched_node_close(&nodes[id]);
}

int main(void)
{
    static uint8_t wanted[sizeof trace];
    run();
    const size_t len = traced;
    const unsigned long requests = asked;
    memcpy(wanted, trace, len);
    for (failing = 1; failing <= requests; failing++) {
        run();
        if (traced != len || memcmp(trace, wanted, len) != 0) {
            printf("differs where request %lu fails\n", failing);
            return 1;
        }
    }
    printf("%lu requests for memory, %u calls lacked it\n", requests, lacking);
    return lacking == 0;
}

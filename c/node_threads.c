/* Two threads, each with three nodes of its own, at once. */
#include <upsched_node.h>

#include <pthread.h>
#include <stdio.h>
#include <string.h>

enum { NODES = 3, MOST_LETTERS = 64, LETTER = 512, OFFERS = 20 };

typedef struct {
    upsched_node nodes[NODES];
    uint8_t sent[MOST_LETTERS][LETTER];
    size_t lengths[MOST_LETTERS], sent_count;
    size_t writes, outputs;
    int faults;
} work;

static void finish(work *w, unsigned id, int32_t status, const upsched_node_write *write, size_t letters)
{
    w->faults += status != UPSCHED_OK;
    w->writes += write->kind != UPSCHED_NO_WRITE;
    for (size_t i = 0; i < letters; i++, w->sent_count++) {
        if (w->sent_count == MOST_LETTERS) {
            w->faults++;
            return;
        }
        w->faults += upsched_node_letter(&w->nodes[id], i, w->sent[w->sent_count], LETTER,
                                         &w->lengths[w->sent_count]) != UPSCHED_OK;
    }
}

static void carry(work *w)
{
    for (size_t k = 0; k < w->sent_count; k++) {
        const unsigned to = w->sent[k][2];
        upsched_node_write write;
        size_t letters = 0;
        memset(&write, 0, sizeof write);
        const int32_t status = upsched_node_receive(&w->nodes[to], w->sent[k], w->lengths[k], &write, &letters);
        finish(w, to, status, &write, letters);
    }
    w->sent_count = 0;
}

static void *run(void *given)
{
    static const uint8_t channel[] = {1, 1, 7, 0, 16, 2, 5, 3, 8, 0, 0, 0, 0, 0, 0, 3, 0xe8};
    work *w = given;
    upsched_node_write write;
    size_t letters = 0;
    memset(w, 0, sizeof *w);
    memset(&write, 0, sizeof write);
    for (uint8_t id = 0; id < NODES; id++)
        w->faults += upsched_node_open(&w->nodes[id], id, NODES, NULL, 0) != UPSCHED_OK;
    int32_t status = upsched_node_lead(&w->nodes[0], &write, &letters);
    finish(w, 0, status, &write, letters);
    carry(w);
    for (int i = 0; i < OFFERS; i++) {
        status = upsched_node_offer(&w->nodes[0], channel, sizeof channel, &write, &letters);
        finish(w, 0, status, &write, letters);
        carry(w);
    }
    w->faults += upsched_node_release(&w->nodes[2], 0, &w->outputs) != UPSCHED_OK;
    for (unsigned id = 0; id < NODES; id++) upsched_node_close(&w->nodes[id]);
    return NULL;
}

int main(void)
{
    static work works[2];
    pthread_t threads[2];
    for (int i = 0; i < 2; i++)
        if (pthread_create(&threads[i], NULL, run, &works[i]) != 0) return 1;
    for (int i = 0; i < 2; i++)
        if (pthread_join(threads[i], NULL) != 0) return 1;
    for (int i = 0; i < 2; i++)
        printf("%zu outputs, %zu writes, faults %d\n", works[i].outputs, works[i].writes, works[i].faults);
    return works[0].faults + works[1].faults != 0 || works[0].outputs != OFFERS || works[1].outputs != OFFERS;
}

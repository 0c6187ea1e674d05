/* Is this header the archive's? Each field of each struct is compared, and what the structs take. */
#include <upsched_node.h>

#include <stdio.h>
#include <string.h>

static int faults;

static void is(const char *name, uint64_t found, uint64_t wanted)
{
    if (found == wanted) return;
    faults++;
    printf("%s is %llu, not %llu\n", name, (unsigned long long)found, (unsigned long long)wanted);
}

#define IS(field, wanted) is(#field, (uint64_t)(field), wanted)

static void all(const char *name, const uint8_t *bytes, size_t len, uint8_t wanted)
{
    for (size_t i = 0; i < len; i++) is(name, bytes[i], wanted);
}

#define ALL(field, wanted) all(#field, field, sizeof field, wanted)

int main(void)
{
    upsched_node_samples_t s[2];
    memset(s, 0xa5, sizeof s);
    IS(upsched_node_samples(&s[0]), UPSCHED_VERSION_NUMBER);
    IS(upsched_node_samples(NULL), 0);
    const upsched_node_write *w = &s[0].write;
    IS(w->kind, 1), IS(w->node, 2), IS(w->value_len, 3), ALL(w->ballot, 4), ALL(w->place, 5), ALL(w->value, 6);
    const upsched_letter *l = &s[0].letter;
    IS(l->ballot, 1), IS(l->place, 2), IS(l->kind, 3), IS(l->from, 4), IS(l->to, 5), IS(l->value_len, 6);
    ALL(l->value, 7);
    for (int i = 0; i < 2; i++) {
        const upsched_vote *v = &s[0].votes[i];
        IS(v->place, 1), IS(v->ballot, 2), IS(v->value_len, 3), ALL(v->value, 4);
    }
    for (size_t i = 0; i < sizeof s[1]; i++) IS(((const unsigned char *)&s[1])[i], 0xa5);
    IS(sizeof(upsched_node), 16), IS(sizeof(upsched_node_write), 83);
    printf("faults %d\n", faults);
    return faults != 0;
}

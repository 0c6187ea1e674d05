/* Letters that are spoilt at random come to a node, one after another; what it says is printed as lines of the program
 * `upsched node`, but for the name of a letter's first fault. Each that can be read as fields is written again as the
 * same bytes.
 *
 * Usage: mutate_node SEED COUNT: the letters' lines go to standard error. */
#include <upsched_node.h>

#include <inttypes.h>
#include <stdio.h>
#include <stdlib.h>
#include <string.h>

enum { ROOM = 4096, VOTES = 64 };

static uint64_t state;

static uint32_t random_number(void)
{
    state = state * UINT64_C(6364136223846793005) + UINT64_C(1442695040888963407);
    return (uint32_t)(state >> 33);
}

static void put(uint8_t *bytes, size_t *len, uint64_t number, int width)
{
    for (int k = width; k-- > 0;) bytes[(*len)++] = (uint8_t)(number >> (8 * k));
}

static void put_value(uint8_t *bytes, size_t *len)
{
    const uint32_t n = random_number() % 16 == 0 ? 60 + random_number() % 9 : random_number() % 6;
    put(bytes, len, n, 8);
    for (uint32_t i = 0; i < n; i++) bytes[(*len)++] = (uint8_t)random_number();
}

/* A ballot of one of the first rounds, and of the node most of the time. */
static uint64_t some_ballot(uint64_t node)
{
    return 8 * (1 + random_number() % 4) + (random_number() % 8 == 0 ? random_number() % 5 : node);
}

/* A letter to node 0 of three, most of the time. */
static size_t some_letter(uint8_t *bytes)
{
    const uint32_t kind = 1 + random_number() % 6, from = random_number() % 3;
    size_t len = 0;
    put(bytes, &len, kind, 1);
    put(bytes, &len, from, 1);
    put(bytes, &len, random_number() % 12 == 0, 1);
    if (kind != 6) put(bytes, &len, some_ballot(kind == 2 ? 0 : from), 8);
    if (kind != 5) put(bytes, &len, 1 + random_number() % 6, 8);
    if (kind == 3 || kind == 4 || kind == 6) put_value(bytes, &len);
    if (kind == 2) {
        const uint32_t votes = random_number() % 4;
        put(bytes, &len, votes, 8);
        for (uint32_t i = 0; i < votes; i++) {
            put(bytes, &len, 1 + i + random_number() % 2, 8);
            put(bytes, &len, some_ballot(from), 8);
            put_value(bytes, &len);
        }
    }
    return len;
}

static void spoil(uint8_t *bytes, size_t *len)
{
    for (uint32_t k = random_number() % 3; k > 0; k--)
        bytes[random_number() % *len] ^= (uint8_t)(1u << random_number() % 8);
    if (random_number() % 6 == 0) *len = random_number() % (*len + 1);
    if (random_number() % 12 == 0) bytes[(*len)++] = 0;
}

static void print_digits(FILE *file, const uint8_t *bytes, size_t len)
{
    for (size_t i = 0; i < len; i++) fprintf(file, "%02x", bytes[i]);
    fprintf(file, "\n");
}

static void wrong(const char *what)
{
    printf("%s\n", what);
    exit(1);
}

/* Its fields are written as the same bytes; the status of the reading is the receiver's, but that values fit. */
static int32_t read_again(const uint8_t *bytes, size_t len)
{
    static uint8_t again[ROOM];
    static upsched_vote votes[VOTES];
    upsched_letter letter;
    size_t count = 0, written = 0;
    memset(&letter, 0, sizeof letter);
    const int32_t status = upsched_letter_decode(bytes, len, &letter, votes, VOTES, &count);
    if (status != UPSCHED_OK) return status;
    if (upsched_letter_encode(&letter, votes, count, again, sizeof again, &written) != UPSCHED_OK) wrong("not written");
    if (written != len || memcmp(again, bytes, len) != 0) wrong("other bytes");
    if (upsched_letter_encode(&letter, votes, count, again, len - 1, &written) != UPSCHED_NO_ROOM || written != len)
        wrong("room for more");
    if (count > 0 &&
        (upsched_letter_decode(bytes, len, &letter, votes, count - 1, &written) != UPSCHED_NO_ROOM || written != count))
        wrong("room for more votes");
    letter.from = 5;
    if (upsched_letter_encode(&letter, votes, count, again, sizeof again, &written) != UPSCHED_BAD_FIELD)
        wrong("from node 5");
    return status;
}

int main(int argc, char **argv)
{
    static uint8_t answer[ROOM];
    upsched_node node = {0};
    if (argc != 3) return 2;
    state = (uint64_t)atoll(argv[1]);
    if (upsched_node_open(&node, 0, 3, NULL, 0) != UPSCHED_OK) return 1;
    for (int i = atoi(argv[2]); i > 0; i--) {
        uint8_t bytes[512] = {0};
        upsched_node_write write;
        size_t len = some_letter(bytes), letters = 0, told = 0;
        memset(&write, 0, sizeof write);
        if (random_number() % 3 == 0) spoil(bytes, &len);
        fprintf(stderr, "letter ");
        print_digits(stderr, bytes, len);
        const int32_t read = read_again(bytes, len);
        const int32_t status = upsched_node_receive(&node, bytes, len, &write, &letters);
        if (read == UPSCHED_OK && status != UPSCHED_OK) wrong("not received");
        if (status == UPSCHED_BAD_FIELD)
            printf("error 5 NoLetter\n");
        else if (status != UPSCHED_OK)
            printf("status %d\n", (int)status);
        else
            printf("sent %zu\n", letters);
        for (size_t k = 0; status == UPSCHED_OK && k < letters; k++) {
            if (upsched_node_letter(&node, k, answer, sizeof answer, &told) != UPSCHED_OK) wrong("no letter");
            printf("letter %u ", answer[2]);
            print_digits(stdout, answer, told);
        }
    }
    upsched_node_close(&node);
    return 0;
}

/* A fuzz target of the codec. What bytes are read as is written again as the same bytes, but for the reserved byte; a
 * status other than OK changes nothing but the count; each minislot is that of the element that covers it; and a modem
 * hears the bytes as it hears an open MAP of them.
 *
 * With libFuzzer: clang -fsanitize=fuzzer -DWITH_LIBFUZZER codec_fuzz.c .. . Without it the program mutates bodies
 * itself.
 * Usage: codec_fuzz [SECONDS] [SEED]. */
#include <upsched.h>

#include <stdio.h>
#include <stdlib.h>
#include <string.h>
#include <time.h>

#define WANT(fact)                                                     \
    do {                                                               \
        if (!(fact)) {                                                 \
            fprintf(stderr, "%s:%d: %s\n", __FILE__, __LINE__, #fact); \
            abort();                                                   \
        }                                                              \
    } while (0)

static void look_up(const uint8_t *bytes, size_t len, const upsched_map_element *elements, size_t count)
{
    for (size_t i = 0; i < count && elements[i].iuc != UPSCHED_IUC_NULL; i++) {
        upsched_map_cell cell = {0, 0};
        if (elements[i].offset == elements[i + 1].offset) continue;
        WANT(upsched_map_cell_at(bytes, len, elements[i].offset, &cell) == UPSCHED_OK);
        WANT(cell.sid == elements[i].sid && cell.iuc == elements[i].iuc);
    }
}

/* Opens a modem of the body's channel, whose SID is that of the first element. */
static void open_modem(upsched_handle *modem, const upsched_map_head *head, uint16_t sid)
{
    uint32_t heard = 9;
    WANT(upsched_modem_open(modem, 1) == UPSCHED_OK);
    WANT(upsched_modem_hear_channel(modem, head->channel, head->ucd, &heard) == UPSCHED_OK);
    WANT(upsched_modem_hear_assigned(modem, 1, head->channel, sid, 0, UINT64_MAX, &heard) == UPSCHED_OK);
    WANT(heard == UPSCHED_TAKEN);
}

/* A modem that hears the bytes, and one that hears them as an open MAP, have the same events. */
static void hear(const uint8_t *bytes, size_t len, const upsched_map_head *head, uint16_t sid)
{
    upsched_handle one = {0}, other = {0}, map = {0};
    uint32_t heard = 9, again = 9;
    upsched_event event = {0, 0, 0, 0, 0, 0, 0}, same = {0, 0, 0, 0, 0, 0, 0};
    const uint64_t near_time = head->start;
    int32_t status = UPSCHED_OK;
    open_modem(&one, head, sid);
    open_modem(&other, head, sid);
    WANT(upsched_map_open(&map, bytes, len) == UPSCHED_OK);
    WANT(upsched_modem_hear_map(&one, bytes, len, near_time, &heard) == UPSCHED_OK);
    WANT(upsched_modem_hear_open_map(&other, &map, near_time, &again) == UPSCHED_OK && again == heard);
    for (uint64_t from = near_time; status == UPSCHED_OK; from = event.last + 1) {
        status = upsched_modem_next(&one, head->channel, from, &event);
        WANT(upsched_modem_next(&other, head->channel, from, &same) == status);
        if (status != UPSCHED_OK) WANT(status == UPSCHED_NONE);
        WANT(same.slot == event.slot && same.kind == event.kind && same.sid == event.sid && same.iuc == event.iuc);
        WANT(same.first == event.first && same.last == event.last);
    }
    upsched_close(&one);
    upsched_close(&other);
    upsched_close(&map);
}

int LLVMFuzzerTestOneInput(const uint8_t *bytes, size_t len)
{
    upsched_handle map = {0};
    upsched_map_head head, before;
    upsched_map_element elements[UPSCHED_ELEMENTS], untouched[UPSCHED_ELEMENTS];
    uint8_t again[UPSCHED_BODY_BYTES];
    size_t count = 999, written = 0;
    memset(&head, 0x5a, sizeof head);
    memset(elements, 0x5a, sizeof elements);
    memset(again, 0x5a, sizeof again);
    before = head;
    memcpy(untouched, elements, sizeof elements);
    const int32_t status = upsched_map_decode(bytes, len, &head, elements, UPSCHED_ELEMENTS, &count);
    WANT(upsched_map_open(&map, bytes, len) == status);
    upsched_close(&map);
    if (status != UPSCHED_OK) {
        WANT(status != UPSCHED_NO_ROOM && status != UPSCHED_NULL);
        WANT(memcmp(&head, &before, sizeof head) == 0);
        WANT(memcmp(elements, untouched, sizeof elements) == 0);
        WANT(count < UPSCHED_ELEMENTS);
        return 0;
    }
    WANT(len == 16 + 4 * count && count == bytes[2]);
    WANT(upsched_map_encode(&head, elements, count, again, sizeof again, &written) == UPSCHED_OK);
    WANT(written == len && memcmp(again, bytes, 3) == 0 && again[3] == 0);
    WANT(memcmp(again + 4, bytes + 4, len - 4) == 0);
    WANT(upsched_map_encode(&head, elements, count, again, len - 1, &written) == UPSCHED_NO_ROOM && written == len);
    WANT(upsched_map_decode(bytes, len, &head, elements, count - 1, &written) == UPSCHED_NO_ROOM && written == count);
    look_up(bytes, len, elements, count);
    hear(bytes, len, &head, elements[0].sid);
    return 0;
}

#ifndef WITH_LIBFUZZER
static uint64_t state;

static uint32_t random_number(void)
{
    state = state * UINT64_C(6364136223846793005) + UINT64_C(1442695040888963407);
    return (uint32_t)(state >> 33);
}

/* A body of some elements, in order and with a Null most of the time. */
static size_t made(uint8_t *bytes)
{
    const uint32_t count = 1 + random_number() % 8;
    uint32_t offset = 0;
    for (size_t i = 0; i < 16; i++) bytes[i] = (uint8_t)random_number();
    bytes[2] = (uint8_t)count;
    for (uint32_t i = 0; i < count; i++) {
        const uint32_t iuc = i + 1 == count ? UPSCHED_IUC_NULL : random_number() % 15;
        const uint32_t word = (random_number() % 0x4000) << 18 | iuc << 14 | offset;
        for (int k = 0; k < 4; k++) bytes[16 + 4 * i + (uint32_t)k] = (uint8_t)(word >> (24 - 8 * k));
        offset += random_number() % 50;
    }
    return 16 + 4 * count;
}

int main(int argc, char **argv)
{
    const double seconds = argc > 1 ? atof(argv[1]) : 1;
    uint64_t tried = 0;
    state = argc > 2 ? (uint64_t)atoll(argv[2]) : 1;
    const clock_t end = clock() + (clock_t)(seconds * CLOCKS_PER_SEC);
    while (clock() < end) {
        for (int i = 0; i < 1000; i++, tried++) {
            uint8_t bytes[64];
            size_t len = made(bytes);
            for (uint32_t k = random_number() % 4; k > 0; k--)
                bytes[random_number() % len] ^= (uint8_t)(1u << random_number() % 8);
            if (random_number() % 8 == 0) len = random_number() % (len + 1);
            LLVMFuzzerTestOneInput(bytes, len);
        }
    }
    printf("%llu bodies\n", (unsigned long long)tried);
    return 0;
}
#endif

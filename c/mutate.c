/* Bodies and commands that are spoilt at random, with what the library says of them, as lines of the program `upsched`.
 *
 * Usage: mutate bodies SEED COUNT: for each a line of its digits, and then what `upsched show` prints of it.
 *        mutate values SEED COUNT: what each command gives, one scheduler for all; the digits go to standard error. */
#include "lines.h"

#include <stdlib.h>
#include <string.h>

static uint64_t state;

static uint32_t random_number(void)
{
    state = state * UINT64_C(6364136223846793005) + UINT64_C(1442695040888963407);
    return (uint32_t)(state >> 33);
}

static void put(uint8_t *bytes, size_t *len, uint64_t number, int width)
{
    for (int k = width; k-- > 0;) bytes[(*len)++] = (uint8_t)(number >> (8 * k));
}

static void print_digits(const uint8_t *bytes, size_t len)
{
    for (size_t i = 0; i < len; i++) printf("%02x", bytes[i]);
    printf("\n");
}

static size_t some_body(uint8_t *bytes)
{
    const uint32_t count = 1 + random_number() % 5;
    uint32_t offset = 0;
    size_t len = 0;
    put(bytes, &len, 0x0107, 2);
    put(bytes, &len, count, 1);
    put(bytes, &len, 0, 1);
    put(bytes, &len, 1000, 4);
    put(bytes, &len, 995, 4);
    put(bytes, &len, 0x02050308, 4);
    for (uint32_t i = 0; i < count; i++) {
        const uint32_t iuc = i + 1 == count ? UPSCHED_IUC_NULL : 1 + random_number() % 11;
        put(bytes, &len, (1 + random_number() % 5) << 18 | iuc << 14 | offset, 4);
        offset += random_number() % 30;
    }
    return len;
}

static const char *name_of(int32_t status)
{
    switch (status) {
    case UPSCHED_MAP_SHORT: return "Short";
    case UPSCHED_MAP_TRAILING: return "Trailing";
    case UPSCHED_MAP_EXPANSION: return "Expansion";
    case UPSCHED_MAP_OUT_OF_ORDER: return "OutOfOrder";
    case UPSCHED_MAP_NO_NULL: return "NoNull";
    default: return "?";
    }
}

static void spoil(uint8_t *bytes, size_t *len)
{
    for (uint32_t k = random_number() % 3; k > 0; k--)
        bytes[random_number() % *len] ^= (uint8_t)(1u << random_number() % 8);
    if (random_number() % 6 == 0) *len = random_number() % (*len + 1);
    if (random_number() % 12 == 0) bytes[(*len)++] = 0;
}

static void bodies(unsigned count)
{
    for (unsigned i = 0; i < count; i++) {
        uint8_t bytes[64] = {0};
        upsched_map_head head = {0, 0, 0, 0, 0, 0, 0, 0};
        upsched_map_element elements[UPSCHED_ELEMENTS] = {{0, 0, 0}};
        size_t len = some_body(bytes), found = 0;
        spoil(bytes, &len);
        print_digits(bytes, len);
        const int32_t status = upsched_map_decode(bytes, len, &head, elements, UPSCHED_ELEMENTS, &found);
        if (status == UPSCHED_OK)
            print_body(&head, elements, found);
        else if (status == UPSCHED_MAP_EXPANSION || status == UPSCHED_MAP_OUT_OF_ORDER)
            printf("upsched: body %d %s %zu\n", (int)status - 100, name_of(status), found);
        else
            printf("upsched: body %d %s\n", (int)status - 100, name_of(status));
    }
}

/* The bytes of some command on channel 1. */
static size_t some_command(uint8_t *bytes, unsigned i)
{
    size_t len = 0;
    const uint32_t sid = 1 + random_number() % 6;
    switch (i == 0 ? 0 : 1 + random_number() % 8) {
    case 0:
        put(bytes, &len, UINT64_C(0x010107), 3);
        put(bytes, &len, 16, 2);
        put(bytes, &len, 0x02050308, 4);
        put(bytes, &len, 1000, 8);
        break;
    case 1:
        put(bytes, &len, 0x0201, 2);
        put(bytes, &len, 50 + random_number() % 4, 4);
        put(bytes, &len, random_number() % 3, 4);
        put(bytes, &len, random_number() % 8, 2);
        break;
    case 2:
        put(bytes, &len, 0x0701, 2);
        put(bytes, &len, 60 + random_number() % 4, 4);
        put(bytes, &len, 1, 4);
        put(bytes, &len, 1000 + random_number() % 2000, 8);
        put(bytes, &len, UINT64_C(0x010304) >> 8 * (random_number() % 3) & 0xff, 1);
        put(bytes, &len, 4, 2);
        put(bytes, &len, 40, 4);
        put(bytes, &len, 20, 4);
        put(bytes, &len, 1000 + random_number() % 1000, 8);
        break;
    case 3:
        put(bytes, &len, 0x0301, 2);
        put(bytes, &len, sid, 2);
        break;
    case 4:
    case 5:
        put(bytes, &len, 0x0401, 2);
        put(bytes, &len, sid, 2);
        put(bytes, &len, 1 + random_number() % 40, 2);
        put(bytes, &len, 990 + 20 * i + random_number() % 40, 8);
        break;
    case 6:
        put(bytes, &len, 0x0901, 2);
        put(bytes, &len, 1 + random_number() % 200, 2);
        put(bytes, &len, random_number() % 4000, 8);
        put(bytes, &len, 980 + 20 * i, 8);
        put(bytes, &len, random_number() % 100, 2);
        put(bytes, &len, random_number() % 2 ? 0xffffffff : 0x0205ffff, 4);
        break;
    case 7:
        put(bytes, &len, 0x0a01, 2);
        put(bytes, &len, 7 + random_number() % 4, 1);
        put(bytes, &len, random_number() % 2, 1);
        put(bytes, &len, 1 + random_number() % 16, 2);
        put(bytes, &len, 0x02050308, 4);
        break;
    default:
        put(bytes, &len, 0x0501, 2);
        put(bytes, &len, 1 + random_number() % 200, 2);
        put(bytes, &len, random_number() % 4000, 8);
        put(bytes, &len, 980 + 20 * i, 8);
    }
    return len;
}

static int values(unsigned count)
{
    upsched_handle machine = {0};
    static uint8_t body[UPSCHED_BODY_BYTES];
    if (upsched_machine_open(&machine) != UPSCHED_OK) return 1;
    for (unsigned i = 0; i < count; i++) {
        uint8_t bytes[64] = {0};
        upsched_output o;
        size_t len = some_command(bytes, i);
        memset(&o, 0, sizeof o);
        if (i != 0 && random_number() % 4 == 0) spoil(bytes, &len);
        const int32_t status = upsched_machine_apply_bytes(&machine, bytes, len, &o, body);
        for (size_t k = 0; k < len; k++) fprintf(stderr, "%02x", bytes[k]);
        fprintf(stderr, "\n");
        printf("place %u ", i + 1);
        if (status == UPSCHED_BAD_FIELD)
            printf("nothing\n");
        else if (status == UPSCHED_OK)
            print_text(&o, body);
        else
            printf("status %d\n", (int)status);
    }
    upsched_close(&machine);
    return 0;
}

int main(int argc, char **argv)
{
    if (argc != 4) return 2;
    state = (uint64_t)atoll(argv[2]);
    if (strcmp(argv[1], "bodies") == 0) bodies((unsigned)atoi(argv[3]));
    else return values((unsigned)atoi(argv[3]));
    return 0;
}

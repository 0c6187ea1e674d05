/* Takes the letters of a node's lines to those they are to: what bench/process_carrier.py does with each chunk. */
#include <stddef.h>
#include <string.h>

#define MEMBERS 3

/* What a chunk of whole lines held: for each node what goes to it and how long that is. */
struct carried {
    char *lines[MEMBERS];
    size_t lengths[MEMBERS];
    int promises[MEMBERS];
    int learns[MEMBERS];
    long long released;
    int full;
    int alarm;
};

static int begins(const char *line, size_t length, const char *head)
{
    size_t wanted = strlen(head);
    return length >= wanted && memcmp(line, head, wanted) == 0;
}

static void put(struct carried *to, int node, const char *bytes, size_t length)
{
    memcpy(to->lines[node] + to->lengths[node], bytes, length);
    to->lengths[node] += length;
}

/* How long the number is that a host's line has before it, as `3/50 `. */
static size_t numbered(const char *line, size_t length)
{
    const char *blank = length && *line >= '0' && *line <= '9' ? memchr(line, ' ', length) : NULL;
    return blank ? (size_t)(blank + 1 - line) : 0;
}

/* A line `letter NODE HEX` goes to that node as `letter HEX`, with the number before it. The first two digits are the
   letter's kind. */
static void take_letter(const char *number, const char *line, size_t length, struct carried *to)
{
    static const char head[] = "letter ";
    const size_t before = sizeof head - 1, hex = before + 2;
    int node = line[before] - '0';
    if (length < hex + 2 || node < 0 || node >= MEMBERS)
        return;
    put(to, node, number, (size_t)(line + before - number));
    put(to, node, line + hex, length - hex);
    put(to, node, "\n", 1);
    to->promises[node] += memcmp(line + hex, "02", 2) == 0;
    to->learns[node] |= memcmp(line + hex, "04", 2) == 0 || memcmp(line + hex, "06", 2) == 0;
}

static long long number(const char *digits, const char *end)
{
    long long value = 0;
    for (; digits < end && *digits >= '0' && *digits <= '9'; digits++)
        value = 10 * value + (*digits - '0');
    return value;
}

/* Whether behind `next ` a host says, as in `3/50 51`, that its epoch is full: it has to release once more to go on. */
static int is_full(const char *digits, const char *end)
{
    const char *slash = memchr(digits, '/', (size_t)(end - digits));
    const char *blank = slash ? memchr(slash, ' ', (size_t)(end - slash)) : NULL;
    return blank && number(blank + 1, end) > number(slash + 1, blank);
}

/* Takes whole lines apart. No list of `to` becomes longer than the text. */
void carry(const char *text, size_t length, struct carried *to)
{
    const char *end = text + length, *line = text;
    while (line < end) {
        const char *stop = memchr(line, '\n', (size_t)(end - line));
        size_t size = (size_t)((stop ? stop : end) - line), before = numbered(line, size);
        const char *words = line + before;
        size -= before;
        if (begins(words, size, "letter "))
            take_letter(line, words, size, to);
        else if (begins(words, size, "place "))
            to->released = number(words + strlen("place "), words + size);
        else if (begins(words, size, "next "))
            to->full = is_full(words + strlen("next "), words + size);
        else if (begins(words, size, "fault ") || begins(words, size, "error "))
            to->alarm = 1;
        line = words + size + 1;
    }
}

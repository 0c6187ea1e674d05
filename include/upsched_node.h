/*
 * upsched_node.h: a node of upsched for C and C++: three or five nodes agree on a log of the scheduler's commands, and
 * each releases the same outputs.
 *
 * The calls are those of the crate upsched_c_node, behind a test for NULL, in the archive libupsched_node.a. The rules
 * at the head of upsched.h on pointers, handles, threads, memory and statuses hold here too, with upsched_node in place
 * of upsched_handle; so do its statuses, and its struct upsched_output.
 *
 * WRITES    A node may never forget what it promised. It has no file of its own: a call of it hands out its one write,
 *           and this is what you owe it:
 *           1. Store each write whose kind isn't UPSCHED_NO_WRITE, behind those before it and so that no crash loses
 *              it, BEFORE you send a letter of the call. If you can't store it, send none of its letters, and close the
 *              node.
 *           2. Open a number again only with ALL writes that its calls ever handed out, in their order. A node that is
 *              opened without them, or twice at once, may vote twice, and nodes then disagree. Where writes were lost,
 *              the number is lost: never open it again.
 *           3. Several calls may share one sync. Copy the letters of each call before the next one, store the writes of
 *              all of them in order, sync once, and only then send the letters and use outputs of a release. What a
 *              crash leaves of the writes has to be a beginning of them.
 *           The struct is bytes alone: store it as it is, on any machine. Stored twice in a row it does no harm.
 * LETTERS   The letters of a call are there until the next call that sends some. Read and send each. Any order will
 *           do, and so will losses and repeats; nodes then wait, or are asked to lead again.
 */
#ifndef UPSCHED_NODE_H
#define UPSCHED_NODE_H

#include "upsched.h"

#ifdef __cplusplus
extern "C" {
#endif

/* Why a node didn't do what it was asked. */
enum {
    UPSCHED_NODE_NOT_LEADING = 501,   /* it doesn't lead */
    UPSCHED_NODE_LOG_FULL = 502,      /* each of the log's 1,000,000 places has a value, or was proposed one */
    UPSCHED_NODE_ROUNDS_SPENT = 503,  /* it has no ballot above those that it knows of */
    UPSCHED_NODE_VALUE_TOO_LONG = 504 /* the value has more than 64 bytes */
};

/* The most bytes of a letter that reports no votes. One that does has 27, and at most 88 for each vote. */
#define UPSCHED_LETTER_BYTES 91

/* A handle: all zero at first, which is closed. */
typedef struct upsched_node {
    void *private_at;
    uint64_t private_kind;
} upsched_node;

enum {
    UPSCHED_NO_WRITE = 0,
    UPSCHED_TRIED = 1,    /* a ballot that the node leads with */
    UPSCHED_PROMISED = 2, /* a ballot below which it votes no more */
    UPSCHED_VOTE = 3,     /* its vote at a place */
    UPSCHED_LEARNED = 4   /* the value of a place */
};

/* A write: its kind, whose it is, and the fields that the kind has, numbers most significant byte first. The others are
 * 0. 83 bytes, without gaps. */
typedef struct upsched_node_write {
    uint8_t kind;
    uint8_t node;
    uint8_t value_len; /* VOTE, LEARNED: 0 to 64 */
    uint8_t ballot[8]; /* TRIED, PROMISED, VOTE */
    uint8_t place[8];  /* VOTE, LEARNED */
    uint8_t value[64]; /* VOTE, LEARNED */
} upsched_node_write;

/* Opens a handle with node id, from 0, of 3 or 5 members, started over the content after these writes: all of them
 * that its calls handed out before, in order, and none for a node that is new. Its role is none, and it releases from
 * the first place on. BAD_FIELD: no such member, or one of the writes is none, or another node's. */
int32_t upsched_c_node_open(upsched_node *node, uint8_t id, uint8_t members, const upsched_node_write *writes,
                            size_t count);
static inline int32_t upsched_node_open(upsched_node *node, uint8_t id, uint8_t members,
                                        const upsched_node_write *writes, size_t count)
{
    const upsched_node_write no_writes[1] = {{0, 0, 0, {0}, {0}, {0}}};
    if (!node || (!writes && count)) return UPSCHED_NULL;
    return upsched_c_node_open(node, id, members, writes ? writes : no_writes, count);
}

/* Closes a handle, and lets go of the node. One that holds no node stays as it is. */
void upsched_c_node_close(upsched_node *node);
static inline void upsched_node_close(upsched_node *node)
{
    if (node) upsched_c_node_close(node);
}

/* Each of the next four hands out its write in *write, and tells in *letters how many letters it sent. Any status but
 * OK leaves both as they were, and the node with the letters of the call before. */

/* Asks the node to lead. Faults: LOG_FULL, ROUNDS_SPENT. */
int32_t upsched_c_node_lead(upsched_node *node, upsched_node_write *write, size_t *letters);
static inline int32_t upsched_node_lead(upsched_node *node, upsched_node_write *write, size_t *letters)
{
    if (!node || !write || !letters) return UPSCHED_NULL;
    return upsched_c_node_lead(node, write, letters);
}

/* Offers a value of at most 64 bytes to a node that leads: a command's bytes (docs/formats.md). Any others do nothing.
 * It makes no write. Faults: NOT_LEADING, VALUE_TOO_LONG, LOG_FULL, in this order. */
int32_t upsched_c_node_offer(upsched_node *node, const uint8_t *value, size_t len, upsched_node_write *write,
                             size_t *letters);
static inline int32_t upsched_node_offer(upsched_node *node, const uint8_t *value, size_t len,
                                         upsched_node_write *write, size_t *letters)
{
    const uint8_t no_value[1] = {0};
    if (!node || !write || !letters || (!value && len)) return UPSCHED_NULL;
    return upsched_c_node_offer(node, value ? value : no_value, len, write, letters);
}

/* A letter comes, by its bytes. One that isn't for this node, or says what no member may say, is passed over.
 * BAD_FIELD: the bytes spell no letter. */
int32_t upsched_c_node_receive(upsched_node *node, const uint8_t *letter, size_t len, upsched_node_write *write,
                               size_t *letters);
static inline int32_t upsched_node_receive(upsched_node *node, const uint8_t *letter, size_t len,
                                           upsched_node_write *write, size_t *letters)
{
    const uint8_t no_letter[1] = {0};
    if (!node || !write || !letters || (!letter && len)) return UPSCHED_NULL;
    return upsched_c_node_receive(node, letter ? letter : no_letter, len, write, letters);
}

/* Tells a node what this one has learned: a letter KNOWN for each of the first 64 learned places from one on, and none
 * where it is no member. No node asks for it: see yourself which one lags, as one does that was down. It makes no
 * write. BAD_FIELD: to is above 4. */
int32_t upsched_c_node_tell(upsched_node *node, uint8_t to, uint64_t place, upsched_node_write *write, size_t *letters);
static inline int32_t upsched_node_tell(upsched_node *node, uint8_t to, uint64_t place, upsched_node_write *write,
                                        size_t *letters)
{
    if (!node || !write || !letters) return UPSCHED_NULL;
    return upsched_c_node_tell(node, to, place, write, letters);
}

/* A letter of the last call that was OK, counted from 0: its bytes, of which the second is the sender and the third is
 * the receiver, and in *len how many they are. NONE: there are fewer letters. NO_ROOM: *len is the room wanted. Then comes
 * want of memory. */
int32_t upsched_c_node_letter(upsched_node *node, size_t i, uint8_t *letter, size_t room, size_t *len);
static inline int32_t upsched_node_letter(upsched_node *node, size_t i, uint8_t *letter, size_t room, size_t *len)
{
    uint8_t no_room[1] = {0};
    if (!node || !len || (!letter && room)) return UPSCHED_NULL;
    return upsched_c_node_letter(node, i, letter ? letter : no_room, room, len);
}

/* The value that the node has learned at a place, and in *len how many bytes it has, at most 64. NONE: it has learned
 * none there. NO_ROOM: *len is the room wanted. */
int32_t upsched_c_node_learned(upsched_node *node, uint64_t place, uint8_t *value, size_t room, size_t *len);
static inline int32_t upsched_node_learned(upsched_node *node, uint64_t place, uint8_t *value, size_t room,
                                           size_t *len)
{
    uint8_t no_room[1] = {0};
    if (!node || !len || (!value && room)) return UPSCHED_NULL;
    return upsched_c_node_learned(node, place, value ? value : no_room, room, len);
}

/* Releases the outputs of the values that were learned without a gap since the last release, but for MAPs that end at a
 * minislot or before. *outputs is how many they are; they are there until the next release. It makes no write, and takes
 * no memory where nothing was learned without a gap since the last release. */
int32_t upsched_c_node_release(upsched_node *node, uint64_t now, size_t *outputs);
static inline int32_t upsched_node_release(upsched_node *node, uint64_t now, size_t *outputs)
{
    if (!node || !outputs) return UPSCHED_NULL;
    return upsched_c_node_release(node, now, outputs);
}

/* An output of the last release, counted from 0, with its place in the log; body has room for UPSCHED_BODY_BYTES, of
 * which a MAP takes the first output->body_len. NONE: there are fewer outputs. NO_ROOM: a body is longer than that. */
int32_t upsched_c_node_output(upsched_node *node, size_t i, uint64_t *place, upsched_output *output, uint8_t *body);
static inline int32_t upsched_node_output(upsched_node *node, size_t i, uint64_t *place, upsched_output *output,
                                          uint8_t *body)
{
    if (!node || !place || !output || !body) return UPSCHED_NULL;
    return upsched_c_node_output(node, i, place, output, body);
}

/* ---- Letters as fields ---- */

/* What a letter says. */
enum {
    UPSCHED_PREPARE = 1, /* asks for a promise of the ballot, for all places from one on */
    UPSCHED_PROMISE = 2, /* takes part in no lower ballot, and reports votes from the place on */
    UPSCHED_ACCEPT = 3,  /* asks for a vote */
    UPSCHED_VOTED = 4,   /* has voted */
    UPSCHED_HIGHER = 5,  /* has promised this ballot */
    UPSCHED_KNOWN = 6    /* has learned the value of the place */
};

/* A letter without the votes that a PROMISE reports: its kind, and the fields that the kind has. The others are 0. */
typedef struct upsched_letter {
    uint64_t ballot; /* all but KNOWN: round * 8 + node */
    uint64_t place;  /* all but HIGHER */
    uint8_t kind;
    uint8_t from, to;  /* nodes, 0 to 4 */
    uint8_t value_len; /* ACCEPT, VOTED, KNOWN: 0 to 64 */
    uint8_t value[64]; /* likewise */
} upsched_letter;

/* A vote that a PROMISE reports. */
typedef struct upsched_vote {
    uint64_t place;
    uint64_t ballot;
    uint8_t value_len; /* 0 to 64 */
    uint8_t value[64];
} upsched_vote;

/* Reads a letter's bytes. OK: *letter, and the first *count of the votes. NO_ROOM: *count is how many votes it reports.
 * BAD_FIELD: the bytes spell no letter, or one of its values has more than 64 bytes; no node heeds such a letter. */
int32_t upsched_c_letter_decode(const uint8_t *bytes, size_t len, upsched_letter *letter, upsched_vote *votes,
                                size_t room, size_t *count);
static inline int32_t upsched_letter_decode(const uint8_t *bytes, size_t len, upsched_letter *letter,
                                            upsched_vote *votes, size_t room, size_t *count)
{
    const uint8_t no_bytes[1] = {0};
    upsched_vote no_votes[1] = {{0, 0, 0, {0}}};
    if (!letter || !count || (!bytes && len) || (!votes && room)) return UPSCHED_NULL;
    return upsched_c_letter_decode(bytes ? bytes : no_bytes, len, letter, votes ? votes : no_votes, room, count);
}

/* Writes a letter. OK: the first *written of the bytes. BAD_FIELD: a field holds what it can't, a field that the kind
 * hasn't is not 0, or there are votes and it is no PROMISE. Then comes NO_ROOM: *written is the room wanted. Then comes
 * want of memory. A node heeds a letter only where places, ballots and votes are in order, and from its member. */
int32_t upsched_c_letter_encode(const upsched_letter *letter, const upsched_vote *votes, size_t count, uint8_t *bytes,
                                size_t room, size_t *written);
static inline int32_t upsched_letter_encode(const upsched_letter *letter, const upsched_vote *votes, size_t count,
                                            uint8_t *bytes, size_t room, size_t *written)
{
    const upsched_vote no_votes[1] = {{0, 0, 0, {0}}};
    uint8_t no_bytes[1] = {0};
    if (!letter || !written || (!votes && count) || (!bytes && room)) return UPSCHED_NULL;
    return upsched_c_letter_encode(letter, votes ? votes : no_votes, count, bytes ? bytes : no_bytes, room, written);
}

/* ---- Is this header the archive's? ---- */

/* A struct of each kind. */
typedef struct upsched_node_samples_t {
    upsched_node_write write;
    upsched_letter letter;
    upsched_vote votes[2];
} upsched_node_samples_t;

/* The version number of upsched.h (0 at NULL), and each struct with its fields numbered from 1 in their order, an array
 * with its number in each byte. A client that compares them sees whether its header and the archive agree. */
uint32_t upsched_c_node_samples(upsched_node_samples_t *samples);
static inline uint32_t upsched_node_samples(upsched_node_samples_t *samples)
{
    return samples ? upsched_c_node_samples(samples) : 0;
}

#ifdef __cplusplus
}
#endif
#endif

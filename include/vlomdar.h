/*
 * vlomdar.h: which frames the dome has that home lacks, and the other way round, from one short message.
 *
 * The dome calls vlomdar_sketch on its list and sends the message. Home calls vlomdar_reconcile on the message and its own list, and
 * gets two lists: theirs, the keys that the dome has and home lacks, and ours, the keys that home has and the dome lacks.
 *
 * Arguments
 *   A buffer is two arguments: a pointer, then its length in bytes. What is only read comes first and is const; what is written comes
 *   after it. Where a refusal has a buffer's position as its place, buffers are counted from 0 in the order of the arguments.
 *
 * Keys and lists
 *   A key is a number from 0 to VLOMDAR_KEY_LIMIT. In a buffer it takes VLOMDAR_KEY_BYTES bytes, the lowest first. A list is keys one
 *   after the other, strictly ascending, at most VLOMDAR_LIST_LIMIT of them; the empty list is legal. vlomdar_put_key and
 *   vlomdar_get_key write and read a key on any machine.
 *
 * What a call returns
 *   One number, which the functions below take apart: vlomdar_number is 0 on success and otherwise the refusal (enum vlomdar_refusal);
 *   vlomdar_place says where; vlomdar_length, or vlomdar_theirs and vlomdar_ours, say how much was written. On a refusal those are 0
 *   and no byte of any buffer has changed.
 *
 * Never pass
 *   - a null pointer, not even with the length 0: pass the address of any byte;
 *   - a length beyond the memory that the pointer leads to;
 *   - a buffer that is written and shares a byte with another buffer of the call. Two buffers that are only read may overlap.
 *   The calls cannot detect these. Anything else may be passed: every other mistake is answered by a refusal.
 *
 * Threads, memory, time
 *   The calls keep nothing between calls, allocate nothing and wait for nothing, so any number of threads may call them at once.
 *   Stack: VLOMDAR_SKETCH_STACK and VLOMDAR_RECONCILE_STACK bytes are enough for a call, its own frame included.
 *
 * Example: home asks which keys it lacks. `message` holds the dome's message and `home` home's list, both with their lengths.
 *
 *     uint8_t theirs[VLOMDAR_MOST_SAMPLES * VLOMDAR_KEY_BYTES];
 *     uint8_t ours[VLOMDAR_MOST_SAMPLES * VLOMDAR_KEY_BYTES];
 *     uint64_t r = vlomdar_reconcile(message, message_length, home, home_length, theirs, sizeof theirs, ours, sizeof ours);
 *     if (vlomdar_number(r) != VLOMDAR_DONE)
 *         printf("refused %u at %u\n", vlomdar_number(r), vlomdar_place(r));
 *     else
 *         for (size_t i = 0; i < vlomdar_theirs(r); i++)
 *             printf("fetch %u\n", (unsigned)vlomdar_get_key(theirs, i));
 *
 * Link with libvlomdar.a alone (pkg-config --cflags --libs vlomdar). C99 or C++11, x86-64 Linux. docs/C-API.md has more.
 */
#ifndef VLOMDAR_H
#define VLOMDAR_H

#include <stddef.h>
#include <stdint.h>

#ifdef __cplusplus
extern "C" {
#endif

#define VLOMDAR_KEY_LIMIT 65472u       /* the largest key */
#define VLOMDAR_KEY_BYTES 4u           /* bytes that a key takes in a buffer */
#define VLOMDAR_LIST_LIMIT 16384u      /* the most keys of a list */
#define VLOMDAR_MOST_SAMPLES 64u       /* samples of the largest plan: a buffer for so many keys is long enough for any plan */
#define VLOMDAR_LONGEST_MESSAGE 139u   /* bytes of the largest plan's message */
#define VLOMDAR_USUAL_PLAN 255u        /* asks for the usual plan, which is plan 8 */
#define VLOMDAR_SKETCH_STACK 212992u   /* bytes of stack that are enough for vlomdar_sketch */
#define VLOMDAR_RECONCILE_STACK 262144u /* and for vlomdar_reconcile */

/* What vlomdar_number gives. The place is 0 unless the line says otherwise. */
enum vlomdar_refusal {
    VLOMDAR_DONE = 0,             /* success */
    VLOMDAR_UNKNOWN_PLAN = 1,     /* plan above 15 and not 255 */
    VLOMDAR_LONG_LIST = 2,        /* list longer than 16,384 keys */
    VLOMDAR_LARGE_KEY = 3,        /* key above 65,472; place: its index in the list, in keys */
    VLOMDAR_UNORDERED_KEY = 4,    /* key not above the one before it; place: its index in the list, in keys */
    VLOMDAR_SHORT_BUFFER = 5,     /* a list buffer's length is no multiple of 4, or a buffer is too short; place: see each call */
    VLOMDAR_MALFORMED_SKETCH = 6, /* given by neither call: what they work on is well-formed by then */
    VLOMDAR_WRONG_LENGTH = 7,     /* message empty, or not of its plan's length */
    VLOMDAR_UNKNOWN_VERSION = 8,  /* message of a version other than 1 */
    VLOMDAR_LARGE_SIZE = 9,       /* message that says a list of more than 16,384 keys */
    VLOMDAR_BAD_VALUE = 10,       /* message with a value of 0 or above 65,536; place: the sample, from 0 */
    VLOMDAR_PADDING_SET = 11,     /* message with a bit set behind its last value */
    VLOMDAR_LARGE_GAP = 12,       /* the two lists' lengths differ by more than the plan's samples */
    VLOMDAR_NO_DIFFERENCE = 13    /* no two lists of together at most as many keys as the plan has samples explain the message */
};

/*
 * List to message: makes the sketch of a list under a plan and writes it as a message.
 *
 * Returns: number and place; on success vlomdar_length is the number of bytes written, which is vlomdar_message_length(plan).
 *   The refusals, the first that applies: 5 at 0 where list_length is no multiple of 4; 1; 2; then at the first bad key 3, else 4, at
 *   its index; 5 at 0 where the message buffer is shorter than the message. (The two at 5: look at list_length % 4.)
 * In:   plan      the plan's code, 0 to 15, or VLOMDAR_USUAL_PLAN. A higher plan finds larger differences and has a longer message.
 *       list      the list, list_length bytes.
 * Out:  message   on success the message in the first bytes; the bytes behind it stay as they were. On a refusal all of it stays.
 */
uint64_t vlomdar_sketch(uint32_t plan, const uint8_t *list, size_t list_length, uint8_t *message, size_t message_length);

/*
 * Message with home list to two lists: exactly what each side lacks, or a refusal.
 *
 * Where the two lists differ in no more keys than the plan has samples, both answers are right and complete. Where they differ in more,
 * the call refuses by 12 or 13, or gives another pair of lists that explains the message as well: choose a plan with room to spare.
 *
 * Returns: number and place; on success vlomdar_theirs and vlomdar_ours are the numbers of keys written.
 *   The refusals, the first that applies: 5 at 1, 2 or 3 where the length of home, theirs or ours is no multiple of 4; of the message 7,
 *   8, 7, 9, 10 at the first bad sample, 11; of home 2, then at the first bad key 3, else 4, at its index; 5 at 0 where theirs, and
 *   at 1 where ours, has room for fewer keys than the plan has samples; 12; 13. (The two at 5, 1: look at home_length % 4.)
 * In:   message   the dome's message, message_length bytes: exactly the message, as vlomdar_length gave it.
 *       home      home's list, home_length bytes.
 * Out:  theirs    on success the keys that the dome has and home lacks, ascending, in the first bytes; the bytes behind them stay as
 *                 they were. On a refusal all of it stays.
 *       ours      the same of the keys that home has and the dome lacks.
 */
uint64_t vlomdar_reconcile(const uint8_t *message, size_t message_length, const uint8_t *home, size_t home_length,
                           uint8_t *theirs, size_t theirs_length, uint8_t *ours, size_t ours_length);

/* The parts of what a call returned: number in bits 0 to 7, place in bits 8 to 31, length or count of theirs in bits 32 to 47, count of
 * ours in bits 48 to 63. */
static inline unsigned vlomdar_number(uint64_t returned) { return (unsigned)(returned & 0xff); }
static inline unsigned vlomdar_place(uint64_t returned) { return (unsigned)(returned >> 8 & 0xffffff); }
static inline size_t vlomdar_length(uint64_t returned) { return (size_t)(returned >> 32 & 0xffff); }
static inline size_t vlomdar_theirs(uint64_t returned) { return (size_t)(returned >> 32 & 0xffff); }
static inline size_t vlomdar_ours(uint64_t returned) { return (size_t)(returned >> 48); }

/* How many samples a plan has, 0 where there is no such plan: so many keys both differences together may have, and so many keys of room
 * vlomdar_reconcile asks of each of its buffers. */
static inline size_t vlomdar_samples(uint32_t plan)
{
    static const uint8_t samples[16] = {1, 2, 3, 4, 6, 8, 10, 12, 16, 20, 24, 28, 32, 40, 48, 64};
    return plan < 16 ? samples[plan] : plan == VLOMDAR_USUAL_PLAN ? samples[8] : 0;
}

/* How many bytes a plan's message has, 0 where there is no such plan.
 *   plan      0   1   2   3   4   5   6   7   8   9  10  11  12  13  14  15
 *   samples   1   2   3   4   6   8  10  12  16  20  24  28  32  40  48  64
 *   bytes     5   8  10  12  16  20  25  29  37  46  54  63  71  88 105 139 */
static inline size_t vlomdar_message_length(uint32_t plan)
{
    size_t samples = vlomdar_samples(plan);
    return samples == 0 ? 0 : (23 + 17 * samples + 7) / 8;
}

/* Key number `index`, from 0, of a list buffer: written, and read. */
static inline void vlomdar_put_key(uint8_t *list, size_t index, uint32_t key)
{
    for (unsigned i = 0; i < VLOMDAR_KEY_BYTES; i++)
        list[VLOMDAR_KEY_BYTES * index + i] = (uint8_t)(key >> 8 * i & 0xff);
}

static inline uint32_t vlomdar_get_key(const uint8_t *list, size_t index)
{
    uint32_t key = 0;
    for (unsigned i = VLOMDAR_KEY_BYTES; 0 < i; i--)
        key = key << 8 | list[VLOMDAR_KEY_BYTES * index + i - 1];
    return key;
}

#ifdef __cplusplus
}
#endif

#endif

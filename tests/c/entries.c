/*
 * The C entries on the cases of document 01 and on each refusal that they give, with guard bytes around every buffer that is written:
 * a refusal changes no byte, a success only the first ones. Prints what failed, and at the end how many checks there were.
 */
#define _POSIX_C_SOURCE 200809L
#include <pthread.h>
#include <stdio.h>
#include <stdlib.h>
#include <string.h>
#include <vlomdar.h>

#define GUARD 16
#define FILL 0xa5
#define ROOM 1024

static unsigned checks, failures;

static void check(int ok, const char *what)
{
    checks++;
    if (!ok) {
        failures++;
        printf("FAILED: %s\n", what);
    }
}

/* A buffer between guards, all of it filled with one byte. */
struct guarded {
    uint8_t bytes[GUARD + ROOM + GUARD];
};

static uint8_t *fresh(struct guarded *g)
{
    memset(g->bytes, FILL, sizeof g->bytes);
    return g->bytes + GUARD;
}

/* Whether only the first n bytes may differ from what they were. */
static int kept(const struct guarded *g, size_t n)
{
    for (size_t i = 0; i < sizeof g->bytes; i++)
        if ((i < GUARD || GUARD + n <= i) && g->bytes[i] != FILL)
            return 0;
    return 1;
}

static uint64_t packed(unsigned number, unsigned place, unsigned first, unsigned second)
{
    return (uint64_t)number | (uint64_t)place << 8 | (uint64_t)first << 32 | (uint64_t)second << 48;
}

/* Keys as a list buffer of its own, at least one byte long. */
static uint8_t *list_of(const uint32_t *keys, size_t count)
{
    uint8_t *list = (uint8_t *)malloc(4 * count + 1);
    for (size_t i = 0; i < count; i++)
        vlomdar_put_key(list, i, keys[i]);
    return list;
}

/* vlomdar_sketch on some bytes: the number that it is to return, and the message that it is to leave. */
static void sketches_bytes(const char *what, uint32_t plan, const uint8_t *list, size_t length, size_t room, uint64_t due, const uint8_t *message)
{
    struct guarded g;
    uint8_t *out = fresh(&g);
    uint64_t r = vlomdar_sketch(plan, list, length, out, room);
    check(r == due, what);
    check(kept(&g, vlomdar_length(due)), what);
    check(message == NULL || memcmp(out, message, vlomdar_length(due)) == 0, what);
}

static void sketches(const char *what, uint32_t plan, const uint32_t *keys, size_t count, size_t room, uint64_t due, const uint8_t *message)
{
    uint8_t *list = list_of(keys, count);
    sketches_bytes(what, plan, list, 4 * count, room, due, message);
    free(list);
}

/* vlomdar_reconcile on some bytes: the number that it is to return, and the keys that it is to leave. */
static void reconciles_bytes(const char *what, const uint8_t *message, size_t length, const uint8_t *home, size_t home_length, size_t theirs_length, size_t ours_length, uint64_t due, const uint32_t *theirs, const uint32_t *ours)
{
    struct guarded gt, go;
    uint8_t *t = fresh(&gt), *o = fresh(&go);
    uint64_t r = vlomdar_reconcile(message, length, home, home_length, t, theirs_length, o, ours_length);
    check(r == due, what);
    check(kept(&gt, 4 * vlomdar_theirs(due)) && kept(&go, 4 * vlomdar_ours(due)), what);
    if (vlomdar_number(due) == VLOMDAR_DONE) {
        for (size_t i = 0; i < vlomdar_theirs(due); i++)
            check(vlomdar_get_key(t, i) == theirs[i], what);
        for (size_t i = 0; i < vlomdar_ours(due); i++)
            check(vlomdar_get_key(o, i) == ours[i], what);
    }
}

static void reconciles(const char *what, const uint8_t *message, size_t length, const uint32_t *keys, size_t count, size_t theirs_length, size_t ours_length, uint64_t due, const uint32_t *theirs, const uint32_t *ours)
{
    uint8_t *home = list_of(keys, count);
    reconciles_bytes(what, message, length, home, 4 * count, theirs_length, ours_length, due, theirs, ours);
    free(home);
}

/* A message with any fields, written bit by bit. */
static size_t message_of(uint8_t *message, unsigned version, unsigned plan, unsigned size, const uint32_t *values, size_t m)
{
    size_t bits = 0, length = (23 + 17 * m + 7) / 8;
    memset(message, 0, length);
    for (size_t field = 0; field < 3 + m; field++) {
        unsigned width = field < 2 ? 4 : field == 2 ? 15 : 17;
        uint32_t n = field == 0 ? version : field == 1 ? plan : field == 2 ? size : values[field - 3];
        for (unsigned i = width; 0 < i; i--, bits++)
            message[bits / 8] = (uint8_t)(message[bits / 8] | (n >> (i - 1) & 1) << (7 - bits % 8));
    }
    return length;
}

/* Home's list, and a sketch's size and values: what comes of them. */
static void case_of(const char *what, const uint32_t *home, size_t count, unsigned plan, unsigned size, const uint32_t *values, uint64_t due, const uint32_t *theirs, const uint32_t *ours)
{
    uint8_t message[VLOMDAR_LONGEST_MESSAGE];
    size_t m = vlomdar_samples(plan);
    size_t length = message_of(message, 1, plan, size, values, m);
    reconciles(what, message, length, home, count, 4 * m, 4 * m, due, theirs, ours);
    reconciles(what, message, length, home, count, ROOM, ROOM, due, theirs, ours);
}

/* Document 01, "Values to hold against it". */
static void cases(void)
{
    static const uint32_t none[1] = {0}, zero[] = {0}, one[] = {1}, three[] = {3}, last[] = {65472}, beyond[] = {65473};
    static const uint32_t one_two[] = {1, 2}, one_three[] = {1, 3}, one_two_three[] = {1, 2, 3}, odd[] = {255, 511};
    static const uint8_t m1[] = {0x10, 0, 0, 0, 1}, m2[] = {0x10, 0, 3, 0, 0}, m3[] = {0x10, 0, 4, 0, 6};
    static const uint32_t v6[] = {8, 15, 24, 35}, v7[] = {65533, 65532}, v10[] = {4, 9}, v15[] = {1, 2};
    static const uint32_t n1[] = {1}, n2[] = {2}, n4[] = {4}, n63[] = {63}, n64[] = {64}, n65533[] = {65533}, n65535[] = {65535};
    uint8_t message[VLOMDAR_LONGEST_MESSAGE], due[VLOMDAR_LONGEST_MESSAGE];
    uint8_t *list;

    sketches("case 1", 0, none, 0, 5, packed(0, 0, 5, 0), m1);
    sketches("case 2", 0, zero, 1, 5, packed(0, 0, 5, 0), m2);
    sketches("case 3", 0, one_two, 2, 5, packed(0, 0, 5, 0), m3);
    message_of(due, 1, 0, 1, n64, 1);
    sketches("case 4, point 1", 0, last, 1, 5, packed(0, 0, 5, 0), due);
    list = list_of(last, 1);
    check(vlomdar_sketch(15, list, 4, message, sizeof message) == packed(0, 0, 139, 0), "case 4, plan 15");
    check((message[136] & 1) == 0 && message[137] == 0 && message[138] == 2, "case 4, point 64"); /* 17 bits that say 1, and a bit of padding */
    free(list);
    sketches("case 4, refused", 0, beyond, 1, 5, packed(3, 0, 0, 0), NULL);
    message_of(due, 1, 0, 2, n65535, 1);
    sketches("case 5", 0, odd, 2, 5, packed(0, 0, 5, 0), due);
    message_of(due, 1, 3, 2, v6, 4);
    sketches("case 6", 3, one_three, 2, 12, packed(0, 0, 12, 0), due);
    case_of("case 7", one, 1, 1, 1, v7, packed(0, 0, 1, 1), three, one);
    case_of("case 8", one, 1, 0, 1, n65533, packed(13, 0, 0, 0), none, none);
    case_of("case 9, a key", none, 0, 0, 1, n64, packed(0, 0, 1, 0), last, none);
    case_of("case 9, no key", none, 0, 0, 1, n63, packed(13, 0, 0, 0), none, none);
    case_of("case 10", none, 0, 1, 2, v10, packed(13, 0, 0, 0), none, none);
    case_of("case 11", one, 1, 0, 2, n4, packed(13, 0, 0, 0), none, none);
    case_of("case 12, ours", one, 1, 0, 0, n1, packed(0, 0, 0, 1), none, one);
    case_of("case 12, refused", one, 1, 0, 0, n2, packed(13, 0, 0, 0), none, none);
    case_of("case 13, below", none, 0, 0, 2, n1, packed(12, 0, 0, 0), none, none);
    message_of(message, 1, 0, 2, n1, 1);
    list = list_of(one_two_three, 3);
    check(vlomdar_number(vlomdar_reconcile(message, 5, list, 12, due, 4, due + 4, 4)) != VLOMDAR_LARGE_GAP, "case 13, passes");
    free(list);
    case_of("case 15", none, 0, 1, 0, v15, packed(13, 0, 0, 0), none, none);
}

static void sketch_refusals(void)
{
    static const uint32_t bad[][3] = {{5, 70000, 3}, {5, 4, 70000}, {70000, 70000, 1}, {1, 2, 2}, {1, 2, 65539}};
    static const unsigned number[] = {3, 4, 3, 4, 3}, place[] = {1, 1, 0, 2, 2};
    static const uint32_t good[] = {1, 2, 3};
    uint8_t *many = (uint8_t *)calloc(4, 200000), *list = list_of(good, 3);

    for (unsigned i = 0; i < 5; i++)
        sketches("first bad key", 8, bad[i], 3, ROOM, packed(number[i], place[i], 0, 0), NULL);
    for (size_t length = 1; length < 12; length++)
        if (length % 4 != 0) {
            sketches_bytes("uneven list", 8, list, length, ROOM, packed(5, 0, 0, 0), NULL);
            sketches_bytes("uneven list before plan", 16, list, length, 0, packed(5, 0, 0, 0), NULL);
        }
    sketches_bytes("unknown plan", 16, list, 12, ROOM, packed(1, 0, 0, 0), NULL);
    sketches_bytes("unknown plan", 254, list, 12, ROOM, packed(1, 0, 0, 0), NULL);
    sketches_bytes("unknown plan", 256, list, 12, ROOM, packed(1, 0, 0, 0), NULL);
    sketches_bytes("plan 271 is not 15", 271, list, 12, ROOM, packed(1, 0, 0, 0), NULL);
    sketches_bytes("unknown plan before long list", 0xffffffff, many, 4 * 16385, ROOM, packed(1, 0, 0, 0), NULL);
    sketches_bytes("long list before its keys", 0, many, 4 * 16385, ROOM, packed(2, 0, 0, 0), NULL);
    sketches_bytes("long list before its keys", 0, many, 4 * 16386, ROOM, packed(2, 0, 0, 0), NULL);
    sketches_bytes("long list before its keys", 0, many, 4 * 200000, ROOM, packed(2, 0, 0, 0), NULL);
    sketches_bytes("longest list", 0, many, 4 * 16384, ROOM, packed(4, 1, 0, 0), NULL);
    for (uint32_t i = 0; i < 16384; i++)
        vlomdar_put_key(many, i, i);
    sketches_bytes("longest list", 15, many, 4 * 16384, ROOM, packed(0, 0, 139, 0), NULL);
    vlomdar_put_key(many, 16383, 16382);
    sketches_bytes("last of the longest list", 15, many, 4 * 16384, ROOM, packed(4, 16383, 0, 0), NULL);
    for (uint32_t plan = 0; plan < 16; plan++) {
        size_t length = vlomdar_message_length(plan);
        sketches_bytes("exact room", plan, list, 12, length, packed(0, 0, (unsigned)length, 0), NULL);
        sketches_bytes("a byte of room short", plan, list, 12, length - 1, packed(5, 0, 0, 0), NULL);
        sketches_bytes("no room", plan, list, 12, 0, packed(5, 0, 0, 0), NULL);
    }
    sketches_bytes("usual plan", VLOMDAR_USUAL_PLAN, list, 12, 37, packed(0, 0, 37, 0), NULL);
    free(list);
    free(many);
}

static void reconcile_refusals(void)
{
    static const uint32_t keys[] = {1, 2, 3}, one_three[] = {1, 3}, none[1] = {0}, five[1] = {5}, bad[3] = {5, 70000, 3}, unordered[3] = {1, 1, 70000};
    static const uint32_t values[4] = {8, 15, 24, 35}, zero_value[4] = {8, 15, 0, 35}, large_value[4] = {8, 65537, 0, 35};
    uint8_t message[VLOMDAR_LONGEST_MESSAGE], *home = list_of(keys, 3), *many = (uint8_t *)calloc(4, 20000);
    size_t length = message_of(message, 1, 3, 2, values, 4);

    for (size_t n = 0; n < 12; n++)
        for (size_t t = 12; t < 20; t++)
            for (size_t o = 12; o < 20; o++) {
                unsigned place = n % 4 != 0 ? 1 : t % 4 != 0 ? 2 : 3;
                if (n % 4 != 0 || t % 4 != 0 || o % 4 != 0) {
                    reconciles_bytes("uneven list", message, length, home, n, t, o, packed(5, place, 0, 0), none, none);
                    reconciles_bytes("uneven list before message", message, 0, home, n, t, o, packed(5, place, 0, 0), none, none);
                }
            }
    reconciles_bytes("empty message", message, 0, home, 12, 16, 16, packed(7, 0, 0, 0), none, none);
    reconciles_bytes("short message", message, length - 1, home, 12, 16, 16, packed(7, 0, 0, 0), none, none);
    reconciles_bytes("long message", message, length + 1, home, 12, 16, 16, packed(7, 0, 0, 0), none, none);
    message_of(message, 2, 3, 2, values, 4);
    reconciles_bytes("version before length", message, 1, home, 12, 16, 16, packed(8, 0, 0, 0), none, none);
    message_of(message, 1, 3, 16385, zero_value, 4);
    reconciles_bytes("size", message, length, home, 12, 16, 16, packed(9, 0, 0, 0), none, none);
    message_of(message, 1, 3, 2, zero_value, 4);
    reconciles_bytes("value 0", message, length, home, 12, 16, 16, packed(10, 2, 0, 0), none, none);
    message_of(message, 1, 3, 2, large_value, 4);
    reconciles_bytes("first bad value", message, length, home, 12, 16, 16, packed(10, 1, 0, 0), none, none);
    message_of(message, 1, 3, 2, values, 4);
    message[length - 1] |= 1;
    reconciles_bytes("padding before home", message, length, many, 4 * 20000, 16, 16, packed(11, 0, 0, 0), none, none);
    message_of(message, 1, 3, 2, values, 4);
    reconciles_bytes("long home before its keys and room", message, length, many, 4 * 16385, 0, 0, packed(2, 0, 0, 0), none, none);
    reconciles_bytes("long home before its keys and room", message, length, many, 4 * 20000, 0, 0, packed(2, 0, 0, 0), none, none);
    reconciles("first bad key", message, length, bad, 3, 0, 0, packed(3, 1, 0, 0), none, none);
    reconciles("first bad key", message, length, unordered, 3, 0, 0, packed(4, 1, 0, 0), none, none);
    reconciles_bytes("room of theirs first", message, length, home, 12, 12, 12, packed(5, 0, 0, 0), none, none);
    reconciles_bytes("room of ours", message, length, home, 12, 16, 12, packed(5, 1, 0, 0), none, none);
    reconciles_bytes("room before gap", message, length, many, 0, 16, 12, packed(5, 1, 0, 0), none, none);
    message_of(message, 1, 3, 8, values, 4);
    reconciles_bytes("gap", message, length, home, 12, 16, 16, packed(12, 0, 0, 0), none, none);
    message_of(message, 1, 3, 2, values, 4);
    reconciles_bytes("sketch of 1, 3", message, length, home, 12, 16, 16, packed(0, 0, 0, 1), none, keys + 1);
    reconciles("nothing at home", message, length, none, 0, 16, 16, packed(0, 0, 2, 0), one_three, none);
    reconciles("two theirs, one ours", message, length, five, 1, 16, 16, packed(0, 0, 2, 1), one_three, five);
    reconciles("the same list", message, length, one_three, 2, 16, 16, packed(0, 0, 0, 0), none, none);
    free(home);
    free(many);
}

/* The largest plan with as many differences as it has samples, 32 on each side, and the longest lists, which are not in runs. */
static uint32_t theirs_due[32], ours_due[32];
static uint8_t dome_list[4 * 16384], home_list[4 * 16384], longest[VLOMDAR_LONGEST_MESSAGE], their_room[256], our_room[256];

static void largest(void)
{
    for (uint32_t i = 0; i < 16384; i++) {
        int differs = i % 512 == 0;
        vlomdar_put_key(dome_list, i, 3 * i + (differs ? 1 : 0));
        vlomdar_put_key(home_list, i, 3 * i + (differs ? 2 : 0));
        if (differs) {
            theirs_due[i / 512] = 3 * i + 1;
            ours_due[i / 512] = 3 * i + 2;
        }
    }
    check(vlomdar_sketch(15, dome_list, sizeof dome_list, longest, sizeof longest) == packed(0, 0, 139, 0), "largest plan");
    reconciles_bytes("largest difference", longest, sizeof longest, home_list, sizeof home_list, 256, 256, packed(0, 0, 32, 32), theirs_due, ours_due);
}

/* What a call takes of a thread's stack, which is painted before it: the longest list, and the largest difference of the largest plan. */
#define STACK (1u << 20)
static unsigned char *stack;
static uint8_t longest_list[4 * 16384];
static uint64_t returned;

static void *run_sketch(void *unused)
{
    returned = vlomdar_sketch(15, longest_list, sizeof longest_list, longest, sizeof longest);
    return unused;
}

static void *run_reconcile(void *unused)
{
    returned = vlomdar_reconcile(longest, sizeof longest, home_list, sizeof home_list, their_room, sizeof their_room, our_room, sizeof our_room);
    return unused;
}

static size_t depth_of(void *(*run)(void *))
{
    pthread_t thread;
    pthread_attr_t attributes;
    size_t low = 0;
    memset(stack, FILL, STACK);
    pthread_attr_init(&attributes);
    pthread_attr_setstack(&attributes, stack, STACK);
    if (pthread_create(&thread, &attributes, run, NULL) != 0)
        return STACK;
    pthread_join(thread, NULL);
    while (low < STACK && stack[low] == FILL)
        low++;
    return STACK - low;
}

static void *run_nothing(void *unused)
{
    return unused;
}

static void stacks(void)
{
    size_t none, sketch, reconcile;
    stack = (unsigned char *)aligned_alloc(4096, STACK);
    none = depth_of(run_nothing);
    reconcile = depth_of(run_reconcile) - none;
    check(returned == packed(0, 0, 32, 32), "reconcile on a thread");
    for (uint32_t i = 0; i < 16384; i++)
        vlomdar_put_key(longest_list, i, 3 * i);
    sketch = depth_of(run_sketch) - none;
    check(returned == packed(0, 0, 139, 0), "sketch on a thread");
    printf("stack: sketch %u, reconcile %u\n", (unsigned)sketch, (unsigned)reconcile);
    check(sketch <= VLOMDAR_SKETCH_STACK, "stack of vlomdar_sketch");
    check(reconcile <= VLOMDAR_RECONCILE_STACK, "stack of vlomdar_reconcile");
    free(stack);
}

int main(void)
{
    cases();
    sketch_refusals();
    reconcile_refusals();
    largest();
    stacks();
    printf("%u checks, %u failed\n", checks, failures);
    return failures != 0;
}

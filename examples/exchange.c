/*
 * The dome and home in one program: the dome sketches its list, home reconciles the message with its own list, and a message that was
 * damaged on the way is refused.
 */
#include <stdio.h>
#include <vlomdar.h>

#define COUNT(a) (sizeof(a) / sizeof((a)[0]))

/* The keys of a night on each side. Home lacks 130 and 131; the dome lacks 77. */
static const uint32_t DOME[] = {12, 90, 130, 131, 512, 40000};
static const uint32_t HOME[] = {12, 77, 90, 512, 40000};

/* Keys as a list buffer; its length in bytes. */
static size_t list_of(const uint32_t *keys, size_t count, uint8_t *list)
{
    for (size_t i = 0; i < count; i++)
        vlomdar_put_key(list, i, keys[i]);
    return VLOMDAR_KEY_BYTES * count;
}

static void print_keys(const char *name, const uint8_t *list, size_t count)
{
    printf("%s %u:", name, (unsigned)count);
    for (size_t i = 0; i < count; i++)
        printf(" %u", (unsigned)vlomdar_get_key(list, i));
    printf("\n");
}

static const char *reason(unsigned number)
{
    switch (number) {
    case VLOMDAR_SHORT_BUFFER: return "a buffer is too short, or a list's length is no multiple of 4";
    case VLOMDAR_WRONG_LENGTH: return "the message is not of its plan's length";
    case VLOMDAR_PADDING_SET: return "a bit is set behind the message's last value";
    case VLOMDAR_LARGE_GAP: return "the lists' lengths differ by more than the plan's samples";
    case VLOMDAR_NO_DIFFERENCE: return "no difference explains the message";
    default: return "see enum vlomdar_refusal";
    }
}

/* Home's side: both differences, or why there is no answer. */
static void reconcile(const uint8_t *message, size_t message_length)
{
    uint8_t home[sizeof HOME];
    uint8_t theirs[VLOMDAR_MOST_SAMPLES * VLOMDAR_KEY_BYTES];
    uint8_t ours[VLOMDAR_MOST_SAMPLES * VLOMDAR_KEY_BYTES];
    size_t home_length = list_of(HOME, COUNT(HOME), home);
    uint64_t r = vlomdar_reconcile(message, message_length, home, home_length, theirs, sizeof theirs, ours, sizeof ours);

    if (vlomdar_number(r) != VLOMDAR_DONE) {
        printf("refused %u at %u: %s\n", vlomdar_number(r), vlomdar_place(r), reason(vlomdar_number(r)));
        return;
    }
    print_keys("theirs", theirs, vlomdar_theirs(r));
    print_keys("ours", ours, vlomdar_ours(r));
}

int main(void)
{
    uint8_t dome[sizeof DOME];
    uint8_t message[VLOMDAR_LONGEST_MESSAGE];
    size_t dome_length = list_of(DOME, COUNT(DOME), dome);
    uint64_t r = vlomdar_sketch(3, dome, dome_length, message, sizeof message);

    if (vlomdar_number(r) != VLOMDAR_DONE) {
        printf("refused %u at %u\n", vlomdar_number(r), vlomdar_place(r));
        return 1;
    }
    printf("message of %u bytes:", (unsigned)vlomdar_length(r));
    for (size_t i = 0; i < vlomdar_length(r); i++)
        printf(" %02x", message[i]);
    printf("\n");
    reconcile(message, vlomdar_length(r));

    /* One bit of the first value is turned over on the way. */
    message[4] ^= 0x10;
    reconcile(message, vlomdar_length(r));

    /* A byte is lost. */
    message[4] ^= 0x10;
    reconcile(message, vlomdar_length(r) - 1);
    return 0;
}

/*
 * One start as the console's firmware would record it: a ring for processor 3, a call for each event, and every answer looked at.
 * Prints a line a call. Ends with 0, or with 1 where a call was refused or the counts don't add up.
 */
#include "lamipeonga.h"

#include <stdio.h>

#if LAMIPEONGA_VERSION_MAJOR != 3
#error "written for version 3 of lamipeonga.h"
#endif

#define CPU_ID 3
#define CAPACITY 256

/* the console's own numbers: the ring stores any */
enum { HORN_COMMANDED = 1, BUFFER_FILLED = 2, FIRST_SAMPLE = 3, WAVEFORM = 4, LAST_SAMPLE = 5 };
enum { FROM_AUDIO = 1 };

/* Static, so that nothing is allocated, and the record begins with zero bytes, as a fresh ring asks. */
static uint8_t ring[LAMIPEONGA_RING_BYTES(CAPACITY)];
static uint8_t record[LAMIPEONGA_RECORD_BYTES];

/* what the answers told, to be held against the record at the end */
static unsigned long long stored, dropped;

#define NAMED(name) [LAMIPEONGA_##name] = #name

/* Every refusal ends here. It has changed no byte and would come again, so going on would lose events without a word. */
static int refused(const char *what, uint32_t answer)
{
    static const char *const names[] = {
        NAMED(SHORT), NAMED(MAGIC), NAMED(VERSION), NAMED(LAYOUT), NAMED(LENGTH), NAMED(POSITION), NAMED(WRITER),
        NAMED(SPENT), NAMED(FAR), NAMED(DISAGREE), NAMED(SIZE), NAMED(RECORD),
        NAMED(DAMAGED_LEFT), NAMED(DAMAGED_HEADER_SIZE), NAMED(DAMAGED_EVENT_SIZE), NAMED(DAMAGED_WRITE_POS),
        NAMED(DAMAGED_CPU_ID), NAMED(DAMAGED_SPARE), NAMED(DAMAGED_SEQUENCE),
    };
    const char *name = answer < sizeof names / sizeof names[0] ? names[answer] : NULL;
    printf("%s: refused, %s (%u)\n", what, name != NULL ? name : "which none of these calls answers", (unsigned)answer);
    return 0;
}

/*
 * Here firmware wakes whoever waits at ring + LAMIPEONGA_FUTEX_COUNTER_AT, after a barrier if that is another processor. The call has moved the
 * counter already. There is no consumer in this program, so it does itself what a woken one does first: it takes its flag back.
 */
static void wake_consumer(void)
{
    ring[LAMIPEONGA_NEED_WAKE_AT] = 0;
}

/* Each of the three below answers 1 if the program may go on. */
static int create(void)
{
    uint32_t answer = lamipeonga_create(ring, sizeof ring, CPU_ID);
    if (answer != LAMIPEONGA_DONE)
        return refused("create", answer);
    printf("create: a ring for cpu %d with room for %d bytes of events\n", CPU_ID, CAPACITY);
    return 1;
}

static int emit(const char *what, uint64_t timestamp, uint32_t event_type, const uint8_t *payload, size_t payload_bytes)
{
    uint32_t answer = lamipeonga_emit(ring, sizeof ring, record, sizeof record, timestamp, event_type, FROM_AUDIO, payload, payload_bytes);
    switch (answer) {
    case LAMIPEONGA_DONE:
        stored++;
        printf("%s: stored\n", what);
        return 1;
    case LAMIPEONGA_WAKE: /* stored as well */
        stored++;
        wake_consumer();
        printf("%s: stored, and the consumer woken\n", what);
        return 1;
    case LAMIPEONGA_DROPPED: /* it would be dropped again, so there is no second try; the number it used up shows readers the gap */
        dropped++;
        printf("%s: dropped, larger than half the capacity\n", what);
        return 1;
    default:
        return refused(what, answer);
    }
}

static int inspect(void)
{
    uint32_t answer = lamipeonga_inspect(ring, sizeof ring);
    if (answer != LAMIPEONGA_DONE)
        return refused("inspect", answer);
    printf("inspect: the events in the ring are well formed, and their numbers rise\n");
    return 1;
}

/* one of the record's numbers: 8 bytes, the least first */
static unsigned long long recorded(size_t at)
{
    unsigned long long number = 0;
    for (size_t i = 8; i > 0; i--)
        number = number * 256 + record[at + i - 1];
    return number;
}

int main(void)
{
    static const uint8_t samples[97] = {0, 12, 25, 37};

    if (!create()
        || !emit("horn commanded", 1000, HORN_COMMANDED, NULL, 0)
        || !emit("buffer filled", 2000, BUFFER_FILLED, samples, 64)
        || !emit("first sample", 3000, FIRST_SAMPLE, samples, 8)
        || !emit("waveform", 4000, WAVEFORM, samples, sizeof samples))
        return 1;
    ring[LAMIPEONGA_NEED_WAKE_AT] = 1; /* as a consumer does, between two calls, before it waits */
    if (!emit("buffer filled", 5000, BUFFER_FILLED, samples, 8)
        || !emit("last sample", 6000, LAST_SAMPLE, samples, 32)
        || !inspect())
        return 1;

    /* the ring is small, so the last event went over the oldest one: no answer tells that, the record does */
    unsigned long long last = recorded(0), overwritten = recorded(16);
    printf("record: %llu events, %llu dropped, %llu overwritten, %llu still in the ring\n", last, recorded(8), overwritten, stored - overwritten);
    if (recorded(8) == dropped && last == stored + dropped)
        return 0;
    printf("the answers told of %llu stored and %llu dropped\n", stored, dropped);
    return 1;
}

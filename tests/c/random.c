/* Random calls. Before some of them ring, record or lengths are disturbed, and mostly put right again behind them, so that histories go on. */
#include "random.h"

#include "lamipeonga.h"
#include "pair.h"

#include <string.h>

static const uint64_t FARTHEST = (uint64_t)1 << 62;
static const uint64_t GREATEST = (uint64_t)-1;

/* so often at least each reason of a bad event has to be met by each call that can give it */
#define FLOOR 50

static uint64_t seed = 0x4B4D455352494E47;
static uint8_t pool[1 << 20];
static unsigned long emitted[ANSWERS];
static unsigned long inspected[ANSWERS];

static uint64_t next(void)
{
    seed ^= seed << 13;
    seed ^= seed >> 7;
    seed ^= seed << 17;
    return seed;
}

static uint64_t below(uint64_t bound)
{
    return (next() >> 16) % bound;
}

static uint64_t write_pos(void)
{
    return number_at(ring[ARCHIVE] + 64, 8);
}

static uint64_t tail_pos(void)
{
    return number_at(ring[ARCHIVE] + 72, 8);
}

static uint64_t kept_capacity(size_t lent)
{
    return lent - 8192;
}

/* a number near the edges at which answers change */
static uint64_t edge(uint64_t capacity)
{
    switch (below(8)) {
    case 0: return write_pos() + below(3) - 1;
    case 1: return tail_pos() + below(3) - 1;
    case 2: return tail_pos() + capacity + below(3) - 1;
    case 3: return write_pos() - capacity + below(3) - 1;
    case 4: return FARTHEST + below(3) - 1;
    case 5: return GREATEST - below(3);
    case 6: return below(4);
    default: return next();
    }
}

static void disturb_page(uint64_t capacity)
{
    switch (below(8)) {
    case 0: set_ring(below(192), 1, below(256)); break;
    case 1: set_ring(192 + below(8000), 1, below(256)); break;
    case 2: set_ring(64, 8, edge(capacity)); break;
    case 3: set_ring(72, 8, edge(capacity)); break;
    case 4: set_ring(16, 8, below(2) ? (uint64_t)1 << below(64) : capacity + below(3) - 1); break;
    case 5: set_ring(24 + 8 * below(2), 8, below(2) * 8192); break;
    case 6: set_ring(128, 4, 4294967294 + below(2)); break;
    default: set_ring(8, 4, below(3)); break;
    }
}

/* a byte of the data, or of the header at the tail */
static void disturb_data(uint64_t capacity)
{
    uint64_t offset = below(4) ? (tail_pos() + below(32)) % capacity : below(capacity);
    set_ring(8192 + offset, 1, below(3) ? below(256) : below(2) * 32);
}

static uint64_t get_data(uint64_t capacity, uint64_t position, int width)
{
    uint8_t bytes[8];
    for (int i = 0; i < width; i++)
        bytes[i] = ring[ARCHIVE][8192 + (position + (uint64_t)i) % capacity];
    return number_at(bytes, width);
}

static void set_data(uint64_t capacity, uint64_t position, int width, uint64_t value)
{
    for (int i = 0; i < width; i++)
        set_ring(8192 + (position + (uint64_t)i) % capacity, 1, value >> (8 * i));
}

/* the start of one of the first three events, as far as the sizes lead on */
static uint64_t some_event(uint64_t capacity)
{
    uint64_t position = tail_pos();
    for (uint64_t left = below(3); left > 0; left--) {
        uint64_t size = get_data(capacity, position, 4);
        if (size >= 32 && size < write_pos() - position)
            position += size;
    }
    return position;
}

/* a field of a header, near the edge of its reason or anywhere */
static void disturb_field(uint64_t capacity, uint64_t position)
{
    uint64_t room = write_pos() - position;
    switch (below(6)) {
    case 0: set_data(capacity, position + 4, 2, below(2) ? 31 + below(3) : 32 + 256 * below(3)); break;
    case 1: set_data(capacity, position, 4, below(2) ? 31 + below(3) : below(32)); break;
    case 2: set_data(capacity, position, 4, below(2) ? room + below(3) - 1 : next()); break;
    case 3: set_data(capacity, position + 6, 2, below(4) + 256 * below(2)); break;
    case 4: set_data(capacity, position + 29 + below(3), 1, below(2) ? 1 : next()); break;
    default: set_data(capacity, position + 8, 8, below(2) ? below(3) : get_data(capacity, position + 8, 8) - below(3)); break;
    }
}

/* some fields of one header, so that often several reasons hold; or write_pos set within it or behind it */
static void disturb_header(uint64_t capacity)
{
    uint64_t position = some_event(capacity);
    for (uint64_t left = 1 + below(3); left > 0; left--)
        disturb_field(capacity, position);
    if (below(4) == 0)
        set_ring(64, 8, position + 1 + below(34));
}

static void disturb_record(void)
{
    uint64_t last = number_at(record[ARCHIVE], 8);
    uint64_t dropped = number_at(record[ARCHIVE] + 8, 8);
    switch (below(6)) {
    case 0: set_record(0, GREATEST - below(3)); break;
    case 1: set_record(8, last + below(3) - 1); break;
    case 2: set_record(16, last - dropped + below(3) - 1); break;
    case 3: set_record(8 * below(3), next()); break;
    case 4: set_record(0, below(4)); break;
    default: set_record(16, last - dropped); break;
    }
}

static void disturb_lengths(size_t lent)
{
    static const size_t rings[] = {0, 1, 8191, 8192, 8447, 8448, 8449, 8704};
    static const size_t records[] = {0, 8, 16, 23, 25, 32, 48};
    if (below(2)) {
        record_bytes = records[below(sizeof records / sizeof records[0])];
        return;
    }
    ring_bytes = below(2) ? lent - below(3) : rings[below(sizeof rings / sizeof rings[0])];
    if (ring_bytes > lent)
        ring_bytes = lent;
}

static void disturb(size_t lent)
{
    uint64_t capacity = kept_capacity(lent);
    switch (below(6)) {
    case 0: disturb_page(capacity); break;
    case 1: disturb_data(capacity); break;
    case 2:
    case 3: disturb_header(capacity); break;
    case 4: disturb_record(); break;
    default: disturb_lengths(lent); break;
    }
}

static size_t payload_bytes(uint64_t capacity)
{
    switch (below(8)) {
    case 0: return 0;
    case 1: return capacity / 2 - 32;
    case 2: return capacity / 2 - 31;
    case 3: return below(capacity);
    case 4: return below(capacity / 2 - 31);
    default: return below(64);
    }
}

static void count(unsigned long *counts, uint32_t answer)
{
    if (answer < ANSWERS)
        counts[answer] += 1;
}

static void call(uint64_t capacity)
{
    if (below(4) == 0)
        set_ring(4096, 1, below(2) ? below(2) : next());
    if (below(8) == 0) {
        count(inspected, inspect());
    } else if (below(60) == 0) {
        create((uint16_t)next());
    } else {
        size_t bytes = payload_bytes(capacity);
        count(emitted, emit(next(), (uint32_t)next(), (uint8_t)next(), pool + below(sizeof pool - bytes), bytes));
    }
}

static size_t some_capacity(void)
{
    static const size_t capacities[] = {256, 256, 256, 256, 512, 512, 1024, 2048};
    if (below(100) == 0)
        return (size_t)4096 << below(4);
    if (below(1500) == 0)
        return LAMIPEONGA_LARGEST_CAPACITY;
    return capacities[below(sizeof capacities / sizeof capacities[0])];
}

/* a fresh ring, or an empty one far on, with a record of large counts */
static void begin(size_t capacity)
{
    lend(LAMIPEONGA_RING_BYTES(capacity), (unsigned)below(8));
    create((uint16_t)below(4));
    if (below(4) == 0) {
        uint64_t position = below(3) ? FARTHEST - below(8 * capacity) : below(FARTHEST);
        set_ring(64, 8, position);
        set_ring(72, 8, position);
    }
    if (below(4) == 0) {
        uint64_t last = below(3) ? next() >> below(40) : GREATEST - below(40);
        set_record(0, last);
        set_record(8, last / 2);
        set_record(16, last - last / 2 - below(3) * below(20));
    }
}

static void history(void)
{
    size_t capacity = some_capacity();
    size_t lent = LAMIPEONGA_RING_BYTES(capacity);
    begin(capacity);
    for (uint64_t left = 1 + below(60); left > 0; left--) {
        int disturbed = below(4) == 0;
        if (disturbed) {
            keep();
            disturb(lent);
        }
        call(capacity);
        ring_bytes = lent;
        record_bytes = 24;
        if (disturbed && below(8) != 0)
            put_back();
    }
}

/* an emission looks at no sequence, and at no event with less than half the capacity behind its start */
static void expect_reasons(void)
{
    for (unsigned number = LAMIPEONGA_DAMAGED_LEFT; number <= LAMIPEONGA_DAMAGED_SEQUENCE; number++) {
        int by_emission = number != LAMIPEONGA_DAMAGED_LEFT && number != LAMIPEONGA_DAMAGED_SEQUENCE;
        expect(inspected[number] >= FLOOR, "a reason that few random inspections met");
        expect(by_emission ? emitted[number] >= FLOOR : emitted[number] == 0, "a reason that few random emissions met, or can't be");
    }
}

unsigned long run_random(unsigned long wanted)
{
    unsigned long start = calls;
    memset(answered, 0, sizeof answered);
    /* bytes that often look like the front of an event */
    for (size_t i = 0; i < sizeof pool; i++)
        pool[i] = (uint8_t)(below(4) ? (i % 32 == 0 || i % 32 == 4) * 32 : next());
    while (calls - start < wanted)
        history();
    /* no other may come: 12, which isn't used, 10, and 13 to 15 of calls that C doesn't make */
    for (unsigned number = 0; number < ANSWERS; number++) {
        int can = number <= 9 || number == 11 || number == 16 || number == 17 || number == 20 || number == 21
            || (number >= LAMIPEONGA_DAMAGED_LEFT && number <= LAMIPEONGA_DAMAGED_SEQUENCE);
        expect((answered[number] != 0) == can, "an answer that no random call met, or that can't be");
    }
    expect_reasons();
    return calls - start;
}

#include "pair.h"

#include "lamipeonga.h"
#include "second.h"

#include <stdio.h>
#include <string.h>

#define GUARD_BYTE 0xA5

uint8_t *ring[2];
uint8_t *record[2];
size_t ring_bytes;
size_t record_bytes;
unsigned long calls;
unsigned long differences;
unsigned long answered[ANSWERS];

/* guard, shift, buffer, guard; `span` bytes of it are in use */
static _Alignas(64) uint8_t ring_room[2][GUARD_BYTES + ROOM_BYTES + GUARD_BYTES];
static _Alignas(64) uint8_t record_room[2][GUARD_BYTES + RECORD_ROOM + GUARD_BYTES];
static uint8_t kept_ring[GUARD_BYTES + ROOM_BYTES + GUARD_BYTES];
static uint8_t kept_record[GUARD_BYTES + RECORD_ROOM + GUARD_BYTES];
static uint8_t before_ring[GUARD_BYTES + ROOM_BYTES + GUARD_BYTES];
static uint8_t before_record[GUARD_BYTES + RECORD_ROOM + GUARD_BYTES];
static size_t span;

void expect(int holds, const char *what)
{
    if (holds)
        return;
    differences += 1;
    if (differences <= 20)
        printf("call %lu: %s\n", calls, what);
}

void expect_number(const char *what, uint64_t wanted, uint64_t found)
{
    if (wanted != found && differences < 20)
        printf("%s: %lu wanted, %lu found\n", what, (unsigned long)wanted, (unsigned long)found);
    expect(wanted == found, what);
}

void lend(size_t bytes, unsigned shift)
{
    span = GUARD_BYTES + shift + bytes + GUARD_BYTES;
    ring_bytes = bytes;
    record_bytes = 24;
    for (int side = ARCHIVE; side <= SECOND; side++) {
        memset(ring_room[side], GUARD_BYTE, span);
        memset(record_room[side], GUARD_BYTE, sizeof record_room[side]);
        ring[side] = ring_room[side] + GUARD_BYTES + shift;
        record[side] = record_room[side] + GUARD_BYTES + shift;
        memset(record[side], 0, 24);
    }
}

uint64_t number_at(const uint8_t *bytes, int width)
{
    uint64_t value = 0;
    for (int i = width - 1; i >= 0; i--)
        value = value * 256 + bytes[i];
    return value;
}

static void set_number(uint8_t *bytes, int width, uint64_t value)
{
    for (int i = 0; i < width; i++)
        bytes[i] = (uint8_t)(value >> (8 * i));
}

void set_ring(size_t at, int width, uint64_t value)
{
    set_number(ring[ARCHIVE] + at, width, value);
    set_number(ring[SECOND] + at, width, value);
}

void set_record(size_t at, uint64_t value)
{
    set_number(record[ARCHIVE] + at, 8, value);
    set_number(record[SECOND] + at, 8, value);
}

void keep(void)
{
    memcpy(kept_ring, ring_room[ARCHIVE], span);
    memcpy(kept_record, record_room[ARCHIVE], sizeof kept_record);
}

void put_back(void)
{
    for (int side = ARCHIVE; side <= SECOND; side++) {
        memcpy(ring_room[side], kept_ring, span);
        memcpy(record_room[side], kept_record, sizeof kept_record);
    }
}

int is_refusal(uint32_t answer)
{
    return (answer >= 1 && answer <= 17 && answer != 10 && answer != 12) || (answer >= 101 && answer <= 107);
}

static void begin(void)
{
    calls += 1;
    memcpy(before_ring, ring_room[ARCHIVE], span);
    memcpy(before_record, record_room[ARCHIVE], sizeof before_record);
}

/* bytes outside the ring that was lent, which may be shorter or longer than the room's */
static void expect_guards(void)
{
    size_t front = (size_t)(ring[ARCHIVE] - ring_room[ARCHIVE]);
    size_t behind = front + ring_bytes;
    expect(memcmp(ring_room[ARCHIVE], before_ring, front) == 0, "bytes before the ring were written");
    if (behind < span)
        expect(memcmp(ring_room[ARCHIVE] + behind, before_ring + behind, span - behind) == 0, "bytes behind the ring were written");
}

static uint32_t compared(uint32_t first, uint32_t second)
{
    expect_number("the answer", second, first);
    expect(memcmp(ring_room[ARCHIVE], ring_room[SECOND], span) == 0, "the rings differ");
    expect(memcmp(record_room[ARCHIVE], record_room[SECOND], sizeof before_record) == 0, "the records differ");
    expect_guards();
    if (is_refusal(first)) {
        expect(memcmp(ring_room[ARCHIVE], before_ring, span) == 0, "a refusal changed the ring");
        expect(memcmp(record_room[ARCHIVE], before_record, sizeof before_record) == 0, "a refusal changed the record");
    }
    if (first < ANSWERS)
        answered[first] += 1;
    return first;
}

uint32_t create(uint16_t cpu_id)
{
    begin();
    uint32_t first = lamipeonga_create(ring[ARCHIVE], ring_bytes, cpu_id);
    return compared(first, second_create(ring[SECOND], ring_bytes, cpu_id));
}

uint32_t emit(uint64_t timestamp, uint32_t event_type, uint8_t origin_class, const uint8_t *payload, size_t payload_bytes)
{
    begin();
    uint32_t first = lamipeonga_emit(ring[ARCHIVE], ring_bytes, record[ARCHIVE], record_bytes, timestamp, event_type, origin_class, payload,
                                     payload_bytes);
    uint32_t second = second_emit(ring[SECOND], ring_bytes, record[SECOND], record_bytes, timestamp, event_type, origin_class, payload,
                                  payload_bytes);
    return compared(first, second);
}

uint32_t inspect(void)
{
    begin();
    uint32_t first = lamipeonga_inspect(ring[ARCHIVE], ring_bytes);
    uint32_t second = second_inspect(ring[SECOND], ring_bytes);
    expect(memcmp(ring_room[ARCHIVE], before_ring, span) == 0, "an inspection changed the ring");
    return compared(first, second);
}

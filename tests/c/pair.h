/*
 * Each call is made twice: by the archive on one ring and record, by the second implementation on another pair with the same bytes.
 * Then the answers, every byte of both pairs and the guards around them must agree, and a refusal must have left all as it was.
 */
#ifndef PAIR_H
#define PAIR_H

#include <stddef.h>
#include <stdint.h>

enum { ARCHIVE, SECOND };

#define GUARD_BYTES 64
#define ROOM_BYTES (8192 + 1048576 + 64)
#define RECORD_ROOM 64

/* above every number that a call answers */
#define ANSWERS 128

/* the buffers lent to the next call; the pointers move with the alignment tried */
extern uint8_t *ring[2];
extern uint8_t *record[2];
extern size_t ring_bytes;
extern size_t record_bytes;

/* calls compared, differences found, and how often each number was answered */
extern unsigned long calls;
extern unsigned long differences;
extern unsigned long answered[ANSWERS];

/* Lends rings of a length from here on, `shift` bytes off a multiple of 64, and a record of 24 zero bytes. */
void lend(size_t bytes, unsigned shift);

/* The same in both pairs. */
void set_ring(size_t at, int width, uint64_t value);
void set_record(size_t at, uint64_t value);

uint64_t number_at(const uint8_t *bytes, int width);

/* Whether a number is a refusal: 1 to 17 without 10 and 12, or 101 to 107. These stand in place of 10, and 12 isn't used. */
int is_refusal(uint32_t answer);

/* All of both pairs kept, and put back. */
void keep(void);
void put_back(void);

uint32_t create(uint16_t cpu_id);
uint32_t emit(uint64_t timestamp, uint32_t event_type, uint8_t origin_class, const uint8_t *payload, size_t payload_bytes);
uint32_t inspect(void);

/* What a test expects; says so and counts where it isn't met. */
void expect(int holds, const char *what);
void expect_number(const char *what, uint64_t wanted, uint64_t found);

#endif

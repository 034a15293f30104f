/* A second implementation of create, emit and inspect. The archive is compared with it; second.c says what it was written from.
   For a bad event emit and inspect answer 100 + the first reason that holds, 101 to 107, and never 10. */
#ifndef SECOND_H
#define SECOND_H

#include <stddef.h>
#include <stdint.h>

uint32_t second_create(uint8_t *ring, size_t ring_bytes, uint16_t cpu_id);
uint32_t second_emit(uint8_t *ring, size_t ring_bytes, uint8_t *record, size_t record_bytes, uint64_t timestamp, uint32_t event_type,
                     uint8_t origin_class, const uint8_t *payload, size_t payload_bytes);
uint32_t second_inspect(const uint8_t *ring, size_t ring_bytes);

#endif

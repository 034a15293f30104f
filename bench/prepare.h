/* plain.c under other names: what fills the rings isn't counted. */
#ifndef PREPARE_H
#define PREPARE_H

#include <stddef.h>
#include <stdint.h>

uint32_t prepare_create(uint8_t *ring, size_t ring_bytes, uint16_t cpu_id);
uint32_t prepare_emit(uint8_t *ring, size_t ring_bytes, uint8_t *record, size_t record_bytes, uint64_t timestamp, uint32_t event_type,
                      uint8_t origin_class, const uint8_t *payload, size_t payload_bytes);
uint32_t prepare_record(const uint8_t *ring, size_t ring_bytes, uint64_t placed, uint8_t *out, size_t out_bytes);

#endif

/* The same ten operations as the archives', in plain C. Compiled twice: measured under these names, and under prepare_* to fill the rings. */
#ifndef PLAIN_H
#define PLAIN_H

#include <stddef.h>
#include <stdint.h>

#ifdef PREPARE
#define plain_create prepare_create
#define plain_emit prepare_emit
#define plain_inspect prepare_inspect
#define plain_read prepare_read
#define plain_copy prepare_copy
#define plain_confirm prepare_confirm
#define plain_swap prepare_swap
#define plain_record prepare_record
#define plain_verify prepare_verify
#endif

uint32_t plain_create(uint8_t *ring, size_t ring_bytes, uint16_t cpu_id);
uint32_t plain_emit(uint8_t *ring, size_t ring_bytes, uint8_t *record, size_t record_bytes, uint64_t timestamp, uint32_t event_type,
                    uint8_t origin_class, const uint8_t *payload, size_t payload_bytes);
uint32_t plain_inspect(const uint8_t *ring, size_t ring_bytes);
uint32_t plain_read(const uint8_t *ring, size_t ring_bytes, uint8_t *record, size_t record_bytes, uint8_t *out, size_t out_bytes);
uint32_t plain_copy(const uint8_t *ring, size_t ring_bytes, uint8_t *record, size_t record_bytes, uint8_t *slip, size_t slip_bytes, uint8_t *out,
                    size_t out_bytes);
uint32_t plain_confirm(const uint8_t *ring, size_t ring_bytes, uint8_t *record, size_t record_bytes, const uint8_t *slip, size_t slip_bytes);
uint32_t plain_swap(uint8_t *old, size_t old_bytes, uint8_t *new, size_t new_bytes, uint8_t *record, size_t record_bytes);
uint32_t plain_record(const uint8_t *ring, size_t ring_bytes, uint64_t placed, uint8_t *out, size_t out_bytes);
uint64_t plain_verify(const uint8_t *ring, size_t ring_bytes, const uint8_t *file, size_t file_bytes);

/* in listen.c, which fills nothing */
uint64_t plain_listen(const uint8_t *file, size_t file_bytes, uint64_t size);

#endif

/*
 * The work of the panel's four entries in straightforward C, the measure for
 * the library's speed: the same arguments and the same replies as in panel.h.
 */
#ifndef BUSHKALOTE_STRAIGHT_H
#define BUSHKALOTE_STRAIGHT_H

#include <stddef.h>
#include <stdint.h>

uint64_t straight_analyse(
    const uint8_t *kinds, size_t kinds_len,
    const uint16_t *xs, size_t xs_len,
    const uint16_t *ys, size_t ys_len,
    const uint16_t *roots, size_t roots_len,
    uint64_t *matrix, size_t matrix_len);

uint64_t straight_read_sheet(
    const uint8_t *bytes, size_t bytes_len,
    uint8_t *kinds, size_t kinds_len,
    uint16_t *xs, size_t xs_len,
    uint16_t *ys, size_t ys_len,
    uint16_t *roots, size_t roots_len);

uint64_t straight_list_pairs(
    const uint8_t *kinds, size_t kinds_len,
    const uint16_t *xs, size_t xs_len,
    const uint16_t *ys, size_t ys_len,
    const uint16_t *roots, size_t roots_len,
    uint64_t *matrix, size_t matrix_len,
    uint8_t *bytes, size_t bytes_len);

uint64_t straight_write_sheet(
    const uint8_t *kinds, size_t kinds_len,
    const uint16_t *xs, size_t xs_len,
    const uint16_t *ys, size_t ys_len,
    const uint16_t *roots, size_t roots_len,
    uint8_t *bytes, size_t bytes_len);

#endif

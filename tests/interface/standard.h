/* Operations as bytes by the tables of the standard's CAN chapter: without the library, and without its constants. */
#ifndef STANDARD_H
#define STANDARD_H

#include <kettlefrost.h>
#include <string.h>

/* The longest operation: a Format Error with 65535 bytes. */
enum { LONGEST_OPERATION = 65545 };

/* Puts a number in little-endian and gives the position after it. */
static inline size_t put_number(uint8_t *to, size_t at, size_t width, uint32_t value) {
    for (size_t i = 0; i < width; i++) to[at + i] = (uint8_t)(value >> (8 * i));
    return at + width;
}

static inline size_t put_flags(uint8_t *to, size_t at, size_t count, kf_operation op) {
    const uint8_t flags[4] = {op.first, op.second, op.third, op.fourth};
    memcpy(to + at, flags, count);
    return at + count;
}

static inline size_t put_transmit(uint8_t *to, size_t flags, kf_operation op) {
    size_t at = put_flags(to, put_number(to, 8, 4, op.id), flags, op);
    if (op.code == 0x12) at = put_number(to, at, 4, op.word);
    return put_number(to, at, 2, op.length);
}

static inline size_t put_fields(uint8_t *to, kf_operation op) {
    switch (op.code) {
    case 0x01: return put_number(to, 8, 2, op.length);
    case 0x10: return put_transmit(to, 2, op);
    case 0x11: return put_transmit(to, 3, op);
    case 0x12: return put_transmit(to, 4, op);
    case 0x20:
    case 0x30: return put_number(to, 8, 4, op.id);
    case 0x31: return put_flags(to, put_number(to, 8, 4, op.id), 3, op);
    case 0x40: return put_number(to, put_flags(to, 8, 1, op), op.first == 4 ? 1 : 4, op.word);
    case 0x41: return put_flags(to, 8, 1, op);
    default: return 8;
    }
}

/* The bytes of an operation with its data; their number. */
static inline size_t put_operation(uint8_t *to, kf_operation op, const uint8_t *data) {
    size_t end = put_fields(to, op);
    for (size_t i = 0; i < op.length; i++) to[end++] = data[i];
    put_number(to, 0, 4, op.code);
    put_number(to, 4, 4, (uint32_t)end);
    return end;
}

#endif

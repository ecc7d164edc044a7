// The floor of the benchmark: the work of the calls, on the same state and lent memory, and no check at all. That the state is valid,
// that numbers are in range, that memory has its size and queues have room is taken for granted; bytes are on a little-endian machine.

#include <kettlefrost.h>
#include <string.h>

enum { SLOT_BYTES = KF_PAYLOAD_BYTES / KF_SLOTS };

static uint32_t get32(const uint8_t *from) {
    uint32_t value;
    memcpy(&value, from, sizeof value);
    return value;
}

static uint16_t get16(const uint8_t *from) {
    uint16_t value;
    memcpy(&value, from, sizeof value);
    return value;
}

static void put32(uint8_t *to, uint32_t value) { memcpy(to, &value, sizeof value); }

static void put16(uint8_t *to, uint16_t value) { memcpy(to, &value, sizeof value); }

// Writes all of an operation but its data, and gives the length of that.
static inline size_t put_header(uint8_t *to, const kf_operation *op) {
    size_t header;
    switch (op->code) {
    case KF_FORMAT_ERROR:
        put16(to + 8, op->length);
        header = 10;
        break;
    case KF_CAN_TRANSMIT:
        put32(to + 8, op->id);
        to[12] = op->first;
        to[13] = op->second;
        put16(to + 14, op->length);
        header = 16;
        break;
    case KF_CAN_FD_TRANSMIT:
        put32(to + 8, op->id);
        to[12] = op->first;
        to[13] = op->second;
        to[14] = op->third;
        put16(to + 15, op->length);
        header = 17;
        break;
    case KF_CAN_XL_TRANSMIT:
        put32(to + 8, op->id);
        to[12] = op->first;
        to[13] = op->second;
        to[14] = op->third;
        to[15] = op->fourth;
        put32(to + 16, op->word);
        put16(to + 20, op->length);
        header = 22;
        break;
    case KF_CONFIRM:
    case KF_ARBITRATION_LOST:
        put32(to + 8, op->id);
        header = 12;
        break;
    case KF_BUS_ERROR:
        put32(to + 8, op->id);
        to[12] = op->first;
        to[13] = op->second;
        to[14] = op->third;
        header = 15;
        break;
    case KF_CONFIGURATION:
        to[8] = op->first;
        if (op->first == 4) {
            to[9] = (uint8_t)op->word;
            header = 10;
        } else {
            put32(to + 9, op->word);
            header = 13;
        }
        break;
    case KF_STATUS:
        to[8] = op->first;
        header = 9;
        break;
    default:
        header = 8;
    }
    put32(to, op->code);
    put32(to + 4, (uint32_t)(header + op->length));
    return header;
}

// `length` is 0 in a kind without data.
size_t floor_write(const kf_operation *op, const uint8_t *data, uint8_t *to) {
    size_t header = put_header(to, op);
    memcpy(to + header, data, op->length);
    return header + op->length;
}

// The sum of all fields of a stream.
uint64_t floor_decode(const uint8_t *at, size_t length) {
    const uint8_t *end = at + length;
    uint64_t sum = 0;
    while (at < end) {
        switch (get32(at)) {
        case KF_FORMAT_ERROR:
            sum += get16(at + 8);
            break;
        case KF_CAN_TRANSMIT:
            sum += (uint64_t)get32(at + 8) + at[12] + at[13] + get16(at + 14);
            break;
        case KF_CAN_FD_TRANSMIT:
            sum += (uint64_t)get32(at + 8) + at[12] + at[13] + at[14] + get16(at + 15);
            break;
        case KF_CAN_XL_TRANSMIT:
            sum += (uint64_t)get32(at + 8) + at[12] + at[13] + at[14] + at[15] + get32(at + 16) + get16(at + 20);
            break;
        case KF_CONFIRM:
        case KF_ARBITRATION_LOST:
            sum += get32(at + 8);
            break;
        case KF_BUS_ERROR:
            sum += (uint64_t)get32(at + 8) + at[12] + at[13] + at[14];
            break;
        case KF_CONFIGURATION:
            sum += (uint64_t)at[8] + (at[8] == 4 ? at[9] : get32(at + 9));
            break;
        case KF_STATUS:
            sum += at[8];
            break;
        default:
            break;
        }
        at += get32(at + 4);
    }
    return sum;
}

// Takes a buffer that is one Transmit.
void floor_submit(kf_state *state, kf_slot *slots, uint8_t *payload, uint32_t node, const uint8_t *buffer) {
    size_t place = node * KF_SLOTS_PER_NODE + state->nodes[node].pending++;
    kf_slot slot = {
        .accepted = state->round,
        .id = get32(buffer + 8),
        .kind = buffer[0],
        .owner = (uint8_t)node,
        .first = buffer[12],
        .second = buffer[13],
    };
    size_t header;
    switch (slot.kind) {
    case KF_CAN_TRANSMIT:
        header = 16;
        break;
    case KF_CAN_FD_TRANSMIT:
        slot.third = buffer[14];
        header = 17;
        break;
    default:
        slot.third = buffer[14];
        slot.fourth = buffer[15];
        slot.af = get32(buffer + 16);
        header = 22;
    }
    slot.length = get16(buffer + header - 2);
    slots[place] = slot;
    memcpy(payload + place * SLOT_BYTES, buffer + header, slot.length);
}

// Lower ID, then lower node, then earlier: as one number, with the slot in its low half. UINT64_MAX where nothing is pending.
static uint64_t first_pending(const kf_state *state, const kf_slot *slots) {
    uint64_t first = UINT64_MAX;
    for (size_t node = 0; node < state->count; node++) {
        for (size_t frame = 0; frame < state->nodes[node].pending; frame++) {
            size_t place = node * KF_SLOTS_PER_NODE + frame;
            uint64_t rank = (uint64_t)slots[place].id << 32 | place;
            first = rank < first ? rank : first;
        }
    }
    return first;
}

static void put_closing(kf_node_state *node, uint8_t *queue, uint32_t code, uint32_t id) {
    uint8_t *to = queue + node->fill;
    put32(to, code);
    put32(to + 4, 12);
    put32(to + 8, id);
    node->fill += 12;
}

static void deliver(kf_state *state, const kf_slot *slots, const uint8_t *payload, uint8_t *queues, size_t winner) {
    const kf_slot *slot = &slots[winner];
    kf_operation op = {
        slot->kind, slot->id, slot->af, slot->length, slot->first, slot->second, slot->third, slot->fourth,
    };
    uint8_t bytes[22];
    size_t header = put_header(bytes, &op);
    for (size_t number = 0; number < state->count; number++) {
        kf_node_state *node = &state->nodes[number];
        uint8_t *queue = queues + number * KF_QUEUE_CAPACITY;
        if (node->status == KF_BUS_OFF)
            continue;
        if (number == winner / KF_SLOTS_PER_NODE) {
            put_closing(node, queue, KF_CONFIRM, slot->id);
        } else {
            memcpy(queue + node->fill, bytes, header);
            memcpy(queue + node->fill + header, payload + winner * SLOT_BYTES, slot->length);
            node->fill += (uint16_t)(header + slot->length);
        }
    }
}

// The sender's later frames move down.
static void remove_frame(kf_state *state, kf_slot *slots, uint8_t *payload, size_t place) {
    size_t sender = place / KF_SLOTS_PER_NODE;
    size_t last = sender * KF_SLOTS_PER_NODE + --state->nodes[sender].pending;
    for (; place < last; place++) {
        slots[place] = slots[place + 1];
        memcpy(payload + place * SLOT_BYTES, payload + (place + 1) * SLOT_BYTES, slots[place].length);
    }
}

static void discard_losers(kf_state *state, const kf_slot *slots, uint8_t *queues) {
    for (size_t number = 0; number < state->count; number++) {
        kf_node_state *node = &state->nodes[number];
        if (node->behaviour != KF_DISCARD_AND_NOTIFY)
            continue;
        for (size_t frame = 0; frame < node->pending; frame++)
            put_closing(node, queues + number * KF_QUEUE_CAPACITY, KF_ARBITRATION_LOST, slots[number * KF_SLOTS_PER_NODE + frame].id);
        node->pending = 0;
    }
}

// A round without an injected error. Gives the sender, 255 where nothing is pending.
uint8_t floor_round(kf_state *state, kf_slot *slots, uint8_t *payload, uint8_t *queues) {
    uint64_t first = first_pending(state, slots);
    if (first == UINT64_MAX)
        return 255;
    size_t winner = (uint32_t)first;
    deliver(state, slots, payload, queues, winner);
    remove_frame(state, slots, payload, winner);
    discard_losers(state, slots, queues);
    state->round++;
    return (uint8_t)(winner / KF_SLOTS_PER_NODE);
}

size_t floor_collect(kf_state *state, const uint8_t *queues, uint32_t node, uint8_t *buffer) {
    size_t length = state->nodes[node].fill;
    memcpy(buffer, queues + node * KF_QUEUE_CAPACITY, length);
    state->nodes[node].fill = 0;
    return length;
}

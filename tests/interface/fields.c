/* Every field of every struct of the header, set on one side of the calls and looked at from the other. */
#include "check.h"
#include "lent.h"
#include "standard.h"

enum { NODES = 8, SLOT_BYTES = 2048, QUEUE_BYTES = 4096 };

static kf_slot slots[32];
static uint8_t payload[32 * SLOT_BYTES], queues[NODES * QUEUE_BYTES];
static const struct lent lent = {slots, 32, payload, sizeof payload, queues, sizeof queues};

/* No two neighbours alike. */
static uint8_t data[SLOT_BYTES];

static void fill_data(void) {
    for (size_t i = 0; i < sizeof data; i++) data[i] = (uint8_t)(i * 7 + i / 256);
}

static kf_state started(void) {
    kf_answer a = kf_start(LENT(lent), NODES);
    EXPECT(a.number == 0);
    return a.state;
}

/* What follows the state on the stack, node and buffer, arrives only where the state has its right size. */
static kf_state submitted(kf_state state, uint32_t node, const uint8_t *buffer, size_t length) {
    kf_answer a = kf_submit(state, LENT(lent), node, buffer, length);
    EXPECT(a.number == 0 && is_blank(a));
    return a.state;
}

static kf_state submitted_one(kf_state state, uint32_t node, kf_operation op) {
    uint8_t buffer[22 + SLOT_BYTES];
    return submitted(state, node, buffer, put_operation(buffer, op, data));
}

/* ---- kf_slot ---- */

static void expect_slot_fields(kf_slot s, kf_operation op, uint32_t owner, uint32_t accepted) {
    EXPECT(s.accepted == accepted && s.owner == owner && s.kind == op.code);
    EXPECT(s.id == op.id && s.af == op.word && s.length == op.length);
    EXPECT(s.first == op.first && s.second == op.second && s.third == op.third && s.fourth == op.fourth);
}

static void expect_slot_bytes(const uint8_t *slot, kf_operation op, uint32_t owner, uint32_t accepted) {
    uint8_t bytes[20];
    size_t at = put_number(bytes, put_number(bytes, 0, 4, accepted), 4, op.id);
    at = put_number(bytes, put_number(bytes, at, 4, op.word), 2, op.length);
    at = put_number(bytes, put_number(bytes, at, 1, op.code), 1, owner);
    EXPECT(put_flags(bytes, at, 4, op) == sizeof bytes);
    EXPECT(memcmp(slot, bytes, sizeof bytes) == 0);
}

static void slot_fields(void) {
    static const kf_operation transmits[] = {
        {0x12, 0x11121314, 0x31323334, 0x0515, 1, 0, 0x21, 0x22}, {0x12, 0x0411, 0x41424344, 0x0616, 0, 1, 0x23, 0x24},
        {0x11, 0x15161718, 0, 24, 1, 0, 0, 0},                    {0x11, 0x0412, 0, 12, 0, 1, 0, 0},
        {0x11, 0x0413, 0, 16, 0, 0, 1, 0},                        {0x10, 0x191A1B1C, 0, 7, 1, 0, 0, 0},
        {0x10, 0x0414, 0, 0, 0, 1, 0, 0},
    };
    kf_state state = started();
    for (uint32_t i = 0; i < sizeof transmits / sizeof transmits[0]; i++) {
        uint32_t node = 7 - i, p = 4 * node;
        state.round = 0x01020304 + i;
        state = submitted_one(state, node, transmits[i]);
        expect_slot_fields(slots[p], transmits[i], node, state.round);
        expect_slot_bytes((const uint8_t *)slots + 20 * p, transmits[i], node, state.round);
        EXPECT(memcmp(payload + SLOT_BYTES * p, data, transmits[i].length) == 0);
    }
}

/* ---- kf_state and kf_node_state ---- */

/* A setting of its own for each node. */
static kf_node_state setting(uint32_t j) {
    kf_node_state d = {{1000001 + j, 2000003 + j, 3000007 + j}, 0, 0, 0, 0};
    d.fill = (uint16_t)(10 + j + 1);
    d.status = j % 2 == 0 ? 2 : 1;
    d.behaviour = j % 3 == 0 ? 2 : 1;
    d.pending = (uint8_t)(j % 5);
    return d;
}

/* The buffer that leads to the setting: at last bytes that are no operation, for a Format Error in the queue. */
static size_t put_setting(uint8_t *to, uint32_t j) {
    kf_node_state d = setting(j);
    size_t at = 0;
    for (uint8_t kind = 1; kind <= 3; kind++) {
        at += put_operation(to + at, (kf_operation){0x40, 0, d.rates[kind - 1], 0, kind, 0, 0, 0}, NULL);
    }
    at += put_operation(to + at, (kf_operation){0x40, 0, d.behaviour, 0, 4, 0, 0, 0}, NULL);
    at += put_operation(to + at, (kf_operation){0x41, 0, 0, 0, d.status, 0, 0, 0}, NULL);
    for (uint32_t q = 0; q < d.pending; q++) {
        at += put_operation(to + at, (kf_operation){0x10, 16 * j + q, 0, 0, 0, 0, 0, 0}, NULL);
    }
    memset(to + at, 0xF0 + (int)j, j + 1);
    return at + j + 1;
}

static kf_state all_set(void) {
    uint8_t buffer[256];
    kf_state state = started();
    for (uint32_t j = 0; j < NODES; j++) state = submitted(state, j, buffer, put_setting(buffer, j));
    return state;
}

static void node_fields(void) {
    kf_state state = all_set();
    EXPECT(state.count == NODES && state.round == 0);
    for (uint32_t j = 0; j < NODES; j++) EXPECT(same_node(state.nodes[j], setting(j)));
}

/* What is set in a state by hand is what the next call goes by. */
static void node_fields_taken(void) {
    kf_state state = started();
    for (uint32_t j = 0; j < NODES; j++) {
        state.nodes[j].fill = (uint16_t)(1000 + j);
        memset(queues + QUEUE_BYTES * j, 0xE0 + (int)j, state.nodes[j].fill);
    }
    for (uint32_t j = 0; j < NODES; j++) {
        uint8_t buffer[QUEUE_BYTES];
        kf_answer a = kf_collect(state, LENT(lent), j, buffer, sizeof buffer);
        EXPECT(a.number == 0 && a.length == 1000 + j);
        EXPECT(memcmp(buffer, queues + QUEUE_BYTES * j, a.length) == 0);
        kf_state emptied = state;
        emptied.nodes[j].fill = 0;
        EXPECT(same_state(a.state, emptied));
    }
}

/* ---- kf_answer ---- */

/* A round that takes a frame of node 6 which has waited for long. */
static kf_state waiting(void) {
    kf_state state = started();
    state.round = 1000;
    state = submitted_one(state, 6, (kf_operation){0x10, 0x0ABCDEF1, 0, 3, 1, 0, 0, 0});
    state.round += 0x01020304;
    return state;
}

static void expect_carried(kf_answer a, int errored, uint32_t round) {
    EXPECT(a.number == 0 && a.id == 0x0ABCDEF1 && a.age == 0x01020304 && a.sender == 6);
    EXPECT(a.errored == errored && a.idle == 0 && a.length == 0 && a.state.round == round + 1);
}

static void answer_fields(void) {
    kf_state state = waiting();
    expect_carried(kf_round(state, LENT(lent), 0, 0, 0), 0, state.round);
    state = waiting();
    kf_answer a = kf_round(state, LENT(lent), 1, 4, 5);
    expect_carried(a, 1, state.round);
    kf_answer idle = kf_round(a.state, LENT(lent), 0, 0, 0);
    EXPECT(idle.number == 0 && idle.idle == 1 && same_state(idle.state, a.state));
    idle.idle = 0;
    EXPECT(is_blank(idle));
    a = kf_submit(a.state, LENT(lent), NODES, NULL, 0);
    EXPECT(a.number == 4 && is_blank(a) && same_state(a.state, idle.state));
}

/* The frame, sent, and the queue, collected, stay where they were. */
static void nothing_erased(void) {
    kf_state state = waiting();
    uint8_t buffer[QUEUE_BYTES], frame[3];
    kf_slot slot = slots[24];
    memcpy(frame, payload + SLOT_BYTES * 24, sizeof frame);
    kf_answer a = kf_round(state, LENT(lent), 0, 0, 0);
    EXPECT(a.state.nodes[6].pending == 0 && memcmp(&slots[24], &slot, sizeof slot) == 0);
    EXPECT(memcmp(payload + SLOT_BYTES * 24, frame, sizeof frame) == 0);
    a = kf_collect(a.state, LENT(lent), 0, buffer, sizeof buffer);
    EXPECT(a.length == 19 && a.state.nodes[0].fill == 0 && memcmp(queues, buffer, 19) == 0);
}

/* ---- results as bytes ---- */

/*
 * A result of more than 16 bytes goes where a hidden first argument points (System V ABI of x86-64). Here the same
 * functions are declared with that argument in the open: the room is filled with two patterns, and what is alike in
 * both after the calls was written.
 */
void *start_into(void *, kf_slot *, size_t, const uint8_t *, size_t, const uint8_t *, size_t, uint32_t)
    __asm__("kf_start");
void *submit_into(void *, kf_state, kf_slot *, size_t, uint8_t *, size_t, uint8_t *, size_t, uint32_t, const uint8_t *,
                  size_t) __asm__("kf_submit");
void *round_into(void *, kf_state, kf_slot *, size_t, uint8_t *, size_t, uint8_t *, size_t, uint32_t, uint32_t,
                 uint32_t) __asm__("kf_round");
void *collect_into(void *, kf_state, const kf_slot *, size_t, const uint8_t *, size_t, const uint8_t *, size_t,
                   uint32_t, uint8_t *, size_t) __asm__("kf_collect");
void *read_into(void *, const uint8_t *, size_t, size_t) __asm__("kf_read");
void *register_new_into(void *) __asm__("kf_register_new");
void *register_enter_into(void *, kf_register, const uint8_t *, size_t) __asm__("kf_register_enter");
void *register_read_into(void *, kf_register, const uint8_t *, size_t) __asm__("kf_register_read");

static const uint8_t patterns[2] = {0xA5, 0x5A};
static uint8_t room[2][4096];

static void *fresh(int i) {
    memset(room[i], patterns[i], sizeof room[i]);
    return room[i];
}

/* The number of a result's bytes, and the last one that a field has. */
static void expect_written(size_t last, size_t size) {
    EXPECT(room[0][0] == room[1][0] && room[0][last] == room[1][last]);
    for (int i = 0; i < 2; i++) {
        for (size_t k = size; k < sizeof room[i]; k++) EXPECT(room[i][k] == patterns[i]);
    }
}

static void expect_answer(void) {
    EXPECT(sizeof(kf_answer) == 188 && offsetof(kf_answer, state) == 20);
    expect_written(20 + 8 + 20 * 7 + 16, 188);
}

static uint32_t number_at(const uint8_t *bytes, size_t at, size_t width) {
    uint32_t value = 0;
    for (size_t i = width; i > 0; i--) value = value << 8 | bytes[at + i - 1];
    return value;
}

static void answer_bytes(void) {
    uint8_t buffer[QUEUE_BYTES];
    for (int i = 0; i < 2; i++) start_into(fresh(i), LENT(lent), NODES);
    expect_answer();
    kf_state state = started();
    for (int i = 0; i < 2; i++) submit_into(fresh(i), state, LENT(lent), 7, NULL, 0);
    expect_answer();
    for (int i = 0; i < 2; i++) collect_into(fresh(i), state, LENT(lent), 7, buffer, sizeof buffer);
    expect_answer();
    for (int i = 0; i < 2; i++) round_into(fresh(i), waiting(), LENT(lent), 1, 4, 5);
    expect_answer();
    const uint8_t *answer = room[0];
    EXPECT(number_at(answer, 0, 4) == 0 && number_at(answer, 4, 4) == 0x0ABCDEF1);
    EXPECT(number_at(answer, 8, 4) == 0x01020304 && number_at(answer, 12, 2) == 0);
    EXPECT(answer[14] == 6 && answer[15] == 0 && answer[16] == 1);
}

static void state_bytes(void) {
    kf_state state = all_set();
    state.round = 0x0A0B0C0D;
    submit_into(fresh(0), state, LENT(lent), 0, NULL, 0);
    EXPECT(sizeof(kf_state) == 168 && sizeof(kf_node_state) == 20);
    const uint8_t *bytes = room[0] + 20;
    EXPECT(number_at(bytes, 0, 4) == NODES && number_at(bytes, 4, 4) == 0x0A0B0C0D);
    for (uint32_t j = 0; j < NODES; j++) {
        const uint8_t *node = bytes + 8 + 20 * j;
        kf_node_state d = setting(j);
        for (size_t i = 0; i < 3; i++) EXPECT(number_at(node, 4 * i, 4) == d.rates[i]);
        EXPECT(number_at(node, 12, 2) == d.fill && node[14] == d.status && node[15] == d.behaviour);
        EXPECT(node[16] == d.pending);
    }
}

/* ---- kf_operation, kf_reading, kf_part, kf_written ---- */

static const kf_operation operations[] = {
    {0x01, 0, 0, 0x0123, 0, 0, 0, 0},
    {0x10, 0x11121314, 0, 7, 1, 0, 0, 0},
    {0x10, 0x0315, 0, 0, 0, 1, 0, 0},
    {0x11, 0x11121314, 0, 12, 1, 0, 0, 0},
    {0x11, 0x0316, 0, 20, 0, 1, 0, 0},
    {0x11, 0x0317, 0, 64, 0, 0, 1, 0},
    {0x12, 0x11121314, 0xA1A2A3A4, 0x0215, 1, 0, 0xF1, 0xF2},
    {0x12, 0x0318, 0xB1B2B3B4, 0x0116, 0, 1, 0xF3, 0xF4},
    {0x20, 0x11121314, 0, 0, 0, 0, 0, 0},
    {0x30, 0x15161718, 0, 0, 0, 0, 0, 0},
    {0x31, 0x191A1B1C, 0, 0, 6, 2, 1, 0},
    {0x40, 0, 0xC1C2C3C4, 0, 3, 0, 0, 0},
    {0x40, 0, 2, 0, 4, 0, 0, 0},
    {0x41, 0, 0, 0, 3, 0, 0, 0},
    {0x42, 0, 0, 0, 0, 0, 0, 0},
};
enum { OPERATIONS = sizeof operations / sizeof operations[0], BEFORE = 5, AFTER = 3 };

static void read_fields(void) {
    for (size_t i = 0; i < OPERATIONS; i++) {
        uint8_t buffer[BEFORE + 22 + SLOT_BYTES + AFTER];
        kf_operation op = operations[i];
        size_t end = BEFORE + put_operation(buffer + BEFORE, op, data), length = end + AFTER;
        kf_reading r = kf_read(buffer, length, BEFORE);
        EXPECT(r.end == 0 && r.fault == 0 && r.next == end && same_operation(r.operation, op));
        kf_part part = kf_data(buffer, length, r.operation, r.next);
        EXPECT(part.length == op.length && part.start == (op.length > 0 ? end - op.length : 0));
        r = kf_read(buffer, length, end);
        EXPECT(r.end == 0 && r.fault == 1 && r.next == length && same_operation(r.operation, (kf_operation){0}));
        r = kf_read(buffer, length, length + i);
        EXPECT(r.end == 1 && r.fault == 0 && r.next == length + i && same_operation(r.operation, (kf_operation){0}));
    }
}

static void write_fields(void) {
    for (size_t i = 0; i < OPERATIONS; i++) {
        uint8_t bytes[22 + SLOT_BYTES], buffer[22 + SLOT_BYTES + 1];
        kf_operation op = operations[i];
        size_t length = put_operation(bytes, op, data);
        memset(buffer, 0xA5, sizeof buffer);
        kf_written w = kf_write(op, data, op.length, buffer, length - 1);
        EXPECT(w.refusal == 11 && w.length == 0 && buffer[0] == 0xA5);
        w = kf_write(op, data, op.length, buffer, sizeof buffer);
        EXPECT(w.refusal == 0 && w.length == length);
        EXPECT(memcmp(buffer, bytes, length) == 0 && buffer[length] == 0xA5);
    }
}

static void reading_bytes(void) {
    uint8_t buffer[22 + SLOT_BYTES];
    kf_operation op = operations[6];
    size_t length = put_operation(buffer, op, data);
    for (int i = 0; i < 2; i++) read_into(fresh(i), buffer, length, 0);
    EXPECT(sizeof(kf_reading) == 40 && sizeof(kf_operation) == 20);
    expect_written(33, 40);
    const uint8_t *bytes = room[0];
    EXPECT(number_at(bytes, 0, 4) == 0 && number_at(bytes, 4, 4) == 0);
    EXPECT(number_at(bytes, 8, 4) == length && number_at(bytes, 12, 4) == 0);
    EXPECT(number_at(bytes, 16, 4) == op.code && number_at(bytes, 20, 4) == op.id);
    EXPECT(number_at(bytes, 24, 4) == op.word && number_at(bytes, 28, 2) == op.length);
    EXPECT(bytes[30] == op.first && bytes[31] == op.second && bytes[32] == op.third && bytes[33] == op.fourth);
}

/* ---- kf_register, kf_register_answer ---- */

static size_t put_transmit_of(uint8_t *to, uint32_t id) {
    return put_operation(to, (kf_operation){0x10, id, 0, 0, 1, 0, 0, 0}, NULL);
}

static kf_register full_register(void) {
    kf_register reg = kf_register_new();
    for (uint32_t i = 0; i < 345; i++) {
        uint8_t buffer[16];
        kf_register_answer a = kf_register_enter(reg, buffer, put_transmit_of(buffer, 0x01020300 + i));
        EXPECT(a.number == 0 && a.reg.count == i + 1 && a.reg.off == 0);
        reg = a.reg;
    }
    return reg;
}

static void register_fields(void) {
    kf_register reg = full_register();
    for (uint32_t i = 0; i < 345; i++) EXPECT(reg.ids[i] == 0x01020300 + i);
    uint8_t buffer[16];
    kf_register_answer a = kf_register_enter(reg, buffer, put_transmit_of(buffer, 1));
    EXPECT(a.number == 12 && memcmp(&a.reg, &reg, sizeof reg) == 0);
    size_t length = put_operation(buffer, (kf_operation){0x20, 0x01020300 + 344, 0, 0, 0, 0, 0, 0}, NULL);
    a = kf_register_read(reg, buffer, length);
    EXPECT(a.number == 0 && a.reg.count == 344 && a.reg.ids[343] == 0x01020300 + 343 && a.reg.ids[344] == 0);
    a = kf_register_read(a.reg, buffer, length);
    EXPECT(a.number == 13 && a.reg.count == 344);
    a = kf_register_enter(reg, buffer, put_operation(buffer, (kf_operation){0x41, 0, 0, 0, 3, 0, 0, 0}, NULL));
    EXPECT(a.number == 0 && a.reg.count == 0 && a.reg.off == 1 && a.reg.ids[0] == 0 && a.reg.ids[344] == 0);
}

/* What is set in a register by hand is what the next call goes by. */
static void register_fields_taken(void) {
    uint8_t buffer[16];
    kf_register reg = kf_register_new();
    reg.off = 0x01000000;
    kf_register_answer a = kf_register_enter(reg, buffer, put_transmit_of(buffer, 15));
    EXPECT(a.number == 0 && a.reg.count == 0 && a.reg.off == 1);
    reg.count = 1;
    a = kf_register_enter(reg, NULL, 0);
    EXPECT(a.number == 3 && a.reg.count == 1 && a.reg.off == 0x01000000);
    reg.off = 0;
    reg.count = 346;
    EXPECT(kf_register_read(reg, NULL, 0).number == 3);
    reg.count = 345;
    reg.ids[344] = 536870912;
    EXPECT(kf_register_read(reg, NULL, 0).number == 3);
    reg.ids[344] = 536870911;
    EXPECT(kf_register_read(reg, NULL, 0).number == 0);
}

static void register_bytes(void) {
    kf_register reg = full_register();
    EXPECT(sizeof(kf_register) == 1388 && sizeof(kf_register_answer) == 1392);
    for (int i = 0; i < 2; i++) register_new_into(fresh(i));
    expect_written(1387, 1388);
    for (int i = 0; i < 2; i++) register_enter_into(fresh(i), reg, NULL, 0);
    expect_written(1391, 1392);
    for (int i = 0; i < 2; i++) register_read_into(fresh(i), reg, NULL, 0);
    expect_written(1391, 1392);
    const uint8_t *bytes = room[0];
    EXPECT(number_at(bytes, 0, 4) == 0 && number_at(bytes, 4 + 1380, 4) == 345 && number_at(bytes, 1388, 4) == 0);
    for (uint32_t i = 0; i < 345; i++) EXPECT(number_at(bytes, 4 + 4 * i, 4) == 0x01020300 + i);
}

int main(void) {
    fill_data();
    test("fields of a slot", slot_fields);
    test("fields of a node", node_fields);
    test("fields of a node that is given", node_fields_taken);
    test("fields of an answer", answer_fields);
    test("nothing is erased", nothing_erased);
    test("bytes of an answer", answer_bytes);
    test("bytes of a state", state_bytes);
    test("fields of an operation that is read", read_fields);
    test("fields of an operation that is written", write_fields);
    test("bytes of a reading", reading_bytes);
    test("fields of a register", register_fields);
    test("fields of a register that is given", register_fields_taken);
    test("bytes of a register", register_bytes);
    return tested("fields");
}

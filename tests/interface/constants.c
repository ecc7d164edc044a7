/* Every constant of the header by what the calls do with it: at its boundary, or by its meaning. */
#include "check.h"
#include "lent.h"
#include "standard.h"

/* One more than is lent of each, so that a wrong length is still there. */
static kf_slot slots[KF_SLOTS + 1];
static uint8_t payload[KF_PAYLOAD_BYTES + 1], queues[KF_QUEUE_BYTES + 1], buffer[LONGEST_OPERATION], data[65535];
static const struct lent lent = {slots, KF_SLOTS, payload, KF_PAYLOAD_BYTES, queues, KF_QUEUE_BYTES};

static kf_state started(uint32_t count) {
    kf_answer a = kf_start(LENT(lent), count);
    EXPECT(a.number == KF_DONE && a.state.count == count);
    return a.state;
}

static kf_answer submit(kf_state state, uint32_t node, kf_operation op) {
    return kf_submit(state, LENT(lent), node, buffer, put_operation(buffer, op, data));
}

static kf_state submitted(kf_state state, uint32_t node, kf_operation op) {
    kf_answer a = submit(state, node, op);
    EXPECT(a.number == KF_DONE);
    return a.state;
}

static kf_answer play(kf_state state) { return kf_round(state, LENT(lent), 0, 0, 0); }

static kf_operation operation(uint32_t code) { return (kf_operation){code, 0, 0, 0, 0, 0, 0, 0}; }

static kf_operation transmit(uint32_t id) {
    kf_operation op = operation(KF_CAN_TRANSMIT);
    op.id = id;
    return op;
}

static kf_operation status(uint8_t value) {
    kf_operation op = operation(KF_STATUS);
    op.first = value;
    return op;
}

static kf_operation configuration(uint8_t kind, uint32_t value) {
    kf_operation op = operation(KF_CONFIGURATION);
    op.first = kind;
    op.word = value;
    return op;
}

/* The operation that node j collects first. */
static kf_operation collected(kf_state state, uint32_t j) {
    kf_answer a = kf_collect(state, LENT(lent), j, buffer, KF_QUEUE_CAPACITY);
    EXPECT(a.number == KF_DONE && a.length > 0);
    return kf_read(buffer, a.length, 0).operation;
}

/* ---- sizes ---- */

static void expect_memory(struct lent m, uint32_t number) {
    kf_state state = started(2);
    EXPECT(kf_start(LENT(m), 2).number == number);
    EXPECT(kf_submit(state, LENT(m), 0, NULL, 0).number == number);
    EXPECT(kf_round(state, LENT(m), 0, 0, 0).number == number);
    EXPECT(kf_collect(state, LENT(m), 0, NULL, 0).number == number);
}

static void memory_sizes(void) {
    expect_memory(lent, KF_DONE);
    for (int by = -1; by <= 1; by += 2) {
        struct lent m = lent;
        m.slots_length += (size_t)by;
        expect_memory(m, KF_WRONG_MEMORY);
        m = lent;
        m.payload_length += (size_t)by;
        expect_memory(m, KF_WRONG_MEMORY);
        m = lent;
        m.queues_length += (size_t)by;
        expect_memory(m, KF_WRONG_MEMORY);
    }
}

static void node_counts(void) {
    for (uint32_t count = 0; count < 300; count++) {
        kf_answer a = kf_start(LENT(lent), count);
        int attached = KF_MIN_NODES <= count && count <= KF_MAX_NODES;
        EXPECT(a.number == (attached ? KF_DONE : KF_BAD_NODE_COUNT) && a.state.count == (attached ? count : 0));
        EXPECT(kf_submit(a.state, LENT(lent), 0, NULL, 0).number == (attached ? KF_DONE : KF_INVALID));
        if (!attached) continue;
        EXPECT(kf_submit(a.state, LENT(lent), count - 1, NULL, 0).number == KF_DONE);
        EXPECT(kf_submit(a.state, LENT(lent), count, NULL, 0).number == KF_NOT_ATTACHED);
        EXPECT(kf_collect(a.state, LENT(lent), count, NULL, 0).number == KF_NOT_ATTACHED);
    }
}

/* The longest buffer that is no operation fills a queue: its Format Error has ten bytes more. */
static void longest_submit(void) {
    kf_state state = started(2);
    memset(buffer, 0xFF, KF_MAX_SUBMIT + 1);
    EXPECT(kf_submit(state, LENT(lent), 1, buffer, KF_MAX_SUBMIT + 1).number == KF_BUFFER_TOO_LONG);
    kf_answer a = kf_submit(state, LENT(lent), 1, buffer, KF_MAX_SUBMIT);
    EXPECT(a.number == KF_DONE && a.state.nodes[1].fill == KF_QUEUE_CAPACITY);
}

static void queue_capacity(void) {
    kf_state state = started(2);
    state.nodes[1].fill = KF_QUEUE_CAPACITY - 8;
    kf_answer a = submit(state, 0, operation(KF_WAKEUP));
    EXPECT(a.number == KF_DONE && a.state.nodes[1].fill == KF_QUEUE_CAPACITY);
    EXPECT(submit(a.state, 0, operation(KF_WAKEUP)).number == KF_QUEUE_FULL);
    EXPECT(kf_collect(a.state, LENT(lent), 1, buffer, KF_QUEUE_CAPACITY - 1).number == KF_BUFFER_TOO_SMALL);
    EXPECT(kf_collect(a.state, LENT(lent), 1, buffer, KF_QUEUE_CAPACITY).length == KF_QUEUE_CAPACITY);
    a.state.nodes[1].fill++;
    EXPECT(kf_collect(a.state, LENT(lent), 1, buffer, KF_QUEUE_CAPACITY + 1).number == KF_INVALID);
}

/* Node 1's queue begins at its capacity. */
static void queue_positions(void) {
    kf_state state = submitted(started(2), 0, operation(KF_WAKEUP));
    EXPECT(state.nodes[1].fill == 8 && memcmp(queues + KF_QUEUE_CAPACITY, buffer, 8) == 0);
}

static void slots_per_node(void) {
    kf_state state = started(2);
    for (uint32_t q = 0; q < KF_SLOTS_PER_NODE; q++) {
        state = submitted(state, 1, transmit(100 + q));
        EXPECT(state.nodes[1].pending == q + 1 && slots[KF_SLOTS_PER_NODE + q].id == 100 + q);
    }
    EXPECT(submit(state, 1, transmit(99)).number == KF_FOUR_PENDING);
    state.nodes[1].pending++;
    EXPECT(submit(state, 1, transmit(99)).number == KF_INVALID);
}

static void largest_round(void) {
    kf_state state = submitted(started(2), 0, transmit(15));
    state.round = KF_MAX_ROUND;
    EXPECT(play(state).number == KF_ROUNDS_USED_UP);
    state.round--;
    kf_answer a = play(state);
    EXPECT(a.number == KF_DONE && a.state.round == KF_MAX_ROUND && a.age == KF_MAX_ROUND - 1);
    a = play(a.state);
    EXPECT(a.number == KF_DONE && a.idle == 1 && a.state.round == KF_MAX_ROUND);
}

static size_t written(kf_operation op) { return kf_write(op, data, op.length, buffer, sizeof buffer).refusal; }

static void largest_ids(void) {
    const uint32_t transmits[] = {KF_CAN_TRANSMIT, KF_CAN_FD_TRANSMIT, KF_CAN_XL_TRANSMIT};
    for (size_t i = 0; i < 3; i++) {
        kf_operation op = operation(transmits[i]);
        op.length = 1;
        op.id = KF_MAX_STANDARD_ID;
        EXPECT(written(op) == KF_DONE);
        op.id = KF_MAX_STANDARD_ID + 1;
        EXPECT(written(op) == KF_RULE_BROKEN);
        op.first = 1;
        EXPECT(written(op) == KF_DONE);
        op.id = KF_MAX_ID;
        EXPECT(written(op) == KF_DONE);
        op.id = KF_MAX_ID + 1;
        EXPECT(written(op) == KF_RULE_BROKEN);
    }
}

static void largest_register(void) {
    kf_register reg = kf_register_new();
    kf_register_answer a = {KF_DONE, reg};
    size_t length = put_operation(buffer, transmit(15), NULL);
    for (uint32_t i = 0; i < KF_MAX_OPEN; i++) {
        a = kf_register_enter(a.reg, buffer, length);
        EXPECT(a.number == KF_DONE && a.reg.count == i + 1);
    }
    EXPECT(kf_register_enter(a.reg, buffer, length).number == KF_REGISTER_FULL);
    EXPECT(kf_register_read(a.reg, buffer, length).number == KF_DONE);
    length = put_operation(buffer, (kf_operation){KF_CONFIRM, 16, 0, 0, 0, 0, 0, 0}, NULL);
    EXPECT(kf_register_read(a.reg, buffer, length).number == KF_REGISTER_DIFFERS);
    a.reg.count = KF_MAX_OPEN + 1;
    EXPECT(kf_register_enter(a.reg, NULL, 0).number == KF_INVALID);
    reg.count = 1;
    reg.ids[0] = KF_MAX_ID;
    EXPECT(kf_register_enter(reg, NULL, 0).number == KF_DONE);
    reg.ids[0]++;
    EXPECT(kf_register_enter(reg, NULL, 0).number == KF_INVALID);
}

/* ---- operations ---- */

/* A legal operation of each code. */
static const kf_operation operations[] = {
    {KF_FORMAT_ERROR, 0, 0, 0, 0, 0, 0, 0},  {KF_CAN_TRANSMIT, 15, 0, 0, 0, 0, 0, 0},
    {KF_CAN_FD_TRANSMIT, 15, 0, 0, 0, 0, 0, 0}, {KF_CAN_XL_TRANSMIT, 15, 0, 1, 0, 0, 0, 0},
    {KF_CONFIRM, 15, 0, 0, 0, 0, 0, 0},      {KF_ARBITRATION_LOST, 15, 0, 0, 0, 0, 0, 0},
    {KF_BUS_ERROR, 15, 0, 0, 1, 1, 0, 0},    {KF_CONFIGURATION, 0, 1, 0, 1, 0, 0, 0},
    {KF_STATUS, 0, 0, 0, 1, 0, 0, 0},        {KF_WAKEUP, 0, 0, 0, 0, 0, 0, 0},
};
enum { OPERATIONS = sizeof operations / sizeof operations[0] };

static int is_code(uint32_t code) {
    for (size_t i = 0; i < OPERATIONS; i++) {
        if (operations[i].code == code) return 1;
    }
    return 0;
}

static void codes(void) {
    for (size_t i = 0; i < OPERATIONS; i++) {
        uint8_t bytes[64];
        size_t length = put_operation(bytes, operations[i], data);
        EXPECT(written(operations[i]) == KF_DONE && memcmp(buffer, bytes, length) == 0);
        EXPECT(same_operation(kf_read(bytes, length, 0).operation, operations[i]));
    }
    for (uint32_t code = 0; code < 0x10000; code++) {
        if (is_code(code)) continue;
        EXPECT(written(operation(code)) == KF_RULE_BROKEN);
        EXPECT(kf_read(buffer, put_operation(buffer, operation(code), NULL), 0).fault == KF_FAULT_UNKNOWN_CODE);
    }
}

/* A CAN Transmit, damaged: fewer bytes, another length, another DL. */
static void faults(void) {
    size_t length = put_operation(buffer, transmit(15), NULL);
    EXPECT(kf_read(buffer, length, 0).fault == 0);
    for (size_t n = 1; n < 8; n++) EXPECT(kf_read(buffer, n, 0).fault == KF_FAULT_TOO_FEW_BYTES);
    EXPECT(kf_read(buffer, 8, 0).fault == KF_FAULT_LENGTH_OUT_OF_RANGE);
    put_number(buffer, 4, 4, 7);
    EXPECT(kf_read(buffer, length, 0).fault == KF_FAULT_LENGTH_OUT_OF_RANGE);
    put_number(buffer, 4, 4, 15);
    EXPECT(kf_read(buffer, length, 0).fault == KF_FAULT_LENGTH_NOT_OF_KIND);
    length = put_operation(buffer, transmit(KF_MAX_STANDARD_ID + 1), NULL);
    EXPECT(kf_read(buffer, length, 0).fault == KF_FAULT_RULE_BROKEN);
}

/* A remote frame has DL 0: with data it is neither written nor read, is answered when submitted, by a Bus-Off node too,
   and is not valid in a state. */
static void remote_frames(void) {
    for (uint16_t length = 0; length <= 8; length++) {
        kf_operation op = transmit(15);
        op.second = 1;
        op.length = length;
        EXPECT(written(op) == (length == 0 ? KF_DONE : KF_RULE_BROKEN));
        size_t size = put_operation(buffer, op, data);
        EXPECT(kf_read(buffer, size, 0).fault == (length == 0 ? 0 : KF_FAULT_RULE_BROKEN));
        put_number(buffer, 4, 4, (uint32_t)size + 1);
        EXPECT(kf_read(buffer, size + 1, 0).fault == KF_FAULT_LENGTH_NOT_OF_KIND);

        kf_state state = submitted(submitted(started(2), 0, op), 1, status(KF_BUS_OFF));
        EXPECT(state.nodes[0].pending == (length == 0) && state.nodes[0].fill == (length == 0 ? 0 : 10 + size));
        state = submitted(state, 1, op);
        EXPECT(state.nodes[1].pending == 0 && state.nodes[1].fill == (length == 0 ? 0 : 10 + size));

        state = submitted(started(2), 0, transmit(15));
        slots[0].second = 1;
        slots[0].length = length;
        EXPECT(play(state).number == (length == 0 ? KF_DONE : KF_INVALID));
    }
}

/* Of the values 0 to 255 of a field, those from first to last are written. */
#define EXPECT_TABLE(op, field, first, last)                                                                           \
    for (int value = 0; value <= 255; value++) {                                                                       \
        (op).field = (uint8_t)value;                                                                                   \
        EXPECT(written(op) == (first <= value && value <= last ? KF_DONE : KF_RULE_BROKEN));                           \
    }

static void tables(void) {
    kf_operation op = {KF_BUS_ERROR, 15, 0, 0, 0, KF_PRIMARY_ERROR_FLAG, 0, 0};
    EXPECT_TABLE(op, first, KF_BIT_ERROR, KF_BROKEN_ERROR_FRAME);
    op.first = KF_BIT_ERROR;
    EXPECT_TABLE(op, second, KF_PRIMARY_ERROR_FLAG, KF_SECONDARY_ERROR_FLAG);
    op = configuration(0, 1);
    EXPECT_TABLE(op, first, KF_CAN_BAUDRATE, KF_ARBITRATION_LOST_BEHAVIOR);
    op = configuration(KF_ARBITRATION_LOST_BEHAVIOR, 0);
    EXPECT_TABLE(op, word, KF_BUFFER_AND_RETRANSMIT, KF_DISCARD_AND_NOTIFY);
    op = operation(KF_STATUS);
    EXPECT_TABLE(op, first, KF_ERROR_ACTIVE, KF_BUS_OFF);
}

/* A round takes an error code of the table, and no other number; all nodes are told it. */
static void error_codes(void) {
    kf_state state = submitted(started(3), 0, transmit(15));
    const uint32_t others[] = {0, KF_BROKEN_ERROR_FRAME + 1, 255, 256 + KF_BIT_ERROR, 0xFFFFFFFF};
    for (size_t i = 0; i < sizeof others / sizeof others[0]; i++) {
        EXPECT(kf_round(state, LENT(lent), 1, others[i], 0).number == KF_BAD_INJECTION);
    }
    for (uint32_t code = KF_BIT_ERROR; code <= KF_BROKEN_ERROR_FRAME; code++) {
        state = submitted(started(3), 0, transmit(15));
        kf_answer a = kf_round(state, LENT(lent), 1, code, 2);
        EXPECT(a.number == KF_DONE && a.errored == 1);
        for (uint32_t j = 0; j < 3; j++) EXPECT(collected(a.state, j).first == code);
    }
    EXPECT(KF_BIT_ERROR < KF_BIT_STUFFING_ERROR && KF_BIT_STUFFING_ERROR < KF_FORM_ERROR);
    EXPECT(KF_FORM_ERROR < KF_CRC_ERROR && KF_CRC_ERROR < KF_ACK_ERROR && KF_ACK_ERROR < KF_BROKEN_ERROR_FRAME);
}

static void detectors(void) {
    kf_state state = submitted(started(3), 0, transmit(15));
    EXPECT(kf_round(state, LENT(lent), 1, KF_BIT_ERROR, 3).number == KF_BAD_INJECTION);
    kf_answer a = kf_round(submitted(state, 2, status(KF_BUS_OFF)), LENT(lent), 1, KF_BIT_ERROR, 2);
    EXPECT(a.number == KF_BAD_INJECTION);
    a = kf_round(state, LENT(lent), 1, KF_BIT_ERROR, 2);
    for (uint32_t j = 0; j < 3; j++) {
        kf_operation op = collected(a.state, j);
        EXPECT(op.code == KF_BUS_ERROR && op.id == 15 && op.third == (j == 0));
        EXPECT(op.second == (j == 2 ? KF_PRIMARY_ERROR_FLAG : KF_SECONDARY_ERROR_FLAG));
    }
}

static void statuses(void) {
    kf_state state = submitted(started(2), 0, transmit(15));
    state = submitted(state, 0, operation(KF_CONFIRM));
    EXPECT(state.nodes[0].status == KF_ERROR_ACTIVE && state.nodes[0].pending == 1 && state.nodes[0].fill > 0);
    kf_node_state node = submitted(state, 0, status(KF_ERROR_PASSIVE)).nodes[0];
    EXPECT(node.status == KF_ERROR_PASSIVE && node.pending == 1 && node.fill > 0);
    node = submitted(state, 0, status(KF_BUS_OFF)).nodes[0];
    EXPECT(node.status == KF_BUS_OFF && node.pending == 0 && node.fill == 0);
}

static void configurations(void) {
    const uint8_t kinds[] = {KF_CAN_BAUDRATE, KF_CAN_FD_BAUDRATE, KF_CAN_XL_BAUDRATE};
    kf_state state = started(2);
    EXPECT(state.nodes[0].rates[0] == 500000 && state.nodes[0].rates[1] == 2000000);
    EXPECT(state.nodes[0].rates[2] == 10000000 && state.nodes[0].behaviour == KF_BUFFER_AND_RETRANSMIT);
    for (uint32_t i = 0; i < 3; i++) {
        state = submitted(state, 0, configuration(kinds[i], 1000 + i));
        EXPECT(state.nodes[0].rates[i] == 1000 + i);
    }
    state = submitted(state, 0, configuration(KF_ARBITRATION_LOST_BEHAVIOR, KF_DISCARD_AND_NOTIFY));
    EXPECT(state.nodes[0].behaviour == KF_DISCARD_AND_NOTIFY);
}

/* Node 1 loses arbitration to node 0. */
static kf_state lost_with(uint32_t behaviour) {
    kf_state state = submitted(started(3), 1, configuration(KF_ARBITRATION_LOST_BEHAVIOR, behaviour));
    state = submitted(submitted(state, 0, transmit(15)), 1, transmit(16));
    kf_answer a = play(state);
    EXPECT(a.number == KF_DONE && a.sender == 0);
    return a.state;
}

static void behaviours(void) {
    kf_state state = lost_with(KF_BUFFER_AND_RETRANSMIT);
    EXPECT(state.nodes[1].pending == 1 && collected(state, 1).code == KF_CAN_TRANSMIT);
    EXPECT(collected(state, 0).code == KF_CONFIRM);
    state = lost_with(KF_DISCARD_AND_NOTIFY);
    EXPECT(state.nodes[1].pending == 0);
    kf_answer a = kf_collect(state, LENT(lent), 1, buffer, sizeof buffer);
    kf_reading r = kf_read(buffer, a.length, kf_read(buffer, a.length, 0).next);
    EXPECT(r.operation.code == KF_ARBITRATION_LOST && r.operation.id == 16);
}

static void layout(void) { EXPECT(kf_layout() == KF_LAYOUT); }

int main(void) {
    test("layout", layout);
    test("sizes of lent memory", memory_sizes);
    test("node counts", node_counts);
    test("longest submit", longest_submit);
    test("queue capacity", queue_capacity);
    test("queue positions", queue_positions);
    test("slots per node", slots_per_node);
    test("largest round", largest_round);
    test("largest IDs", largest_ids);
    test("largest register", largest_register);
    test("codes", codes);
    test("faults", faults);
    test("remote frames", remote_frames);
    test("tables", tables);
    test("error codes", error_codes);
    test("detectors", detectors);
    test("statuses", statuses);
    test("configurations", configurations);
    test("behaviours", behaviours);
    return tested("constants");
}

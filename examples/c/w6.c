/*
 * Three nodes on a bus. Nodes 0 and 1 submit a frame each; the lower ID goes first, the other one waits and goes in the
 * next round. Each node keeps a register of its open frames: a submit opens one, a collected Confirm closes it.
 */
#include <kettlefrost.h>

#include <inttypes.h>
#include <stdio.h>
#include <stdlib.h>

enum { NODES = 3, ROUNDS = 3 };

/* The bus as its user keeps it: the state, and the memory that is lent to each call. */
struct bus {
    kf_state state;
    kf_slot slots[KF_SLOTS];
    uint8_t payload[KF_PAYLOAD_BYTES];
    uint8_t queues[KF_QUEUE_BYTES];
};

static void expect_done(uint64_t number, const char *call) {
    if (number != KF_DONE) {
        fprintf(stderr, "%s is refused with number %" PRIu64 "\n", call, number);
        exit(EXIT_FAILURE);
    }
}

/* ---- what is read is printed ---- */

static const char *name_of(uint32_t code) {
    switch (code) {
    case KF_CAN_TRANSMIT: return "CAN Transmit";
    case KF_CONFIRM: return "Confirm";
    default: return "another operation";
    }
}

static void print_data(const uint8_t *buffer, kf_part data) {
    if (data.length > 0) printf(" data");
    for (size_t i = 0; i < data.length; i++) printf(" %02X", (unsigned)buffer[data.start + i]);
}

static void print_operations(const char *before, const uint8_t *buffer, size_t length) {
    kf_reading r = kf_read(buffer, length, 0);
    for (; !r.end; r = kf_read(buffer, length, r.next)) {
        if (r.fault) {
            printf("%sfault %" PRIu32 "\n", before, r.fault);
            continue;
        }
        printf("%s%s ID %" PRIu32, before, name_of(r.operation.code), r.operation.id);
        print_data(buffer, kf_data(buffer, length, r.operation, r.next));
        printf("\n");
    }
}

static void print_open(const kf_register *registers) {
    for (int node = 0; node < NODES; node++) {
        printf("open at node %d:", node);
        for (uint32_t i = 0; i < registers[node].count; i++) printf(" %" PRIu32, registers[node].ids[i]);
        printf("%s\n", registers[node].count == 0 ? " none" : "");
    }
}

/* ---- the calls ---- */

static void start(struct bus *bus) {
    kf_answer a = kf_start(bus->slots, KF_SLOTS, bus->payload, sizeof bus->payload, bus->queues, sizeof bus->queues,
                           NODES);
    expect_done(a.number, "kf_start");
    bus->state = a.state;
    printf("start: %" PRIu32 " nodes\n", a.state.count);
}

/* A CAN Transmit, written to the front of a buffer, is submitted and entered. */
static void submit(struct bus *bus, kf_register *reg, uint32_t node, uint32_t id, const uint8_t *data,
                   uint16_t length) {
    uint8_t buffer[24]; /* the longest CAN Transmit */
    kf_operation transmit = {KF_CAN_TRANSMIT, id, 0, length, 0, 0, 0, 0};
    kf_written w = kf_write(transmit, data, length, buffer, sizeof buffer);
    expect_done(w.refusal, "kf_write");

    kf_answer a = kf_submit(bus->state, bus->slots, KF_SLOTS, bus->payload, sizeof bus->payload, bus->queues,
                            sizeof bus->queues, node, buffer, w.length);
    expect_done(a.number, "kf_submit");
    bus->state = a.state;

    kf_register_answer entered = kf_register_enter(*reg, buffer, w.length);
    expect_done(entered.number, "kf_register_enter");
    *reg = entered.reg;

    printf("node %" PRIu32, node);
    print_operations(" submits ", buffer, w.length);
}

static void play_round(struct bus *bus, int number) {
    kf_answer a = kf_round(bus->state, bus->slots, KF_SLOTS, bus->payload, sizeof bus->payload, bus->queues,
                           sizeof bus->queues, 0, 0, 0);
    expect_done(a.number, "kf_round");
    bus->state = a.state;
    if (a.idle) {
        printf("round %d: idle\n", number);
        return;
    }
    printf("round %d: node %u sent ID %" PRIu32 ", %s, age %" PRIu32 "\n", number, (unsigned)a.sender, a.id,
           a.errored ? "errored" : "delivered", a.age);
}

static void collect(struct bus *bus, kf_register *reg, uint32_t node) {
    uint8_t buffer[KF_QUEUE_CAPACITY];
    kf_answer a = kf_collect(bus->state, bus->slots, KF_SLOTS, bus->payload, sizeof bus->payload, bus->queues,
                             sizeof bus->queues, node, buffer, sizeof buffer);
    expect_done(a.number, "kf_collect");
    bus->state = a.state;

    kf_register_answer read = kf_register_read(*reg, buffer, a.length);
    expect_done(read.number, "kf_register_read");
    *reg = read.reg;

    printf("node %" PRIu32 " collects %u bytes\n", node, (unsigned)a.length);
    print_operations("  ", buffer, a.length);
}

int main(void) {
    static struct bus bus;
    static kf_register registers[NODES];
    static const uint8_t data[] = {0xAA, 0xBB};

    start(&bus);
    for (int node = 0; node < NODES; node++) registers[node] = kf_register_new();
    submit(&bus, &registers[0], 0, 15, data, sizeof data);
    submit(&bus, &registers[1], 1, 16, NULL, 0);
    print_open(registers);
    for (int number = 1; number <= ROUNDS; number++) play_round(&bus, number);
    for (uint32_t node = 0; node < NODES; node++) collect(&bus, &registers[node], node);
    print_open(registers);
    return EXIT_SUCCESS;
}

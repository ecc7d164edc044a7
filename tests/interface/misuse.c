/*
 * The calls with whatever a careless caller may pass: memory of wrong sizes, null pointers with length 0, states, slots
 * and registers that are garbage or damaged in one place, numbers of no node, buffers of garbage. The number that is
 * due is worked out here from the rules wherever it does not hang on what the operations in a buffer do; a refused call
 * must have changed nothing.
 *
 * usage: misuse heap|behind|before CALLS [SEED]
 */
#include "block.h"

#include "lent.h"
#include "standard.h"

#include <inttypes.h>

/* ---- chance ---- */

static uint64_t seed = 1;

static uint32_t any(void) {
    seed ^= seed << 13;
    seed ^= seed >> 7;
    seed ^= seed << 17;
    return (uint32_t)(seed >> 32);
}

static uint32_t below(uint32_t limit) { return any() % limit; }

static int one_in(uint32_t n) { return below(n) == 0; }

static void scramble(void *to, size_t length) {
    for (size_t i = 0; i < length; i++) ((uint8_t *)to)[i] = (uint8_t)any();
}

/* ---- what was met ---- */

enum { NUMBERS = 14, UNTOLD = 14 };

static unsigned long calls, met[NUMBERS];

static void meet(size_t number) {
    EXPECT(number < NUMBERS);
    met[number]++;
    calls++;
}

/* ---- a session that goes on wherever a call with nothing wrong is done ---- */

static kf_state state;
static kf_slot slots[KF_SLOTS];
static uint8_t payload[KF_PAYLOAD_BYTES], queues[KF_QUEUE_BYTES];

static void restart(void) {
    kf_answer a = kf_start(slots, KF_SLOTS, payload, sizeof payload, queues, sizeof queues, 2 + below(7));
    EXPECT(a.number == KF_DONE);
    state = a.state;
}

/* ---- validity, from the rules ---- */

static int legal_length(uint8_t kind, uint16_t length) {
    if (kind == 0x10) return length <= 8;
    if (kind == 0x12) return 1 <= length && length <= 2048;
    return length <= 8 || length == 12 || length == 16 || length == 20 || length == 24 || length == 32 ||
           length == 48 || length == 64;
}

static int legal_frame(kf_slot s) {
    if (s.kind < 0x10 || s.kind > 0x12) return 0;
    if (s.first > 1 || s.second > 1 || (s.kind == 0x11 && s.third > 1)) return 0;
    if (s.kind == 0x10 && s.second == 1 && s.length > 0) return 0;
    return s.id <= (s.first == 0 ? 2047u : 536870911u) && legal_length(s.kind, s.length);
}

static int valid_frames(const kf_slot *frames, uint32_t count, uint32_t owner, uint32_t round) {
    for (uint32_t q = 0; q < count; q++) {
        if (!legal_frame(frames[q]) || frames[q].owner != owner || frames[q].accepted > round) return 0;
        if (q > 0 && frames[q].accepted < frames[q - 1].accepted) return 0;
    }
    return 1;
}

static int valid_node(kf_node_state d) {
    return 1 <= d.status && d.status <= 3 && 1 <= d.behaviour && d.behaviour <= 2 && d.rates[0] != 0 &&
           d.rates[1] != 0 && d.rates[2] != 0 && d.fill <= 4096 && d.pending <= (d.status == 3 ? 0 : 4);
}

static int valid_state(kf_state s, const kf_slot *all) {
    if (s.count < 2 || s.count > 8) return 0;
    for (uint32_t j = 0; j < s.count; j++) {
        if (!valid_node(s.nodes[j]) || !valid_frames(all + 4 * j, s.nodes[j].pending, j, s.round)) return 0;
    }
    return 1;
}

static int valid_register(const kf_register *r) {
    if (r->count > 345 || (r->off != 0 && r->count != 0)) return 0;
    for (uint32_t i = 0; i < r->count; i++) {
        if (r->ids[i] > 536870911) return 0;
    }
    return 1;
}

/* ---- what a call is given ---- */

struct given {
    kf_state state;
    struct block slots, payload, queues, buffer;
    int as_kept; /* the session's own state and memory */
};

static size_t wrong_length(size_t right) {
    const size_t lengths[] = {0, 1, right - 1, right + 1, 2 * right};
    return lengths[below(5)];
}

/* One field of the state or of a node, or one byte of a slot, is another. */
static void damage(kf_state *s, kf_slot *all) {
    kf_node_state *d = &s->nodes[below(8)];
    uint32_t where = any(), what = any();
    switch (below(10)) {
    case 0: s->count = what % 12; break;
    case 1: s->round = what % 4; break;
    case 2: d->rates[where % 3] = what % 2; break;
    case 3: d->fill = (uint16_t)(4080 + what % 20); break;
    case 4: d->status = (uint8_t)(what % 5); break;
    case 5: d->behaviour = (uint8_t)(what % 4); break;
    case 6: d->pending = (uint8_t)(what % 6); break;
    default: ((uint8_t *)all)[where % (KF_SLOTS * sizeof(kf_slot))] = (uint8_t)(what % (what >> 31 ? 256 : 20));
    }
}

static void make_up_state(struct given *g, kf_slot *all) {
    g->state = state;
    memcpy(all, slots, sizeof slots);
    switch (below(8)) {
    case 0:
        scramble(&g->state, sizeof g->state);
        scramble(all, sizeof slots);
        if (one_in(2)) g->state.count = 2 + below(7);
        break;
    case 1: scramble(all, sizeof slots); break;
    case 2:
    case 3: damage(&g->state, all); break;
    case 4: g->state.round = KF_MAX_ROUND; break;
    default: g->as_kept = 1;
    }
}

static struct given make_up(void) {
    struct given g = {0};
    kf_slot all[KF_SLOTS];
    size_t lengths[3] = {KF_SLOTS, KF_PAYLOAD_BYTES, KF_QUEUE_BYTES};
    make_up_state(&g, all);
    if (one_in(8)) {
        uint32_t i = below(3);
        lengths[i] = wrong_length(lengths[i]);
        g.as_kept = 0;
    }
    g.slots = block_of(lengths[0] * sizeof(kf_slot), all, sizeof all);
    g.payload = block_of(lengths[1], payload, sizeof payload);
    g.queues = block_of(lengths[2], queues, sizeof queues);
    return g;
}

static struct lent lent_of(struct given g) {
    struct lent m = {(kf_slot *)(void *)g.slots.at, g.slots.length / sizeof(kf_slot), g.payload.at, g.payload.length,
                     g.queues.at, g.queues.length};
    return m;
}

/* Copies to compare with. */
static struct given copy_of(struct given g) {
    enum placing kept = placing;
    placing = HEAP;
    g.slots = block_of(g.slots.length, g.slots.at, g.slots.length);
    g.payload = block_of(g.payload.length, g.payload.at, g.payload.length);
    g.queues = block_of(g.queues.length, g.queues.at, g.queues.length);
    g.buffer = block_of(g.buffer.length, g.buffer.at, g.buffer.length);
    placing = kept;
    return g;
}

static void discard(struct given g) {
    free_block(g.slots);
    free_block(g.payload);
    free_block(g.queues);
    free_block(g.buffer);
}

static int same_bytes(struct block a, struct block b) { return a.length == 0 || memcmp(a.at, b.at, a.length) == 0; }

static int same_memory(struct given a, struct given b) {
    return same_bytes(a.slots, b.slots) && same_bytes(a.payload, b.payload) && same_bytes(a.queues, b.queues);
}

/* ---- garbage to submit, read and write ---- */

static kf_operation any_operation(void) {
    static const uint32_t codes[] = {0x01, 0x10, 0x11, 0x12, 0x20, 0x30, 0x31, 0x40, 0x41, 0x42};
    kf_operation op;
    scramble(&op, sizeof op);
    op.code = codes[one_in(2) ? 1 + below(3) : below(10)];
    op.id %= 24;
    op.word = 1 + below(4);
    op.length = (uint16_t)(op.code >= 0x20 ? 0 : below(9));
    op.first = (uint8_t)(op.code >= 0x31 ? 1 + below(4) : below(2));
    op.second = (uint8_t)(op.code == 0x31 ? 1 + below(2) : below(2));
    op.third %= 2;
    return op;
}

/* Operations one after the other, or plain garbage; then perhaps a damaged byte. */
static struct block any_buffer(void) {
    static const size_t lengths[] = {0, 1, 7, 8, 100, 1000, 4085, 4086, 4087, 6000};
    static uint8_t bytes[6000];
    size_t length = lengths[below(10)], at = 0, most = below(12);
    scramble(bytes, length);
    for (; !one_in(8) && at + 64 < length && most > 0; most--) {
        uint8_t data[8] = {0};
        at += put_operation(bytes + at, any_operation(), data);
    }
    if (one_in(2) && at > 0) length = at;
    if (one_in(4) && length > 0) scramble(bytes + below((uint32_t)length), 1);
    return block_of(length, bytes, length);
}

static uint32_t any_node(void) { return one_in(10) ? any() : below(9); }

/* ---- the calls of the bus ---- */

/* 1 or 3 where one is due, and else what the call has besides. */
static uint32_t due(struct given g, uint32_t besides) {
    struct lent m = lent_of(g);
    if (m.slots_length != 32 || m.payload_length != 65536 || m.queues_length != 32768) return 1;
    return valid_state(g.state, m.slots) ? besides : 3;
}

static void expect_number(uint32_t number, uint32_t due_number, uint32_t other, uint32_t another) {
    if (due_number == UNTOLD) {
        EXPECT(number == KF_DONE || number == other || number == another);
    } else {
        EXPECT(number == due_number);
    }
    meet(number);
}

/* Refused, a call has changed nothing; done, the session goes on from what it left. */
static void settle(struct given before, struct given after, kf_answer a) {
    if (a.number != KF_DONE) {
        EXPECT(is_blank(a) && same_state(a.state, before.state));
        EXPECT(same_memory(before, after) && same_bytes(before.buffer, after.buffer));
    } else if (before.as_kept) {
        state = a.state;
        memcpy(slots, after.slots.at, sizeof slots);
        memcpy(payload, after.payload.at, sizeof payload);
        memcpy(queues, after.queues.at, sizeof queues);
    }
    discard(before);
    discard(after);
}

static void start_call(void) {
    struct given g = make_up(), before = copy_of(g);
    struct lent m = lent_of(g);
    uint32_t count = one_in(4) ? any() : below(11);
    make_read_only(g.payload);
    make_read_only(g.queues);
    kf_answer a = kf_start(LENT(m), count);
    uint32_t number = due(before, 0) == 1 ? 1 : count < 2 || count > 8 ? 2 : 0;
    expect_number(a.number, number, 0, 0);
    EXPECT(is_blank(a) && a.state.count == (number == 0 ? count : 0) && a.state.round == 0);
    EXPECT(same_bytes(before.payload, g.payload) && same_bytes(before.queues, g.queues));
    static const kf_slot none[KF_SLOTS];
    EXPECT(number == 0 ? memcmp(g.slots.at, none, sizeof none) == 0 : same_bytes(before.slots, g.slots));
    discard(before);
    discard(g);
}

static void submit_call(void) {
    struct given g = make_up();
    g.buffer = any_buffer();
    struct given before = copy_of(g);
    uint32_t node = any_node();
    make_read_only(g.buffer);
    uint32_t besides = node >= g.state.count ? 4 : g.buffer.length > 4086 ? 5 : g.buffer.length == 0 ? 0 : UNTOLD;
    kf_answer a = kf_submit(g.state, LENT(lent_of(g)), node, g.buffer.at, g.buffer.length);
    expect_number(a.number, due(before, besides), 8, 9);
    settle(before, g, a);
}

static uint32_t pending_of(kf_state s) {
    uint32_t pending = 0;
    for (uint32_t j = 0; j < s.count && j < 8; j++) pending += s.nodes[j].pending;
    return pending;
}

static void round_call(void) {
    struct given g = make_up(), before = copy_of(g);
    uint32_t injected = one_in(2) ? 0 : any(), code = one_in(4) ? any() : below(9), detector = any_node();
    int told = injected == 0 || (1 <= code && code <= 6 && detector < g.state.count && detector < 8 &&
                                 g.state.nodes[detector].status != 3);
    uint32_t besides = !told ? 6 : pending_of(g.state) == 0 ? 0 : UNTOLD;
    kf_answer a = kf_round(g.state, LENT(lent_of(g)), injected, code, detector);
    expect_number(a.number, due(before, besides), 9, g.state.round == KF_MAX_ROUND ? 10 : 9);
    EXPECT(a.number != KF_DONE || a.idle == (besides == 0));
    EXPECT(a.number != KF_DONE || a.state.round == before.state.round + (a.idle == 0));
    EXPECT(a.idle == 0 || (same_state(a.state, before.state) && same_memory(before, g)));
    settle(before, g, a);
}

static void collect_call(void) {
    struct given g = make_up();
    uint32_t node = any_node(), fill = node < 8 ? g.state.nodes[node].fill : 0;
    g.buffer = block_of(one_in(4) ? KF_QUEUE_CAPACITY : one_in(2) ? fill : fill == 0 ? 0 : fill - 1, NULL, 0);
    struct given before = copy_of(g);
    make_read_only(g.slots);
    make_read_only(g.payload);
    make_read_only(g.queues);
    uint32_t besides = node >= g.state.count ? 4 : g.buffer.length < fill ? 11 : 0;
    kf_answer a = kf_collect(g.state, LENT(lent_of(g)), node, g.buffer.at, g.buffer.length);
    expect_number(a.number, due(before, besides), 0, 0);
    EXPECT(same_memory(before, g));
    if (a.number == KF_DONE) {
        EXPECT(a.length == fill);
        if (fill > 0) memcpy(before.buffer.at, before.queues.at + 4096 * node, fill);
        EXPECT(same_bytes(before.buffer, g.buffer));
        before.state.nodes[node].fill = 0;
        EXPECT(same_state(a.state, before.state));
    }
    settle(before, g, a);
}

/* ---- the calls on operations ---- */

/* Readings go forward to the end, and data lie in the buffer. */
static void read_calls(void) {
    struct block buffer = any_buffer();
    make_read_only(buffer);
    size_t at = 0;
    for (kf_reading r = kf_read(buffer.at, buffer.length, 0); !r.end; r = kf_read(buffer.at, buffer.length, at)) {
        EXPECT(r.fault <= 5 && at < r.next && r.next <= buffer.length);
        kf_part part = kf_data(buffer.at, buffer.length, r.operation, r.next);
        EXPECT(part.start + part.length == (part.length > 0 ? r.next : 0) && part.length == r.operation.length);
        at = r.next;
    }
    EXPECT(at == buffer.length);
    size_t past = at + (one_in(2) ? below(9) : SIZE_MAX - at);
    EXPECT(kf_read(buffer.at, buffer.length, past).end == 1);
    kf_operation op = any_operation();
    if (one_in(2)) scramble(&op, sizeof op);
    kf_part part = kf_data(buffer.at, buffer.length, op, one_in(2) ? below(6000) : SIZE_MAX - below(3));
    EXPECT(part.start <= buffer.length && part.length <= buffer.length - part.start);
    meet(KF_DONE);
    free_block(buffer);
}

/* What is written reads back; a refused write leaves the buffer. */
static void write_call(void) {
    kf_operation op = any_operation();
    if (one_in(4)) scramble(&op, sizeof op);
    if (one_in(16)) op.length = (uint16_t)(65535 - below(2));
    struct block data = block_of(one_in(8) ? below(9) : op.length, NULL, 0), buffer = block_of(below(64), NULL, 0);
    size_t length = buffer.length;
    make_read_only(data);
    kf_written w = kf_write(op, data.at, data.length, buffer.at, length);
    EXPECT(w.refusal == 0 || w.refusal == 7 || w.refusal == 11);
    EXPECT(w.length <= length && (w.refusal == 0) == (w.length > 0));
    for (size_t i = w.length; i < length; i++) EXPECT(buffer.at[i] == 0xEE);
    if (w.refusal == 0) {
        kf_reading r = kf_read(buffer.at, length, 0);
        EXPECT(r.end == 0 && r.fault == 0 && r.next == w.length && r.operation.code == op.code);
        EXPECT(r.operation.length == data.length);
    }
    meet(w.refusal);
    free_block(data);
    free_block(buffer);
}

/* ---- the calls of the register ---- */

static kf_register any_register(void) {
    static const uint32_t counts[] = {0, 1, 5, 343, 345, 346, 0xFFFFFFFF};
    kf_register r;
    scramble(&r, sizeof r);
    for (size_t i = 0; i < 345; i++) r.ids[i] %= one_in(4000) ? 0xFFFFFFFF : 24;
    if (!one_in(8)) r.count = counts[below(7)];
    if (!one_in(4)) r.off = 0;
    return r;
}

static void register_call(void) {
    kf_register r = any_register();
    struct block buffer = any_buffer();
    make_read_only(buffer);
    int entering = one_in(2);
    kf_register_answer a = entering ? kf_register_enter(r, buffer.at, buffer.length)
                                    : kf_register_read(r, buffer.at, buffer.length);
    uint32_t other = entering ? 12 : 13;
    expect_number(a.number, !valid_register(&r) ? 3 : buffer.length == 0 ? 0 : UNTOLD, other, other);
    EXPECT(a.number == KF_DONE ? valid_register(&a.reg) : memcmp(&a.reg, &r, sizeof r) == 0);
    for (uint32_t i = a.reg.count; a.number == KF_DONE && i < 345; i++) EXPECT(a.reg.ids[i] == 0);
    free_block(buffer);
}

/* ---- null pointers ---- */

/* Every call with nothing at all: the length 0 may come with a null pointer. */
static void null_pointers(void) {
    const kf_operation wakeup = {KF_WAKEUP, 0, 0, 0, 0, 0, 0, 0};
    const struct lent none = {NULL, 0, NULL, 0, NULL, 0};
    const struct lent kept = {slots, KF_SLOTS, payload, sizeof payload, queues, sizeof queues};
    EXPECT(kf_start(LENT(none), 2).number == KF_WRONG_MEMORY);
    EXPECT(kf_submit(state, LENT(none), 0, NULL, 0).number == KF_WRONG_MEMORY);
    EXPECT(kf_round(state, LENT(none), 0, 0, 0).number == KF_WRONG_MEMORY);
    EXPECT(kf_collect(state, LENT(none), 0, NULL, 0).number == KF_WRONG_MEMORY);
    kf_answer a = kf_submit(state, LENT(kept), 0, NULL, 0);
    EXPECT(a.number == KF_DONE && same_state(a.state, state));
    a = kf_collect(state, LENT(kept), 0, NULL, 0);
    EXPECT(a.number == KF_DONE && a.length == 0 && same_state(a.state, state));
    EXPECT(kf_read(NULL, 0, 0).end == 1);
    EXPECT(kf_data(NULL, 0, wakeup, 8).length == 0);
    EXPECT(kf_write(wakeup, NULL, 0, NULL, 0).refusal == KF_BUFFER_TOO_SMALL);
    EXPECT(kf_register_enter(kf_register_new(), NULL, 0).number == KF_DONE);
    EXPECT(kf_register_read(kf_register_new(), NULL, 0).number == KF_DONE);
}

/* ---- memory as it comes ---- */

/* A bus on memory that nobody wrote to before the start: nothing that is done hangs on what it held. */
static void unwritten_memory(void) {
    struct given g = {0};
    g.slots = new_block(sizeof slots);
    g.payload = new_block(sizeof payload);
    g.queues = new_block(sizeof queues);
    g.buffer = new_block(KF_QUEUE_CAPACITY);
    struct lent m = lent_of(g);
    uint8_t frame[64];
    size_t length = put_operation(frame, (kf_operation){0x10, 15, 0, 2, 0, 0, 0, 0}, (const uint8_t *)"\xAA\xBB");
    kf_answer a = kf_start(LENT(m), 2);
    a = kf_submit(a.state, LENT(m), 0, frame, length);
    a = kf_round(a.state, LENT(m), 0, 0, 0);
    a = kf_collect(a.state, LENT(m), 1, g.buffer.at, g.buffer.length);
    EXPECT(a.number == KF_DONE && a.length == length && memcmp(g.buffer.at, frame, length) == 0);
    discard(g);
}

/* ---- all of them ---- */

static void any_call(void) {
    if (one_in(200)) restart();
    switch (below(12)) {
    case 0: start_call(); break;
    case 1:
    case 2:
    case 3: submit_call(); break;
    case 4:
    case 5:
    case 6: round_call(); break;
    case 7:
    case 8: collect_call(); break;
    case 9: read_calls(); break;
    case 10: write_call(); break;
    default: register_call();
    }
}

static enum placing placing_named(const char *name) {
    if (strcmp(name, "behind") == 0) return BEHIND;
    if (strcmp(name, "before") == 0) return BEFORE;
    EXPECT(strcmp(name, "heap") == 0);
    return HEAP;
}

int main(int count, char **words) {
    running = "misuse";
    if (count < 3) {
        fprintf(stderr, "usage: misuse heap|behind|before CALLS [SEED]\n");
        return EXIT_FAILURE;
    }
    placing = placing_named(words[1]);
    unsigned long wanted = strtoul(words[2], NULL, 10);
    if (count > 3) seed = strtoull(words[3], NULL, 10);
    restart();
    null_pointers();
    unwritten_memory();
    while (calls < wanted) any_call();
    printf("misuse %s: %lu calls; by number", words[1], calls);
    for (size_t n = 0; n < NUMBERS; n++) printf(" %zu:%lu", n, met[n]);
    printf("\n");
    for (size_t n = 0; n < NUMBERS; n++) EXPECT(met[n] > 0);
    return EXIT_SUCCESS;
}

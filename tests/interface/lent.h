/* What is lent to the calls of the bus. */
#ifndef LENT_H
#define LENT_H

#include <kettlefrost.h>
#include <string.h>

struct lent {
    kf_slot *slots;
    size_t slots_length;
    uint8_t *payload;
    size_t payload_length;
    uint8_t *queues;
    size_t queues_length;
};

/* The six arguments of a call. */
#define LENT(m) (m).slots, (m).slots_length, (m).payload, (m).payload_length, (m).queues, (m).queues_length

/* Field by field: the bytes between the fields are nobody's. */
static inline int same_node(kf_node_state a, kf_node_state b) {
    return memcmp(a.rates, b.rates, sizeof a.rates) == 0 && a.fill == b.fill && a.status == b.status &&
           a.behaviour == b.behaviour && a.pending == b.pending;
}

static inline int same_state(kf_state a, kf_state b) {
    int same = a.count == b.count && a.round == b.round;
    for (int j = 0; j < 8; j++) same = same && same_node(a.nodes[j], b.nodes[j]);
    return same;
}

/* What a refusal answers besides its number and the state. */
static inline int is_blank(kf_answer a) {
    return a.id == 0 && a.age == 0 && a.length == 0 && a.sender == 0 && a.idle == 0 && a.errored == 0;
}

static inline int same_operation(kf_operation a, kf_operation b) {
    return a.code == b.code && a.id == b.id && a.word == b.word && a.length == b.length && a.first == b.first &&
           a.second == b.second && a.third == b.third && a.fourth == b.fourth;
}

#endif

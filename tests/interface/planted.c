/*
 * A collect with a fault planted, for misuse.c to find: the environment variable PLANT says which. Linked in with
 * -Wl,--wrap=kf_collect.
 */
#include <kettlefrost.h>

#include <stdlib.h>
#include <string.h>

kf_answer __real_kf_collect(kf_state, const kf_slot *, size_t, const uint8_t *, size_t, const uint8_t *, size_t,
                            uint32_t, uint8_t *, size_t);
kf_answer __wrap_kf_collect(kf_state, const kf_slot *, size_t, const uint8_t *, size_t, const uint8_t *, size_t,
                            uint32_t, uint8_t *, size_t);

static int planted(const char *name) {
    const char *plant = getenv("PLANT");
    return plant != NULL && strcmp(plant, name) == 0;
}

static void touch(const uint8_t *byte) { *(volatile uint8_t *)byte; }

static void write_to(const uint8_t *byte) { *(volatile uint8_t *)byte = *byte; }

kf_answer __wrap_kf_collect(kf_state state, const kf_slot *slots, size_t slots_length, const uint8_t *payload,
                            size_t payload_length, const uint8_t *queues, size_t queues_length, uint32_t node,
                            uint8_t *buffer, size_t buffer_length) {
    kf_answer a = __real_kf_collect(state, slots, slots_length, payload, payload_length, queues, queues_length, node,
                                    buffer, buffer_length);
    int refused = a.number != KF_DONE;
    if (planted("number") && a.number == KF_INVALID) a.number = KF_NOT_ATTACHED;
    if (planted("state") && refused) a.state.nodes[7].pending ^= 1;
    if (planted("value") && refused) a.length = 1;
    if (planted("buffer") && refused && buffer_length > 0) buffer[buffer_length - 1] ^= 1;
    if (planted("length") && !refused && buffer_length > a.length) buffer[a.length] ^= 1;
    if (planted("behind") && queues_length > 0) touch(queues + queues_length);
    if (planted("before") && queues_length > 0) touch(queues - 1);
    if (planted("constant") && payload_length > 0) write_to(payload);
    return a;
}

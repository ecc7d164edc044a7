// The header from C++: one call of each shape.
#include <kettlefrost.h>

#include <vector>

int main() {
    std::vector<kf_slot> slots(KF_SLOTS);
    std::vector<uint8_t> payload(KF_PAYLOAD_BYTES), queues(KF_QUEUE_BYTES), buffer(KF_QUEUE_CAPACITY);
    kf_answer a = kf_start(slots.data(), slots.size(), payload.data(), payload.size(), queues.data(), queues.size(), 2);
    kf_operation wakeup = {KF_WAKEUP, 0, 0, 0, 0, 0, 0, 0};
    kf_written w = kf_write(wakeup, nullptr, 0, buffer.data(), buffer.size());
    a = kf_submit(a.state, slots.data(), slots.size(), payload.data(), payload.size(), queues.data(), queues.size(), 0,
                  buffer.data(), w.length);
    a = kf_collect(a.state, slots.data(), slots.size(), payload.data(), payload.size(), queues.data(), queues.size(), 1,
                   buffer.data(), buffer.size());
    kf_register_answer r = kf_register_read(kf_register_new(), buffer.data(), a.length);
    bool woken = kf_read(buffer.data(), a.length, 0).operation.code == KF_WAKEUP;
    return kf_layout() == KF_LAYOUT && woken && a.number == KF_DONE && r.number == KF_DONE ? 0 : 1;
}

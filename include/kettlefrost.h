/*
 * Kettlefrost: a simulated CAN bus (CAN, CAN FD, CAN XL) between 2 to 8 nodes, for co-simulation, proved correct.
 *
 * Nodes submit operations of FMI-LS-BUS, the FMI layered standard for network communication. A round takes the pending
 * frame with the lowest ID and queues what each node is to be told; a node collects its queue. Operations are bytes
 * laid out as in the standard's CAN chapter (little-endian: code, length, fields, data): what a model makes with the
 * standard's own headers is submitted as it is, and what is collected is read with them, or with kf_read and kf_data.
 *
 *     static kf_slot slots[KF_SLOTS]; static uint8_t payload[KF_PAYLOAD_BYTES], queues[KF_QUEUE_BYTES];
 *     kf_answer a = kf_start(slots, KF_SLOTS, payload, sizeof payload, queues, sizeof queues, 3);
 *     a = kf_submit(a.state, slots, KF_SLOTS, payload, sizeof payload, queues, sizeof queues, 0, in, in_length);
 *     a = kf_round(a.state, slots, KF_SLOTS, payload, sizeof payload, queues, sizeof queues, 0, 0, 0);
 *     a = kf_collect(a.state, slots, KF_SLOTS, payload, sizeof payload, queues, sizeof queues, 1, out, sizeof out);
 *
 * After each call a.number is KF_DONE or says why the call was refused, and a.state is the state to go on with. After
 * the last one the first a.length bytes of out, for which KF_QUEUE_CAPACITY bytes will always do, are what node 1 gets.
 *
 * What is proved of every call, whatever bytes, numbers, state and register it is given:
 *
 * - It returns, stays within the memory it is given, and answers with the first number of its list below that applies,
 *   or with KF_DONE where none does.
 * - Refused, it changes no byte of that memory and hands the state or the register back as it was; all other values of
 *   its answer are 0. (A refused start has none to hand back: it gives a state of node count 0 and round 0 with the
 *   entries of eight new nodes, which no call takes: KF_INVALID.)
 * - Done, it writes what its comment says and nothing else. To remove a frame or empty a queue erases nothing: slots
 *   and payload of no frame and a queue past its fill keep what they held, as does a buffer past the length given.
 *
 * No call keeps a pointer, allocates memory or has variables of its own, so calls on different buses are independent,
 * in any threads. A bus is a state with its slots, payload and queues. Calls on one bus must not overlap in time, and
 * each is given the state that the last one handed back: threads that share a bus need a lock of their own, held from
 * reading the state to storing the new one. The same goes for a register.
 *
 * The library is built for x86-64, for processors from x86-64-v2 on, and needs of the C library memcpy, memmove and
 * memset alone.
 *
 * What is asked of the caller: a pointer leads to as much memory as the length after it says (a null pointer will do
 * for length 0), and memory that a call may write overlaps nothing else that it is given. Slots, payload and queues may
 * hold anything before a start; from then on only the calls write to them.
 */
#ifndef KETTLEFROST_H
#define KETTLEFROST_H

#include <stddef.h>
#include <stdint.h>

#ifdef __cplusplus
extern "C" {
#endif

/* ---- Version ---- */

/* As long as MAJOR is 0, a new MINOR may change the records: see kf_layout. */
#define KF_VERSION_MAJOR 0
#define KF_VERSION_MINOR 1
#define KF_VERSION_PATCH 0

/* ---- Sizes ---- */

/* What is lent to every call of the bus: KF_SLOTS slots, KF_PAYLOAD_BYTES and KF_QUEUE_BYTES bytes. */
enum {
    KF_MIN_NODES = 2,
    KF_MAX_NODES = 8,
    KF_SLOTS = 32,
    KF_PAYLOAD_BYTES = 65536,
    KF_QUEUE_BYTES = 32768,
    KF_QUEUE_CAPACITY = 4096, /* bytes of one node's queue: a collect never needs more room */
    KF_SLOTS_PER_NODE = 4,    /* pending frames of one node */
    KF_MAX_SUBMIT = 4086,     /* bytes of one submit */
    KF_MAX_OPEN = 345,        /* IDs of one register */
    KF_MAX_ID = 536870911,    /* 29 bits */
    KF_MAX_STANDARD_ID = 2047 /* 11 bits */
};
#define KF_MAX_ROUND 4294967295u

/* ---- Numbers that calls answer with ---- */

enum {
    KF_DONE = 0,
    KF_WRONG_MEMORY = 1,     /* not KF_SLOTS slots, KF_PAYLOAD_BYTES and KF_QUEUE_BYTES bytes */
    KF_BAD_NODE_COUNT = 2,   /* not KF_MIN_NODES to KF_MAX_NODES */
    KF_INVALID = 3,          /* the state or the register is not valid, see there */
    KF_NOT_ATTACHED = 4,     /* the node number is not below the node count */
    KF_BUFFER_TOO_LONG = 5,  /* above KF_MAX_SUBMIT bytes */
    KF_BAD_INJECTION = 6,    /* no error code of the table, or its node is not attached or is Bus-Off */
    KF_RULE_BROKEN = 7,      /* a content rule, or data of another length than the operation says */
    KF_FOUR_PENDING = 8,     /* a Transmit while the node has KF_SLOTS_PER_NODE frames pending */
    KF_QUEUE_FULL = 9,       /* a queue cannot hold what it is to get */
    KF_ROUNDS_USED_UP = 10,  /* the round number is KF_MAX_ROUND */
    KF_BUFFER_TOO_SMALL = 11,
    KF_REGISTER_FULL = 12,   /* one more than KF_MAX_OPEN IDs */
    KF_REGISTER_DIFFERS = 13 /* a closing operation whose ID is not open */
};

/* ---- Operations ---- */

/* Codes. */
enum {
    KF_FORMAT_ERROR = 0x01,
    KF_CAN_TRANSMIT = 0x10,
    KF_CAN_FD_TRANSMIT = 0x11,
    KF_CAN_XL_TRANSMIT = 0x12,
    KF_CONFIRM = 0x20,
    KF_ARBITRATION_LOST = 0x30,
    KF_BUS_ERROR = 0x31,
    KF_CONFIGURATION = 0x40,
    KF_STATUS = 0x41,
    KF_WAKEUP = 0x42
};

/* Error Code of a Bus Error. */
enum {
    KF_BIT_ERROR = 1,
    KF_BIT_STUFFING_ERROR = 2,
    KF_FORM_ERROR = 3,
    KF_CRC_ERROR = 4,
    KF_ACK_ERROR = 5,
    KF_BROKEN_ERROR_FRAME = 6
};

/* Error Flag of a Bus Error. */
enum {
    KF_PRIMARY_ERROR_FLAG = 1,
    KF_SECONDARY_ERROR_FLAG = 2
};

/* Kind of a Configuration. The first three carry a baud rate, the last an Arbitration Lost Behavior. */
enum {
    KF_CAN_BAUDRATE = 1,
    KF_CAN_FD_BAUDRATE = 2,
    KF_CAN_XL_BAUDRATE = 3,
    KF_ARBITRATION_LOST_BEHAVIOR = 4
};

/* Arbitration Lost Behavior. */
enum {
    KF_BUFFER_AND_RETRANSMIT = 1,
    KF_DISCARD_AND_NOTIFY = 2
};

/* Status. */
enum {
    KF_ERROR_ACTIVE = 1,
    KF_ERROR_PASSIVE = 2,
    KF_BUS_OFF = 3
};

/*
 * An operation without its data:
 *
 *     code                 id  word   length  first       second      third      fourth
 *     KF_FORMAT_ERROR                 n
 *     KF_CAN_TRANSMIT      ID         DL      Ide         Rtr
 *     KF_CAN_FD_TRANSMIT   ID         DL      Ide         Brs         Esi
 *     KF_CAN_XL_TRANSMIT   ID  AF     DL      Ide         Sec         SDT        VCID
 *     KF_CONFIRM           ID
 *     KF_ARBITRATION_LOST  ID
 *     KF_BUS_ERROR         ID                 Error Code  Error Flag  Is Sender
 *     KF_CONFIGURATION         value          kind
 *     KF_STATUS                               status
 *     KF_WAKEUP
 *
 * What a kind does not have is 0 where it is read and is not looked at where it is written.
 *
 * Content rules: Ide, Rtr, Brs, Esi, Sec and Is Sender are 0 or 1. An ID is at most KF_MAX_ID, and in a Transmit with
 * Ide 0 at most KF_MAX_STANDARD_ID. DL is 0 to 8 for CAN; 0 to 8, 12, 16, 20, 24, 32, 48 or 64 for CAN FD; 1 to 2048
 * for CAN XL. A remote frame (Rtr 1) has no data field: its DL is 0. A baud rate is not 0. Error Code, Error Flag, kind,
 * behavior and status are of the tables above.
 */
typedef struct kf_operation {
    uint32_t code;
    uint32_t id;
    uint32_t word;
    uint16_t length;
    uint8_t first;
    uint8_t second;
    uint8_t third;
    uint8_t fourth;
} kf_operation;

/* Why bytes are no operation: the first that applies. */
enum {
    KF_FAULT_TOO_FEW_BYTES = 1,       /* 1 to 7 bytes remain */
    KF_FAULT_LENGTH_OUT_OF_RANGE = 2, /* the length is below 8 or beyond what remains */
    KF_FAULT_UNKNOWN_CODE = 3,
    KF_FAULT_LENGTH_NOT_OF_KIND = 4,  /* not the one of the code with its DL, n or kind */
    KF_FAULT_RULE_BROKEN = 5          /* a content rule */
};

/* What stands at a position: the end (end is 1), a fault (fault is not 0), or an operation. */
typedef struct kf_reading {
    uint32_t end;
    uint32_t fault;
    size_t next; /* the position after it: of faults 1 and 2 the buffer's length, at the end the position itself */
    kf_operation operation; /* all 0 at the end and at a fault */
} kf_reading;

/* A part of a buffer. */
typedef struct kf_part {
    size_t start;
    size_t length;
} kf_part;

typedef struct kf_written {
    size_t refusal; /* KF_DONE, or the number that the write is refused with */
    size_t length;  /* of the operation with its data */
} kf_written;

/* Reads what stands at a position. Every position is answered, those past the end too; none is refused. */
kf_reading kf_read(const uint8_t *buffer, size_t buffer_length, size_t at);

/*
 * Where the data of an operation lie that ends at position next of the buffer, as kf_read gave the two. Start and
 * length are both 0 where there are no data: DL or n is 0, the kind has neither, the code is unknown, or the operation
 * does not lie whole in the buffer before next.
 */
kf_part kf_data(const uint8_t *buffer, size_t buffer_length, kf_operation operation, size_t next);

/*
 * Writes an operation with its data to the front of the buffer.
 * Refusals: KF_RULE_BROKEN (unknown codes too; data_length is not DL or n, or not 0 where the kind has neither),
 * KF_BUFFER_TOO_SMALL.
 */
kf_written kf_write(kf_operation operation, const uint8_t *data, size_t data_length, uint8_t *buffer,
                    size_t buffer_length);

/* ---- The bus ---- */

/*
 * A pending frame but for its data. Slot 4 j + q is frame q of node j, oldest first; the data of slot p lie from byte
 * 2048 p of the payload on. Fields that the kind does not have are 0 when a submit writes the slot and are not looked
 * at when it is read. A slot past those of its node's pending frames is not looked at and may hold anything.
 */
typedef struct kf_slot {
    uint32_t accepted; /* the round number at which it was accepted */
    uint32_t id;
    uint32_t af;
    uint16_t length; /* DL */
    uint8_t kind;    /* the code of the Transmit; a start leaves 0 */
    uint8_t owner;   /* the node */
    uint8_t first;   /* first to fourth: as in kf_operation */
    uint8_t second;
    uint8_t third;
    uint8_t fourth;
} kf_slot;

/* One node. Its queue is the first fill bytes from byte KF_QUEUE_CAPACITY j of the queues on. */
typedef struct kf_node_state {
    uint32_t rates[3]; /* baud rates of CAN, CAN FD, CAN XL; 500000, 2000000, 10000000 at start */
    uint16_t fill;
    uint8_t status;    /* KF_ERROR_ACTIVE at start */
    uint8_t behaviour; /* Arbitration Lost Behavior; KF_BUFFER_AND_RETRANSMIT at start */
    uint8_t pending;   /* frames */
} kf_node_state;

/*
 * The state of the bus beside the lent memory.
 *
 * It is valid when count is KF_MIN_NODES to KF_MAX_NODES and every node below count has status and behaviour of the
 * tables, no baud rate 0, fill at most KF_QUEUE_CAPACITY, pending at most KF_SLOTS_PER_NODE and 0 when Bus-Off, and in
 * each of its pending slots a Transmit that meets the content rules, with itself as owner, accepted not before the slot
 * ahead of it nor after the present round. Nothing is asked of other nodes and slots. A call that is done leaves it
 * valid.
 */
typedef struct kf_state {
    uint32_t count; /* attached nodes: numbers 0 to count - 1 */
    uint32_t round; /* rounds played, idle ones not counted */
    kf_node_state nodes[KF_MAX_NODES];
} kf_state;

/* What a call of the bus answers. A value that it does not have is 0. */
typedef struct kf_answer {
    uint32_t number;
    uint32_t id;     /* round: the ID of the frame sent */
    uint32_t age;    /* round: how many rounds it had waited */
    uint16_t length; /* collect: bytes collected */
    uint8_t sender;  /* round: the node that sent */
    uint8_t idle;    /* round: 1 where nothing was pending */
    uint8_t errored; /* round: 1 where an error was injected, 0 where the frame was delivered */
    kf_state state;
} kf_answer;

/*
 * Starts a bus of count nodes: frees all slots (every byte of them is 0), changes nothing else. All eight entries of
 * the state are those of a new node, also past count.
 * Refusals: KF_WRONG_MEMORY, KF_BAD_NODE_COUNT.
 */
kf_answer kf_start(kf_slot *slots, size_t slots_length, const uint8_t *payload, size_t payload_length,
                   const uint8_t *queues, size_t queues_length, uint32_t count);

/*
 * Takes a buffer of operations from a node, whole or not at all, in order:
 * - a Transmit becomes pending, in the node's next slot; none of a Bus-Off node does;
 * - a Configuration or Status sets the node's value; Status KF_BUS_OFF also removes its frames and empties its queue;
 * - a Wakeup is added to the queue of every other node that is not Bus-Off; not from a Bus-Off node;
 * - Confirm, Arbitration Lost, Bus Error and faults are answered by a Format Error with their bytes in the node's own
 *   queue; a Format Error, and a fault of at least 4 bytes with its code, by nothing.
 * Refusals: KF_WRONG_MEMORY, KF_INVALID, KF_NOT_ATTACHED, KF_BUFFER_TOO_LONG, then KF_FOUR_PENDING or KF_QUEUE_FULL of
 * the first operation that fails.
 */
kf_answer kf_submit(kf_state state, kf_slot *slots, size_t slots_length, uint8_t *payload, size_t payload_length,
                    uint8_t *queues, size_t queues_length, uint32_t node, const uint8_t *buffer,
                    size_t buffer_length);

/*
 * Plays a round. The pending frame with the lowest ID, then the lowest node, then the earliest accepted, is removed.
 * - Without injection (injected is 0; code and detector are not looked at) every other node that is not Bus-Off gets
 *   its Transmit as submitted, and the sender a Confirm.
 * - With one, every node that is not Bus-Off gets a Bus Error of that code: Is Sender 1 for the sender alone,
 *   KF_PRIMARY_ERROR_FLAG for the detector alone.
 * Then the frames still pending of nodes set to KF_DISCARD_AND_NOTIFY are removed, and their nodes get an Arbitration
 * Lost for each. The round number grows by one.
 * What this leaves in slots and payload: the frames of the winner's node that stood behind it move one slot ahead, with
 * their data, also where they are discarded next; the last slot keeps what it held. A discard erases nothing and moves
 * nothing: the node's count of pending frames falls to 0, its slots and their data keep their bytes.
 * With nothing pending the round is idle: KF_DONE, idle is 1, nothing changes.
 * Refusals: KF_WRONG_MEMORY, KF_INVALID, KF_BAD_INJECTION, and where it is not idle KF_QUEUE_FULL, KF_ROUNDS_USED_UP.
 */
kf_answer kf_round(kf_state state, kf_slot *slots, size_t slots_length, uint8_t *payload, size_t payload_length,
                   uint8_t *queues, size_t queues_length, uint32_t injected, uint32_t code, uint32_t detector);

/*
 * Copies a node's queue to the front of the buffer and empties it. Only the state and the buffer change.
 * Refusals: KF_WRONG_MEMORY, KF_INVALID, KF_NOT_ATTACHED, KF_BUFFER_TOO_SMALL.
 */
kf_answer kf_collect(kf_state state, const kf_slot *slots, size_t slots_length, const uint8_t *payload,
                     size_t payload_length, const uint8_t *queues, size_t queues_length, uint32_t node,
                     uint8_t *buffer, size_t buffer_length);

/* ---- The register of open frames ---- */

/*
 * The IDs of a node's frames that are accepted and not yet closed. Proved of a node that enters every buffer
 * whose submit was accepted and reads every buffer that it collected: no call of its register is refused, and an ID is
 * open exactly as often as it is pending or its closing operation waits in the node's queue.
 *
 * A register is valid when count is at most KF_MAX_OPEN, no open ID is above KF_MAX_ID, and none is open when Bus-Off.
 */
typedef struct kf_register {
    uint32_t ids[KF_MAX_OPEN]; /* the first count are open, oldest first; an accepted call leaves 0 in the rest */
    uint32_t count;
    uint32_t off; /* any number but 0: the node is Bus-Off; an accepted call leaves 1 or 0 */
} kf_register;

/* What a call of the register answers. */
typedef struct kf_register_answer {
    uint32_t number;
    kf_register reg;
} kf_register_answer;

/* A register with no ID open, not Bus-Off. */
kf_register kf_register_new(void);

/*
 * Enters a buffer whose submit was accepted: each Transmit opens its ID unless the node is Bus-Off, which each Status
 * sets; KF_BUS_OFF closes all.
 * Refusals: KF_INVALID, KF_REGISTER_FULL.
 */
kf_register_answer kf_register_enter(kf_register reg, const uint8_t *buffer, size_t buffer_length);

/*
 * Reads a buffer that was collected: each Confirm, Arbitration Lost, and Bus Error with Is Sender 1 closes the oldest
 * open frame with its ID.
 * Refusals: KF_INVALID, KF_REGISTER_DIFFERS.
 */
kf_register_answer kf_register_read(kf_register reg, const uint8_t *buffer, size_t buffer_length);

/* ---- The layout of the records ---- */

/*
 * The sizes of the library's records as one number, three decimal digits a size; the first may have more. A record
 * that KF_LAYOUT does not name lies in one that it names. Where kf_layout() is not KF_LAYOUT the library is of another
 * version than the header: a program that loads it while it runs asks this first.
 */
uint64_t kf_layout(void);

/* The same of this header's records. */
#define KF_LAYOUT                                                                                                      \
    (((((sizeof(kf_register_answer) * UINT64_C(1000) + sizeof(kf_answer)) * 1000 + sizeof(kf_slot)) * 1000 +           \
       sizeof(kf_reading)) * 1000 + sizeof(kf_part)) * 1000 + sizeof(kf_written))

#ifdef __cplusplus
}
#endif

#endif

/* segrx.h: the receiving side of DOCSIS 3.0 upstream channel bonding, for C.
 *
 * A receiver takes the grants that were sent on each of 1 to 16 upstream channels, and the bursts
 * that came in them: the segments of service flows that are bonded over several channels (CableLabs
 * CM-SP-MULPIv3.0, continuous concatenation and fragmentation). It orders each flow's segments,
 * decides or is told which are lost, and gives the MAC frames and the requests for grants.
 *
 * What it gives waits in the receiver until it is asked for, each frame and each request once, in
 * the order in which it was given. No header of a frame is checked.
 *
 * A frame is copied or lent, as the caller asks: `segrx_receiver_next_frame` copies its bytes into
 * the caller's room, `segrx_receiver_lend_frame` tells where they are, which costs no copy and is
 * good until the next call with that handle. `segrx_receiver_burst_waiting` takes a burst and tells
 * how much waits, so that nobody has to ask in vain.
 *
 * Statuses. Each function answers one `enum segrx_status`. A NULL, a length, a channel or a flow
 * out of range is a status, and then nothing was done.
 *
 * Pointers. None may be NULL, also where the length is 0. What a pointer points to has to be there
 * for the length that is given, initialized where it is a struct, writable (also behind a `const`:
 * in no section that is read-only), and used by nothing else during the call. It stays the
 * caller's: no pointer is kept after the call, and none is given but a handle, and by
 * `segrx_receiver_lend_frame`, which says how long it is good. Two pointers of one call may not
 * overlap. Bytes that are lent may be passed to no call, of this handle or of another.
 *
 * Handles. `segrx_receiver_new` gives one and `segrx_receiver_free` takes it: after that, or after
 * copying it and freeing one copy, it may not be passed any more. What it points to is the
 * library's.
 *
 * Threads. There is no state but that behind handles. A handle is used by one thread at a time, the
 * one that made it; different handles by different threads at once.
 *
 * Memory. The library takes and gives back memory by the program's malloc, realloc and free, never
 * after `segrx_receiver_free`. Where malloc answers NULL that is a status. Call none of this from a
 * signal handler.
 *
 * Example (the whole is examples/c/three_segments.c):
 *
 *     struct segrx_flow flow = {.sfid = 100, .first = 0, .window = 16, .clusters = 2};
 *     struct segrx_row row = {.flow = 0, .sid = 17, .channel = 0};
 *     struct segrx_receiver *receiver = NULL;
 *     enum segrx_status status =
 *         segrx_receiver_new(4, &flow, 1, &row, 1, SEGRX_DECIDED, &receiver);
 *     if (status != SEGRX_OK) return status;
 *     segrx_receiver_grant(receiver, 0, 1, 17, 1500);
 *     segrx_receiver_burst(receiver, 0, 1, true, bytes, count);
 *     const uint8_t *lent = NULL;
 *     struct segrx_frame frame = {0};
 *     while (segrx_receiver_lend_frame(receiver, &lent, &frame) == SEGRX_OK)
 *         use(frame.flow, lent, frame.length);
 *     segrx_receiver_free(receiver);
 */
#ifndef SEGRX_H
#define SEGRX_H

#include <stdbool.h>
#include <stddef.h>
#include <stdint.h>

#ifdef __cplusplus
extern "C" {
#endif

/* The most bytes that a frame has, its header included. */
#define SEGRX_LONGEST_FRAME 65541

/* What a call answers. */
enum segrx_status {
    /* The call is done. Of a burst: it was admitted, and its segment is kept. */
    SEGRX_OK = 0,
    /* A pointer is NULL. Nothing was done. */
    SEGRX_NULL = 1,
    /* The receiver has no such channel. Nothing was done. */
    SEGRX_NO_CHANNEL = 2,
    /* The receiver has no such flow. Nothing was done. */
    SEGRX_NO_FLOW = 3,
    /* A sequence number is above 8191. Nothing was done. */
    SEGRX_NUMBER_RANGE = 4,
    /* There is no such loss rule. Nothing was done. */
    SEGRX_UNKNOWN_RULE = 5,
    /* There is no such decision. Nothing was done. */
    SEGRX_UNKNOWN_DECISION = 6,
    /* No frame, or no request, waits. */
    SEGRX_NOTHING = 7,
    /* The room is smaller than the frame, whose length is told and which still waits, before all
     * others. Room for SEGRX_LONGEST_FRAME is never too small. */
    SEGRX_ROOM_TOO_SMALL = 8,
    /* The receiver's close was begun: nothing is taken any more. */
    SEGRX_CLOSED = 9,
    /* The flow is being closed: its restart is to be called again first. Nothing was taken. */
    SEGRX_FLOW_CLOSING = 10,
    /* malloc failed, and the call is to be made again: what was handed in isn't taken. */
    SEGRX_OUT_OF_MEMORY = 11,
    /* What was handed in is taken, and malloc failed before its flow had given all. The rest is
     * given by segrx_receiver_go_on, or when the next comes to the flow. */
    SEGRX_UNFINISHED = 12,
    /* malloc failed for the place of a frame or a request in the queue: it is missing. The call is
     * done all the same. From then on each call that hands something in, and each close, answers
     * so, whether it was done or not, unless it answers SEGRX_NULL, SEGRX_LENGTH_RANGE,
     * SEGRX_UNKNOWN_DECISION or SEGRX_CLOSED: take what waits, and free the receiver. */
    SEGRX_NOT_KEPT = 13,
    /* A burst was admitted, and its segment came when its number had passed. */
    SEGRX_LATE = 14,
    /* A burst was admitted, and the number of its segment is held already. */
    SEGRX_REPEAT = 15,
    /* A burst was admitted, and the number of its segment is beyond the window. */
    SEGRX_BEYOND = 16,
    /* More is passed than may be: see the function. Nothing was done. It comes before all others
     * but SEGRX_NULL, also for too many flows or rows of a setup. */
    SEGRX_LENGTH_RANGE = 17,

    /* Of a setup, the first of these that applies, behind SEGRX_UNKNOWN_RULE and from
     * SEGRX_NO_CHANNELS on: no channel; more than 16; no flow; a flow's field is out of its range,
     * or its identifier is another flow's; a row's channel or identifier is out of range, or given
     * before, or its flow isn't. SEGRX_TOO_MANY_FLOWS and SEGRX_FLOW_COUNT are never answered. */
    SEGRX_NO_CHANNELS = 20,
    SEGRX_TOO_MANY_CHANNELS = 21,
    SEGRX_NO_FLOWS = 22,
    SEGRX_TOO_MANY_FLOWS = 23,
    SEGRX_FLOW_COUNT = 24,
    SEGRX_BAD_FLOW = 25,
    SEGRX_SAME_SFID = 26,
    SEGRX_SID_RANGE = 27,
    SEGRX_SAME_SID = 28,
    SEGRX_ROW_OF_NO_FLOW = 29,

    /* A grant is refused, and nothing changed: fewer than 8 bytes or more than 65,535; the number
     * of one that is outstanding; no such service identifier on the channel; 65,536 are
     * outstanding. SEGRX_GRANT_OUT_OF_MEMORY is never answered, nor is SEGRX_BURST_OUT_OF_MEMORY
     * below. */
    SEGRX_GRANT_RANGE = 33,
    SEGRX_GRANT_KNOWN = 34,
    SEGRX_UNKNOWN_SID = 35,
    SEGRX_TOO_MANY_GRANTS = 36,
    SEGRX_GRANT_OUT_OF_MEMORY = 37,
    /* A burst is refused: no such grant is outstanding, and nothing changed; or the grant is spent
     * by it: more bytes than granted; a wrong check sequence; fewer than 8 bytes; the pointer in
     * its header isn't below the payload's length. */
    SEGRX_NO_GRANT = 38,
    SEGRX_TOO_LONG = 39,
    SEGRX_BAD_CHECK = 40,
    SEGRX_TOO_SHORT = 41,
    SEGRX_POINTER_PAST = 42,
    SEGRX_BURST_OUT_OF_MEMORY = 43
};

/* By what a receiver decides that segments are lost. */
enum segrx_rule {
    /* By segrx_receiver_decide alone. */
    SEGRX_DECIDED = 0,
    /* And what every channel of the flow has passed. */
    SEGRX_PASSED = 1,
    /* And what lies a window or more before a segment that comes, so that the window slides. */
    SEGRX_PASSED_OR_SLID = 2
};

/* What is decided. */
enum segrx_decision {
    /* The expected segment is lost, if a later one was kept. The number isn't looked at. */
    SEGRX_GAP = 0,
    /* Those before this number are, if they haven't come and a later one was kept. */
    SEGRX_GAP_TO = 1,
    /* Those before this number are, if they haven't come. */
    SEGRX_SKIP_TO = 2
};

/* A service flow. Its index is its place in the list. */
struct segrx_flow {
    uint32_t sfid;    /* the service flow identifier, of no other flow */
    uint16_t first;   /* the number of its first segment, 0 to 8191 */
    uint16_t window;  /* how many numbers may be held, from the expected one on: 1 to 4096 */
    uint8_t clusters; /* how many SID clusters it has: 1 to 8 */
};

/* A service identifier of a channel. */
struct segrx_row {
    size_t flow;     /* the index of the flow to which it belongs */
    uint16_t sid;    /* the service identifier, 0 to 16,383, once a channel */
    uint8_t channel; /* the channel, below the number of channels */
};

/* A frame without its bytes. */
struct segrx_frame {
    size_t flow;   /* the index of its flow */
    size_t length; /* how many bytes it has, its header included */
};

/* How much waits. */
struct segrx_waiting {
    size_t frames;   /* how many frames */
    size_t requests; /* how many requests */
};

/* A request for grants, from the header of a segment. */
struct segrx_request {
    size_t flow;       /* the index of its flow */
    uint16_t units;    /* the queue depth asked for, in the flow's request units: 1 to 65,535 */
    uint16_t sequence; /* the number of the segment, 0 to 8191 */
    uint8_t channel;   /* the channel on which it came */
    uint8_t cluster;   /* the SID cluster, below the flow's count */
};

/* What was counted of a flow since it was begun or began anew. Each count stays at 2^64 - 1. */
struct segrx_counts {
    uint64_t kept;    /* segments that were kept */
    uint64_t late;    /* segments that came when their number had passed */
    uint64_t repeat;  /* segments whose number was held already */
    uint64_t beyond;  /* segments whose number was beyond the window */
    uint64_t lost;    /* segments that were declared lost or skipped */
    uint64_t frames;  /* frames that were given */
    uint64_t skipped; /* bytes of payload that were neither given nor are unfinished */
};

/* A receiver. */
struct segrx_receiver;

/* Makes a receiver of this many channels, 1 to 16, for these flows, 1 to 16,384, and these rows, at
 * most 262,144, by this rule. `*receiver` is its handle, and NULL where the status
 * isn't SEGRX_OK. */
enum segrx_status segrx_receiver_new(uint32_t channels, const struct segrx_flow *flows,
                                     size_t flow_count, const struct segrx_row *rows,
                                     size_t row_count, uint32_t rule,
                                     struct segrx_receiver **receiver);

/* Takes a grant of so many bytes, 8 to 65,535 with the segment header, that was made on a channel
 * to a service identifier. The number tells outstanding grants of the channel apart. */
enum segrx_status segrx_receiver_grant(struct segrx_receiver *receiver, size_t channel,
                                       uint32_t number, uint16_t sid, uint32_t bytes);

/* Takes what was received in a grant of the channel: the bytes of one segment, at most 65,535, and
 * whether the check sequence of its header is right. A grant in which nothing was received is ended
 * by no bytes whose check is wrong. The bytes are copied. */
enum segrx_status segrx_receiver_burst(struct segrx_receiver *receiver, size_t channel,
                                       uint32_t grant, bool check_is_right, const uint8_t *bytes,
                                       size_t count);

/* The same, and tells how much waits then, whatever the status, but where it is SEGRX_NULL or
 * SEGRX_LENGTH_RANGE. */
enum segrx_status segrx_receiver_burst_waiting(struct segrx_receiver *receiver, size_t channel,
                                               uint32_t grant, bool check_is_right,
                                               const uint8_t *bytes, size_t count,
                                               struct segrx_waiting *waiting);

/* Takes the decision, a segrx_decision, that segments of a flow are lost: for two kinds with a
 * number, 0 to 8191. */
enum segrx_status segrx_receiver_decide(struct segrx_receiver *receiver, size_t flow,
                                        uint32_t decision, uint16_t number);

/* Does what SEGRX_UNFINISHED left to be done of a flow. Of no such flow nothing is, and the status
 * is SEGRX_OK. */
enum segrx_status segrx_receiver_go_on(struct segrx_receiver *receiver, size_t flow);

/* Tells the first frame that waits. Where the room, of so many bytes, at most 2^31 - 1, is large
 * enough, the frame's bytes are copied to its front, and it waits no more; else the status is
 * SEGRX_ROOM_TOO_SMALL. The bytes are copied so that they are the caller's, whatever is called
 * next. */
enum segrx_status segrx_receiver_next_frame(struct segrx_receiver *receiver, uint8_t *room,
                                            size_t capacity, struct segrx_frame *frame);

/* Tells the first frame that waits, and where its bytes are: it waits no more, and isn't copied.
 * The bytes stay the receiver's, and are lent: they may be read, neither written nor passed to a
 * call, until the next call with this handle, whichever it is and whatever it answers. Where no
 * frame waits, `*bytes` points to no bytes that may be read. */
enum segrx_status segrx_receiver_lend_frame(struct segrx_receiver *receiver, const uint8_t **bytes,
                                            struct segrx_frame *frame);

/* Tells the first request that waits, and it waits no more. */
enum segrx_status segrx_receiver_next_request(struct segrx_receiver *receiver,
                                              struct segrx_request *request);

/* Tells what was counted of a flow; once the receiver is closed, up to its close. Between a close
 * that SEGRX_OUT_OF_MEMORY broke off and its end the status is SEGRX_CLOSED. */
enum segrx_status segrx_receiver_counts(struct segrx_receiver *receiver, size_t flow,
                                        struct segrx_counts *counts);

/* Closes a flow, gives what it has left to give, tells what was counted of it, and has it begin
 * anew at this number, 0 to 8191. */
enum segrx_status segrx_receiver_restart(struct segrx_receiver *receiver, size_t flow,
                                         uint16_t first, struct segrx_counts *counts);

/* Closes all flows, and gives what each has left to give. At SEGRX_OUT_OF_MEMORY it is to be called
 * again. What waits can still be taken. */
enum segrx_status segrx_receiver_close(struct segrx_receiver *receiver);

/* Lets a receiver go at any time, with all that waits. It is the last call with this handle. */
enum segrx_status segrx_receiver_free(struct segrx_receiver *receiver);

#ifdef __cplusplus
}
#endif

#endif

/* Calls the functions of segrx.h at random, with arguments by chance, good and bad, on eight
 * receivers that are made and freed at any moment: `hostile_calls COUNT SEED`. It ends with status
 * 1, and says why, where a function answers a status that it may not, writes past the room, or
 * writes or lends a frame of another length than it tells; where another number of frames or
 * requests waits than was told; or where memory is kept at the end. Else it prints how often each
 * status was answered. It takes no memory itself. */
#include <malloc.h>
#include <stdbool.h>
#include <stdint.h>
#include <stdio.h>
#include <stdlib.h>
#include <string.h>

#include "segrx.h"

#define COUNT(list) (sizeof(list) / sizeof *(list))
#define STATUSES 44
#define RECEIVERS 8
#define ROOM 4096

static uint64_t state;
static unsigned long answered[STATUSES];
static volatile unsigned long read_bytes;

/* A number below `most`, by chance. */
static uint64_t below(uint64_t most) {
    state ^= state << 13;
    state ^= state >> 7;
    state ^= state << 17;
    return state % most;
}

static bool once_in(uint64_t many) { return below(many) == 0; }

struct receiver {
    struct segrx_receiver *handle;
    uint32_t channels;
    size_t flows;
    uint16_t sequence;
    /* Whether it was told that something is missing. */
    bool is_missing;
    /* Whether it is known how much waits, and how much. */
    bool is_known;
    struct segrx_waiting waiting;
};

static struct receiver receivers[RECEIVERS];

static void fail(const char *what, unsigned status) {
    printf("%s: status %u\n", what, status);
    exit(1);
}

/* Counts an answer, which is one of these. */
static enum segrx_status told(const char *what, enum segrx_status status, const unsigned char *may, size_t count) {
    for (size_t k = 0; k < count; k++)
        if (may[k] == (unsigned)status) {
            answered[status]++;
            return status;
        }
    fail(what, status);
    return status;
}

#define TOLD(status, ...) \
    told(__func__, status, (const unsigned char[]){__VA_ARGS__}, sizeof((const unsigned char[]){__VA_ARGS__}))

/* Where something is missing, all that is handed in and each close tell so, from then on. */
static void keeps_telling(struct receiver *receiver, const char *what, enum segrx_status status) {
    bool is_before = status == SEGRX_NULL || status == SEGRX_LENGTH_RANGE || status == SEGRX_UNKNOWN_DECISION ||
                     status == SEGRX_CLOSED;
    if (receiver->is_missing && status != SEGRX_NOT_KEPT && !is_before) fail(what, status);
    receiver->is_missing = receiver->is_missing || status == SEGRX_NOT_KEPT;
    receiver->is_known = false;
}

/* Of what waits, of which so much is known to, one is taken where the status says so. */
static void takes_one(const struct receiver *receiver, const char *what, enum segrx_status status, size_t *waits) {
    if (!receiver->is_known || status == SEGRX_NULL || status == SEGRX_LENGTH_RANGE) return;
    if ((*waits == 0) != (status == SEGRX_NOTHING)) fail(what, status);
    if (status == SEGRX_OK) --*waits;
}

#define HANDED_IN(receiver, ...) keeps_telling(receiver, __func__, TOLD(__VA_ARGS__))

/* A receiver's handle, or now and then NULL. */
static struct segrx_receiver *handle_of(const struct receiver *receiver) { return once_in(50) ? NULL : receiver->handle; }

static void make(struct receiver *receiver) {
    static struct segrx_flow flows[4];
    static struct segrx_row rows[16];
    size_t flow_count = below(4) + 1, row_count = 0;
    uint32_t channels = (uint32_t)below(4) + 1;
    for (size_t k = 0; k < flow_count; k++)
        flows[k] = (struct segrx_flow){.sfid = (uint32_t)k, .first = 0, .window = (uint16_t)(1 + below(64)), .clusters = 2};
    for (size_t k = 0; k < flow_count; k++)
        for (uint32_t channel = 0; channel < channels; channel++)
            rows[row_count++] = (struct segrx_row){.flow = k, .sid = (uint16_t)k, .channel = (uint8_t)channel};
    size_t many_flows = flow_count, many_rows = row_count;
    uint32_t rule = (uint32_t)below(3), wide = channels;
    switch (below(24)) {
    case 0: flows[0].first = 8192; break;
    case 1: flows[0].window = 0; break;
    case 2: flows[flow_count - 1].sfid = 0; break;
    case 3: rows[0].channel = (uint8_t)channels; break;
    case 4: rows[row_count - 1] = rows[0]; break;
    case 5: rows[0].flow = flow_count; break;
    case 6: rule = 3 + (uint32_t)below(1000); break;
    case 7: wide = (uint32_t)below(2) * 17; break;
    case 8: wide = UINT32_MAX; break;
    case 9: many_flows = 0; break;
    case 10: many_flows = SIZE_MAX - below(100); break;
    case 11: many_rows = SIZE_MAX / 2 + below(100); break;
    }
    struct segrx_receiver *made = (struct segrx_receiver *)&made;
    enum segrx_status status = TOLD(
        segrx_receiver_new(wide, once_in(50) ? NULL : flows, many_flows, once_in(50) ? NULL : rows, many_rows, rule,
                           once_in(50) ? NULL : &made),
        SEGRX_OK, SEGRX_NULL, SEGRX_UNKNOWN_RULE, SEGRX_OUT_OF_MEMORY, SEGRX_LENGTH_RANGE, SEGRX_NO_CHANNELS,
        SEGRX_TOO_MANY_CHANNELS, SEGRX_NO_FLOWS, SEGRX_BAD_FLOW, SEGRX_SAME_SFID, SEGRX_SID_RANGE, SEGRX_SAME_SID,
        SEGRX_ROW_OF_NO_FLOW);
    if (status != SEGRX_OK) {
        if (made != NULL && made != (struct segrx_receiver *)&made) fail("a handle of no receiver", status);
        return;
    }
    *receiver = (struct receiver){.handle = made, .channels = channels, .flows = flow_count};
}

static void grant(struct receiver *receiver) {
    uint32_t bytes = once_in(40) ? (uint32_t)below(UINT32_MAX) : 8 + (uint32_t)below(200);
    HANDED_IN(receiver,
              segrx_receiver_grant(handle_of(receiver), below(receiver->channels + once_in(30)), (uint32_t)below(12),
                                   (uint16_t)below(receiver->flows + once_in(30) * 60000), bytes),
              SEGRX_OK, SEGRX_NULL, SEGRX_NO_CHANNEL, SEGRX_CLOSED, SEGRX_OUT_OF_MEMORY, SEGRX_NOT_KEPT, SEGRX_GRANT_RANGE,
              SEGRX_GRANT_KNOWN, SEGRX_UNKNOWN_SID);
}

static void burst(struct receiver *receiver) {
    static uint8_t bytes[256];
    size_t count = once_in(20) ? below(12) : 8 + below(120), said = count;
    uint16_t sequence = (uint16_t)(receiver->sequence + below(4) - once_in(10) * below(9));
    receiver->sequence = (uint16_t)(receiver->sequence + (once_in(2) ? 1 : 0));
    for (size_t k = 8; k < count; k++) bytes[k] = once_in(3) ? (uint8_t)below(256) : 0;
    if (once_in(100)) sequence = (uint16_t)below(8192);
    bytes[0] = once_in(4) ? 0 : 0x80;
    bytes[1] = once_in(20) ? (uint8_t)below(256) : 0;
    bytes[2] = (uint8_t)((sequence & 8191) >> 5);
    bytes[3] = (uint8_t)((sequence & 31) << 3 | below(4));
    bytes[4] = 0;
    bytes[5] = once_in(3) ? (uint8_t)below(256) : 0;
    /* A short frame at the front, so that frames are given. */
    if (count >= 16 && once_in(2)) memcpy(bytes + 8, (uint8_t[]){0, 0, 0, 2, 0, 0, 0xaa, 0xbb}, 8);
    if (once_in(60)) said = once_in(2) ? SIZE_MAX : 65536 + below(1000000);
    struct segrx_receiver *handle = handle_of(receiver);
    size_t channel = below(receiver->channels + once_in(30));
    uint32_t number = (uint32_t)below(12);
    bool is_right = !once_in(30), tells = once_in(2);
    uint8_t *given = once_in(50) ? NULL : bytes;
    struct segrx_waiting waiting = {.frames = SIZE_MAX, .requests = SIZE_MAX}, *to = once_in(50) ? NULL : &waiting;
    HANDED_IN(receiver,
              tells ? segrx_receiver_burst_waiting(handle, channel, number, is_right, given, said, to)
                    : segrx_receiver_burst(handle, channel, number, is_right, given, said),
              SEGRX_OK, SEGRX_NULL, SEGRX_NO_CHANNEL, SEGRX_CLOSED, SEGRX_FLOW_CLOSING, SEGRX_OUT_OF_MEMORY, SEGRX_UNFINISHED,
              SEGRX_NOT_KEPT, SEGRX_LATE, SEGRX_REPEAT, SEGRX_BEYOND, SEGRX_LENGTH_RANGE, SEGRX_NO_GRANT, SEGRX_TOO_LONG,
              SEGRX_BAD_CHECK, SEGRX_TOO_SHORT, SEGRX_POINTER_PAST);
    receiver->is_known = waiting.frames != SIZE_MAX;
    receiver->waiting = waiting;
    if (tells && handle != NULL && given != NULL && to != NULL && said <= 65535 && !receiver->is_known)
        fail("a burst that tells nothing", 0);
}

static void decide(struct receiver *receiver) {
    uint16_t number = once_in(20) ? (uint16_t)below(65536) : (uint16_t)((receiver->sequence + below(4)) & 8191);
    HANDED_IN(receiver,
              segrx_receiver_decide(handle_of(receiver), below(receiver->flows + once_in(20)),
                                    once_in(20) ? (uint32_t)below(UINT32_MAX) : (uint32_t)below(3), number),
              SEGRX_OK, SEGRX_NULL, SEGRX_NO_FLOW, SEGRX_NUMBER_RANGE, SEGRX_UNKNOWN_DECISION, SEGRX_CLOSED, SEGRX_FLOW_CLOSING,
              SEGRX_OUT_OF_MEMORY, SEGRX_UNFINISHED, SEGRX_NOT_KEPT);
}

static void go_on(struct receiver *receiver) {
    HANDED_IN(receiver,
              segrx_receiver_go_on(handle_of(receiver), below(receiver->flows + once_in(20))),
              SEGRX_OK, SEGRX_NULL, SEGRX_CLOSED, SEGRX_FLOW_CLOSING, SEGRX_OUT_OF_MEMORY, SEGRX_NOT_KEPT);
}

static void next_frame(struct receiver *receiver) {
    static uint8_t room[ROOM + 1];
    struct segrx_frame frame = {.flow = SIZE_MAX, .length = SIZE_MAX};
    size_t capacity = once_in(4) ? below(16) : ROOM, said = capacity;
    if (once_in(60)) said = (size_t)1 << (31 + below(33));
    room[capacity] = 0x5a;
    enum segrx_status status =
        TOLD(segrx_receiver_next_frame(handle_of(receiver), once_in(50) ? NULL : room, said, once_in(50) ? NULL : &frame),
             SEGRX_OK, SEGRX_NULL, SEGRX_NOTHING, SEGRX_ROOM_TOO_SMALL, SEGRX_LENGTH_RANGE);
    takes_one(receiver, "next_frame", status, &receiver->waiting.frames);
    if (room[capacity] != 0x5a) fail("a frame past the room", status);
    if (status == SEGRX_OK && (frame.flow >= receiver->flows || frame.length > capacity)) fail("a frame of no flow", status);
    if (status == SEGRX_ROOM_TOO_SMALL && frame.length <= capacity) fail("a frame for which there is room", status);
    /* Each frame says its own length. */
    if (status == SEGRX_OK && frame.length != 6 + (size_t)room[2] * 256 + room[3]) fail("a frame of another length", status);
}

static void lend_frame(struct receiver *receiver) {
    const uint8_t *lent = NULL;
    struct segrx_frame frame = {.flow = SIZE_MAX, .length = SIZE_MAX};
    enum segrx_status status =
        TOLD(segrx_receiver_lend_frame(handle_of(receiver), once_in(50) ? NULL : &lent, once_in(50) ? NULL : &frame), SEGRX_OK,
             SEGRX_NULL, SEGRX_NOTHING);
    takes_one(receiver, "lend_frame", status, &receiver->waiting.frames);
    if (status == SEGRX_NULL && (lent != NULL || frame.length != SIZE_MAX)) fail("a loan that is refused", status);
    if (status != SEGRX_OK) return;
    if (frame.flow >= receiver->flows || frame.length < 6) fail("a lent frame of no flow", status);
    if (frame.length != 6 + (size_t)lent[2] * 256 + lent[3]) fail("a lent frame of another length", status);
    /* Each byte is read, so that valgrind sees whether it is there. */
    for (size_t k = 0; k < frame.length; k++) read_bytes += lent[k];
}

static void next_request(struct receiver *receiver) {
    struct segrx_request request = {0};
    enum segrx_status status =
        TOLD(segrx_receiver_next_request(handle_of(receiver), once_in(50) ? NULL : &request), SEGRX_OK, SEGRX_NULL, SEGRX_NOTHING);
    takes_one(receiver, "next_request", status, &receiver->waiting.requests);
    if (status == SEGRX_OK && (request.flow >= receiver->flows || request.channel >= receiver->channels || request.units == 0))
        fail("a request that nobody made", status);
}

static void counts(struct receiver *receiver) {
    struct segrx_counts counts = {0};
    TOLD(segrx_receiver_counts(handle_of(receiver), below(receiver->flows + once_in(20)), once_in(50) ? NULL : &counts), SEGRX_OK,
         SEGRX_NULL, SEGRX_NO_FLOW, SEGRX_CLOSED);
}

static void restart(struct receiver *receiver) {
    struct segrx_counts counts = {0};
    uint16_t first = once_in(20) ? (uint16_t)below(65536) : (uint16_t)(receiver->sequence & 8191);
    HANDED_IN(receiver,
              segrx_receiver_restart(handle_of(receiver), below(receiver->flows + once_in(20)), first,
                                     once_in(50) ? NULL : &counts),
              SEGRX_OK, SEGRX_NULL, SEGRX_NO_FLOW, SEGRX_NUMBER_RANGE, SEGRX_CLOSED, SEGRX_OUT_OF_MEMORY, SEGRX_NOT_KEPT);
}

static void close_it(struct receiver *receiver) {
    HANDED_IN(receiver,
              segrx_receiver_close(handle_of(receiver)),
              SEGRX_OK, SEGRX_NULL, SEGRX_OUT_OF_MEMORY, SEGRX_NOT_KEPT);
}

static void free_it(struct receiver *receiver) {
    struct segrx_receiver *handle = handle_of(receiver);
    TOLD(segrx_receiver_free(handle), SEGRX_OK, SEGRX_NULL);
    if (handle != NULL) receiver->handle = NULL;
}

/* One call by chance, bursts and grants most often. */
static void call(void) {
    struct receiver *receiver = &receivers[below(RECEIVERS)];
    if (receiver->handle == NULL) {
        make(receiver);
        return;
    }
    uint64_t which = below(1000);
    if (which < 330) grant(receiver);
    else if (which < 700) burst(receiver);
    else if (which < 760) next_frame(receiver);
    else if (which < 820) lend_frame(receiver);
    else if (which < 900) next_request(receiver);
    else if (which < 950) decide(receiver);
    else if (which < 970) counts(receiver);
    else if (which < 985) go_on(receiver);
    else if (which < 992) restart(receiver);
    else if (which < 995) close_it(receiver);
    else free_it(receiver);
}

int main(int given, char **words) {
    if (given != 3) return 2;
    unsigned long count = strtoul(words[1], NULL, 10);
    state = strtoul(words[2], NULL, 10) * 2654435769u + 1;
    /* The C library takes memory of its own with the first block, which may be the refused one. */
    for (int k = 0; k < 2; k++) {
        void *volatile block = malloc(1);
        free(block);
    }
    size_t before = mallinfo2().uordblks;
    for (unsigned long k = 0; k < count; k++) call();
    for (size_t k = 0; k < RECEIVERS; k++)
        if (receivers[k].handle != NULL) segrx_receiver_free(receivers[k].handle);
    size_t kept = mallinfo2().uordblks - before;
    if (kept != 0) {
        printf("%zu bytes are kept at the end\n", kept);
        return 1;
    }
    for (size_t status = 0; status < STATUSES; status++)
        if (answered[status] > 0) printf("status %zu: %lu\n", status, answered[status]);
    return 0;
}

/* Two frames in three segments on three channels, received out of order: the frames, the request in
 * a segment's header, and the counts. */
#include <inttypes.h>
#include <stdio.h>

#include "segrx.h"

#define COUNT(list) (sizeof(list) / sizeof *(list))

/* The segments of 000000021111aabb and 01010003e02222ccdd, each in a grant of its channel. The
 * header has 8 bytes: of the first a frame begins at once, of the second after one byte, of the
 * third none does. The second asks for 4 units. */
static uint8_t first[] = {0x80, 0, 0, 0, 0, 0, 0, 0, 0, 0, 0, 2, 0x11, 0x11, 0xaa};
static uint8_t second[] = {0x80, 1, 0, 8, 0, 4, 0, 0, 0xbb, 1, 1, 0, 3, 0xe0};
static uint8_t third[] = {0, 0, 0, 16, 0, 0, 0, 0, 0x22, 0x22, 0xcc, 0xdd};

/* What came, in the order in which it came. */
static const struct {
    size_t channel;
    uint8_t *bytes;
    size_t count;
} bursts[] = {{2, third, sizeof third}, {0, first, sizeof first}, {1, second, sizeof second}};

static int receive(struct segrx_receiver *receiver) {
    for (size_t channel = 0; channel < COUNT(bursts); channel++) {
        enum segrx_status granted = segrx_receiver_grant(receiver, channel, 1, 17, 64);
        if (granted != SEGRX_OK) return granted;
    }
    for (size_t k = 0; k < COUNT(bursts); k++) {
        struct segrx_waiting waiting = {0};
        enum segrx_status taken =
            segrx_receiver_burst_waiting(receiver, bursts[k].channel, 1, true, bursts[k].bytes,
                                         bursts[k].count, &waiting);
        printf("burst on channel %zu: status %d, frames that wait: %zu\n", bursts[k].channel, taken,
               waiting.frames);
    }
    return segrx_receiver_close(receiver);
}

static void print_frame(const struct segrx_frame *frame, const uint8_t *bytes) {
    printf("frame of flow %zu: ", frame->flow);
    for (size_t k = 0; k < frame->length; k++) printf("%02x", bytes[k]);
    printf("\n");
}

/* The first frame is copied into a room, and each other one is lent: its bytes can be read until
 * the next call. */
static void print_frames(struct segrx_receiver *receiver) {
    static uint8_t room[SEGRX_LONGEST_FRAME];
    struct segrx_frame frame = {0};
    if (segrx_receiver_next_frame(receiver, room, sizeof room, &frame) == SEGRX_OK)
        print_frame(&frame, room);
    const uint8_t *lent = NULL;
    while (segrx_receiver_lend_frame(receiver, &lent, &frame) == SEGRX_OK)
        print_frame(&frame, lent);
}

static void print_requests(struct segrx_receiver *receiver) {
    struct segrx_request request = {0};
    while (segrx_receiver_next_request(receiver, &request) == SEGRX_OK)
        printf("request of flow %zu on channel %u: %u units in segment %u\n", request.flow,
               request.channel, request.units, request.sequence);
}

static void print_counts(struct segrx_receiver *receiver) {
    struct segrx_counts counts = {0};
    enum segrx_status status = segrx_receiver_counts(receiver, 0, &counts);
    printf("counts, status %d: %" PRIu64 " kept, %" PRIu64 " frames, %" PRIu64 " bytes skipped\n",
           status, counts.kept, counts.frames, counts.skipped);
}

int main(void) {
    struct segrx_flow flow = {.sfid = 100, .first = 0, .window = 16, .clusters = 2};
    struct segrx_row rows[] = {{.sid = 17, .channel = 0},
                               {.sid = 17, .channel = 1},
                               {.sid = 17, .channel = 2}};
    struct segrx_receiver *receiver = NULL;
    enum segrx_status status =
        segrx_receiver_new(4, &flow, 1, rows, COUNT(rows), SEGRX_DECIDED, &receiver);
    if (status != SEGRX_OK) return status;
    int received = receive(receiver);
    print_frames(receiver);
    print_requests(receiver);
    print_counts(receiver);
    segrx_receiver_free(receiver);
    return received;
}

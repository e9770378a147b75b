/* Hands in a grant and a burst for each of many segments, and takes the frames behind each burst,
 * as main.rt.txt does it from Rattle: `through_c WAY CHANNELS FLOWS COUNT`. By the way `lent` each
 * frame is lent, and as many are asked for as the burst told; by `copied` each is copied into a
 * room, and they are asked for until none waits. At the end it prints how many segments were sent,
 * in how many nanoseconds they were taken, and how many frames and bytes of frames came. */
#include <stdint.h>
#include <stdio.h>
#include <stdlib.h>
#include <string.h>
#include <time.h>

#include "segrx.h"

#define SEGMENT_MAX 1500
#define AT_ONCE 256
#define WINDOW 256

struct segment {
    size_t channel;
    uint32_t number;
    uint16_t sid;
    size_t from;
    size_t size;
};

/* The segments of a round, and their bytes, one segment's after another's. */
struct round {
    struct segment segments[AT_ONCE];
    size_t count;
    uint8_t bytes[AT_ONCE * SEGMENT_MAX];
    size_t filled;
};

struct counted {
    uint64_t frames;
    uint64_t bytes;
};

static struct round one_round;
static uint8_t room[SEGRX_LONGEST_FRAME];

static void need(enum segrx_status status) {
    if (status != SEGRX_OK) {
        fprintf(stderr, "status %d\n", (int)status);
        exit(1);
    }
}

static void *reserve(size_t count, size_t size) {
    void *memory = calloc(count, size);
    if (memory == NULL) exit(1);
    return memory;
}

/* Appends the segment of a flow with this index: a header that points to its payload, a frame. */
static void push_segment(struct round *round, size_t channel, uint32_t number, uint16_t sid,
                         uint32_t index) {
    size_t size = 64 + index * 997 % 1437;
    unsigned sequence = index % 8192 << 3, length = (unsigned)size - 14;
    uint8_t front[] = {0x80, 0, (uint8_t)(sequence >> 8), (uint8_t)sequence, 0, 0, 0, 0,
                       0,    0, (uint8_t)(length >> 8),   (uint8_t)length};
    uint8_t *bytes = round->bytes + round->filled;
    memset(bytes, 0x11, size);
    memcpy(bytes, front, sizeof front);
    round->segments[round->count++] =
        (struct segment){channel, number, sid, round->filled, size};
    round->filled += size;
}

static void make_round(struct round *round, uint32_t channels, uint32_t flows, uint32_t turns,
                       uint32_t which) {
    round->count = round->filled = 0;
    for (uint32_t turn = which * turns; turn < (which + 1) * turns; turn++)
        for (uint32_t channel = 0; channel < channels; channel++)
            push_segment(round, channel, turn, (uint16_t)(turn % flows),
                         turn / flows * channels + channel);
}

/* Takes a segment's burst, and the frames behind it, which are lent. */
static void take_lent(struct segrx_receiver *receiver, struct segment *segment, uint8_t *bytes,
                      struct counted *out) {
    const uint8_t *lent = NULL;
    struct segrx_frame frame = {0};
    struct segrx_waiting waiting = {0};
    need(segrx_receiver_burst_waiting(receiver, segment->channel, segment->number, true, bytes,
                                      segment->size, &waiting));
    for (; waiting.frames > 0; waiting.frames--) {
        need(segrx_receiver_lend_frame(receiver, &lent, &frame));
        out->frames++;
        out->bytes += frame.length;
    }
}

/* The same with frames that are copied. */
static void take_copied(struct segrx_receiver *receiver, struct segment *segment, uint8_t *bytes,
                        struct counted *out) {
    struct segrx_frame frame = {0};
    need(segrx_receiver_burst(receiver, segment->channel, segment->number, true, bytes,
                              segment->size));
    while (segrx_receiver_next_frame(receiver, room, sizeof room, &frame) == SEGRX_OK) {
        out->frames++;
        out->bytes += frame.length;
    }
}

/* Hands in the segments of a round. */
static void hand_in(struct segrx_receiver *receiver, struct round *round, bool copied,
                    struct counted *out) {
    for (size_t k = 0; k < round->count; k++) {
        struct segment *segment = &round->segments[k];
        uint8_t *bytes = round->bytes + segment->from;
        need(segrx_receiver_grant(receiver, segment->channel, segment->number, segment->sid,
                                  (uint32_t)segment->size));
        if (copied)
            take_copied(receiver, segment, bytes, out);
        else
            take_lent(receiver, segment, bytes, out);
    }
}

static struct segrx_receiver *make_receiver(uint32_t channels, uint32_t flow_count) {
    struct segrx_flow *flows = reserve(flow_count, sizeof *flows);
    struct segrx_row *rows = reserve((size_t)flow_count * channels, sizeof *rows);
    for (uint32_t flow = 0; flow < flow_count; flow++) {
        flows[flow] = (struct segrx_flow){.sfid = flow, .window = WINDOW, .clusters = 1};
        for (uint32_t channel = 0; channel < channels; channel++)
            rows[flow * channels + channel] =
                (struct segrx_row){.flow = flow, .sid = (uint16_t)flow, .channel = (uint8_t)channel};
    }
    struct segrx_receiver *receiver = NULL;
    need(segrx_receiver_new(channels, flows, flow_count, rows, (size_t)flow_count * channels,
                            SEGRX_DECIDED, &receiver));
    free(flows);
    free(rows);
    return receiver;
}

static uint64_t now(void) {
    struct timespec time;
    clock_gettime(CLOCK_MONOTONIC, &time);
    return (uint64_t)time.tv_sec * 1000000000 + (uint64_t)time.tv_nsec;
}

int main(int count, char **words) {
    if (count != 5) return 2;
    bool copied = strcmp(words[1], "copied") == 0;
    uint32_t channels = (uint32_t)strtoul(words[2], NULL, 10);
    uint32_t flows = (uint32_t)strtoul(words[3], NULL, 10);
    uint32_t segments = (uint32_t)strtoul(words[4], NULL, 10);
    uint32_t turns = AT_ONCE / channels, rounds = segments / (turns * channels);
    struct segrx_receiver *receiver = make_receiver(channels, flows);
    struct counted out = {0};
    uint64_t taken = 0;
    for (uint32_t which = 0; which < rounds; which++) {
        make_round(&one_round, channels, flows, turns, which);
        uint64_t began = now();
        hand_in(receiver, &one_round, copied, &out);
        taken += now() - began;
    }
    segrx_receiver_free(receiver);
    printf("%u %llu %llu %llu\n", rounds * turns * channels, (unsigned long long)taken,
           (unsigned long long)out.frames, (unsigned long long)out.bytes);
    return 0;
}

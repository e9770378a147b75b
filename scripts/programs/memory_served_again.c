/* Counts what the library asks of malloc. Segments of one size, of which each frame is lent before
 * the next burst comes, go through one block. One of less than half that size gets a block of its
 * own, so that what a segment holds stays near its size. */
#include <stdio.h>
#include <stdlib.h>
#include <string.h>

#include "segrx.h"

#define LONG 300
#define SHORT 100
#define SEGMENTS 1000

void *__libc_malloc(size_t size);

static size_t asked;

void *malloc(size_t size) {
    asked++;
    return __libc_malloc(size);
}

static void need(enum segrx_status status) {
    if (status == SEGRX_OK) return;
    fprintf(stderr, "status %d\n", (int)status);
    exit(1);
}

/* Hands in the segment of this number, a frame of so many bytes with its header, and borrows the
 * frame. Answers how often malloc was called. */
static size_t send(struct segrx_receiver *receiver, unsigned number, size_t size) {
    uint8_t bytes[LONG] = {0x80, 0, (uint8_t)(number >> 5), (uint8_t)(number << 3)};
    bytes[10] = (uint8_t)((size - 14) >> 8);
    bytes[11] = (uint8_t)(size - 14);
    const uint8_t *lent = NULL;
    struct segrx_frame frame = {0};
    size_t before = asked;
    need(segrx_receiver_grant(receiver, 0, number, 17, (uint32_t)size));
    need(segrx_receiver_burst(receiver, 0, number, true, bytes, size));
    need(segrx_receiver_lend_frame(receiver, &lent, &frame));
    if (frame.length != size - 8 || memcmp(lent, bytes + 8, size - 8) != 0) exit(1);
    return asked - before;
}

int main(void) {
    struct segrx_flow flow = {.sfid = 100, .first = 0, .window = 16, .clusters = 1};
    struct segrx_row row = {.flow = 0, .sid = 17, .channel = 0};
    struct segrx_receiver *receiver = NULL;
    need(segrx_receiver_new(1, &flow, 1, &row, 1, SEGRX_DECIDED, &receiver));
    unsigned number = 0;
    size_t of_one_size = 0, first = 0;
    while (number < 10) first += send(receiver, number++, LONG);
    while (number < SEGMENTS) of_one_size += send(receiver, number++, LONG);
    size_t shorter = send(receiver, number++, SHORT), longer = send(receiver, number, LONG);
    need(segrx_receiver_free(receiver));
    printf("calls of malloc: %zu of one size, %zu of a shorter one, %zu of a longer one\n",
           of_one_size, shorter, longer);
    return first > 0 && of_one_size == 0 && shorter == 1 && longer == 1 ? 0 : 1;
}

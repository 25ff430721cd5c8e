/* A trial of one exported call, for hostile.c: the calls, what they are passed, and what they return and write. */
#ifndef TRIAL_H
#define TRIAL_H

#include <fahireky.h>

/* The buffers passed to a call. INPUT is a prefix, an image, an id or a text to read; OUTPUT is the buffer for a
 * request, a text or an id. */
enum { STATE, ANSWER, INPUT, RECORD, OUTPUT, BUFFERS };

/* The exported calls, in the header's order. TAKE is fahireky_record. */
enum {
    SELECT, DESELECT, ATTACH, ATTACH_TO, DISCOVER, INFO, ERASE, FLASH, RESET, SET_BAUD, REQUEST, TAKE, LINK_FAILED,
    ATTACHED, HEAR, REST, UID_HEX, PARSE_UID, IMAGE_COMPAT, CRC16, STATE_SIZE, ANSWER_SIZE, EXPORTS
};

#define MOST 65536 /* the longest buffer, a multiple of the page size */

/* The call to try. */
struct call {
    int what;
    size_t len[BUFFERS];
    uint8_t bytes[BUFFERS][MOST]; /* the content of its buffers before the call */
    size_t count;                 /* a number of bits, or a place */
    uint16_t start;
    uint8_t baud;
    bool bootloader, in_boot;
    bool pure; /* only calls have changed the state since it was all zero */
};

/* Its result: the code, and the content of its buffers after the call. */
struct outcome {
    uint64_t code;
    uint8_t bytes[BUFFERS][MOST];
};

extern struct call call;

/* Must come first. With `heap` each buffer is an allocation; otherwise each lies between two closed pages. */
void prepare(bool heap);
/* Makes the call twice and checks both results; a fault ends the program. With `low` the buffers of the first call
 * begin right after a closed page (an empty one is NULL), and those of the second end right before one; without `low`
 * it is the other way round. */
const struct outcome *tried(bool low);
/* Prints how often each number was met, for each call. False if a number that the header lists for a call was not met.
 * A buffer that was never passed as NULL is a fault. */
bool report(void);

/* CRC-16/IBM-3740, written independently of the library. */
uint16_t check(uint16_t start, const uint8_t *bytes, size_t n);
/* A little-endian number. */
uint64_t number_at(const uint8_t *bytes, size_t width);
/* The compatibility key of an image, with bit 32 set, or 0. */
uint64_t key(const uint8_t *image, size_t n);

#endif

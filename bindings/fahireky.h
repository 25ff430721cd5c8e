/* Fahireky: the host side of a pod bootloader.
 *
 * Pods share one wire. A host finds them by their ids, attaches to one, and flashes it. This library decides what is
 * sent and what the bytes received mean; it does no input or output of its own. Every function of the archive is
 * proved against written definitions. This header, with its inline function, is not.
 *
 * Buffers. The client's state is a buffer of FAHIREKY_STATE bytes that the caller owns. All zero is a new client. Any
 * content is safe: no call misbehaves on it. (If you pass bytes that no call wrote, the answer may show an id
 * although none is attached, or a length above 16: read it as 16.) Calls keep no pointer, allocate nothing and use
 * no global state. The buffers passed to one call must not overlap. A pointer may be NULL where its length is 0.
 *
 * Operations.
 *   1. Start one by a fahireky_start_ call.
 *   2. Get a request by fahireky_request, and send it. If it is refused (16, 20 or 21), send nothing: mend the call and
 *      repeat it.
 *   3. If the answer to that call says FAHIREKY_CLOSING, the operation has succeeded, and nothing is received.
 *   4. Otherwise receive, and pass the bytes to fahireky_record; if the link failed, call fahireky_link_failed instead.
 *   5. FAHIREKY_ONWARD: go on with 2. FAHIREKY_ENDED: the operation has ended, with an outcome. FAHIREKY_REFUSED: it has
 *      ended, unless the refusal is 16, 20 or 21.
 * The bytes after the frame that answered a request stay unread. The answer has the place where they begin
 * (FAHIREKY_AT_REST), and the caller puts them before the bytes of the next record. A Select reads the whole record.
 *
 * Codes. The calls that return a uint64_t, except fahireky_image_compat, return a code. Its low byte is a number: 0,
 * that of a refusal, or FAHIREKY_UNADDRESSED. The bytes above it are a length: that of the request, text or id
 * written; with refusal 16 the length needed; otherwise 0. FAHIREKY_NUMBER and FAHIREKY_LENGTH take a code apart.
 *
 * Refusals. 13, 16, 20, 21 and 22 change nothing except the answer: no byte of the state, whatever it contains, and
 * none of the buffer for a request, a text or an id. Every other refusal ends the operation. It keeps the seed and the
 * attached id, except that 8 and 10 come after a deselect, so that no id is attached.
 * A call checks for refusals in this order: 16 if the state is shorter than FAHIREKY_STATE, 16 if the answer buffer is
 * shorter than FAHIREKY_ANSWER (with these two nothing at all is written), 21, 20, 13, 16 for the other buffer, and
 * then those that depend on the record. */
#ifndef FAHIREKY_H
#define FAHIREKY_H

#include <stdbool.h>
#include <stddef.h>
#include <stdint.h>

#ifdef __cplusplus
extern "C" {
#endif

#define FAHIREKY_VERSION "0.2.0"
#define FAHIREKY_VERSION_MAJOR 0
#define FAHIREKY_VERSION_MINOR 2
#define FAHIREKY_VERSION_PATCH 0

#define FAHIREKY_STATE 1352   /* bytes of a state */
#define FAHIREKY_ANSWER 1179  /* bytes of an answer */
#define FAHIREKY_REQUEST 1036 /* bytes of the longest request */

#define FAHIREKY_NUMBER(code) ((unsigned)((code) & 0xFF))
#define FAHIREKY_LENGTH(code) ((size_t)((code) >> 8))

/* The number of a code. 1 to 22 are refusals; what one carries is in the answer. */
enum fahireky_refusal {
    FAHIREKY_NO_REFUSAL = 0,
    FAHIREKY_IO = 1,                 /* the link failed, or the record has no complete frame that answers */
    FAHIREKY_DEVICE = 2,             /* carries the status, not Ok; status 3 also if the answer's check is wrong */
    FAHIREKY_FIRMWARE_TOO_LARGE = 3, /* carries size and capacity */
    FAHIREKY_CRC_MISMATCH = 4,       /* after a flash; carries the check expected and the actual one */
    FAHIREKY_BAD_INFO = 5,           /* device information too short, or with a value that cannot be used */
    FAHIREKY_INCOMPATIBLE = 6,       /* carries the device's key, and the image's if it has one */
    FAHIREKY_NO_DEVICE = 7,
    FAHIREKY_SEVERAL_DEVICES = 8,
    FAHIREKY_NO_SUCH_UID = 9,        /* carries the prefix */
    FAHIREKY_AMBIGUOUS_UID = 10,     /* carries the prefix */
    FAHIREKY_NOT_ADDRESSABLE = 11,
    FAHIREKY_DUPLICATE_UID = 12,
    FAHIREKY_BAD_PREFIX = 13,        /* a prefix or id of over 16 bytes, or a bit count over 8 times the bytes given */
    FAHIREKY_LONG_ID = 14,           /* a pod's id is over 16 bytes */
    FAHIREKY_TABLE_FULL = 15,        /* over 64 ids */
    FAHIREKY_SHORT_BUFFER = 16,      /* carries the length needed, which the code has too */
    FAHIREKY_RETRIES_SPENT = 17,     /* a Write was answered with CrcMismatch 17 times in a row */
    FAHIREKY_SHORT_VERIFY = 18,      /* a Verify's answer has a payload of under two bytes */
    FAHIREKY_SPANS_TOO_FAR = 19,     /* the capacity, rounded up to a multiple of erase_size, is above 2^32 - 1 */
    FAHIREKY_OTHER_IMAGE = 20,       /* a flash was started with an image of another length */
    FAHIREKY_OUT_OF_TURN = 21,
    FAHIREKY_BAD_TEXT = 22,
    FAHIREKY_UNADDRESSED = 23        /* not a refusal: the number that goes with FAHIREKY_OUTCOME_UNADDRESSED */
};

/* What an answer says. */
enum fahireky_says {
    FAHIREKY_ONWARD = 0,  /* the operation goes on: ask for the next request */
    FAHIREKY_GRANTED = 1, /* the buffer has a request, and a record of its answer is expected */
    FAHIREKY_ENDED = 2,   /* the operation has ended with an outcome */
    FAHIREKY_REFUSED = 3, /* the call was refused: the number says why */
    FAHIREKY_CLOSING = 4  /* the buffer has a request, and with it the operation has succeeded: no record is expected */
};

/* What an operation has ended with. */
enum fahireky_outcome {
    FAHIREKY_OUTCOME_QUIET = 0,      /* a deselect, a reset, a reset with a baud */
    FAHIREKY_OUTCOME_HEARD = 1,      /* a select: see enum fahireky_heard */
    FAHIREKY_OUTCOME_ATTACHED = 2,   /* an attach: an id, or none for a pod without addressing */
    FAHIREKY_OUTCOME_FOUND = 3,      /* a discovery: the ids, sorted */
    FAHIREKY_OUTCOME_INFO = 4,       /* info, erase, flash: the device information */
    FAHIREKY_OUTCOME_UNADDRESSED = 5 /* a discovery met a pod without addressing: no ids; the code's number is 23 */
};

/* What a select has heard. 2 is not used. */
enum fahireky_heard {
    FAHIREKY_HEARD_NOTHING = 0,
    FAHIREKY_HEARD_ONE = 1,         /* one id */
    FAHIREKY_HEARD_UNADDRESSED = 3, /* a pod without addressing */
    FAHIREKY_HEARD_GARBLE = 4       /* several pods, or noise */
};

/* The places in an answer. Numbers are little-endian. What an answer does not have is zero. */
enum fahireky_at {
    FAHIREKY_AT_NUMBER = 0,     /* 1 byte: the code's number */
    FAHIREKY_AT_SAYS = 1,       /* 1 byte: enum fahireky_says */
    FAHIREKY_AT_OUTCOME = 2,    /* 1 byte: enum fahireky_outcome, where the answer says FAHIREKY_ENDED */
    FAHIREKY_AT_HEARD = 3,      /* 1 byte: enum fahireky_heard, of FAHIREKY_OUTCOME_HEARD */
    FAHIREKY_AT_ANY = 4,        /* 1 byte: 1 if an id is attached, of FAHIREKY_OUTCOME_ATTACHED */
    FAHIREKY_AT_MADE = 5,       /* 1 byte: 1 if the answer has progress */
    FAHIREKY_AT_KEY = 6,        /* 1 byte: with refusal 6, 1 if the image has a key */
    FAHIREKY_AT_REST = 8,       /* 8 bytes: where the unread rest of the record begins */
    FAHIREKY_AT_LENGTH = 16,    /* 8 bytes: the code's length */
    FAHIREKY_AT_DONE = 24,      /* 8 bytes: progress, in bytes erased or chunks written .. */
    FAHIREKY_AT_TOTAL = 32,     /* 8 bytes: .. and their total */
    FAHIREKY_AT_FIRST = 40,     /* 4 bytes: status of 2; size of 3; check expected of 4; the device's key of 6 */
    FAHIREKY_AT_SECOND = 44,    /* 4 bytes: capacity of 3; actual check of 4; the image's key of 6 */
    FAHIREKY_AT_INFO = 48,      /* 18 bytes: capacity 4, erase_size 2, boot_version 2, app_version 2, mode 1,
                                 *           boot_baud 1, compat 4, max_payload 2 */
    FAHIREKY_AT_ID = 66,        /* 16 bytes: the id heard or attached, or the prefix of 9 and 10 */
    FAHIREKY_AT_ID_LENGTH = 82, /* 1 byte: its length */
    FAHIREKY_AT_IDS = 83,       /* 64 rows of 16 bytes: the ids found, sorted */
    FAHIREKY_AT_LENGTHS = 1107, /* 64 bytes: their lengths */
    FAHIREKY_AT_COUNT = 1171    /* 8 bytes: how many there are */
};

/* A text for the number of a code, for a user to read. Not in the archive. */
static inline const char *fahireky_refusal_text(unsigned number)
{
    switch (number) {
    case FAHIREKY_NO_REFUSAL: return "no refusal";
    case FAHIREKY_IO: return "the link failed, or no complete answer was heard";
    case FAHIREKY_DEVICE: return "the pod reported an error, or its answer had a wrong checksum";
    case FAHIREKY_FIRMWARE_TOO_LARGE: return "the image is larger than the pod's app region";
    case FAHIREKY_CRC_MISMATCH: return "the checksum of the flashed image is wrong";
    case FAHIREKY_BAD_INFO: return "the pod's device information is not valid";
    case FAHIREKY_INCOMPATIBLE: return "the image's compatibility key is missing or is not the pod's";
    case FAHIREKY_NO_DEVICE: return "no pod answered";
    case FAHIREKY_SEVERAL_DEVICES: return "several pods answered, or the answer was garbled";
    case FAHIREKY_NO_SUCH_UID: return "no pod with this id prefix answered";
    case FAHIREKY_AMBIGUOUS_UID: return "several pods with this id prefix answered, or the answer was garbled";
    case FAHIREKY_NOT_ADDRESSABLE: return "the pod has no id, so it cannot be attached by one";
    case FAHIREKY_DUPLICATE_UID: return "pods could not be told apart: the same id twice, or a noisy wire";
    case FAHIREKY_BAD_PREFIX: return "the id or prefix is longer than 16 bytes, or the bit count is too large";
    case FAHIREKY_LONG_ID: return "a pod answered with an id longer than 16 bytes";
    case FAHIREKY_TABLE_FULL: return "more than 64 pods were found";
    case FAHIREKY_SHORT_BUFFER: return "a buffer is too short";
    case FAHIREKY_RETRIES_SPENT: return "the same write failed 17 times in a row";
    case FAHIREKY_SHORT_VERIFY: return "the pod's answer to the verification is shorter than two bytes";
    case FAHIREKY_SPANS_TOO_FAR: return "the pod's capacity in whole erase blocks does not fit in 32 bits";
    case FAHIREKY_OTHER_IMAGE: return "the image's length differs from the one given at the start";
    case FAHIREKY_OUT_OF_TURN: return "the call is not allowed at this point";
    case FAHIREKY_BAD_TEXT: return "the text is not an id: an even number of hexadecimal digits, at most 32";
    case FAHIREKY_UNADDRESSED: return "a pod without an id answered";
    default: return "unknown refusal number";
    }
}

/* Starting an operation.
 *
 * Each of these returns a code. If the state or the answer buffer is too short, it is 16 with the length needed, and
 * nothing is written. Otherwise it has no length, and the answer says FAHIREKY_ONWARD, or FAHIREKY_REFUSED: with 21 if
 * an operation is running, and with what else the call's comment lists. How the operation can end is listed after it;
 * 1 ends every operation whose link failed while an answer was awaited. */

/* Selects the pods whose ids begin with the first `bits` bits of a prefix. Refusal: 13.
 * Ends with FAHIREKY_OUTCOME_HEARD, or with 14. */
uint64_t fahireky_start_select(uint8_t *state, size_t state_len, const uint8_t *prefix, size_t prefix_len, size_t bits,
                               uint8_t *answer, size_t answer_len);

/* Deselects every pod: no id is attached afterwards.
 * Ends with FAHIREKY_OUTCOME_QUIET, whatever the record. */
uint64_t fahireky_start_deselect(uint8_t *state, size_t state_len, uint8_t *answer, size_t answer_len);

/* Attaches to the only pod on the wire.
 * Ends with FAHIREKY_OUTCOME_ATTACHED, or with 7, 8 or 14. */
uint64_t fahireky_start_attach(uint8_t *state, size_t state_len, uint8_t *answer, size_t answer_len);

/* Attaches to the one pod whose id begins with a prefix, which may be empty. Refusal: 13.
 * Ends with FAHIREKY_OUTCOME_ATTACHED, or with 9, 10, 11 or 14. */
uint64_t fahireky_start_attach_to(uint8_t *state, size_t state_len, const uint8_t *prefix, size_t prefix_len,
                                  uint8_t *answer, size_t answer_len);

/* Finds every pod whose id begins with a prefix, which may be empty. Refusal: 13.
 * Ends with FAHIREKY_OUTCOME_FOUND, after a deselect, so that no id is attached; or with FAHIREKY_OUTCOME_UNADDRESSED;
 * or with 12, 14 or 15. With these four no deselect has been sent. */
uint64_t fahireky_start_discover(uint8_t *state, size_t state_len, const uint8_t *prefix, size_t prefix_len,
                                 uint8_t *answer, size_t answer_len);

/* Asks for the device information.
 * Ends with FAHIREKY_OUTCOME_INFO, or with 1, 2 or 5. */
uint64_t fahireky_start_info(uint8_t *state, size_t state_len, uint8_t *answer, size_t answer_len);

/* Erases the whole app region.
 * Ends with FAHIREKY_OUTCOME_INFO, or with 1, 2, 5 or 19. */
uint64_t fahireky_start_erase(uint8_t *state, size_t state_len, uint8_t *answer, size_t answer_len);

/* Flashes an image: erases, writes, and verifies it. The library keeps the image's length only, so the same image is
 * passed to every call until the flash has ended.
 * Ends with FAHIREKY_OUTCOME_INFO, or with 1, 2, 3, 4, 5, 6, 17, 18 or 19. */
uint64_t fahireky_start_flash(uint8_t *state, size_t state_len, const uint8_t *image, size_t image_len,
                              uint8_t *answer, size_t answer_len);

/* Resets the pod into the bootloader or into the app. `in_boot` says that the pod runs its bootloader now, which
 * answers before it resets. An app does not answer: the operation has then succeeded once fahireky_request has given
 * its request, and the answer to that call says FAHIREKY_CLOSING.
 * With `in_boot`, ends with FAHIREKY_OUTCOME_QUIET, or with 1 or 2. */
uint64_t fahireky_start_reset(uint8_t *state, size_t state_len, bool bootloader, bool in_boot,
                              uint8_t *answer, size_t answer_len);

/* As fahireky_start_reset, with a baud for the bootloader to store. */
uint64_t fahireky_start_set_baud(uint8_t *state, size_t state_len, uint8_t baud, bool bootloader, bool in_boot,
                                 uint8_t *answer, size_t answer_len);

/* Driving an operation. */

/* Writes the next request to the front of a buffer, and no byte after it. A buffer of FAHIREKY_REQUEST bytes is always
 * long enough. The image is the one that the flash was started with; other operations take any image, also none.
 * Returns a code with the request's length. The answer says FAHIREKY_GRANTED or FAHIREKY_CLOSING.
 * Refusals: 16; 20; 21 if no operation is running, or if a record is expected first. */
uint64_t fahireky_request(uint8_t *state, size_t state_len, const uint8_t *image, size_t image_len,
                          uint8_t *buffer, size_t buffer_len, uint8_t *answer, size_t answer_len);

/* Takes a record: the unread rest of the last one, then the bytes received since. The image is as for
 * fahireky_request. Returns a code, with a length only for 16. The answer says FAHIREKY_ONWARD, FAHIREKY_ENDED or
 * FAHIREKY_REFUSED. After 1 nothing is unread; after 20 and 21 the whole record is.
 * Refusals: 16; 20; 21 if no record is expected; and those that can end the operation. */
uint64_t fahireky_record(uint8_t *state, size_t state_len, const uint8_t *image, size_t image_len,
                         const uint8_t *record, size_t record_len, uint8_t *answer, size_t answer_len);

/* Ends the operation because the link failed. If the request was a Select (its byte 1 is 5), this is for a failure to
 * send only: if receiving failed, pass what was received to fahireky_record. The caller drops the rest of earlier
 * records. Returns a code, with a length only for 16.
 * Refusals: 16; 21 if no record is expected; otherwise always 1. */
uint64_t fahireky_link_failed(uint8_t *state, size_t state_len, uint8_t *answer, size_t answer_len);

/* Shows the attached id, at any time. Returns a code, with a length only for 16. The answer says FAHIREKY_ENDED, with
 * FAHIREKY_OUTCOME_ATTACHED.
 * Refusal: 16. */
uint64_t fahireky_attached(const uint8_t *state, size_t state_len, uint8_t *answer, size_t answer_len);

/* Calls without a client. */

/* Shows what a select hears in a record. Returns a code, with a length only for 16. The answer says FAHIREKY_ENDED,
 * with FAHIREKY_OUTCOME_HEARD.
 * Refusals: 14, 16. */
uint64_t fahireky_hear(const uint8_t *record, size_t record_len, uint8_t *answer, size_t answer_len);

/* Returns where the unread rest of a record begins: the place, or the record's length if the place is past its end. */
size_t fahireky_rest(const uint8_t *record, size_t record_len, size_t place);

/* Writes an id as text: two hexadecimal digits a byte, in lower case, and no byte after them. Returns a code with the
 * text's length.
 * Refusals: 13, then 16. */
uint64_t fahireky_uid_hex(const uint8_t *id, size_t id_len, uint8_t *text, size_t text_len);

/* Reads an id from a text: an even number of hexadecimal digits of either case, at most 32. Writes the id, and no byte
 * after it. Returns a code with the id's length.
 * Refusals: 22, then 16. */
uint64_t fahireky_parse_uid(const uint8_t *text, size_t text_len, uint8_t *id, size_t id_len);

/* Returns the compatibility key at the end of an image, with bit 32 set; 0 if the image has none. */
uint64_t fahireky_image_compat(const uint8_t *image, size_t image_len);

/* Returns the CRC-16/IBM-3740 of some bytes, carried on from `start`; begin with 0xFFFF. The check of an image is that
 * of all its bytes, the check of a frame that of bytes 1 up to the end of its payload. */
uint16_t fahireky_crc16(uint16_t start, const uint8_t *bytes, size_t len);

/* Return FAHIREKY_STATE and FAHIREKY_ANSWER as the archive that is linked has them. */
size_t fahireky_state_size(void);
size_t fahireky_answer_size(void);

#ifdef __cplusplus
}
#endif

#endif

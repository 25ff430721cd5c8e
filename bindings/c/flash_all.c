/* A host in C: finds the pods on a wire, flashes an image into each, and resets it.
 *
 * The first part is the host: copy it, and write `exchange` for your link. The second part simulates a wire with three
 * pods. `main` runs the one on the other, and then compares what the pods contain with the image.
 *
 *   cc flash_all.c $(pkg-config --cflags --libs fahireky) -o flash_all */
#include <fahireky.h>

#include <stdio.h>
#include <stdlib.h>
#include <string.h>

/* The host. */

/* A record has the unread rest of the last one, the echo of a request, and the pods' answers. */
#define RECORD_ROOM 4096

struct record {
    uint8_t bytes[RECORD_ROOM];
    size_t len;
};

struct host {
    uint8_t state[FAHIREKY_STATE]; /* all zero: a new client */
    uint8_t answer[FAHIREKY_ANSWER];
    uint8_t request[FAHIREKY_REQUEST];
    struct record record;
};

/* The wire: sends a request and appends the bytes received to the record. Returns false if the link failed, and for a
 * Select only if sending failed. */
static bool exchange(const uint8_t *request, size_t request_len, struct record *record);

static void fail(const char *doing, const char *problem)
{
    fflush(stdout);
    fprintf(stderr, "%s: %s\n", doing, problem);
    exit(1);
}

/* Ends the program if the code of a call has a number. That is a refusal, or (23) a pod that cannot be addressed. */
static void expect_success(const char *doing, uint64_t code)
{
    if (FAHIREKY_NUMBER(code) != FAHIREKY_NO_REFUSAL)
        fail(doing, fahireky_refusal_text(FAHIREKY_NUMBER(code)));
}

static void append(struct record *record, const uint8_t *bytes, size_t len)
{
    if (len > sizeof record->bytes - record->len)
        fail("receiving", "the record buffer is too short for the bytes received");
    if (len > 0)
        memcpy(record->bytes + record->len, bytes, len);
    record->len += len;
}

/* A little-endian number in an answer. */
static uint64_t number_at(const uint8_t *bytes, size_t width)
{
    uint64_t number = 0;
    while (width > 0)
        number = number << 8 | bytes[--width];
    return number;
}

/* Keeps the unread rest of the record, for the next one to begin with. */
static void keep_rest(struct host *host)
{
    struct record *record = &host->record;
    size_t place = (size_t)number_at(host->answer + FAHIREKY_AT_REST, 8);
    size_t begin = fahireky_rest(record->bytes, record->len, place);
    record->len -= begin;
    memmove(record->bytes, record->bytes + begin, record->len);
}

/* Drives an operation to its end. `started` is the code of the call that started it. Afterwards the answer has the
 * outcome. Only a flash has an image. */
static void run(struct host *host, const char *doing, uint64_t started, const uint8_t *image, size_t image_len)
{
    expect_success(doing, started);
    do {
        uint64_t code = fahireky_request(host->state, sizeof host->state, image, image_len, host->request,
                                         sizeof host->request, host->answer, sizeof host->answer);
        expect_success(doing, code);
        bool linked = exchange(host->request, FAHIREKY_LENGTH(code), &host->record);
        if (host->answer[FAHIREKY_AT_SAYS] == FAHIREKY_CLOSING) { /* it has ended, and no record is expected */
            host->record.len = 0;
        } else if (linked) {
            code = fahireky_record(host->state, sizeof host->state, image, image_len, host->record.bytes,
                                   host->record.len, host->answer, sizeof host->answer);
            keep_rest(host);
        } else {
            code = fahireky_link_failed(host->state, sizeof host->state, host->answer, sizeof host->answer);
            host->record.len = 0;
        }
        expect_success(doing, code);
    } while (host->answer[FAHIREKY_AT_SAYS] == FAHIREKY_ONWARD);
}

static void discover(struct host *host)
{
    uint64_t started = fahireky_start_discover(host->state, sizeof host->state, NULL, 0, host->answer,
                                               sizeof host->answer);
    run(host, "discovering", started, NULL, 0);
}

static void attach(struct host *host, const uint8_t *id, size_t id_len)
{
    uint64_t started = fahireky_start_attach_to(host->state, sizeof host->state, id, id_len, host->answer,
                                                sizeof host->answer);
    run(host, "attaching", started, NULL, 0);
}

static void flash(struct host *host, const uint8_t *image, size_t image_len)
{
    uint64_t started = fahireky_start_flash(host->state, sizeof host->state, image, image_len, host->answer,
                                            sizeof host->answer);
    run(host, "flashing", started, image, image_len);
}

/* Resets the attached pod into its app, without waiting for an answer. */
static void reset(struct host *host)
{
    uint64_t started = fahireky_start_reset(host->state, sizeof host->state, false, false, host->answer,
                                            sizeof host->answer);
    run(host, "resetting", started, NULL, 0);
}

static void print_id(const uint8_t *id, size_t id_len)
{
    uint8_t text[32];
    uint64_t code = fahireky_uid_hex(id, id_len, text, sizeof text);
    expect_success("printing an id", code);
    printf("%.*s", (int)FAHIREKY_LENGTH(code), (const char *)text);
}

/* Flashes every pod on the wire. Returns how many there are. */
static size_t flash_all(struct host *host, const uint8_t *image, size_t image_len)
{
    if (fahireky_state_size() != FAHIREKY_STATE || fahireky_answer_size() != FAHIREKY_ANSWER)
        fail("starting", "the header and the library do not belong together");

    discover(host);
    uint8_t found[FAHIREKY_ANSWER]; /* the next operation writes another answer over the ids */
    memcpy(found, host->answer, sizeof found);
    size_t count = (size_t)number_at(found + FAHIREKY_AT_COUNT, 8);
    for (size_t i = 0; i < count; i++) {
        const uint8_t *id = found + FAHIREKY_AT_IDS + 16 * i;
        size_t id_len = found[FAHIREKY_AT_LENGTHS + i];
        print_id(id, id_len);
        printf(": ");
        attach(host, id, id_len);
        flash(host, image, image_len);
        reset(host);
        printf("flashed, and reset\n");
    }
    return count;
}

/* The simulated wire. */

#define PODS 3
#define CAPACITY 4096
#define ERASE_SIZE 512

enum command { INFO = 0, ERASE = 1, WRITE = 2, VERIFY = 3, SELECT = 5 };
enum status { OK = 1, UNSUPPORTED = 2 };
enum { HEAD = 10, CHECK = 2 }; /* the bytes of a frame before and after its payload */

struct pod {
    uint8_t id[4];
    bool selected;
    uint8_t flash[CAPACITY];
};

static struct pod pods[PODS] = {
    {.id = {0x11, 0x22, 0x33, 0x44}},
    {.id = {0x11, 0x22, 0x33, 0x45}},
    {.id = {0xF0, 0x00, 0x00, 0x01}},
};

/* Appends a frame, a pod's answer. Its check leaves out byte 0, which is A5. */
static void answer(struct record *record, uint8_t command, uint8_t status, const uint8_t *payload, uint8_t len)
{
    const uint8_t head[HEAD] = {0xA5, command, status, [8] = len};
    uint16_t crc = fahireky_crc16(fahireky_crc16(0xFFFF, head + 1, sizeof head - 1), payload, len);
    const uint8_t check[CHECK] = {(uint8_t)crc, (uint8_t)(crc >> 8)};
    append(record, head, sizeof head);
    append(record, payload, len);
    append(record, check, sizeof check);
}

/* What a selected pod answers. */
static void serve(struct pod *pod, const uint8_t *request, size_t payload_len, struct record *record)
{
    static const uint8_t info[18] = {
        CAPACITY & 0xFF, CAPACITY >> 8, 0, 0, ERASE_SIZE & 0xFF, ERASE_SIZE >> 8, /* capacity, erase size */
        1, 0, 2, 0, 0, 0xFF,                                                      /* versions, mode, baud */
        0xFF, 0xFF, 0xFF, 0xFF, 64, 0,                                            /* no key, longest payload */
    };
    uint8_t command = request[1];
    size_t address = (size_t)number_at(request + 4, 4);
    size_t len = command == WRITE ? payload_len : command == ERASE ? ERASE_SIZE : 0;
    if (address > CAPACITY || len > CAPACITY - address) {
        answer(record, command, UNSUPPORTED, NULL, 0);
        return;
    }
    switch (command) {
    case INFO:
        answer(record, command, OK, info, sizeof info);
        break;
    case ERASE:
        memset(pod->flash + address, 0xFF, len);
        answer(record, command, OK, NULL, 0);
        break;
    case WRITE:
        memcpy(pod->flash + address, request + HEAD, len);
        answer(record, command, OK, NULL, 0);
        break;
    case VERIFY: {
        uint16_t crc = fahireky_crc16(0xFFFF, pod->flash, address);
        answer(record, command, OK, (const uint8_t[]){(uint8_t)crc, (uint8_t)(crc >> 8)}, 2);
        break;
    }
    default: /* a reset out of the app: no answer */
        break;
    }
}

/* Whether a pod's id begins with the bits of a Select. */
static bool matches(const struct pod *pod, const uint8_t *request)
{
    size_t bits = request[HEAD + 1];
    const uint8_t *prefix = request + HEAD + 2;
    if (bits > 8 * sizeof pod->id)
        return false;
    for (size_t k = 0; k < bits; k++)
        if ((pod->id[k / 8] >> k % 8 & 1) != (prefix[k / 8] >> k % 8 & 1))
            return false;
    return true;
}

/* A pod answers a Select with its id if it is the only one selected. Several at once are noise. */
static void select_pods(const uint8_t *request, struct record *record)
{
    static const uint8_t noise = 0x5A;
    const struct pod *last = NULL;
    size_t count = 0;
    for (size_t i = 0; i < PODS; i++) {
        pods[i].selected = matches(&pods[i], request);
        if (pods[i].selected) {
            last = &pods[i];
            count++;
        }
    }
    if (count == 1)
        answer(record, SELECT, OK, last->id, sizeof last->id);
    else if (count > 1)
        append(record, &noise, 1);
}

/* The host hears its own request first, then the pods. */
static bool exchange(const uint8_t *request, size_t request_len, struct record *record)
{
    append(record, request, request_len);
    if (request[1] == SELECT)
        select_pods(request, record);
    else
        for (size_t i = 0; i < PODS; i++)
            if (pods[i].selected)
                serve(&pods[i], request, request_len - HEAD - CHECK, record);
    return true;
}

int main(void)
{
    static struct host host;
    uint8_t image[1002];
    for (size_t i = 0; i < sizeof image; i++)
        image[i] = (uint8_t)(i * 7 + i / 256);

    size_t count = flash_all(&host, image, sizeof image);
    if (count != PODS)
        fail("checking", "not every pod was found");
    for (size_t i = 0; i < PODS; i++)
        if (memcmp(pods[i].flash, image, sizeof image) != 0)
            fail("checking", "a pod does not contain the image");
    printf("%zu pods hold the image\n", count);
    return 0;
}

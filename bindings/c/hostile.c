/* Random and hostile bytes against every exported call: `hostile SEED CALLS [heap]`.
 *
 * First every call is made with every choice of its buffers empty. Then eight clients run, each on a wire of its own,
 * whose pods answer correctly, are silent, garble, or answer with anything. Their operations are driven to the end. In
 * between there are calls out of turn, calls with buffers of any length, and calls on states that no call has produced.
 * trial.c makes and checks each call: between closed pages, or with `heap` (for valgrind and the sanitizers) on
 * allocations of the exact lengths.
 *
 * Prints the numbers met, for each call. Exits with 1 at the first fault, and prints the call. From a million calls on
 * it is a fault, too, if a number that fahireky.h lists for a call was not met. */
#include "trial.h"

#include <stdio.h>
#include <stdlib.h>
#include <string.h>

/* Random numbers: SplitMix64. */

static uint64_t seed;

static uint64_t chance(void)
{
    uint64_t z = (seed += 0x9E3779B97F4A7C15);
    z = (z ^ (z >> 30)) * 0xBF58476D1CE4E5B9;
    z = (z ^ (z >> 27)) * 0x94D049BB133111EB;
    return z ^ (z >> 31);
}

static size_t below(size_t n) { return (size_t)(chance() % n); }
static bool one_in(size_t n) { return below(n) == 0; }

static void scatter(uint8_t *bytes, size_t n)
{
    for (size_t i = 0; i < n; i += 8) {
        uint64_t z = chance();
        memcpy(bytes + i, &z, n - i < 8 ? n - i : 8);
    }
}

/* A length near n, most often n itself. */
static size_t around(size_t n, size_t most)
{
    switch (below(24)) {
    case 0: return n - 1;
    case 1: case 2: return n + 1;
    case 3: return one_in(4) ? 0 : below(n);
    case 4: case 5: return n + below(most - n + 1);
    default: return n;
    }
}

/* The wires and their clients. */

#define PODS 70
#define IMAGE 5000
#define LIFE 5000 /* after so many calls a wire gets a new client */

enum temper { HONEST, SILENT, GARBLED, UNADDRESSED, LONG_ID, STUBBORN, BAD_VERIFY, HOSTILE, TEMPERS };
enum phase { IDLE, READY, WAITING };

struct wire {
    uint8_t state[FAHIREKY_STATE];
    bool open;  /* may take over what a call makes of a state that no call has produced */
    bool pure;  /* as in struct call */
    bool hasty; /* the link sometimes fails, and honest pods sometimes answer with anything */
    enum phase phase;
    unsigned age; /* calls since the state was all zero */
    uint8_t request[FAHIREKY_REQUEST];
    size_t request_len;
    size_t needed; /* the length that the last request needed, if its buffer was too short */
    enum temper temper;
    size_t pods, id_len;
    uint8_t ids[PODS][16], info[18], image[IMAGE];
    size_t image_len;
};

static struct wire wires[8];

static size_t image_length(void)
{
    switch (below(8)) {
    case 0: return below(IMAGE + 1);
    case 1: return below(8);
    case 2: return 6 + 4 * below(40);
    default: return below(300);
    }
}

/* Device information that usually fits the image of this wire. */
static void inform(struct wire *w)
{
    uint32_t capacity = (uint32_t)(one_in(16)   ? below(w->image_len + 2)
                                   : one_in(16) ? 0xFFFFFFFF - below(64)
                                                : w->image_len + below(3000));
    uint16_t erase = (uint16_t)(one_in(24) ? 0 : 64 + below(one_in(8) ? 65000 : 2000));
    uint16_t payload = (uint16_t)(one_in(24) ? below(4) : 4 + below(one_in(2) ? 1100 : 60));
    scatter(w->info, sizeof w->info);
    memcpy(w->info, &capacity, 4);
    memcpy(w->info + 4, &erase, 2);
    memcpy(w->info + 16, &payload, 2);
    uint64_t k = key(w->image, w->image_len);
    if (!one_in(8))
        memset(w->info + 12, 0xFF, 4);
    else if (k && one_in(2))
        memcpy(w->info + 12, &k, 4);
}

/* Other pods and another image for the next operation. */
static void rewire(struct wire *w)
{
    static const size_t few[] = {0, 1, 1, 1, 2, 3, 5};
    w->temper = one_in(2) ? HONEST : (enum temper)below(TEMPERS);
    w->hasty = one_in(2);
    w->pods = one_in(8) ? 62 + below(PODS - 62 + 1) : few[below(7)];
    w->id_len = one_in(8) ? below(17) : 2 + below(15);
    scatter(w->ids[0], sizeof w->ids);
    for (size_t i = 1; i < w->pods; i++)
        if (w->id_len && one_in(4))
            memcpy(w->ids[i], w->ids[i - 1], one_in(64) ? w->id_len : below(w->id_len));
    w->image_len = image_length();
    scatter(w->image, w->image_len);
    inform(w);
}

/* Writes a frame with a correct check, and a random payload if none is given. Returns its length. */
static size_t frame(uint8_t *out, uint8_t command, uint8_t status, const uint8_t *payload, size_t n)
{
    scatter(out, 10);
    out[0] = 0xA5;
    out[1] = command;
    out[2] = status;
    out[8] = (uint8_t)n;
    out[9] = (uint8_t)(n >> 8);
    if (payload)
        memcpy(out + 10, payload, n);
    else
        scatter(out + 10, n);
    uint16_t c = check(0xFFFF, out + 1, 9 + n);
    out[10 + n] = (uint8_t)c;
    out[11 + n] = (uint8_t)(c >> 8);
    return 12 + n;
}

static bool matches(const struct wire *w, const uint8_t *id)
{
    size_t bits = w->request[11];
    for (size_t k = 0; k < bits; k++)
        if (k >= 8 * w->id_len || (id[k / 8] >> k % 8 & 1) != (w->request[12 + k / 8] >> k % 8 & 1))
            return false;
    return true;
}

/* The answer to a Select: one pod's id, or noise from several. */
static size_t selected(const struct wire *w, uint8_t *out)
{
    size_t speakers = 0, last = 0;
    for (size_t i = 0; i < w->pods; i++)
        if (matches(w, w->ids[i])) {
            speakers++;
            last = i;
        }
    if (speakers > 1)
        return *out = 0x5A, 1;
    return speakers ? frame(out, 5, 1, w->ids[last], w->id_len) : 0;
}

/* The pods' answer to the last request. */
static size_t replied(const struct wire *w, uint8_t *out)
{
    uint8_t command = w->request[1], two[2];
    if (w->temper == SILENT || w->request_len == 0)
        return 0;
    if (w->temper == GARBLED && command == 5)
        return *out = (uint8_t)chance(), 1;
    if (w->temper == UNADDRESSED && command == 5)
        return frame(out, 5, 2, NULL, below(4));
    if (w->temper == LONG_ID && command == 5)
        return frame(out, 5, 1, NULL, 16 + below(5));
    if (w->temper == STUBBORN && command == 2)
        return frame(out, 2, 3, NULL, 0);
    switch (command) {
    case 0: return frame(out, 0, 1, w->info, sizeof w->info);
    case 3: {
        uint16_t c = check(0xFFFF, w->image, w->image_len);
        memcpy(two, &c, 2);
        return w->temper == BAD_VERIFY ? frame(out, 3, 1, NULL, below(3)) : frame(out, 3, 1, two, 2);
    }
    case 5: return selected(w, out);
    default: return frame(out, command, 1, NULL, 0);
    }
}

/* A piece of a record: an echo, an answer, a frame of any status and length, a frame that is cut short or has a wrong
 * check, or noise. */
static size_t piece(const struct wire *w, uint8_t *out)
{
    static const uint8_t statuses[] = {1, 1, 1, 1, 0, 2, 3};
    uint8_t status = one_in(8) ? (uint8_t)chance() : statuses[below(7)];
    size_t n;
    switch (below(8)) {
    case 0:
        memcpy(out, w->request, w->request_len);
        return w->request_len;
    case 1: return replied(w, out);
    case 2: return frame(out, w->request[1], status, w->info, below(19));
    case 3: return frame(out, (uint8_t)chance(), status, NULL, one_in(4) ? 1020 + below(10) : below(200));
    case 4:
        n = frame(out, 5, status, NULL, below(21));
        return below(n);
    case 5:
        n = frame(out, 5, status, NULL, below(21));
        out[below(n)] ^= (uint8_t)(1 + below(255));
        return n;
    case 6:
        n = below(one_in(16) ? 2000 : 40);
        scatter(out, n);
        if (n && one_in(2))
            out[below(n)] = 0xA5;
        return n;
    default: return frame(out, 5, status, NULL, below(21));
    }
}

/* A record: the answer, perhaps after the echo; on a hostile wire any pieces. */
static size_t record(const struct wire *w, uint8_t *out)
{
    size_t n = 0;
    if (w->temper != HOSTILE && !(w->hasty && one_in(16))) {
        if (one_in(2)) {
            memcpy(out, w->request, w->request_len);
            n = w->request_len;
        }
        return n + replied(w, out + n);
    }
    for (size_t k = below(5); k > 0; k--)
        n += piece(w, out + n);
    return n;
}

/* The choice of a call and of its arguments. */

/* Usually the call that is in turn. */
static int chosen(const struct wire *w)
{
    if (one_in(6)) {
        int what = (int)below(EXPORTS);
        return what == LINK_FAILED && w->phase == WAITING && !w->hasty ? TAKE : what;
    }
    switch (w->phase) {
    case IDLE: return (int)below(REQUEST);
    case READY: return REQUEST;
    default: return w->hasty && one_in(100) ? LINK_FAILED : TAKE;
    }
}

/* Passes the state of the wire's client, or another one. Returns whether the wire's client gets the state after the
 * call. */
static bool pass_state(const struct wire *w)
{
    uint8_t *s = call.bytes[STATE];
    size_t kind = one_in(8) ? 1 + below(6) : 0;
    call.len[STATE] = around(FAHIREKY_STATE, 1400);
    scatter(s + FAHIREKY_STATE, 1400 - FAHIREKY_STATE);
    call.pure = kind == 1 || (kind == 0 && w->pure);
    switch (kind) {
    case 1: memset(s, 0, FAHIREKY_STATE); break;
    case 2: memset(s, 0xFF, FAHIREKY_STATE); break;
    case 3: scatter(s, FAHIREKY_STATE); break;
    default: memcpy(s, w->state, FAHIREKY_STATE); break;
    }
    if (kind == 3 && one_in(2)) { /* random, but with a turn that has a meaning, such as a flash of the wire's image */
        for (size_t k = 19; k < 27; k++)
            s[k] = (uint8_t)below(5);
        memcpy(s + 27, &w->image_len, 8);
    }
    if (kind > 3)
        for (size_t k = 1 + below(4); k > 0; k--)
            s[one_in(2) ? below(87) : below(FAHIREKY_STATE)] = (uint8_t)(one_in(2) ? below(6) : chance());
    return kind == 0 || (w->open && one_in(4));
}

static void pass_image(const struct wire *w)
{
    bool other = one_in(32);
    call.len[INPUT] = other ? image_length() : w->image_len;
    memcpy(call.bytes[INPUT], w->image, call.len[INPUT]);
}

static void pass_prefix(const struct wire *w)
{
    call.len[INPUT] = one_in(2) ? 0 : one_in(2) ? below(3) : below(20);
    scatter(call.bytes[INPUT], call.len[INPUT]);
    if (one_in(2) && call.len[INPUT] <= 16)
        memcpy(call.bytes[INPUT], w->ids[0], call.len[INPUT]);
    size_t bits = 8 * call.len[INPUT];
    call.count = one_in(16) ? (size_t)chance() : one_in(8) ? bits + below(300) : below(bits + 1);
}

static void pass_text(void)
{
    call.len[INPUT] = below(40);
    for (size_t i = 0; i < call.len[INPUT]; i++)
        call.bytes[INPUT][i] = (uint8_t)"0123456789abcdefABCDEF"[below(22)];
    if (call.len[INPUT] && one_in(3))
        call.bytes[INPUT][below(call.len[INPUT])] = (uint8_t)chance();
}

static void pass_inputs(const struct wire *w)
{
    switch (call.what) {
    case SELECT: case ATTACH_TO: case DISCOVER: pass_prefix(w); break;
    case FLASH: case REQUEST: case TAKE: case IMAGE_COMPAT: case CRC16: pass_image(w); break;
    case UID_HEX:
        call.len[INPUT] = below(20);
        scatter(call.bytes[INPUT], call.len[INPUT]);
        break;
    case PARSE_UID: pass_text(); break;
    default: break;
    }
    if (call.what == TAKE || call.what == HEAR || call.what == REST)
        call.len[RECORD] = record(w, call.bytes[RECORD]);
    if (call.what == REST)
        call.count = one_in(8) ? (size_t)chance() : below(call.len[RECORD] + 3);
    call.start = one_in(2) ? 0xFFFF : (uint16_t)chance();
    call.baud = (uint8_t)chance();
    call.bootloader = one_in(2);
    call.in_boot = !one_in(4);
}

static void pass_outputs(const struct wire *w)
{
    call.len[ANSWER] = around(FAHIREKY_ANSWER, 1300);
    scatter(call.bytes[ANSWER], call.len[ANSWER]);
    if (call.what != REQUEST)
        call.len[OUTPUT] = below(40);
    else if (w->needed)
        call.len[OUTPUT] = w->needed - 1 + below(3);
    else
        call.len[OUTPUT] = one_in(8) ? below(60) : FAHIREKY_REQUEST + below(1100 - FAHIREKY_REQUEST + 1);
    scatter(call.bytes[OUTPUT], call.len[OUTPUT]);
}

/* Takes the state after a call, and what the result says about the client's phase. */
static void learn(struct wire *w, const struct outcome *x)
{
    unsigned number = FAHIREKY_NUMBER(x->code), says = x->bytes[ANSWER][FAHIREKY_AT_SAYS];
    memcpy(w->state, x->bytes[STATE], FAHIREKY_STATE);
    w->pure = call.pure;
    w->needed = call.what == REQUEST && number == FAHIREKY_SHORT_BUFFER ? FAHIREKY_LENGTH(x->code) : 0;
    if (call.what == FLASH && number == 0)
        w->image_len = call.len[INPUT];
    if (number == FAHIREKY_OTHER_IMAGE && call.len[INPUT] == w->image_len) /* it waits for an image that is lost */
        w->age = LIFE;
    if (number == FAHIREKY_OUT_OF_TURN) { /* it is not in the phase assumed: assume the next one */
        static const enum phase next[] = {[IDLE] = READY, [READY] = WAITING, [WAITING] = IDLE};
        enum phase of = call.what < REQUEST ? IDLE : call.what == REQUEST ? READY : WAITING;
        w->phase = w->phase == of ? next[of] : w->phase;
    }
    if (number == FAHIREKY_BAD_PREFIX || number == FAHIREKY_SHORT_BUFFER || number == FAHIREKY_OTHER_IMAGE ||
        number == FAHIREKY_OUT_OF_TURN)
        return;
    w->phase = says == FAHIREKY_ONWARD ? READY : says == FAHIREKY_GRANTED ? WAITING : IDLE;
    if (says == FAHIREKY_GRANTED) {
        w->request_len = FAHIREKY_LENGTH(x->code);
        memcpy(w->request, x->bytes[OUTPUT], w->request_len);
    }
}

/* One call on a wire's client. */
static void step(struct wire *w)
{
    if (++w->age > LIFE) {
        memset(w->state, 0, sizeof w->state);
        w->age = 0;
        w->pure = true;
        w->phase = IDLE;
    }
    if (w->phase == IDLE && one_in(2))
        rewire(w);
    call.what = chosen(w);
    bool kept = pass_state(w);
    pass_inputs(w);
    pass_outputs(w);
    const struct outcome *x = tried(one_in(2));
    bool long_enough = call.len[STATE] >= FAHIREKY_STATE && call.len[ANSWER] >= FAHIREKY_ANSWER;
    if (kept && long_enough && call.what <= LINK_FAILED)
        learn(w, x);
}

/* Every call with every choice of its buffers empty: these are NULL in one of the two calls of the trial. The other
 * arguments are 0. */
static void try_empty(const uint8_t state[FAHIREKY_STATE])
{
    static const size_t full[BUFFERS] = {FAHIREKY_STATE, FAHIREKY_ANSWER, 4, 4, FAHIREKY_REQUEST};
    call.pure = true;
    for (call.what = 0; call.what < EXPORTS; call.what++)
        for (unsigned empty = 0; empty < 1u << BUFFERS; empty++) {
            for (int i = 0; i < BUFFERS; i++) {
                call.len[i] = empty >> i & 1 ? 0 : full[i];
                memset(call.bytes[i], '1', full[i]);
            }
            memcpy(call.bytes[STATE], state, FAHIREKY_STATE);
            tried(true);
        }
}

/* For a new client, for one that has started a flash of an empty image, and for one that waits for a record. */
static void try_empty_in_turn(void)
{
    uint8_t state[FAHIREKY_STATE] = {0}, request[FAHIREKY_REQUEST], answer[FAHIREKY_ANSWER];
    try_empty(state);
    fahireky_start_flash(state, sizeof state, NULL, 0, answer, sizeof answer);
    try_empty(state);
    fahireky_request(state, sizeof state, NULL, 0, request, sizeof request, answer, sizeof answer);
    try_empty(state);
}

int main(int argc, char **argv)
{
    if (argc < 3 || argc > 4 || (argc == 4 && strcmp(argv[3], "heap") != 0)) {
        fprintf(stderr, "hostile SEED CALLS [heap]\n");
        return 2;
    }
    seed = strtoull(argv[1], NULL, 10);
    uint64_t calls = strtoull(argv[2], NULL, 10);
    prepare(argc == 4);
    try_empty_in_turn();
    for (size_t i = 0; i < 8; i++) {
        wires[i].open = i >= 4;
        wires[i].age = LIFE;
    }
    for (uint64_t n = 0; n < calls; n++)
        step(&wires[below(8)]);
    bool all = report();
    printf("%llu random calls, each made twice: no fault%s\n", (unsigned long long)calls,
           all ? ", every number met" : "; some number that the header lists was not met");
    return all || calls < 1000000 ? 0 : 1;
}

/* A trial of one exported call. The call is made twice on the same bytes, and everything that fahireky.h says about
 * what it returns and writes is checked.
 *
 * In one of the two calls every buffer ends right before a page that must not be touched, in the other every buffer
 * begins right after such a page; or every buffer is an allocation of its exact length. Before the second call the
 * bytes that are to be overwritten, and those after them, are complemented: the same bytes must be written. */
#define _DEFAULT_SOURCE
#include "trial.h"

#include <signal.h>
#include <stdio.h>
#include <stdlib.h>
#include <string.h>
#include <sys/mman.h>

/* The exports: the buffers that each is passed, those that it may write, and the numbers that the header lists. */

#define S (1u << STATE)
#define A (1u << ANSWER)
#define I (1u << INPUT)
#define R (1u << RECORD)
#define O (1u << OUTPUT)
#define N(n) (1u << (n))
#define STARTS (N(0) | N(16) | N(21))
#define KEEPING (N(13) | N(16) | N(20) | N(21) | N(22)) /* the refusals that change nothing */
#define ENDING (0x7FFFFE & ~KEEPING)                    /* the refusals that end the operation */

static const struct {
    const char *name;
    unsigned passed, written;
    uint32_t numbers;
} exports[EXPORTS] = {
    [SELECT] = {"start_select", S | I | A, S | A, STARTS | N(13)},
    [DESELECT] = {"start_deselect", S | A, S | A, STARTS},
    [ATTACH] = {"start_attach", S | A, S | A, STARTS},
    [ATTACH_TO] = {"start_attach_to", S | I | A, S | A, STARTS | N(13)},
    [DISCOVER] = {"start_discover", S | I | A, S | A, STARTS | N(13)},
    [INFO] = {"start_info", S | A, S | A, STARTS},
    [ERASE] = {"start_erase", S | A, S | A, STARTS},
    [FLASH] = {"start_flash", S | I | A, S | A, STARTS},
    [RESET] = {"start_reset", S | A, S | A, STARTS},
    [SET_BAUD] = {"start_set_baud", S | A, S | A, STARTS},
    [REQUEST] = {"request", S | I | O | A, S | O | A, N(0) | N(16) | N(20) | N(21)},
    [TAKE] = {"record", S | I | R | A, S | A, N(0) | N(16) | N(20) | N(21) | N(23) | ENDING},
    [LINK_FAILED] = {"link_failed", S | A, S | A, N(1) | N(16) | N(21)},
    [ATTACHED] = {"attached", S | A, A, N(0) | N(16)},
    [HEAR] = {"hear", R | A, A, N(0) | N(14) | N(16)},
    [REST] = {"rest", R, 0, N(0)},
    [UID_HEX] = {"uid_hex", I | O, O, N(0) | N(13) | N(16)},
    [PARSE_UID] = {"parse_uid", I | O, O, N(0) | N(16) | N(22)},
    [IMAGE_COMPAT] = {"image_compat", I, 0, N(0)},
    [CRC16] = {"crc16", I, 0, N(0)},
    [STATE_SIZE] = {"state_size", 0, 0, N(0)},
    [ANSWER_SIZE] = {"answer_size", 0, 0, N(0)},
};

static const char *const buffers[BUFFERS] = {
    [STATE] = "state", [ANSWER] = "answer", [INPUT] = "input", [RECORD] = "record", [OUTPUT] = "output",
};

struct call call;

/* Counts over all trials: themselves, the numbers met, the buffers passed as NULL, the requests granted by their
 * command, and the outcomes. */
static uint64_t trials, met[EXPORTS][24], nulls[EXPORTS][BUFFERS], granted[6], ended[6];

static void must(bool holds, const char *what, uint64_t code)
{
    if (holds)
        return;
    printf("fault: %s, at call %llu, fahireky_%s: code %llx (number %u, length %zu)\n", what,
           (unsigned long long)trials, exports[call.what].name, (unsigned long long)code, FAHIREKY_NUMBER(code),
           FAHIREKY_LENGTH(code));
    printf("lengths: state %zu, answer %zu, input %zu, record %zu, output %zu; count %zu\n", call.len[STATE],
           call.len[ANSWER], call.len[INPUT], call.len[RECORD], call.len[OUTPUT], call.count);
    exit(1);
}

static bool passes(int i) { return exports[call.what].passed >> i & 1; }

/* Whether the state or the answer buffer is too short, so that the call must write nothing. */
static bool too_short(void)
{
    return (passes(STATE) && call.len[STATE] < FAHIREKY_STATE) ||
           (passes(ANSWER) && call.len[ANSWER] < FAHIREKY_ANSWER);
}

/* The buffers of a call. */

static bool on_heap;
static uint8_t *room[BUFFERS]; /* MOST bytes between closed pages */

static void touched(int signal)
{
    (void)signal;
    must(false, "a closed page was touched", 0);
}

void prepare(bool heap)
{
    on_heap = heap;
    if (heap)
        return;
    signal(SIGSEGV, touched);
    signal(SIGBUS, touched);
    for (int i = 0; i < BUFFERS; i++) {
        uint8_t *at = mmap(NULL, 3 * MOST, PROT_NONE, MAP_PRIVATE | MAP_ANONYMOUS, -1, 0);
        if (at == MAP_FAILED || mprotect(at + MOST, MOST, PROT_READ | PROT_WRITE) != 0) {
            perror("hostile");
            exit(2);
        }
        room[i] = at + MOST;
    }
}

/* Buffer i with its content: right after a closed page if low, otherwise right before one. An empty one is NULL, or a
 * place where no byte can be read. */
static uint8_t *placed(int i, bool low, uint8_t **allocation)
{
    size_t n = call.len[i];
    uint8_t *at;
    *allocation = NULL;
    if (n == 0 && low)
        return NULL;
    if (on_heap) {
        *allocation = malloc(n ? n : 1);
        if (!*allocation) {
            perror("hostile");
            exit(2);
        }
        at = n ? *allocation : *allocation + 1;
    } else {
        at = low ? room[i] : room[i] + MOST - n;
    }
    if (n)
        memcpy(at, call.bytes[i], n);
    return at;
}

static uint64_t invoke(uint8_t *const at[BUFFERS])
{
    uint8_t *s = at[STATE], *a = at[ANSWER], *i = at[INPUT], *r = at[RECORD], *o = at[OUTPUT];
    size_t sn = call.len[STATE], an = call.len[ANSWER], in = call.len[INPUT], rn = call.len[RECORD];
    size_t on = call.len[OUTPUT];
    switch (call.what) {
    case SELECT: return fahireky_start_select(s, sn, i, in, call.count, a, an);
    case DESELECT: return fahireky_start_deselect(s, sn, a, an);
    case ATTACH: return fahireky_start_attach(s, sn, a, an);
    case ATTACH_TO: return fahireky_start_attach_to(s, sn, i, in, a, an);
    case DISCOVER: return fahireky_start_discover(s, sn, i, in, a, an);
    case INFO: return fahireky_start_info(s, sn, a, an);
    case ERASE: return fahireky_start_erase(s, sn, a, an);
    case FLASH: return fahireky_start_flash(s, sn, i, in, a, an);
    case RESET: return fahireky_start_reset(s, sn, call.bootloader, call.in_boot, a, an);
    case SET_BAUD: return fahireky_start_set_baud(s, sn, call.baud, call.bootloader, call.in_boot, a, an);
    case REQUEST: return fahireky_request(s, sn, i, in, o, on, a, an);
    case TAKE: return fahireky_record(s, sn, i, in, r, rn, a, an);
    case LINK_FAILED: return fahireky_link_failed(s, sn, a, an);
    case ATTACHED: return fahireky_attached(s, sn, a, an);
    case HEAR: return fahireky_hear(r, rn, a, an);
    case REST: return fahireky_rest(r, rn, call.count);
    case UID_HEX: return fahireky_uid_hex(i, in, o, on);
    case PARSE_UID: return fahireky_parse_uid(i, in, o, on);
    case IMAGE_COMPAT: return fahireky_image_compat(i, in);
    case CRC16: return fahireky_crc16(call.start, i, in);
    case STATE_SIZE: return fahireky_state_size();
    default: return fahireky_answer_size();
    }
}

static void make(bool low, struct outcome *x)
{
    uint8_t *at[BUFFERS] = {NULL}, *allocation[BUFFERS] = {NULL};
    for (int i = 0; i < BUFFERS; i++)
        if (passes(i)) {
            at[i] = placed(i, low, &allocation[i]);
            /* an input counts only where the call gets as far as to look at it */
            if (!at[i] && (i == STATE || i == ANSWER || !too_short()))
                nulls[call.what][i]++;
        }
    x->code = invoke(at);
    for (int i = 0; i < BUFFERS; i++) {
        if (at[i] && call.len[i])
            memcpy(x->bytes[i], at[i], call.len[i]);
        free(allocation[i]);
    }
}

/* The rules of the small calls, written independently of the library. */

uint16_t check(uint16_t start, const uint8_t *bytes, size_t n)
{
    uint16_t c = start;
    for (size_t i = 0; i < n; i++) {
        c ^= (uint16_t)(bytes[i] << 8);
        for (int k = 0; k < 8; k++)
            c = (c & 0x8000) ? (uint16_t)((c << 1) ^ 0x1021) : (uint16_t)(c << 1);
    }
    return c;
}

uint64_t number_at(const uint8_t *bytes, size_t width)
{
    uint64_t n = 0;
    while (width--)
        n = n << 8 | bytes[width];
    return n;
}

uint64_t key(const uint8_t *image, size_t n)
{
    return n >= 6 && n % 4 == 2 ? 1ull << 32 | number_at(image + n - 6, 4) : 0;
}

static int digit(uint8_t c)
{
    if (c >= '0' && c <= '9')
        return c - '0';
    if (c >= 'a' && c <= 'f')
        return c - 'a' + 10;
    return c >= 'A' && c <= 'F' ? c - 'A' + 10 : -1;
}

/* The code of a call that writes n bytes, or is refused because they do not fit. */
static uint64_t fitted(size_t n) { return (uint64_t)n << 8 | (call.len[OUTPUT] < n ? 16 : 0); }

/* The code of a call that has no state, or whose state or answer buffer is too short; `out` gets the bytes that it must
 * write. False for all other calls. */
static bool predicted(uint64_t *code, uint8_t *out)
{
    const uint8_t *in = call.bytes[INPUT];
    size_t n = call.len[INPUT];
    if (passes(STATE) && call.len[STATE] < FAHIREKY_STATE)
        return *code = FAHIREKY_STATE << 8 | 16, true;
    if (passes(ANSWER) && call.len[ANSWER] < FAHIREKY_ANSWER)
        return *code = FAHIREKY_ANSWER << 8 | 16, true;
    switch (call.what) {
    case REST: return *code = call.count < call.len[RECORD] ? call.count : call.len[RECORD], true;
    case UID_HEX:
        for (size_t i = 0; i < 2 * n; i++)
            out[i] = (uint8_t)"0123456789abcdef"[i % 2 ? in[i / 2] & 15 : in[i / 2] >> 4];
        return *code = n > 16 ? 13 : fitted(2 * n), true;
    case PARSE_UID: {
        bool bad = n % 2 || n > 32;
        for (size_t i = 0; i < n && !bad; i += 2) {
            bad = digit(in[i]) < 0 || digit(in[i + 1]) < 0;
            out[i / 2] = (uint8_t)(digit(in[i]) * 16 + digit(in[i + 1]));
        }
        return *code = bad ? 22 : fitted(n / 2), true;
    }
    case IMAGE_COMPAT: return *code = key(in, n), true;
    case CRC16: return *code = check(call.start, in, n), true;
    case STATE_SIZE: return *code = FAHIREKY_STATE, true;
    case ANSWER_SIZE: return *code = FAHIREKY_ANSWER, true;
    default: return false;
    }
}

/* What must hold after a call. */

/* Whether the call returns something other than a code. */
static bool codeless(int what) { return what == REST || what >= IMAGE_COMPAT; }

static bool zero(const uint8_t *bytes, size_t n)
{
    return n == 0 || (bytes[0] == 0 && memcmp(bytes, bytes + 1, n - 1) == 0);
}

/* How many bytes at the front of buffer i the call may have written. */
static size_t written(int i, uint64_t code)
{
    if (too_short() || !(exports[call.what].written >> i & 1))
        return 0;
    if (i == OUTPUT)
        return FAHIREKY_NUMBER(code) == 0 ? FAHIREKY_LENGTH(code) : 0;
    if (i == STATE)
        return KEEPING >> FAHIREKY_NUMBER(code) & 1 ? 0 : FAHIREKY_STATE;
    return FAHIREKY_ANSWER;
}

/* The answer agrees with the code, and every field that it must not have is zero. */
static void judge_answer(const uint8_t *a, uint64_t code)
{
    unsigned number = FAHIREKY_NUMBER(code), says = a[FAHIREKY_AT_SAYS], outcome = a[FAHIREKY_AT_OUTCOME];
    unsigned heard = a[FAHIREKY_AT_HEARD];
    bool unaddressed = says == FAHIREKY_ENDED && outcome == FAHIREKY_OUTCOME_UNADDRESSED;
    uint64_t rest = number_at(a + FAHIREKY_AT_REST, 8);
    must(a[FAHIREKY_AT_NUMBER] == number, "the answer's number", code);
    must(number_at(a + FAHIREKY_AT_LENGTH, 8) == FAHIREKY_LENGTH(code), "the answer's length", code);
    if (says == FAHIREKY_REFUSED)
        must(number >= 1 && number <= 22, "the number of a refusal", code);
    else
        must(number == (unaddressed ? FAHIREKY_UNADDRESSED : 0), "the number of no refusal", code);
    must(says <= FAHIREKY_CLOSING && outcome <= FAHIREKY_OUTCOME_UNADDRESSED, "what the answer says", code);
    must(says == FAHIREKY_ENDED || outcome == 0, "an outcome without an end", code);
    must((says == FAHIREKY_GRANTED || says == FAHIREKY_CLOSING) == (call.what == REQUEST && number == 0),
         "what the answer says about a request", code);
    must(call.what == TAKE ? rest <= call.len[RECORD] : rest == 0, "the rest", code);
    must(call.what != TAKE || number != FAHIREKY_IO || rest == call.len[RECORD], "the rest after 1", code);
    must(!(KEEPING >> number & 1) || rest == 0, "the rest after a refusal that changes nothing", code);
    must(heard <= (outcome == FAHIREKY_OUTCOME_HEARD ? FAHIREKY_HEARD_GARBLE : 0) && heard != 2, "what was heard",
         code);
    must(a[FAHIREKY_AT_ANY] <= (outcome == FAHIREKY_OUTCOME_ATTACHED), "whether an id is attached", code);
    must(a[7] == 0, "the byte without a use", code);
    must(a[FAHIREKY_AT_MADE] <= 1 && (a[FAHIREKY_AT_MADE] || zero(a + FAHIREKY_AT_DONE, 16)), "progress", code);
    must((N(number) & (N(2) | N(3) | N(4) | N(6))) || (zero(a + FAHIREKY_AT_FIRST, 8) && a[FAHIREKY_AT_KEY] == 0),
         "what the refusal carries", code);
    must(outcome == FAHIREKY_OUTCOME_INFO || zero(a + FAHIREKY_AT_INFO, 18), "device information", code);
    must(outcome == FAHIREKY_OUTCOME_FOUND || zero(a + FAHIREKY_AT_IDS, FAHIREKY_ANSWER - FAHIREKY_AT_IDS),
         "ids found", code);
}

/* The ids of an answer: at most 64. If only calls have changed the state, each is at most 16 bytes long, and zero after
 * its length. */
static void judge_ids(const uint8_t *a, uint64_t code)
{
    unsigned number = FAHIREKY_NUMBER(code);
    size_t count = number_at(a + FAHIREKY_AT_COUNT, 8);
    must(count <= 64, "the count", code);
    if (!call.pure && call.what != HEAR)
        return;
    const uint8_t *id = a + FAHIREKY_AT_ID;
    bool has = number == FAHIREKY_NO_SUCH_UID || number == FAHIREKY_AMBIGUOUS_UID ||
               a[FAHIREKY_AT_HEARD] == FAHIREKY_HEARD_ONE || a[FAHIREKY_AT_ANY];
    size_t id_len = a[FAHIREKY_AT_ID_LENGTH];
    must(id_len <= (has ? 16 : 0) && zero(id + id_len, 16 - id_len), "the id", code);
    for (size_t i = 0; i < 64; i++) {
        size_t len = a[FAHIREKY_AT_LENGTHS + i];
        must(len <= (i < count ? 16 : 0) && zero(a + FAHIREKY_AT_IDS + 16 * i + len, 16 - len), "an id found", code);
    }
}

/* A granted request is a frame: its start byte, command, status, length and check. */
static void judge_request(const uint8_t *frame, uint64_t code)
{
    size_t n = FAHIREKY_LENGTH(code);
    must(n >= 12 && n <= FAHIREKY_REQUEST && n <= call.len[OUTPUT], "the request's length", code);
    must(frame[0] == 0xA5 && frame[1] <= 5 && frame[2] == 0 && number_at(frame + 8, 2) == n - 12, "the request's head",
         code);
    must(number_at(frame + n - 2, 2) == check(0xFFFF, frame + 1, n - 3), "the request's check", code);
}

/* No operation is running in a state. */
static void judge_ended(const uint8_t *state, uint64_t code)
{
    uint8_t copy[FAHIREKY_STATE], answer[FAHIREKY_ANSWER];
    memcpy(copy, state, sizeof copy);
    must(fahireky_link_failed(copy, sizeof copy, answer, sizeof answer) == FAHIREKY_OUT_OF_TURN,
         "an operation that has ended is running", code);
    must(memcmp(copy, state, sizeof copy) == 0, "refusal 21 changes a state", code);
}

/* A refusal that ends the operation keeps the seed, and the attached id unless the operation has deselected. */
static void judge_refused(const struct outcome *x)
{
    static uint8_t before[FAHIREKY_ANSWER], after[FAHIREKY_ANSWER];
    unsigned number = FAHIREKY_NUMBER(x->code);
    must(x->bytes[STATE][0] == call.bytes[STATE][0], "a refusal changes the seed", x->code);
    fahireky_attached(call.bytes[STATE], FAHIREKY_STATE, before, sizeof before);
    fahireky_attached(x->bytes[STATE], FAHIREKY_STATE, after, sizeof after);
    if (number == FAHIREKY_SEVERAL_DEVICES || number == FAHIREKY_AMBIGUOUS_UID)
        must(after[FAHIREKY_AT_ANY] == 0 && zero(after + FAHIREKY_AT_ID, 17), "an id is attached after a deselect",
             x->code);
    else
        must(memcmp(before, after, sizeof before) == 0, "a refusal changes the attached id", x->code);
}

/* No byte has changed outside those that the call may write. */
static void judge_bytes(const struct outcome *x)
{
    for (int i = 0; i < BUFFERS; i++) {
        size_t from = written(i, x->code);
        if (passes(i) && from < call.len[i])
            must(memcmp(x->bytes[i] + from, call.bytes[i] + from, call.len[i] - from) == 0,
                 "a byte outside those that it may write has changed", x->code);
    }
}

static void judge(const struct outcome *x)
{
    static uint8_t out[2 * MOST];
    uint64_t code = x->code, expected;
    unsigned number = FAHIREKY_NUMBER(code);
    must(codeless(call.what) || (number < 24 && (exports[call.what].numbers >> number & 1)),
         "a number that the header does not list", code);
    bool known = predicted(&expected, out);
    must(!known || code == expected, "another code than the rules give", code);
    judge_bytes(x);
    if (known) {
        size_t n = written(OUTPUT, code);
        must(n == 0 || memcmp(x->bytes[OUTPUT], out, n) == 0, "another text or id than the rules give", code);
        return;
    }
    must(FAHIREKY_LENGTH(code) == 0 || (call.what == REQUEST && (number == 0 || number == FAHIREKY_SHORT_BUFFER)),
         "a length where there is none", code);
    judge_answer(x->bytes[ANSWER], code);
    judge_ids(x->bytes[ANSWER], code);
    uint8_t says = x->bytes[ANSWER][FAHIREKY_AT_SAYS];
    if (call.what == REQUEST && number == 0) {
        judge_request(x->bytes[OUTPUT], code);
        must(says != FAHIREKY_CLOSING || x->bytes[OUTPUT][1] == 4, "a closing request that is no reset", code);
    }
    if (call.what == REQUEST && number == FAHIREKY_SHORT_BUFFER)
        must(FAHIREKY_LENGTH(code) > call.len[OUTPUT] && FAHIREKY_LENGTH(code) <= FAHIREKY_REQUEST,
             "the length needed", code);
    if (!(exports[call.what].written & S))
        return;
    if (ENDING >> number & 1)
        judge_refused(x);
    if ((ENDING >> number & 1) || says == FAHIREKY_ENDED || says == FAHIREKY_CLOSING)
        judge_ended(x->bytes[STATE], code);
}

/* Complements the bytes of buffer i from a place on. */
static void complement(int i, size_t from)
{
    for (size_t k = from; k < call.len[i]; k++)
        call.bytes[i][k] ^= 0xFF;
}

const struct outcome *tried(bool low)
{
    static struct outcome first, second;
    trials++;
    make(low, &first);
    judge(&first);
    complement(STATE, FAHIREKY_STATE);
    complement(ANSWER, 0);
    complement(OUTPUT, 0);
    make(!low, &second);
    must(first.code == second.code, "another code on the same bytes", second.code);
    judge_bytes(&second);
    for (int i = 0; i < BUFFERS; i++)
        must(memcmp(first.bytes[i], second.bytes[i], written(i, first.code)) == 0,
             "other bytes written on the same bytes", first.code);
    unsigned number = codeless(call.what) ? 0 : FAHIREKY_NUMBER(first.code);
    met[call.what][number]++;
    if (call.what == REQUEST && number == 0)
        granted[first.bytes[OUTPUT][1]]++;
    if (call.what == TAKE && written(ANSWER, first.code) && first.bytes[ANSWER][FAHIREKY_AT_SAYS] == FAHIREKY_ENDED)
        ended[first.bytes[ANSWER][FAHIREKY_AT_OUTCOME]]++;
    return &first;
}

/* Prints some counts. False if one of them is 0. */
static bool counted(const char *name, const uint64_t *counts, uint32_t which)
{
    bool all = true;
    printf("%-15s", name);
    for (int n = 0; n < 24; n++)
        if (which >> n & 1) {
            printf(" %d:%llu", n, (unsigned long long)counts[n]);
            all = all && counts[n];
        }
    return all;
}

bool report(void)
{
    bool all = true;
    for (call.what = 0; call.what < EXPORTS; call.what++) {
        all = counted(exports[call.what].name, met[call.what], exports[call.what].numbers) && all;
        for (int i = 0; i < BUFFERS; i++)
            if (passes(i)) {
                printf(", %s NULL:%llu", buffers[i], (unsigned long long)nulls[call.what][i]);
                must(nulls[call.what][i] > 0, "this buffer was never NULL", 0);
            }
        printf("\n");
    }
    all = counted("commands", granted, 0x3F) && all;
    printf("\n");
    all = counted("outcomes", ended, 0x3F) && all;
    printf("\n");
    return all;
}

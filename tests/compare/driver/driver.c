/* Calls the library's entries for the judge: requests on standard input, what is left in every
 * buffer on standard output. A program of its own, since the library is for x86-64 wherever the
 * judge runs, and so that a crash in the library is an answer too.
 *
 * A request is words: entry, image bytes, shift of the image, number, bytes of out, words of map,
 * words of both areas, bytes of inputs, state and outputs; then the bytes of image, inputs and
 * state. A reply is words: answer low and high, record part's place and length, 1 if the image or
 * the inputs were written to, how each area was left and the first word that is otherwise; then
 * out, map, state and outputs with their guards. */
#include "lanternlean.h"

#define GUARD 8
#define MOST 70000
#define MOST_AREA (LL_AREA_WORDS + 1024)

enum { READ, CANONICAL, DEDUP, CLEANUP, SORT, FLATTEN, FACTOR, SHARE, EVALUATE, RECORD };
enum { ENTRY, IMAGE, SHIFT, NUMBER, OUT, MAP, AREA_A, AREA_B, INPUTS, STATE, OUTPUTS, WORDS };
enum { LOW, HIGH, AT, LENGTH, WRITTEN, LEFT_A, FIRST_A, LEFT_B, FIRST_B, REPLY };
enum { AS_FOUND, CLEARED, OTHERWISE };

#ifdef FREESTANDING
static long call(long number, long a, const void *b, long c) {
    long answer;
    __asm__ volatile("syscall" : "=a"(answer) : "a"(number), "D"(a), "S"(b), "d"(c)
                     : "rcx", "r11", "memory");
    return answer;
}
static long get(void *to, long count) { return call(0, 0, to, count); }
static long put(const void *from, long count) { return call(1, 1, from, count); }

void *memset(void *to, int byte, size_t count) {
    unsigned char *p = to;
    while (count--) *p++ = (unsigned char)byte;
    return to;
}
void *memcpy(void *to, const void *from, size_t count) {
    unsigned char *p = to;
    const unsigned char *q = from;
    while (count--) *p++ = *q++;
    return to;
}
void *memmove(void *to, const void *from, size_t count) {
    unsigned char *p = to;
    const unsigned char *q = from;
    if (p <= q) return memcpy(to, from, count);
    while (count--) p[count] = q[count];
    return to;
}
int memcmp(const void *a, const void *b, size_t count) {
    const unsigned char *p = a, *q = b;
    for (; count--; p++, q++)
        if (*p != *q) return *p < *q ? -1 : 1;
    return 0;
}
#else
#include <unistd.h>
static long get(void *to, long count) { return read(0, to, (size_t)count); }
static long put(const void *from, long count) { return write(1, from, (size_t)count); }
#endif

static uint8_t image[MOST], kept[MOST], inputs[MOST], given[MOST];
static uint8_t out[MOST], state[MOST], outputs[MOST];
static uint32_t map[MOST], area[2][MOST_AREA + GUARD], pattern[MOST];

static uint8_t byte_at(uint32_t k) { return (uint8_t)((k * 151u) ^ 0xc3u) | 2u; }
static uint32_t word_at(uint32_t k) { return (k * 2654435761u) | 1u; }

static void start(void) {
    for (uint32_t k = 0; k < MOST; k++) pattern[k] = word_at(k);
}

static void fill(uint8_t *buffer, uint32_t from, uint32_t lent) {
    for (uint32_t k = from; k < lent + GUARD; k++) buffer[k] = byte_at(k);
}

static int take(void *to, long count) {
    uint8_t *p = to;
    while (count > 0) {
        long got = get(p, count);
        if (got <= 0) return 0;
        p += got;
        count -= got;
    }
    return 1;
}

static int give(const void *from, long count) {
    const uint8_t *p = from;
    while (count > 0) {
        long sent = put(p, count);
        if (sent <= 0) return 0;
        p += sent;
        count -= sent;
    }
    return 1;
}

static void left(const uint32_t *words, uint32_t lent, uint32_t *how, uint32_t *first) {
    uint32_t k = 0;
    while (k < lent + GUARD && words[k] == pattern[k]) k++;
    *how = AS_FOUND;
    *first = k;
    if (k == lent + GUARD) return;
    uint32_t cleared = lent < LL_AREA_WORDS ? 0 : LL_AREA_WORDS;
    for (k = 0; k < lent + GUARD; k++) {
        if (words[k] != (k < cleared ? 0 : pattern[k])) {
            *how = OTHERWISE;
            *first = k;
            return;
        }
    }
    *how = CLEARED;
}

static uint64_t enter(const uint32_t *q, uint32_t *reply) {
    const uint8_t *bytes = image + q[SHIFT];
    uint32_t *a = area[0], *b = area[1];
    (void)bytes, (void)a, (void)b, (void)reply;
    switch (q[ENTRY]) {
#ifdef HAVE_LL_READ
    case READ:
        return ll_read(bytes, q[IMAGE], out, q[OUT], a, q[AREA_A], b, q[AREA_B]);
#endif
#ifdef HAVE_LL_CANONICAL
    case CANONICAL:
        return ll_canonical(bytes, q[IMAGE], out, q[OUT], map, q[MAP], a, q[AREA_A], b, q[AREA_B]);
#endif
#ifdef HAVE_LL_DEDUP
    case DEDUP:
        return ll_dedup(bytes, q[IMAGE], out, q[OUT], map, q[MAP], a, q[AREA_A], b, q[AREA_B]);
#endif
#ifdef HAVE_LL_CLEANUP
    case CLEANUP:
        return ll_cleanup(bytes, q[IMAGE], out, q[OUT], map, q[MAP], a, q[AREA_A], b, q[AREA_B]);
#endif
#ifdef HAVE_LL_SORT
    case SORT:
        return ll_sort(bytes, q[IMAGE], out, q[OUT], map, q[MAP], a, q[AREA_A], b, q[AREA_B]);
#endif
#ifdef HAVE_LL_FLATTEN
    case FLATTEN:
        return ll_flatten(bytes, q[IMAGE], q[NUMBER], out, q[OUT], a, q[AREA_A], b, q[AREA_B]);
#endif
#ifdef HAVE_LL_FACTOR
    case FACTOR:
        return ll_factor(bytes, q[IMAGE], out, q[OUT], a, q[AREA_A], b, q[AREA_B]);
#endif
#ifdef HAVE_LL_SHARE
    case SHARE:
        return ll_share(bytes, q[IMAGE], q[NUMBER], out, q[OUT], a, q[AREA_A], b, q[AREA_B]);
#endif
#ifdef HAVE_LL_EVALUATE
    case EVALUATE:
        return ll_evaluate(bytes, q[IMAGE], inputs, q[INPUTS], state, q[STATE], outputs, q[OUTPUTS],
                           a, q[AREA_A], b, q[AREA_B]);
#endif
#if defined(HAVE_LL_RECORD_AT) && defined(HAVE_LL_RECORD_LEN)
    case RECORD:
        reply[AT] = (uint32_t)ll_record_at(bytes, q[IMAGE], q[NUMBER]);
        reply[LENGTH] = (uint32_t)ll_record_len(bytes, q[IMAGE], q[NUMBER]);
        return 0;
#endif
    default:
        return ~(uint64_t)0;
    }
}

static int differ(const uint8_t *a, const uint8_t *b, uint32_t count) {
    for (uint32_t k = 0; k < count; k++)
        if (a[k] != b[k]) return 1;
    return 0;
}

static int serve(void) {
    uint32_t q[WORDS], reply[REPLY] = {0};
    if (!take(q, sizeof q)) return 0;
    fill(image, 0, q[SHIFT] + q[IMAGE]);
    fill(inputs, 0, q[INPUTS]);
    fill(state, 0, q[STATE]);
    if (!take(image + q[SHIFT], q[IMAGE]) || !take(inputs, q[INPUTS]) || !take(state, q[STATE]))
        return 0;
    for (uint32_t k = 0; k < q[SHIFT] + q[IMAGE] + GUARD; k++) kept[k] = image[k];
    for (uint32_t k = 0; k < q[INPUTS] + GUARD; k++) given[k] = inputs[k];
    fill(out, 0, q[OUT]);
    fill(outputs, 0, q[OUTPUTS]);
    for (uint32_t k = 0; k < q[MAP] + GUARD; k++) map[k] = pattern[k];
    for (int side = 0; side < 2; side++)
        for (uint32_t k = 0; k < q[AREA_A + side] + GUARD; k++) area[side][k] = pattern[k];

    uint64_t answer = enter(q, reply);
    reply[LOW] = LL_NUMBER(answer);
    reply[HIGH] = LL_LENGTH(answer);
    reply[WRITTEN] = (uint32_t)(differ(image, kept, q[SHIFT] + q[IMAGE] + GUARD)
                                || differ(inputs, given, q[INPUTS] + GUARD));
    left(area[0], q[AREA_A], &reply[LEFT_A], &reply[FIRST_A]);
    left(area[1], q[AREA_B], &reply[LEFT_B], &reply[FIRST_B]);
    return give(reply, sizeof reply) && give(out, q[OUT] + GUARD)
           && give(map, 4l * (q[MAP] + GUARD)) && give(state, q[STATE] + GUARD)
           && give(outputs, q[OUTPUTS] + GUARD);
}

#ifdef FREESTANDING
void run(void) {
    start();
    while (serve()) {
    }
    call(60, 0, 0, 0);
}
__asm__(".globl _start\n_start:\n    xor %ebp, %ebp\n    and $-16, %rsp\n    call run\n");
#else
int main(void) {
    start();
    while (serve()) {
    }
    return 0;
}
#endif

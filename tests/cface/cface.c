/* Every entry of lanternlean.h on heap buffers of exactly the size that is lent, for valgrind to watch: the recorded calls of
 * docs/RECORDED.md as they are, and each accepted one again with every buffer just enough, one short, and empty.
 *     cface FOLDER    the folder of the recorded answers
 * A line for each entry; the exit status is 0 only if nothing differs. The areas are lent without a value wherever the answer is not 1,
 * so that valgrind reports an answer that depends on what they held. */
#include "lanternlean.h"

#include <stdio.h>
#include <stdlib.h>
#include <string.h>

enum { READ, CANONICAL, DEDUP, CLEANUP, SORT, FLATTEN, FACTOR, SHARE, EVALUATE, RECORD, ENTRIES };
static const char *const names[ENTRIES] = {"read",    "canonical", "dedup", "cleanup",  "sort",
                                           "flatten", "factor",    "share", "evaluate", "record"};

/* The words of a record's head: what was lent, what is expected. */
enum { IMAGE, K, OUT, MAP, FIRST, SECOND, INPUTS, STATE, OUTPUTS };
enum { NUMBER = 9, LENGTH, START, RESULT, MAPPING, ANSWERED, STATE_AFTER, HEAD };

#define PATTERN 0xa5

/* A call: the lengths lent, the data lent, and the data expected. */
struct call {
    uint32_t head[HEAD];
    const uint8_t *image, *inputs, *state, *result, *mapping, *outputs, *state_after;
};

static void stop(const char *text) {
    fprintf(stderr, "cface: %s\n", text);
    exit(2);
}

/* A buffer of exactly so many bytes, not null where it has none. */
static void *heap(size_t bytes) {
    void *p = malloc(bytes);
    if (!p) stop("no memory");
    return p;
}

static void *filled(size_t bytes) {
    return memset(heap(bytes), PATTERN, bytes);
}

static void *copied(const uint8_t *from, size_t bytes) {
    void *p = heap(bytes);
    if (bytes) memcpy(p, from, bytes);
    return p;
}

/* Whether a buffer begins with `want` and is as found behind it. */
static int holds(const void *buffer, size_t bytes, const uint8_t *want, size_t want_bytes) {
    const uint8_t *p = buffer;
    if (bytes < want_bytes || (want_bytes && memcmp(p, want, want_bytes))) return 0;
    for (size_t i = want_bytes; i < bytes; i++)
        if (p[i] != PATTERN) return 0;
    return 1;
}

static int all_zero(const uint32_t *area, size_t words) {
    for (size_t i = 0; i < words; i++)
        if (area[i]) return 0;
    return 1;
}

/* One call; answers 0 if it does all that is expected and nothing else. The image begins at a byte of its own alignment. */
static int differs(int entry, const struct call *c, int shift) {
    const uint32_t *h = c->head;
    uint8_t *block = heap(shift + h[IMAGE]), *image = block + shift;
    if (h[IMAGE]) memcpy(image, c->image, h[IMAGE]);
    int same = 1;
    if (entry == RECORD) {
        same = ll_record_at(image, h[IMAGE], h[K]) == h[START] && ll_record_len(image, h[IMAGE], h[K]) == h[LENGTH];
    } else {
        int untouched = h[NUMBER] == 1;
        size_t an = h[FIRST], bn = h[SECOND];
        uint32_t *a = filled(4 * an), *b = filled(4 * bn);
        uint8_t *out = filled(h[OUT]), *outputs = filled(h[OUTPUTS]);
        uint32_t *map = filled(4 * (size_t)h[MAP]);
        uint8_t *inputs = copied(c->inputs, h[INPUTS]), *state = copied(c->state, h[STATE]);
        uint64_t r = 0;
        switch (entry) {
        case READ: r = ll_read(image, h[IMAGE], out, h[OUT], a, an, b, bn); break;
        case CANONICAL: r = ll_canonical(image, h[IMAGE], out, h[OUT], map, h[MAP], a, an, b, bn); break;
        case DEDUP: r = ll_dedup(image, h[IMAGE], out, h[OUT], map, h[MAP], a, an, b, bn); break;
        case CLEANUP: r = ll_cleanup(image, h[IMAGE], out, h[OUT], map, h[MAP], a, an, b, bn); break;
        case SORT: r = ll_sort(image, h[IMAGE], out, h[OUT], map, h[MAP], a, an, b, bn); break;
        case FLATTEN: r = ll_flatten(image, h[IMAGE], h[K], out, h[OUT], a, an, b, bn); break;
        case FACTOR: r = ll_factor(image, h[IMAGE], out, h[OUT], a, an, b, bn); break;
        case SHARE: r = ll_share(image, h[IMAGE], h[K], out, h[OUT], a, an, b, bn); break;
        default:
            r = ll_evaluate(image, h[IMAGE], inputs, h[INPUTS], state, h[STATE], outputs, h[OUTPUTS], a, an, b, bn);
        }
        const uint8_t *after = h[STATE_AFTER] ? c->state_after : c->state;
        same = LL_NUMBER(r) == h[NUMBER] && LL_LENGTH(r) == h[LENGTH] && holds(out, h[OUT], c->result, h[RESULT]) &&
               holds(map, 4 * (size_t)h[MAP], c->mapping, 4 * (size_t)h[MAPPING]) &&
               holds(outputs, h[OUTPUTS], c->outputs, h[ANSWERED]) && holds(state, h[STATE], after, h[STATE]) &&
               holds(inputs, h[INPUTS], c->inputs, h[INPUTS]) &&
               (untouched ? holds(a, 4 * an, 0, 0) && holds(b, 4 * bn, 0, 0) : all_zero(a, an) && all_zero(b, bn));
        free(a), free(b), free(out), free(outputs), free(map), free(inputs), free(state);
    }
    same = same && holds(image, h[IMAGE], c->image, h[IMAGE]);
    free(block);
    return !same;
}

/* The same call refused: nothing is written. */
static struct call refused(struct call c, uint32_t number) {
    c.head[NUMBER] = number;
    c.head[LENGTH] = c.head[RESULT] = c.head[MAPPING] = c.head[ANSWERED] = c.head[STATE_AFTER] = 0;
    return c;
}

/* An accepted call again: every buffer just enough, then one after the other one short and empty. Answers how many differ. */
static int squeezed(int entry, struct call c, int shift, uint32_t *calls) {
    static const int lent[] = {OUT, MAP, INPUTS, STATE, OUTPUTS, FIRST, SECOND};
    uint32_t inputs, nodes;
    memcpy(&inputs, c.image + c.head[IMAGE] - 16, 4);
    memcpy(&nodes, c.image + c.head[IMAGE] - 12, 4);
    c.head[OUT] = c.head[RESULT];
    c.head[MAP] = c.head[MAPPING];
    c.head[OUTPUTS] = c.head[ANSWERED];
    if (entry == EVALUATE) {
        c.head[INPUTS] = inputs;
        c.head[STATE] = nodes;
        if (c.head[STATE_AFTER]) c.head[STATE_AFTER] = nodes;
    }
    c.head[FIRST] = c.head[SECOND] = LL_AREA_WORDS;
    int differ = differs(entry, &c, shift);
    *calls += 1;
    for (size_t i = 0; i < sizeof lent / sizeof *lent; i++) {
        uint32_t enough = c.head[lent[i]];
        if (!enough) continue;
        struct call r = refused(c, lent[i] == FIRST || lent[i] == SECOND ? 1 : 13);
        r.head[lent[i]] = enough - 1;
        differ += differs(entry, &r, shift);
        r.head[lent[i]] = 0;
        differ += differs(entry, &r, shift);
        *calls += 2;
    }
    return differ;
}

/* The next part of a file's data, padded to whole words. */
static const uint8_t *part(const uint8_t **at, const uint8_t *end, size_t bytes) {
    const uint8_t *p = *at;
    size_t padded = (bytes + 3) / 4 * 4;
    if ((size_t)(end - p) < padded) stop("a file of recorded answers is damaged");
    *at += padded;
    return p;
}

static uint8_t *whole_file(const char *folder, const char *name, size_t *bytes) {
    char path[4096];
    snprintf(path, sizeof path, "%s/%s.bin", folder, name);
    FILE *f = fopen(path, "rb");
    if (!f || fseek(f, 0, SEEK_END)) stop(path);
    *bytes = (size_t)ftell(f);
    rewind(f);
    uint8_t *p = heap(*bytes);
    if (fread(p, 1, *bytes, f) != *bytes) stop(path);
    fclose(f);
    return p;
}

static int replay(int entry, const char *folder) {
    size_t bytes;
    uint8_t *file = whole_file(folder, names[entry], &bytes);
    const uint8_t *at = file, *end = file + bytes;
    uint32_t top[4], calls = 0;
    int differ = 0;
    memcpy(top, part(&at, end, 16), 16);
    if (top[0] != 1095912524 || top[1] != 1 || top[2] != (uint32_t)entry) stop("no file of recorded answers");
    for (uint32_t k = 0; k < top[3]; k++) {
        struct call c;
        memcpy(c.head, part(&at, end, sizeof c.head), sizeof c.head);
        c.image = part(&at, end, c.head[IMAGE]);
        c.inputs = part(&at, end, c.head[INPUTS]);
        c.state = part(&at, end, c.head[STATE]);
        c.result = part(&at, end, c.head[RESULT]);
        c.mapping = part(&at, end, 4 * (size_t)c.head[MAPPING]);
        c.outputs = part(&at, end, c.head[ANSWERED]);
        c.state_after = part(&at, end, c.head[STATE_AFTER]);
        int wrong = differs(entry, &c, (int)(k % 4));
        if (entry != RECORD && !c.head[NUMBER]) wrong += squeezed(entry, c, (int)(k % 4), &calls);
        if (wrong) fprintf(stderr, "cface: record %u of %s differs\n", k, names[entry]);
        differ += wrong;
    }
    if (at != end) stop("a file of recorded answers is damaged");
    printf("%s: %u recorded calls, %u with buffers just enough, short or empty, %d differ\n", names[entry], top[3], calls, differ);
    fflush(stdout);
    free(file);
    return differ;
}

int main(int count, char **words) {
    int differ = 0;
    if (count != 2) stop("usage: cface FOLDER");
    for (int entry = 0; entry < ENTRIES; entry++) differ += replay(entry, words[1]);
    return differ ? 1 : 0;
}

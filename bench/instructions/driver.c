/* Runs calls of an instruction, as they are printed, and the C of its body on the same random inputs, one after another, and says where
   they leave different things. bin/instructions writes the rest of the program: the tables of trials, and what they call.

   Each buffer lies in pages of its own, between two that may not be touched: at their beginning, at their end or between, at any address
   that its cells may have. Whatever else lies in the pages is filled with noise, and compared too. */
#define _GNU_SOURCE
#include "driver.h"
#include <fcntl.h>
#include <stdio.h>
#include <stdlib.h>
#include <string.h>
#include <sys/mman.h>
#include <unistd.h>
#ifdef __SANITIZE_ADDRESS__
#include <sanitizer/asan_interface.h>
#else
#define ASAN_POISON_MEMORY_REGION(at, bytes) ((void)(at), (void)(bytes))
#define ASAN_UNPOISON_MEMORY_REGION(at, bytes) ((void)(at), (void)(bytes))
#endif

enum { PAGE = 4096, MOST_BUFFERS = 32, SHOWN = 40 };

struct pages { char *low, *cells; size_t bytes; };
struct input { const struct trial *trial; const int64_t *row; const struct way *way; struct pages by_call[MOST_BUFFERS], by_body[MOST_BUFFERS]; };

static uint64_t seed;

/* xorshift64 (Marsaglia 2003) */
static uint64_t next_random(void) {
    seed ^= seed << 13;
    seed ^= seed >> 7;
    seed ^= seed << 17;
    return seed;
}

/* splitmix64 (Vigna 2015), so that neighbours in number have seeds that are far apart */
static void seed_by(uint64_t number) {
    number += 0x9e3779b97f4a7c15ULL;
    number = (number ^ (number >> 30)) * 0xbf58476d1ce4e5b9ULL;
    number = (number ^ (number >> 27)) * 0x94d049bb133111ebULL;
    seed = (number ^ (number >> 31)) | 1;
}

static size_t most_bytes(const struct trial *t, int at, int bytes) {
    int64_t most = 1;
    for (int64_t c = 0; c < t->cases; c++) if (t->rows[c * t->width + at] > most) most = t->rows[c * t->width + at];
    return (size_t)most * (size_t)bytes;
}

static struct pages new_pages(size_t bytes) {
    struct pages p = { NULL, NULL, (bytes + PAGE - 1) / PAGE * PAGE + PAGE };
    char *all = mmap(NULL, p.bytes + 2 * PAGE, PROT_READ | PROT_WRITE, MAP_PRIVATE | MAP_ANONYMOUS, -1, 0);
    if (all == MAP_FAILED || mprotect(all, PAGE, PROT_NONE) || mprotect(all + PAGE + p.bytes, PAGE, PROT_NONE)) { perror("pages"); exit(3); }
    p.low = all + PAGE;
    return p;
}

/* A cell: any, an end of the range or next to one, or a small one. */
static int64_t cell_of(int mood, int bits, int sign) {
    uint64_t any = next_random();
    int64_t low = sign ? -(INT64_C(1) << (bits - 1)) : 0, high = low + (INT64_C(1) << bits) - 1;
    int64_t ends[] = { low, low + 1, high, high - 1, 0, 1, sign ? -1 : 2 };
    if (mood == 3) mood = (int)(next_random() % 3);
    if (mood == 1) return ends[any % 7];
    if (mood == 2) return (int64_t)(any % 9) - (sign ? 4 : 0);
    return low + (int64_t)(any & ((UINT64_C(1) << bits) - 1));
}

static void put_cell(char *at, int bytes, int64_t value) {
    int8_t one = (int8_t)value; int16_t two = (int16_t)value; int32_t four = (int32_t)value;
    memcpy(at, bytes == 1 ? (void *)&one : bytes == 2 ? (void *)&two : (void *)&four, (size_t)bytes);
}

static int64_t cell_at(const char *at, struct shape shape) {
    int8_t one; int16_t two; int32_t four;
    if (shape.bytes == 1) { memcpy(&one, at, 1); return shape.sign ? one : (uint8_t)one; }
    if (shape.bytes == 2) { memcpy(&two, at, 2); return two; }
    memcpy(&four, at, 4);
    return four;
}

static void fill(struct pages *call, struct pages *body, struct shape shape, int64_t cells) {
    size_t size = (size_t)cells * (size_t)shape.bytes, room = call->bytes - size;
    uint64_t where = next_random() % 4;
    size_t before = where == 0 ? 0 : where == 1 ? room : next_random() % (room / (size_t)shape.bytes + 1) * (size_t)shape.bytes;
    for (size_t k = 0; k < call->bytes; k += 8) { uint64_t noise = next_random(); memcpy(call->low + k, &noise, 8); }
    call->cells = call->low + before;
    body->cells = body->low + before;
    int mood = (int)(next_random() % 4);
    for (int64_t k = 0; k < cells; k++) put_cell(call->cells + k * shape.bytes, shape.bytes, cell_of(mood, 8 * shape.bytes, shape.sign));
    memcpy(body->low, call->low, call->bytes);
}

/* Makes the input of that number; the same each time. */
static void make(struct input *in, const struct trial *t, int64_t number) {
    in->trial = t;
    in->row = t->rows + number / t->runs * t->width;
    in->way = t->way + number % t->runs % t->ways;
    seed_by((uint64_t)number);
    const int64_t *at = in->row + t->controls + t->fields;
    for (int b = 0; b < t->buffers; b++) {
        fill(&in->by_call[b], &in->by_body[b], t->shapes[b], at[0]);
        at += 2 + 2 * t->shapes[b].rank;
    }
}

/* Where the cell of a buffer's window of that number lies, row by row, counted from the window's first. */
static int64_t window_cell(const int64_t *extents, int rank, int64_t number, int64_t *index) {
    int64_t offset = 0;
    for (int k = rank - 1; k >= 0; k--) {
        index[k] = number % extents[k];
        offset += index[k] * extents[rank + k];
        number /= extents[k];
    }
    return offset;
}

static int64_t window_cells(const int64_t *extents, int rank) {
    int64_t count = 1;
    for (int k = 0; k < rank; k++) count *= extents[k];
    return count;
}

static const int64_t *extents_of(const struct input *in, int buffer) {
    const int64_t *at = in->row + in->trial->controls + in->trial->fields;
    for (int b = 0; b < buffer; b++) at += 2 + 2 * in->trial->shapes[b].rank;
    return at + 2;
}

static void show_index(const int64_t *index, int rank) {
    for (int k = 0; k < rank; k++) printf("%s%lld", k ? ", " : "[", (long long)index[k]);
    if (rank) printf("]");
}

static void show(const struct input *in) {
    const struct trial *t = in->trial;
    int64_t index[8];
    printf("    on the call %s\n", in->way->text);
    for (int k = 0; k < t->controls + t->fields; k++) printf("    %s = %lld\n", t->numbers[k], (long long)in->row[k]);
    for (int b = 0; b < t->buffers; b++) {
        struct shape shape = t->shapes[b];
        const int64_t *extents = extents_of(in, b);
        int64_t count = window_cells(extents, shape.rank);
        printf("    %s = {", shape.name);
        for (int64_t k = 0; k < count && k < SHOWN; k++) {
            int64_t offset = extents[-1] + window_cell(extents, shape.rank, k, index);
            printf("%s%lld", k ? ", " : "", (long long)cell_at(in->by_body[b].cells + offset * shape.bytes, shape));
        }
        printf("%s}", count > SHOWN ? ", .." : "");
        for (int k = 0; k < shape.rank; k++) printf("%s%lld", k ? ", " : shape.rank > 1 ? " of strides " : " of stride ", (long long)extents[shape.rank + k]);
        printf("\n");
    }
}

/* Says in which cell the pages of a buffer differ. */
static void tell_cell(const struct input *in, int b) {
    struct shape shape = in->trial->shapes[b];
    const struct pages *call = &in->by_call[b], *body = &in->by_body[b];
    const int64_t *extents = extents_of(in, b);
    int64_t index[8], count = window_cells(extents, shape.rank), lead = extents[-1] * shape.bytes;
    for (int64_t k = 0; k < count; k++) {
        int64_t offset = lead + window_cell(extents, shape.rank, k, index) * shape.bytes;
        int64_t got = cell_at(call->cells + offset, shape), wanted = cell_at(body->cells + offset, shape);
        if (got == wanted) continue;
        printf("    %s", shape.name);
        show_index(index, shape.rank);
        printf(" is %lld behind the call and %lld behind the body\n", (long long)got, (long long)wanted);
        return;
    }
    size_t at = 0;
    while (call->low[at] == body->low[at]) at++;
    printf("    the call changes what is no cell of %s: a byte %lld behind the beginning of its first\n", shape.name, (long long)(call->low + at - call->cells) - lead);
}

static void run(const struct input *in, void (*f)(const int64_t *, char *const *), int times, const struct pages *pages, int64_t *left) {
    const struct trial *t = in->trial;
    char *at[MOST_BUFFERS];
    for (int b = 0; b < t->buffers; b++) at[b] = pages[b].cells;
    for (int k = 0; k < t->fields; k++) *t->field[k] = in->row[t->controls + k];
    for (int k = 0; k < times; k++) f(in->row, at);
    for (int k = 0; k < t->fields; k++) left[k] = *t->field[k];
}

/* Whether the call leaves what the body leaves; says what differs. */
static int agrees(const struct input *in) {
    const struct trial *t = in->trial;
    int64_t by_call[64], by_body[64];
    for (int k = 0; k < t->controls; k++) *t->seen[k] = ~in->row[k];
    for (int b = 0; b < t->buffers; b++) {
        const struct pages *p = &in->by_call[b];
        size_t size = (size_t)extents_of(in, b)[-2] * (size_t)t->shapes[b].bytes;
        ASAN_POISON_MEMORY_REGION(p->low, p->cells - p->low);
        ASAN_POISON_MEMORY_REGION(p->cells + size, p->low + p->bytes - p->cells - size);
    }
    run(in, in->way->call, 1, in->by_call, by_call);
    for (int b = 0; b < t->buffers; b++) ASAN_UNPOISON_MEMORY_REGION(in->by_call[b].low, in->by_call[b].bytes);
    run(in, t->body, in->way->times, in->by_body, by_body);
    int good = 1;
    for (int k = 0; k < t->controls; k++)
        if (*t->seen[k] != in->row[k]) { good = 0; printf("    behind the call the name that was given for %s is %lld\n", t->numbers[k], (long long)*t->seen[k]); }
    for (int k = 0; k < t->fields; k++)
        if (by_call[k] != by_body[k]) { good = 0; printf("    %s is %lld behind the call and %lld behind the body\n", t->numbers[t->controls + k], (long long)by_call[k], (long long)by_body[k]); }
    for (int b = 0; b < t->buffers; b++)
        if (memcmp(in->by_call[b].low, in->by_body[b].low, in->by_call[b].bytes)) { good = 0; tell_cell(in, b); break; }
    return good;
}

int trial_main(const struct trial *trials, int argc, char **argv) {
    if (argc < 3) return 2;
    const struct trial *t = trials + atoi(argv[2]);
    struct input in;
    for (int b = 0, at = t->controls + t->fields; b < t->buffers; b++) {
        in.by_call[b] = new_pages(most_bytes(t, at, t->shapes[b].bytes));
        in.by_body[b] = new_pages(most_bytes(t, at, t->shapes[b].bytes));
        at += 2 + 2 * t->shapes[b].rank;
    }
    if (argc > 3) { make(&in, t, atoll(argv[3])); show(&in); return 0; }
    int file = open(argv[1], O_RDWR);
    int64_t *now = mmap(NULL, PAGE, PROT_READ | PROT_WRITE, MAP_SHARED, file, 0);
    if (now == MAP_FAILED) { perror(argv[1]); return 3; }
    for (int64_t number = 0; number < t->cases * t->runs; number++) {
        *now = number;
        make(&in, t, number);
        if (agrees(&in)) continue;
        make(&in, t, number);
        show(&in);
        return 1;
    }
    return 0;
}

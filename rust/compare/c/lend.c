/* Makes the calls of the face that it is asked for on standard input, and writes their answers to
   standard output. Every slice it lends lies against a page that may not be touched, so that a
   call that reads or writes beyond its slice ends the program. Numbers are little-endian.

     batch     u32 count, then so many requests; the output is flushed behind each batch
     request   u8 call: 0 inverse, 1 order, 2 image, 3 stand, 4 chain, 5 period, 6 sheet, 7 write
               u8 sides: bit k set, slice k ends at the page behind it; else it begins at the
                 page in front of it
               u32 p, u64 n, u32 k: the scalar of inverse, the allowance of stand and write
               the slices in the sequence of the parameters: u32 length, then the bytes, in a
                 result buffer those that it holds before the call
     response  eight u64: the refusal's number, row and column, the other fields of the answer,
                 zeros
               the slices, those of the input too, as they are after the call

   A slice of length 0 is lent as NULL on the front side, as the address of the page on the other.
   The bytes beside a slice on its free side are filled before the call and tested after it.

   Status: 0 the input is over; 2 a request that is none, input that ends within a batch, a read or
   a write that failed; 3 a call wrote beside a slice. What it is goes to standard error.

       cc -std=c11 -O2 -Iinclude -o lend rust/compare/c/lend.c target/staticlib/libkinarsop.a */
#define _DEFAULT_SOURCE
#include <stdint.h>
#include <stdio.h>
#include <stdlib.h>
#include <string.h>
#include <sys/mman.h>

#include "kinarsop.h"

_Static_assert(sizeof(size_t) == sizeof(uint64_t), "a length of the face has 64 bits");

enum {
    /* A multiple of every page size: an emulator guards whole pages of its host. */
    STRETCH = 1 << 16,
    MARGIN = 256,
    MARK = 0xA5,
    BUFFER = 1 << 20,
    MOST_SLICES = 4,
    FIELDS = 8,
    HEAD = 18,
    BAD_INPUT = 2,
    BAD_WRITE = 3
};

/* A slice in its area: the data is guarded on both sides, the margin is what is tested. */
struct slice {
    uint8_t *data;
    uint8_t *lent;
    size_t length;
    uint8_t *margin;
    size_t margin_length;
};

/* What a margin holds before the call. */
static uint8_t marks[MARGIN];

struct request {
    uint32_t p;
    size_t n;
    uint32_t k;
    struct slice slices[MOST_SLICES];
};

static _Noreturn void fail(int status, const char *what)
{
    fprintf(stderr, "lend: %s\n", what);
    exit(status);
}

static uint64_t number(const uint8_t *bytes, size_t count)
{
    uint64_t value = 0;
    for (size_t i = count; i > 0; i--)
        value = value << 8 | bytes[i - 1];
    return value;
}

static void take(uint8_t *to, size_t count)
{
    if (fread(to, 1, count, stdin) != count)
        fail(BAD_INPUT, "the input ends within a batch, or cannot be read");
}

static uint32_t take_u32(void)
{
    uint8_t bytes[4];
    take(bytes, sizeof bytes);
    return (uint32_t)number(bytes, sizeof bytes);
}

static void give(const uint8_t *from, size_t count)
{
    if (fwrite(from, 1, count, stdout) != count)
        fail(BAD_INPUT, "the output cannot be written");
}

static void give_u64(uint64_t value)
{
    uint8_t bytes[8];
    for (size_t i = 0; i < sizeof bytes; i++)
        bytes[i] = (uint8_t)(value >> 8 * i);
    give(bytes, sizeof bytes);
}

/* A stretch of data between two that may not be touched. */
static uint8_t *new_area(void)
{
    const size_t whole = 3 * (size_t)STRETCH;
    void *area = mmap(NULL, whole, PROT_NONE, MAP_PRIVATE | MAP_ANONYMOUS, -1, 0);
    if (area == MAP_FAILED)
        fail(BAD_INPUT, "there is no memory for the slices");
    uint8_t *data = (uint8_t *)area + STRETCH;
    if (mprotect(data, STRETCH, PROT_READ | PROT_WRITE) != 0)
        fail(BAD_INPUT, "the slices cannot be guarded");
    return data;
}

/* Lays a slice of so many bytes against a guard; the margin is on the other side of it. */
static void lay(struct slice *s, bool behind, size_t length)
{
    const size_t free_bytes = STRETCH - length;
    uint8_t *at = behind ? s->data + free_bytes : s->data;
    s->length = length;
    s->margin_length = free_bytes < MARGIN ? free_bytes : MARGIN;
    s->margin = behind ? at - s->margin_length : at + length;
    s->lent = length == 0 && !behind ? NULL : at;
}

static void take_slice(struct slice *s, bool behind)
{
    const uint32_t length = take_u32();
    if (length > STRETCH)
        fail(BAD_INPUT, "a slice is longer than its area");
    lay(s, behind, length);
    if (length != 0)
        take(s->lent, length);
    memcpy(s->margin, marks, s->margin_length);
}

static void test_margin(const struct slice *s)
{
    if (memcmp(s->margin, marks, s->margin_length) != 0)
        fail(BAD_WRITE, "a call wrote beside a slice");
}

/* The fields that every answer begins with; the others are behind them. */
static uint64_t *put_refusal(struct kinarsop_refusal refusal, uint64_t *fields)
{
    *fields++ = refusal.number;
    *fields++ = refusal.row;
    *fields++ = refusal.column;
    return fields;
}

static void make_inverse(const struct request *r, uint64_t *fields)
{
    const struct kinarsop_inverse_answer a = kinarsop_inverse(r->p, r->k);
    fields = put_refusal(a.refusal, fields);
    fields[0] = a.inverse;
}

static void make_order(const struct request *r, uint64_t *fields)
{
    const struct slice *s = r->slices;
    const struct kinarsop_order_answer a =
        kinarsop_order(r->p, r->n, s[0].lent, s[0].length, s[1].lent, s[1].length, s[2].lent,
                       s[2].length);
    fields = put_refusal(a.refusal, fields);
    fields[0] = a.degree;
}

static void make_image(const struct request *r, uint64_t *fields)
{
    const struct slice *s = r->slices;
    const struct kinarsop_refusal refusal =
        kinarsop_image(r->p, r->n, s[0].lent, s[0].length, s[1].lent, s[1].length, s[2].lent,
                       s[2].length, s[3].lent, s[3].length);
    put_refusal(refusal, fields);
}

static void make_stand(const struct request *r, uint64_t *fields)
{
    const struct slice *s = r->slices;
    const struct kinarsop_stand_answer a =
        kinarsop_stand(r->p, r->n, s[0].lent, s[0].length, s[1].lent, s[1].length, r->k, s[2].lent,
                       s[2].length, s[3].lent, s[3].length);
    fields = put_refusal(a.refusal, fields);
    fields[0] = a.proved;
    fields[1] = a.degree;
    fields[2] = a.taken;
    fields[3] = a.spent;
    fields[4] = a.witness;
}

static void make_chain(const struct request *r, uint64_t *fields)
{
    const struct slice *s = r->slices;
    const struct kinarsop_chain_answer a =
        kinarsop_chain(r->p, r->n, s[0].lent, s[0].length, s[1].lent, s[1].length, s[2].lent,
                       s[2].length, s[3].lent, s[3].length);
    fields = put_refusal(a.refusal, fields);
    fields[0] = a.stages;
}

static void make_period(const struct request *r, uint64_t *fields)
{
    const struct slice *s = r->slices;
    const struct kinarsop_period_answer a = kinarsop_period(r->p, r->n, s[0].lent, s[0].length);
    fields = put_refusal(a.refusal, fields);
    fields[0] = a.period;
}

static void make_sheet(const struct request *r, uint64_t *fields)
{
    const struct slice *s = r->slices;
    const struct kinarsop_sheet_answer a =
        kinarsop_sheet(s[0].lent, s[0].length, s[1].lent, s[1].length);
    fields = put_refusal(a.refusal, fields);
    fields[0] = a.length;
}

static void make_write(const struct request *r, uint64_t *fields)
{
    const struct slice *s = r->slices;
    const struct kinarsop_write_answer a =
        kinarsop_write(r->p, r->n, s[0].lent, s[0].length, s[1].lent, s[1].length, r->k, s[2].lent,
                       s[2].length);
    fields = put_refusal(a.refusal, fields);
    fields[0] = a.length;
}

struct call {
    size_t slices;
    void (*make)(const struct request *r, uint64_t *fields);
};

static const struct call CALLS[] = {
    {0, make_inverse}, {3, make_order},  {4, make_image}, {4, make_stand},
    {4, make_chain},   {1, make_period}, {2, make_sheet}, {3, make_write},
};

static const struct call *take_request(struct request *r)
{
    uint8_t head[HEAD];
    take(head, sizeof head);
    if (head[0] >= sizeof CALLS / sizeof CALLS[0])
        fail(BAD_INPUT, "there is no such call");
    r->p = (uint32_t)number(head + 2, 4);
    r->n = number(head + 6, 8);
    r->k = (uint32_t)number(head + 14, 4);
    const struct call *call = &CALLS[head[0]];
    for (size_t i = 0; i < call->slices; i++)
        take_slice(&r->slices[i], head[1] >> i & 1);
    return call;
}

static void give_response(const struct request *r, size_t slices, const uint64_t *fields)
{
    for (size_t i = 0; i < FIELDS; i++)
        give_u64(fields[i]);
    for (size_t i = 0; i < slices; i++)
        if (r->slices[i].length != 0)
            give(r->slices[i].lent, r->slices[i].length);
}

static void answer_request(struct request *r)
{
    const struct call *call = take_request(r);
    uint64_t fields[FIELDS] = {0};
    call->make(r, fields);
    for (size_t i = 0; i < call->slices; i++)
        test_margin(&r->slices[i]);
    give_response(r, call->slices, fields);
}

/* The number of requests in the next batch; false where the input is over. */
static bool take_count(uint32_t *count)
{
    uint8_t bytes[4];
    const size_t got = fread(bytes, 1, sizeof bytes, stdin);
    if (got == 0 && feof(stdin))
        return false;
    if (got != sizeof bytes)
        fail(BAD_INPUT, "the input ends within a batch, or cannot be read");
    *count = (uint32_t)number(bytes, sizeof bytes);
    return true;
}

int main(void)
{
    static char in[BUFFER], out[BUFFER];
    setvbuf(stdin, in, _IOFBF, sizeof in);
    setvbuf(stdout, out, _IOFBF, sizeof out);
    memset(marks, MARK, sizeof marks);
    struct request request = {0};
    for (size_t i = 0; i < MOST_SLICES; i++)
        request.slices[i].data = new_area();
    uint32_t count;
    while (take_count(&count)) {
        for (uint32_t i = 0; i < count; i++)
            answer_request(&request);
        if (fflush(stdout) != 0)
            fail(BAD_INPUT, "the output cannot be written");
    }
    return 0;
}

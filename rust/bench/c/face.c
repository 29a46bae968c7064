/* What `trial_pace` does, through the face: one call on one machine, made a number of times over,
   so that a call through the face is timed beside the same call without it. It reads and prints
   the same bytes (crates/trial_pace/src/main.rt): a letter, p, n, the number of calls (two bytes,
   the low one first) and the number of rows of a list, then the entries of the machine and of the
   list. The letter is `s` for the stand, `o` for the order, `c` for the chain, `t` for the period.
   What the last call gives is printed; without calls the program only reads.

       cc -std=c11 -O2 -Iinclude -o face rust/bench/c/face.c target/staticlib/libkinarsop.a */
#include <stdio.h>

#include "kinarsop.h"

enum {
    MATRIX_ROOM = KINARSOP_LARGEST_N * KINARSOP_LARGEST_N,
    LIST_ROOM = KINARSOP_MOST_CANDIDATES * KINARSOP_LARGEST_N
};

/* What is lent to the calls. `room` is for what a call fills besides a polynomial. */
struct job {
    uint8_t p;
    uint8_t n;
    size_t m_length;
    size_t cs_length;
    uint8_t m[MATRIX_ROOM];
    uint8_t cs[LIST_ROOM];
    uint8_t poly[KINARSOP_POLYNOMIAL_ROOM];
    uint8_t room[KINARSOP_STAGE_ROOM];
};

/* A write for the space and one for the number, as `trial_pace` makes them. */
static void print_number(size_t number)
{
    printf(" ");
    printf("%zu", number);
}

/* The word of the answer, or REFUSED and the number. */
static void print_head(struct kinarsop_refusal refusal, const char *word)
{
    printf("%s", refusal.number == 0 ? word : "REFUSED");
    if (refusal.number != 0)
        print_number(refusal.number);
}

static void print_poly(const struct job *job)
{
    for (size_t i = 0; i < sizeof job->poly; i++)
        print_number(job->poly[i]);
    printf("\n");
}

static void stand(bool last, struct job *job)
{
    const struct kinarsop_stand_answer a =
        kinarsop_stand(job->p, job->n, job->m, job->m_length, job->cs, job->cs_length,
                       KINARSOP_FULL_ALLOWANCE, job->poly, sizeof job->poly, job->room,
                       sizeof job->room);
    if (!last)
        return;
    print_head(a.refusal, a.proved ? "STAND PROVED" : "STAND SHORT");
    if (a.refusal.number == 0) {
        print_number(a.witness);
        print_number(a.degree);
    }
    print_poly(job);
}

static void order(bool last, struct job *job)
{
    const struct kinarsop_order_answer a =
        kinarsop_order(job->p, job->n, job->m, job->m_length, job->cs, job->cs_length, job->poly,
                       sizeof job->poly);
    if (!last)
        return;
    print_head(a.refusal, "ORDER");
    if (a.refusal.number == 0)
        print_number(a.degree);
    print_poly(job);
}

static void chain(bool last, struct job *job)
{
    const struct kinarsop_chain_answer a =
        kinarsop_chain(job->p, job->n, job->m, job->m_length, job->cs, job->cs_length, job->poly,
                       sizeof job->poly, job->room, sizeof job->room);
    if (!last)
        return;
    print_head(a.refusal, "CHAIN");
    if (a.refusal.number == 0)
        print_number(a.stages);
    print_poly(job);
}

static void period(bool last, struct job *job)
{
    const struct kinarsop_period_answer a =
        kinarsop_period(job->p, job->n, job->m, job->m_length);
    if (!last)
        return;
    print_head(a.refusal, a.period == 0 ? "PERIOD none" : "PERIOD");
    if (a.period != 0)
        print_number(a.period);
    printf("\n");
}

static void call(uint8_t letter, bool last, struct job *job)
{
    switch (letter) {
    case 's':
        stand(last, job);
        break;
    case 'o':
        order(last, job);
        break;
    case 'c':
        chain(last, job);
        break;
    case 't':
        period(last, job);
        break;
    default:
        break;
    }
}

/* The next bytes of the input, so many where there is room for them and else none. */
static size_t take(size_t count, uint8_t *bytes, size_t room)
{
    return room < count ? 0 : fread(bytes, 1, count, stdin);
}

int main(void)
{
    static struct job job;
    setvbuf(stdout, NULL, _IONBF, 0);
    uint8_t head[6] = {0};
    take(sizeof head, head, sizeof head);
    job.p = head[1];
    job.n = head[2];
    job.m_length = take((size_t)job.n * job.n, job.m, sizeof job.m);
    job.cs_length = take((size_t)head[5] * job.n, job.cs, sizeof job.cs);
    const unsigned times = head[3] + 256U * head[4];
    for (unsigned k = 1; k <= times; k++)
        call(head[0], k == times, &job);
    return 0;
}

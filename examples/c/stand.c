/* The minimal polynomial of a machine in memory, from one candidate on: where the stand is short,
   the unit row of the witness is one more candidate, and the call is made again until it is
   proved. Then a call that is refused, and where the bad entry is. What it prints is in
   stand.expected. */
#include <stdio.h>

#include "kinarsop.h"

enum { P = 5, N = 4 };

/* A turn by a quarter beside a block with the value 2 twice. */
static const uint8_t machine[N * N] = {
    0, 1, 0, 0, /* where unit row 1 goes */
    4, 0, 0, 0, /* 4 is -1 modulo 5 */
    0, 0, 2, 1, /* unit row 3 */
    0, 0, 0, 2, /* unit row 4 */
};

struct list {
    size_t count;
    uint8_t rows[KINARSOP_MOST_CANDIDATES * N];
};

static const char *meaning(uint8_t number)
{
    switch (number) {
    case KINARSOP_NO_PRIME:
        return "p is not a prime from 2 to 251";
    case KINARSOP_NO_SIZE:
        return "n is not 1 to 64";
    case KINARSOP_NO_MATRIX:
        return "the matrix has not n*n bytes";
    case KINARSOP_NO_ROWS:
        return "the list is no whole number of rows, or has over 128";
    case KINARSOP_MATRIX_ENTRY:
        return "an entry of the matrix is p or more";
    case KINARSOP_ROW_ENTRY:
        return "an entry of a candidate is p or more";
    case KINARSOP_NO_ROOM:
        return "a result buffer is too short";
    default:
        return "this call is not refused by it";
    }
}

/* A number without a place has the column 0. */
static void print_refusal(struct kinarsop_refusal refusal)
{
    printf("refused by %d: %s", refusal.number, meaning(refusal.number));
    if (refusal.column != 0)
        printf(", in row %zu, column %zu", refusal.row, refusal.column);
    printf("\n");
}

static void print_bytes(const char *what, const uint8_t *bytes, size_t count)
{
    printf("%s", what);
    for (size_t i = 0; i < count; i++)
        printf(" %d", bytes[i]);
    printf("\n");
}

/* Places count from 1. */
static void add_unit_row(struct list *list, size_t place)
{
    uint8_t *row = &list->rows[list->count * N];
    for (size_t i = 0; i < N; i++)
        row[i] = i + 1 == place;
    list->count++;
}

/* One call; what it gives is printed. */
static struct kinarsop_stand_answer stand(const uint8_t *m, const struct list *list)
{
    uint8_t poly[N + 1];
    uint8_t image[N];
    const struct kinarsop_stand_answer answer =
        kinarsop_stand(P, N, m, (size_t)N * N, list->rows, list->count * N,
                       KINARSOP_FULL_ALLOWANCE, poly, sizeof poly, image, sizeof image);
    if (answer.refusal.number != KINARSOP_ANSWERED) {
        print_refusal(answer.refusal);
        return answer;
    }
    printf("%s, %zu taken, %u spent\n", answer.proved ? "proved" : "short", answer.taken,
           (unsigned)answer.spent);
    print_bytes(answer.proved ? "  minimal polynomial" : "  divisor", poly, answer.degree + 1);
    if (!answer.proved) {
        printf("  unit row %zu", answer.witness);
        print_bytes(" goes to", image, N);
    }
    return answer;
}

/* From one candidate this ends after at most N - 1 further ones. */
static bool stand_until_proved(struct list *list)
{
    for (;;) {
        const struct kinarsop_stand_answer answer = stand(machine, list);
        if (answer.refusal.number != KINARSOP_ANSWERED)
            return false;
        if (answer.proved)
            return true;
        add_unit_row(list, answer.witness);
    }
}

/* The machine with the entry 5, which p = 5 does not allow, at the front of its second row. */
static void stand_with_wrong_entry(const struct list *list)
{
    uint8_t wrong[N * N];
    for (size_t i = 0; i < sizeof wrong; i++)
        wrong[i] = machine[i];
    wrong[N] = P;
    stand(wrong, list);
}

int main(void)
{
    struct list list = {0};
    add_unit_row(&list, N);
    if (!stand_until_proved(&list))
        return 1;
    stand_with_wrong_entry(&list);
    return 0;
}

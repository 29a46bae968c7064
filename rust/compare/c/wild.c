/* A library that is wrong on purpose, in the place of the real one, to see that lend and what asks
   it notice. Every call but two answers and writes nothing. The order says of an entry in row 2
   and column 3 that it is in row 3 and column 2. The period touches one byte beside its matrix; p
   says which, and how. */
#include "kinarsop.h"

enum { READ_BEHIND = 1, WRITE_BEHIND = 2, READ_IN_FRONT = 3, WRITE_IN_FRONT = 4 };

struct kinarsop_inverse_answer kinarsop_inverse(uint32_t p, uint32_t a)
{
    (void)p, (void)a;
    return (struct kinarsop_inverse_answer){0};
}

struct kinarsop_order_answer kinarsop_order(uint32_t p, size_t n, const uint8_t *m,
                                            size_t m_length, const uint8_t *v, size_t v_length,
                                            uint8_t *out, size_t out_length)
{
    (void)p, (void)n, (void)m, (void)m_length, (void)v, (void)v_length, (void)out;
    (void)out_length;
    return (struct kinarsop_order_answer){.refusal = {KINARSOP_MATRIX_ENTRY, 3, 2}};
}

struct kinarsop_refusal kinarsop_image(uint32_t p, size_t n, const uint8_t *m, size_t m_length,
                                       const uint8_t *v, size_t v_length, const uint8_t *f,
                                       size_t f_length, uint8_t *out, size_t out_length)
{
    (void)p, (void)n, (void)m, (void)m_length, (void)v, (void)v_length, (void)f, (void)f_length;
    (void)out, (void)out_length;
    return (struct kinarsop_refusal){0};
}

struct kinarsop_stand_answer kinarsop_stand(uint32_t p, size_t n, const uint8_t *m,
                                            size_t m_length, const uint8_t *cs, size_t cs_length,
                                            uint32_t allowance, uint8_t *poly, size_t poly_length,
                                            uint8_t *image, size_t image_length)
{
    (void)p, (void)n, (void)m, (void)m_length, (void)cs, (void)cs_length, (void)allowance;
    (void)poly, (void)poly_length, (void)image, (void)image_length;
    return (struct kinarsop_stand_answer){0};
}

struct kinarsop_chain_answer kinarsop_chain(uint32_t p, size_t n, const uint8_t *m,
                                            size_t m_length, const uint8_t *cs, size_t cs_length,
                                            uint8_t *product, size_t product_length,
                                            uint8_t *stages, size_t stages_length)
{
    (void)p, (void)n, (void)m, (void)m_length, (void)cs, (void)cs_length, (void)product;
    (void)product_length, (void)stages, (void)stages_length;
    return (struct kinarsop_chain_answer){0};
}

struct kinarsop_period_answer kinarsop_period(uint32_t p, size_t n, const uint8_t *m,
                                              size_t m_length)
{
    (void)n;
    const bool behind = p == READ_BEHIND || p == WRITE_BEHIND;
    volatile uint8_t *at = (volatile uint8_t *)(uintptr_t)(behind ? m + m_length : m - 1);
    struct kinarsop_period_answer answer = {0};
    if (p == WRITE_BEHIND || p == WRITE_IN_FRONT)
        *at = 0;
    else if (p == READ_BEHIND || p == READ_IN_FRONT)
        answer.period = *at;
    return answer;
}

struct kinarsop_sheet_answer kinarsop_sheet(const uint8_t *file, size_t file_length, uint8_t *out,
                                            size_t out_length)
{
    (void)file, (void)file_length, (void)out, (void)out_length;
    return (struct kinarsop_sheet_answer){0};
}

struct kinarsop_write_answer kinarsop_write(uint32_t p, size_t n, const uint8_t *m,
                                            size_t m_length, const uint8_t *cs, size_t cs_length,
                                            uint32_t allowance, uint8_t *out, size_t out_length)
{
    (void)p, (void)n, (void)m, (void)m_length, (void)cs, (void)cs_length, (void)allowance;
    (void)out, (void)out_length;
    return (struct kinarsop_write_answer){0};
}

/* Kinarsop analyses a linear machine: a state row of n entries that is multiplied at every tick
   by an n by n matrix M over the integers modulo a small prime p. It gives order polynomials, the
   stand (the minimal polynomial, or a divisor of it that is marked as such), the chain of relative
   orders, the period, and the sheet of a case file, and it writes such files. What is behind these
   functions is written in Rattle and proved to meet its contract for every input.

   BUILD. With the Rattle toolchain, for x86-64 Linux:

       ./library
       cc -Iinclude x.c target/staticlib/libkinarsop.a

   BYTES. An entry is one byte from 0 to p - 1. A matrix is lent row after row, a list of rows too,
   with nothing between or behind the rows. A row acts from the left: the state after one tick is
   v*M, so row i of M is where unit row i goes. Unit row i has 1 at place i, counted from 1, and 0
   elsewhere. A polynomial is listed from its lowest coefficient on: 1 0 1 is 1 + x^2.

   EVERY CALL answers for all numbers and all bytes lent.
   - It is refused by number where something is wrong: the first number that applies in the
     sequence of kinarsop_number below. `refusal.number` is 0 where it is answered.
   - The first bad entry in reading order is told with its place, `refusal.row` and
     `refusal.column`, counted from 1; a coefficient and the scalar have row 0. Beside other numbers
     than 5, 10 and 11 both are 0.
   - A refused call changes no byte lent, and every other field of its answer is 0 (false).
   - A length says how many bytes may be read or written from its pointer on. The pointer of length
     0 may be NULL. A result buffer may share no byte with another slice of the same call; what is
     only read may. This is the caller's part: no call can test it.
   - A result buffer may be longer than asked; the bytes behind what is written stay as they were.
   - Nothing is kept between calls and no heap is used. Several threads may call at once, as long
     as none of them writes to bytes that are lent to another's call.
   - Stack, as measured: up to 34 KiB, in the period 98 KiB, in the sheet 139 KiB. 256 KiB are
     ample for a thread. */
#ifndef KINARSOP_H
#define KINARSOP_H

#include <stddef.h>
#include <stdint.h>
#ifndef __cplusplus
#include <stdbool.h>
#endif

#ifdef __cplusplus
extern "C" {
#endif

/* Why a call is refused, in the sequence of the tests, which is not that of the numbers. A call
   runs those about what it takes. */
enum kinarsop_number {
    KINARSOP_ANSWERED = 0,
    /* p is not a prime from 2 to 251. Give a prime; other moduli are not covered. */
    KINARSOP_NO_PRIME = 1,
    /* n is not 1 to 64. Give the number of rows; larger machines are not covered. */
    KINARSOP_NO_SIZE = 2,
    /* The matrix has not n*n bytes. Lend its rows one after another, a byte an entry. */
    KINARSOP_NO_MATRIX = 3,
    /* One row: its length is not n. Lend n bytes.
       A list: its length is no multiple of n. Lend n bytes a row.
       A list of over 128 rows. Leave out rows that are sums of others or come twice. */
    KINARSOP_NO_ROWS = 4,
    /* Image: no coefficient, or more than 65. Zero is the one byte 0; of a longer polynomial take
       the rest by the minimal polynomial, which has the same image. */
    KINARSOP_NO_POLYNOMIAL = 7,
    /* An entry of the matrix is p or more. Take it modulo p: p - 1 for -1. */
    KINARSOP_MATRIX_ENTRY = 5,
    /* An entry of the row, whose `row` is 1, or of a candidate, whose `row` is its number in the
       list, is p or more. Take it modulo p. */
    KINARSOP_ROW_ENTRY = 10,
    /* A coefficient is p or more: `row` is 0 and `column` its place, that of the lowest being 1.
       Or the scalar is: `row` is 0 and `column` 1. Take it modulo p. */
    KINARSOP_COEFFICIENT = 11,
    /* Write: the allowance is over 16,383, the most that the two numbers of record A can say. Give
       a smaller one: KINARSOP_FULL_ALLOWANCE pays for every list. */
    KINARSOP_ALLOWANCE = 9,
    /* A result buffer is too short. Lend what the call asks, or what always does (the rooms). */
    KINARSOP_NO_ROOM = 6,
    /* A file is no case. No call returns it: kinarsop_sheet writes it as the line REFUSED with
       the place, the first offset at which the bytes can no longer be the beginning of a case. */
    KINARSOP_NO_CASE = 8
};

/* What every answer begins with: why the call is refused, and where the bad entry is. */
struct kinarsop_refusal {
    uint8_t number; /* 0 where the call is answered */
    size_t row;
    size_t column;
};

/* The bounds; the rooms: buffers of so many bytes are enough for every p and n; and the number that
   stands for no inverse. */
enum kinarsop_bound {
    KINARSOP_LARGEST_PRIME = 251,
    KINARSOP_LARGEST_N = 64,
    KINARSOP_MOST_CANDIDATES = 128,
    /* It pays for every list: 128 orders of degree 64. */
    KINARSOP_FULL_ALLOWANCE = 8192,
    /* The largest allowance that a case file can state. */
    KINARSOP_MOST_STATED = 16383,
    /* The bytes of the longest case file, and so the room for every one. */
    KINARSOP_LONGEST_CASE = 12682,
    KINARSOP_POLYNOMIAL_ROOM = 65,
    KINARSOP_ROW_ROOM = 64,
    KINARSOP_STAGE_ROOM = 128,
    KINARSOP_SHEET_ROOM = 2048,
    /* It is above every p: it is no inverse, and it is refused as an entry (by 5 or 10), as a
       coefficient and as a scalar (by 11). */
    KINARSOP_NO_INVERSE = 255
};

/* The inverse of the scalar a modulo p: the b from 1 to p - 1 with a*b = 1 modulo p.
   `inverse` is that b. KINARSOP_NO_INVERSE (and number 0): there is none; a is 0. Look for it
   before you scale by an inverse. 0 stands in `inverse` beside a refusal alone.
   Refused by 1 (p), 11 (a).

       a = kinarsop_inverse(7, 3);

   gives the inverse 5, and with 0 in the place of 3 KINARSOP_NO_INVERSE. */
struct kinarsop_inverse_answer {
    struct kinarsop_refusal refusal;
    uint8_t inverse;
};

struct kinarsop_inverse_answer kinarsop_inverse(uint32_t p, uint32_t a);

/* The order of the row v: the monic polynomial f of least degree with v*f(M) = 0. The order of the
   zero row is 1.
     m    the matrix, n*n bytes
     v    the row, n bytes
     out  at least n + 1 bytes; gets the n + 1 coefficients, zeros above the degree
   `degree` is 0 to n; out[degree] is then 1.
   Refused by 1 (p), 2 (n), 3 (m_length), 4 (v_length), 5 (an entry of m), 10 (an entry of v), 6
   (out_length). */
struct kinarsop_order_answer {
    struct kinarsop_refusal refusal;
    size_t degree;
};

struct kinarsop_order_answer kinarsop_order(uint32_t p, size_t n, const uint8_t *m,
                                            size_t m_length, const uint8_t *v, size_t v_length,
                                            uint8_t *out, size_t out_length);

/* The image v*f(M) of a row under a polynomial.
     m    the matrix, n*n bytes
     v    the row, n bytes
     f    the polynomial, 1 to 65 coefficients; the leading ones may be 0
     out  at least n bytes; gets the n entries of the image
   Returns the refusal itself: its number is 0 where the image is written.
   Refused by 1 (p), 2 (n), 3 (m_length), 4 (v_length), 7 (f_length), 5 (an entry of m), 10 (an
   entry of v), 11 (a coefficient of f), 6 (out_length). */
struct kinarsop_refusal kinarsop_image(uint32_t p, size_t n, const uint8_t *m, size_t m_length,
                                       const uint8_t *v, size_t v_length, const uint8_t *f,
                                       size_t f_length, uint8_t *out, size_t out_length);

/* The stand. Candidates are taken from the front of the list; each costs as many products as the
   degree of its order, and the first that would go over the allowance ends the list. F is the
   least common multiple of the orders of those taken, and 1 where none is.
     m          the matrix, n*n bytes
     cs         the candidates, 0 to 128 rows of n bytes; cs_length is the number of all bytes
     allowance  any number; KINARSOP_FULL_ALLOWANCE pays for every list
     poly       at least n + 1 bytes; gets the n + 1 coefficients of F, zeros above the degree
     image      at least n bytes; gets the n entries of the witness's image, n zeros if proved
   `proved`: true where F(M) sends every unit row to zero; F is then the minimal polynomial of M.
             false: short. F is another polynomial, which divides the minimal one.
   `degree`  of F, 0 to n
   `taken`   the number of candidates taken
   `spent`   the products they cost: the sum of the degrees of their orders
   `witness` short: the first unit row that F(M) does not send to zero, counted from 1; its image
             is in the buffer. Proved: 0.
   From short to proved: lend the unit row of the witness as one more candidate and call again;
   from at most 64 candidates and the full allowance it takes at most n - degree turns.
   Refused by 1 (p), 2 (n), 3 (m_length), 4 (cs_length), 5 (an entry of m), 10 (an entry of cs,
   taken or not), 6 (poly_length, image_length).

       const uint8_t m[] = {0, 1, 2, 0}, cs[] = {1, 0};
       a = kinarsop_stand(3, 2, m, 4, cs, 2, KINARSOP_FULL_ALLOWANCE, poly, 65, image, 64);

   gives proved, degree 2, taken 1, spent 2, witness 0; poly begins with 1 0 1. */
struct kinarsop_stand_answer {
    struct kinarsop_refusal refusal;
    bool proved;
    size_t degree;
    size_t taken;
    uint32_t spent;
    size_t witness;
};

struct kinarsop_stand_answer kinarsop_stand(uint32_t p, size_t n, const uint8_t *m,
                                            size_t m_length, const uint8_t *cs, size_t cs_length,
                                            uint32_t allowance, uint8_t *poly, size_t poly_length,
                                            uint8_t *image, size_t image_length);

/* The chain of relative orders. W starts as zero. The candidates and then the unit rows are looked
   at, each in its turn: a row in W is passed over; any other gives a stage, its order over W (the
   monic polynomial f of least degree with v*f(M) in W), and W grows by the row and its products
   with the powers of M. The degrees of the stages sum to n.
     m        the matrix, n*n bytes
     cs       the candidates, 0 to 128 rows of n bytes; cs_length is the number of all bytes
     product  at least n + 1 bytes; gets the n + 1 coefficients of the product of the stages
     stages   at least 2*n bytes; gets 2*n bytes: stage after stage its degree and then so many
              coefficients, the leading 1 left out; behind the last stage zeros
   `stages` of the answer is the number of stages, 1 to n.
   Refused by 1 (p), 2 (n), 3 (m_length), 4 (cs_length), 5 (an entry of m), 10 (an entry of cs), 6
   (product_length, stages_length).

       const uint8_t m[] = {0, 1, 0, 2, 0, 0, 0, 0, 1}, cs[] = {1, 0, 0};
       a = kinarsop_chain(3, 3, m, 9, cs, 3, product, 65, stages, 128);

   gives 2 stages, 1 + x^2 and 2 + x: the buffer begins with 2 1 0, 1 2, 0. The product is
   2 1 2 1. To go over the stages:

       for (size_t k = 0, at = 0; k < a.stages; k++, at += 1 + (size_t)stages[at])
           show(stages[at], &stages[at + 1]); */
struct kinarsop_chain_answer {
    struct kinarsop_refusal refusal;
    size_t stages;
};

struct kinarsop_chain_answer kinarsop_chain(uint32_t p, size_t n, const uint8_t *m,
                                            size_t m_length, const uint8_t *cs, size_t cs_length,
                                            uint8_t *product, size_t product_length,
                                            uint8_t *stages, size_t stages_length);

/* The period: the least t from 1 to 65,536 with M to the t the identity.
     m  the matrix, n*n bytes
   `period` is that t. 0 (and number 0): there is none; M is singular, or comes round later.
   Refused by 1 (p), 2 (n), 3 (m_length), 5 (an entry of m). */
struct kinarsop_period_answer {
    struct kinarsop_refusal refusal;
    uint32_t period;
};

struct kinarsop_period_answer kinarsop_period(uint32_t p, size_t n, const uint8_t *m,
                                              size_t m_length);

/* The sheet of a case file, as text.
     file  the bytes of the file, any number of them; the first KINARSOP_LONGEST_CASE + 1 are
           enough: with more the text is the same
     out   at least KINARSOP_SHEET_ROOM bytes, whatever the file is; gets the text at its front
   `length` is that of the text: lines of ASCII, each with its newline, no 0 behind the last.
   A file that is no case is answered too: its text is the one line REFUSED and the place.
   Refused by 6 (out_length) and by nothing else. */
struct kinarsop_sheet_answer {
    struct kinarsop_refusal refusal;
    size_t length;
};

struct kinarsop_sheet_answer kinarsop_sheet(const uint8_t *file, size_t file_length, uint8_t *out,
                                            size_t out_length);

/* Writes a case file: p, n, the matrix, the candidates and the allowance, which it always states
   (record A). kinarsop_sheet takes the file.
     m          the matrix, n*n bytes
     cs         the candidates, 0 to 128 rows of n bytes; cs_length is the number of all bytes
     allowance  0 to KINARSOP_MOST_STATED
     out        at least as many bytes as the file has, which for k candidates are
                10 + (n + k)*(n + 2); gets the file at its front
   `length` is that of the file.
   Whoever reads the file gets the values that were lent; and a case file with a record A, whose
   values are lent again, is written as it was, byte for byte.
   Refused by 1 (p), 2 (n), 3 (m_length), 4 (cs_length), 5 (an entry of m), 10 (an entry of cs), 9
   (allowance), 6 (out_length).

       const uint8_t m[] = {0, 1, 2, 0}, cs[] = {1, 0};
       a = kinarsop_write(3, 2, m, 4, cs, 2, KINARSOP_FULL_ALLOWANCE, out, 22);

   gives the length 22; the records are 255 F 3 2, 255 A 64 0 (8192 is 128*64 + 0), 255 R 0 1,
   255 R 2 0, 255 C 1 0 and 255 E, each letter as its ASCII byte. */
struct kinarsop_write_answer {
    struct kinarsop_refusal refusal;
    size_t length;
};

struct kinarsop_write_answer kinarsop_write(uint32_t p, size_t n, const uint8_t *m,
                                            size_t m_length, const uint8_t *cs, size_t cs_length,
                                            uint32_t allowance, uint8_t *out, size_t out_length);

#ifdef __cplusplus
}
#endif

#endif

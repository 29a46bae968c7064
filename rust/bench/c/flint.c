/* What `trial_pace` does after the letter `s`, by FLINT: the minimal polynomial of a matrix modulo p, a number of times, and its degree and coefficients.
   Standard input is that of `trial_pace`; the list is not read. The allocator is to keep what it has: else it asks the system for memory and gives it
   back at every call, and FLINT looks three times slower than it is.

       cc -O2 -o flint rust/bench/c/flint.c -lflint */
#include <flint/nmod_mat.h>
#include <flint/nmod_poly.h>
#include <malloc.h>
#include <stdio.h>

enum { KEPT = 1 << 28 };

int main(void)
{
    mallopt(M_TRIM_THRESHOLD, KEPT);
    mallopt(M_MMAP_THRESHOLD, KEPT);
    unsigned char head[6];
    if (fread(head, 1, sizeof head, stdin) != sizeof head || head[0] != 's')
        return 1;
    int p = head[1], n = head[2], calls = head[3] + 256 * head[4];
    nmod_mat_t machine;
    nmod_mat_init(machine, n, n, p);
    for (int i = 0; i < n; i++)
        for (int j = 0; j < n; j++)
            nmod_mat_entry(machine, i, j) = getchar();
    nmod_poly_t minimal;
    nmod_poly_init(minimal, p);
    for (int k = 0; k < calls; k++)
        nmod_mat_minpoly(minimal, machine);
    if (calls == 0)
        return 0;
    printf("FLINT %ld", (long)nmod_poly_degree(minimal));
    for (int k = 0; k <= n; k++)
        printf(" %lu", (unsigned long)nmod_poly_get_coeff_ui(minimal, k));
    printf("\n");
    return 0;
}

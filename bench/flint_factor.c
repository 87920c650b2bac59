/* Factors polynomials with FLINT, one a line: the characteristic, and the coefficients from the lowest up. */
#include <flint/flint.h>
#include <flint/nmod_poly.h>
#include <flint/nmod_poly_factor.h>
#include <stdio.h>
#include <stdlib.h>
#include <string.h>

int main(void)
{
    char line[8192];
    long factors = 0;
    while (fgets(line, sizeof line, stdin)) {
        char *word = strtok(line, " \n");
        if (!word)
            continue;
        nmod_poly_t f;
        nmod_poly_init(f, strtoul(word, 0, 10));
        for (long k = 0; (word = strtok(0, " ,\n")); k++)
            nmod_poly_set_coeff_ui(f, k, strtoul(word, 0, 10));
        nmod_poly_factor_t found;
        nmod_poly_factor_init(found);
        nmod_poly_factor(found, f);
        factors += found->num;
        nmod_poly_factor_clear(found);
        nmod_poly_clear(f);
    }
    printf("%ld\n", factors);
    return 0;
}

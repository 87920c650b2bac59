/* Repeats one operation of a finite field, or with an embedding of one, with FLINT and prints the checksum of
   crates/field_timer. Its words are those of field_timer: the operation, the characteristic, how often, and the coefficients of
   the field's polynomial, lowest first; for an embedding then `from` and those of the field that is embedded. */
#include <flint/flint.h>
#include <flint/fq_nmod.h>
#include <flint/fq_nmod_embed.h>
#include <flint/fq_nmod_poly.h>
#include <flint/fq_nmod_poly_factor.h>
#include <flint/nmod_mat.h>
#include <flint/nmod_poly.h>
#include <stdio.h>
#include <stdlib.h>
#include <string.h>

#define VALUES 8

static fq_nmod_ctx_t field;
static nmod_poly_t modulus;

/* the field that is embedded, the matrix of the map by the least root, and that of its inverse */
static fq_nmod_ctx_t source;
static nmod_poly_t source_modulus;
static nmod_mat_t embedding, inverse;

/* the lowest digit of a value */
static unsigned lowest(const fq_nmod_t a)
{
    return (unsigned) nmod_poly_get_coeff_ui(a, 0);
}

/* a number that stands for the operation's result */
static unsigned apply(const char *operation, const fq_nmod_t a, const fq_nmod_t b, fq_nmod_t c, fmpz_t number)
{
    switch (operation[0]) {
    case 'm': {
        fq_nmod_ctx_t another;
        fq_nmod_ctx_init_modulus(another, modulus, "x");
        unsigned degree = (unsigned) fq_nmod_ctx_degree(another);
        fq_nmod_ctx_clear(another);
        return degree;
    }
    case 'p':
        fq_nmod_mul(c, a, b, field);
        return lowest(c);
    case 'i':
        fq_nmod_inv(c, a, field);
        return lowest(c);
    case 'f':
        fq_nmod_frobenius(c, a, 1, field);
        return lowest(c);
    case 't':
        fq_nmod_trace(number, a, field);
        return (unsigned) fmpz_get_ui(number);
    case 'n':
        if (operation[2] == 't')
            return lowest(a);
        fq_nmod_norm(number, a, field);
        return (unsigned) fmpz_get_ui(number);
    }
    return 0;
}

/* writes the digits of a value, n in number */
static void digits_of(mp_limb_t *digits, const fq_nmod_t a, slong n)
{
    for (slong k = 0; k < n; k++)
        digits[k] = nmod_poly_get_coeff_ui(a, k);
}

/* whether a comes before b, from the highest digit down */
static int is_before(const fq_nmod_t a, const fq_nmod_t b)
{
    for (slong k = fq_nmod_ctx_degree(field) - 1; k >= 0; k--)
        if (nmod_poly_get_coeff_ui(a, k) != nmod_poly_get_coeff_ui(b, k))
            return nmod_poly_get_coeff_ui(a, k) < nmod_poly_get_coeff_ui(b, k);
    return 0;
}

/* the least root of the source's polynomial, and the matrices of its map */
static void embed(void)
{
    fq_nmod_t least, other, generator;
    nmod_poly_t minimal;
    slong d = fq_nmod_ctx_degree(source), n = fq_nmod_ctx_degree(field);
    fq_nmod_init(least, field);
    fq_nmod_init(other, field);
    fq_nmod_init(generator, source);
    nmod_poly_init(minimal, modulus->mod.n);
    fq_nmod_embed_gens(generator, other, minimal, source, field);
    fq_nmod_t root;
    fq_nmod_init(root, field);
    nmod_mat_init(embedding, n, d, modulus->mod.n);
    nmod_mat_init(inverse, d, n, modulus->mod.n);
    fq_nmod_embed_matrices(embedding, inverse, generator, source, other, field, minimal);
    mp_limb_t column[64];
    fq_nmod_gen(generator, source);
    digits_of(column, generator, d);
    mp_limb_t image[64];
    nmod_mat_mul_nmod_vec(image, embedding, column, d);
    for (slong k = 0; k < n; k++)
        nmod_poly_set_coeff_ui(root, k, image[k]);
    fq_nmod_set(least, root, field);
    for (slong k = 1; k < d; k++) {
        fq_nmod_frobenius(root, root, 1, field);
        if (is_before(root, least))
            fq_nmod_set(least, root, field);
    }
    fq_nmod_embed_matrices(embedding, inverse, generator, source, least, field, source_modulus);
}

/* a number that stands for the result of an operation with the embedding: a is a value of the source, b the image of one, c
   any value of the field */
static unsigned apply_map(const char *operation, const mp_limb_t *a, const mp_limb_t *b, const fq_nmod_t c)
{
    mp_limb_t result[64];
    slong d = fq_nmod_ctx_degree(source), n = fq_nmod_ctx_degree(field);
    unsigned number = (unsigned) a[0];
    if (operation[0] == 'r') {
        fq_nmod_t generator, image;
        nmod_poly_t minimal;
        fq_nmod_init(generator, source);
        fq_nmod_init(image, field);
        nmod_poly_init(minimal, modulus->mod.n);
        fq_nmod_embed_gens(generator, image, minimal, source, field);
        number = (unsigned) nmod_poly_degree(minimal);
        nmod_poly_clear(minimal);
        fq_nmod_clear(image, field);
        fq_nmod_clear(generator, source);
    } else if (operation[0] == 'a') {
        nmod_mat_mul_nmod_vec(result, embedding, a, d);
        number = (unsigned) result[0];
    } else if (operation[0] == 'p') {
        nmod_mat_mul_nmod_vec(result, inverse, b, n);
        number = (unsigned) result[0];
    } else if (operation[0] == 'm') {
        nmod_mat_t matrix;
        nmod_poly_t minimal;
        nmod_mat_init(matrix, n, n, modulus->mod.n);
        nmod_poly_init(minimal, modulus->mod.n);
        fq_nmod_embed_mul_matrix(matrix, c, field);
        nmod_mat_minpoly(minimal, matrix);
        number = (unsigned) nmod_poly_get_coeff_ui(minimal, 0);
        nmod_poly_clear(minimal);
        nmod_mat_clear(matrix);
    }
    return number;
}

/* the first value, and its powers */
static void powers_of(fq_nmod_t *values, const fq_nmod_ctx_t context)
{
    fq_nmod_t generator;
    fq_nmod_init(generator, context);
    fq_nmod_gen(generator, context);
    for (int k = 0; k < VALUES; k++)
        fq_nmod_init(values[k], context);
    fq_nmod_pow_ui(values[0], generator, 5700357409661599242UL, context);
    for (int k = 1; k < VALUES; k++)
        fq_nmod_mul(values[k], values[k - 1], values[0], context);
}

/* the checksum of an operation with the embedding */
static unsigned map_checksum(const char *operation, unsigned long count)
{
    fq_nmod_t values[VALUES], others[VALUES];
    mp_limb_t digits[VALUES][64], images[VALUES][64];
    slong d = fq_nmod_ctx_degree(source);
    embed();
    powers_of(values, source);
    powers_of(others, field);
    for (int k = 0; k < VALUES; k++) {
        digits_of(digits[k], values[k], d);
        nmod_mat_mul_nmod_vec(images[k], embedding, digits[k], d);
    }
    unsigned sum = 0;
    for (unsigned long i = 0; i < count; i++)
        sum += apply_map(operation, digits[i % VALUES], images[i % VALUES], others[i % VALUES]);
    return sum;
}

int main(int argc, char **argv)
{
    if (argc < 5)
        return 2;
    nmod_poly_init(modulus, strtoul(argv[2], 0, 10));
    nmod_poly_init(source_modulus, strtoul(argv[2], 0, 10));
    int from = 4;
    while (from < argc && strcmp(argv[from], "from"))
        from++;
    for (int k = 4; k < from; k++)
        nmod_poly_set_coeff_ui(modulus, k - 4, strtoul(argv[k], 0, 10));
    for (int k = from + 1; k < argc; k++)
        nmod_poly_set_coeff_ui(source_modulus, k - from - 1, strtoul(argv[k], 0, 10));
    fq_nmod_ctx_init_modulus(field, modulus, "x");
    unsigned long count = strtoul(argv[3], 0, 10);
    if (from < argc) {
        fq_nmod_ctx_init_modulus(source, source_modulus, "x");
        printf("%u\n", map_checksum(argv[1], count));
        return 0;
    }
    fq_nmod_t values[VALUES], c;
    fmpz_t number;
    fmpz_init(number);
    fq_nmod_init(c, field);
    powers_of(values, field);
    unsigned sum = 0;
    for (unsigned long i = 0; i < count; i++)
        sum += apply(argv[1], values[i % VALUES], values[(i + 1) % VALUES], c, number);
    printf("%u\n", sum);
    return 0;
}

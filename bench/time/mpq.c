/* The work of mob_bench by the rational numbers of GMP: the same operands, the same operations and
   the same checksum. Its arguments are an operation, a kind of operands and a count. */
#include <gmp.h>
#include <stdint.h>
#include <stdio.h>
#include <stdlib.h>
#include <string.h>

enum { OPERANDS = 1024 };

enum operation { ADD, SUBTRACT, MULTIPLY, DIVIDE, COMPARE, UNKNOWN };

static const char *const names[] = {"add", "subtract", "multiply", "divide", "compare"};

static uint64_t next_state(uint64_t state)
{
    return state * UINT64_C(6364136223846793005) + UINT64_C(1442695040888963407);
}

static void make_operands(mpq_t *operands, int mixed)
{
    uint64_t state = 1;
    for (int i = 0; i < OPERANDS; i++) {
        state = next_state(state);
        long num = (long)(state >> 44) - (1L << 19);
        state = next_state(state);
        unsigned long den = mixed ? (unsigned long)(state >> 52) + 1 : 1;
        mpq_init(operands[i]);
        mpq_set_si(operands[i], num, den);
        mpq_canonicalize(operands[i]);
    }
}

static enum operation operation_of(const char *word)
{
    for (int i = ADD; i < UNKNOWN; i++)
        if (strcmp(word, names[i]) == 0)
            return (enum operation)i;
    return UNKNOWN;
}

static void apply(enum operation operation, mpq_t result, const mpq_t a, const mpq_t b)
{
    switch (operation) {
    case ADD:
        mpq_add(result, a, b);
        break;
    case SUBTRACT:
        mpq_sub(result, a, b);
        break;
    case MULTIPLY:
        mpq_mul(result, a, b);
        break;
    case DIVIDE:
        if (mpq_sgn(b) == 0)
            mpq_add(result, a, b);
        else
            mpq_div(result, a, b);
        break;
    default: {
        int order = mpq_cmp(a, b);
        mpq_set_si(result, (order > 0) - (order < 0), 1);
    }
    }
}

int main(int count, char **words)
{
    if (count != 4 || operation_of(words[1]) == UNKNOWN) {
        puts("usage: mpq add|subtract|multiply|divide|compare whole|mixed COUNT");
        return 2;
    }
    enum operation operation = operation_of(words[1]);
    uint64_t times = strtoull(words[3], NULL, 10);
    uint64_t sum = 0;
    static mpq_t operands[OPERANDS];
    mpq_t result;
    make_operands(operands, strcmp(words[2], "mixed") == 0);
    mpq_init(result);
    for (uint64_t i = 0; i < times; i++) {
        apply(operation, result, operands[i % OPERANDS], operands[(i * 7 + 3) % OPERANDS]);
        sum = sum * 31 + (uint64_t)mpz_get_si(mpq_numref(result));
        sum = sum * 31 + (uint64_t)mpz_get_si(mpq_denref(result));
    }
    printf("%llu\n", (unsigned long long)sum);
    return 0;
}

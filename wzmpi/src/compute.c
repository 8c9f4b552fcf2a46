/* What the operations compute where the engine doesn't: over floating point numbers, pairs and complex numbers, over more elements than the engine takes,
   and by a program's own functions. */
#include "types.h"

#include <complex.h>

struct pair_int { int value, index; };
struct pair_float { float value; int index; };
struct pair_double { double value; int index; };
struct pair_long { long value; int index; };
struct pair_short { short value; int index; };
struct pair_long_double { long double value; int index; };
struct pair_real { float value, index; };
struct pair_double_precision { double value, index; };

/* A loop over N elements of type T, x[i] and y[i], of which the outcome goes to y. C has no other way to say it for each type. */
#define EACH(T, expression)                                                 \
    {                                                                       \
        const T *x = row;                                                   \
        T *y = more;                                                        \
        for (size_t i = 0; i < many; i++) y[i] = (T)(expression);           \
        break;                                                              \
    }
#define COMPARED(T)                                                         \
    case 1: EACH(T, x[i] > y[i] ? x[i] : y[i])                              \
    case 2: EACH(T, x[i] < y[i] ? x[i] : y[i])                              \
    case 5: EACH(T, x[i] && y[i])                                           \
    case 7: EACH(T, x[i] || y[i])                                           \
    case 9: EACH(T, !x[i] != !y[i])

/* Floating point numbers. */
#define REALS(name, T)                                                      \
    static void name(int op, size_t many, const void *row, void *more) {    \
        switch (op) {                                                       \
            COMPARED(T)                                                     \
        case 3: EACH(T, x[i] + y[i])                                        \
        case 4: EACH(T, x[i] * y[i])                                        \
        default: break;                                                     \
        }                                                                   \
    }

/* Integers: U is an unsigned type in which sums and products wrap, at least as wide as T. */
#define INTEGERS(name, T, U)                                                \
    static void name(int op, size_t many, const void *row, void *more) {    \
        switch (op) {                                                       \
            COMPARED(T)                                                     \
        case 3: EACH(T, (U)x[i] + (U)y[i])                                  \
        case 4: EACH(T, (U)x[i] * (U)y[i])                                  \
        case 6: EACH(T, x[i] & y[i])                                        \
        case 8: EACH(T, x[i] | y[i])                                        \
        case 10: EACH(T, x[i] ^ y[i])                                       \
        default: break;                                                     \
        }                                                                   \
    }

#define COMPLEXES(name, T)                                                  \
    static void name(int op, size_t many, const void *row, void *more) {    \
        switch (op) {                                                       \
        case 3: EACH(T, x[i] + y[i])                                        \
        case 4: EACH(T, x[i] * y[i])                                        \
        default: break;                                                     \
        }                                                                   \
    }

/* The greater or lesser value with its index, of equal ones the lower index (MPI 4.1, 6.9.4). */
#define PAIRS(name, T)                                                      \
    static void name(int op, size_t many, const void *row, void *more) {    \
        const T *x = row;                                                   \
        T *y = more;                                                        \
        for (size_t i = 0; i < many; i++) {                                 \
            bool equal = x[i].value == y[i].value;                          \
            bool before = op == 12 ? x[i].value > y[i].value : x[i].value < y[i].value; \
            if (equal ? x[i].index < y[i].index : before) y[i] = x[i];      \
        }                                                                   \
    }

REALS(of_float, float)
REALS(of_double, double)
REALS(of_long_double, long double)
INTEGERS(of_int8, int8_t, unsigned)
INTEGERS(of_int16, int16_t, unsigned)
INTEGERS(of_int32, int32_t, uint32_t)
INTEGERS(of_int64, int64_t, uint64_t)
INTEGERS(of_uint8, uint8_t, unsigned)
INTEGERS(of_uint16, uint16_t, unsigned)
INTEGERS(of_uint32, uint32_t, uint32_t)
INTEGERS(of_uint64, uint64_t, uint64_t)
COMPLEXES(of_float_complex, float complex)
COMPLEXES(of_double_complex, double complex)
COMPLEXES(of_long_double_complex, long double complex)
PAIRS(of_pair_int, struct pair_int)
PAIRS(of_pair_float, struct pair_float)
PAIRS(of_pair_double, struct pair_double)
PAIRS(of_pair_long, struct pair_long)
PAIRS(of_pair_short, struct pair_short)
PAIRS(of_pair_long_double, struct pair_long_double)
PAIRS(of_pair_real, struct pair_real)
PAIRS(of_pair_double_precision, struct pair_double_precision)

typedef void computer(int op, size_t many, const void *row, void *more);

/* By the codes of types.c. */
static computer *const computers[] = {
    [1] = of_int8, [2] = of_int8, [3] = of_uint8, [4] = of_int16, [5] = of_uint16, [6] = of_int32, [7] = of_uint32, [8] = of_int64, [9] = of_uint64,
    [10] = of_uint8, [11] = of_uint8, [12] = of_int32, [13] = of_uint8, [14] = of_float, [15] = of_double, [16] = of_long_double, [17] = of_float_complex,
    [18] = of_double_complex, [19] = of_long_double_complex, [20] = of_pair_int, [21] = of_pair_float, [22] = of_pair_double, [23] = of_pair_long,
    [24] = of_pair_short, [25] = of_pair_long_double, [26] = of_int32, [27] = of_pair_real,
    [28] = of_pair_double_precision,
};

void compute(const struct op *op, MPI_Datatype handle, const struct type *type, MPI_Count many, void *row, void *more) {
    int narrow = (int)many;
    if (op->user != NULL) op->user(row, more, &narrow, &handle);
    else if (op->user_wide != NULL) op->user_wide(row, more, &many, &handle);
    else computers[basic_type(type->basic)->code](op->number, (size_t)many, row, more);
}

/* Exact fractions by the machine's own 128-bit arithmetic: the peer of crates/sm_frac in bench/time_fractions.py.
 *
 * Each operation gives the result in lowest terms, or says that it passes the range, as sm_frac does. GCD names the greatest
 * common divisor: 0 is Euclid's by the 128-bit remainder, 1 the binary one by 128-bit shifts and differences.
 *
 * Reads lines "n d n d" and times ROUNDS rounds over them. Prints nanoseconds of the sums and of the products, each with the
 * wrapped sum of all results' parts and the count of those that passed.
 */
#include <stdint.h>
#include <stdio.h>
#include <stdlib.h>
#include <time.h>

typedef __int128 i128;
typedef unsigned __int128 u128;

typedef struct { i128 n, d; } Frac;

static const i128 MIN = (i128)1 << 127;

static u128 magnitude(i128 x) { return x < 0 ? -(u128)x : (u128)x; }

#if GCD == 0
static u128 gcd(u128 a, u128 b) {
    while (b != 0) {
        u128 rest = a % b;
        a = b;
        b = rest;
    }
    return a;
}
#else
static int trailing_zeros(u128 x) {
    uint64_t low = (uint64_t)x;
    return low != 0 ? __builtin_ctzll(low) : 64 + __builtin_ctzll((uint64_t)(x >> 64));
}

static u128 gcd(u128 a, u128 b) {
    if (a == 0) return b;
    if (b == 0) return a;
    int twos = trailing_zeros(a | b);
    a >>= trailing_zeros(a);
    b >>= trailing_zeros(b);
    while (a != b) {
        if (a > b) {
            a -= b;
            a >>= trailing_zeros(a);
        } else {
            b -= a;
            b >>= trailing_zeros(b);
        }
    }
    return a << twos;
}
#endif

static int product(i128 a, i128 b, i128 *into) { return __builtin_mul_overflow(a, b, into) || *into == MIN; }

static int sum(i128 a, i128 b, i128 *into) { return __builtin_add_overflow(a, b, into) || *into == MIN; }

__attribute__((noinline)) static int plus(const Frac *x, const Frac *y, Frac *into) {
    i128 shared = (i128)gcd((u128)x->d, (u128)y->d);
    i128 left = x->d / shared, right = y->d / shared;
    i128 first, second, n, d;
    if (product(x->n, right, &first) || product(y->n, left, &second) || sum(first, second, &n) || product(x->d, right, &d))
        return 1;
    i128 common = (i128)gcd(magnitude(n), (u128)shared);
    into->n = n / common;
    into->d = d / common;
    return 0;
}

__attribute__((noinline)) static int times(const Frac *x, const Frac *y, Frac *into) {
    i128 first = (i128)gcd(magnitude(x->n), (u128)y->d);
    i128 second = (i128)gcd(magnitude(y->n), (u128)x->d);
    return product(x->n / first, y->n / second, &into->n) || product(x->d / second, y->d / first, &into->d);
}

static i128 number(const char *text, char **rest) {
    while (*text == ' ') text++;
    int negative = *text == '-';
    if (negative) text++;
    i128 value = 0;
    for (; *text >= '0' && *text <= '9'; text++) value = value * 10 + (*text - '0');
    *rest = (char *)text;
    return negative ? -value : value;
}

static uint64_t now(void) {
    struct timespec t;
    clock_gettime(CLOCK_MONOTONIC, &t);
    return (uint64_t)t.tv_sec * 1000000000u + (uint64_t)t.tv_nsec;
}

typedef int Operation(const Frac *, const Frac *, Frac *);

static void run(const char *name, Operation *operation, const Frac *operands, size_t pairs, long rounds) {
    u128 parts = 0;
    uint64_t passed = 0;
    uint64_t start = now();
    for (long round = 0; round < rounds; round++) {
        for (size_t i = 0; i < pairs; i++) {
            Frac found;
            if (operation(&operands[2 * i], &operands[2 * i + 1], &found))
                passed++;
            else
                parts += (u128)found.n + (u128)found.d;
        }
    }
    uint64_t end = now();
    printf("%s %llu %016llx%016llx %llu\n", name, (unsigned long long)(end - start), (unsigned long long)(parts >> 64),
           (unsigned long long)parts, (unsigned long long)passed);
}

int main(int argc, char **argv) {
    static char line[1024];
    static Frac operands[2 * 65536];
    size_t pairs = 0;
    long rounds = argc > 1 ? atol(argv[1]) : 1;
    while (pairs < 65536 && fgets(line, sizeof line, stdin)) {
        char *rest = line;
        for (int k = 0; k < 2; k++) {
            operands[2 * pairs + k].n = number(rest, &rest);
            operands[2 * pairs + k].d = number(rest, &rest);
        }
        pairs++;
    }
    run("plus", plus, operands, pairs, rounds);
    run("times", times, operands, pairs, rounds);
    return 0;
}

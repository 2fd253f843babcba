// The kernels as plain loops. It prints a line for each kernel and size: the name, the words, the time of all calls in
// nanoseconds, the calls, and a sum over the answers.
#include <stddef.h>
#include <stdint.h>
#include <stdio.h>
#include <stdlib.h>
#include <time.h>

enum { NONE = -1 };

// Each kernel is called, as the others' are: no copy of it is made for one caller.
#define KERNEL __attribute__((noinline, noclone)) static

KERNEL void and_into(uint64_t *into, const uint64_t *other, size_t len) {
    for (size_t at = 0; at < len; at++) into[at] &= other[at];
}

KERNEL void or_into(uint64_t *into, const uint64_t *other, size_t len) {
    for (size_t at = 0; at < len; at++) into[at] |= other[at];
}

KERNEL uint64_t count_ones(const uint64_t *words, size_t len) {
    uint64_t total = 0;
    for (size_t at = 0; at < len; at++) total += (uint64_t)__builtin_popcountll(words[at]);
    return total;
}

KERNEL int is_subset(const uint64_t *inner, const uint64_t *outer, size_t len) {
    for (size_t at = 0; at < len; at++)
        if (inner[at] & ~outer[at]) return 0;
    return 1;
}

KERNEL ptrdiff_t first_one(const uint64_t *words, size_t len) {
    for (size_t at = 0; at < len; at++)
        if (words[at]) return (ptrdiff_t)(64 * at) + __builtin_ctzll(words[at]);
    return NONE;
}

KERNEL ptrdiff_t last_one(const uint64_t *words, size_t len) {
    for (size_t end = len; end > 0; end--)
        if (words[end - 1]) return (ptrdiff_t)(64 * (end - 1)) + 63 - __builtin_clzll(words[end - 1]);
    return NONE;
}

KERNEL void add_over(int64_t *numbers, size_t from, size_t to, int64_t amount) {
    for (size_t at = from; at < to; at++) numbers[at] += amount;
}

KERNEL int64_t max_over(const int64_t *numbers, size_t from, size_t to) {
    int64_t most = numbers[from];
    for (size_t at = from + 1; at < to; at++)
        if (numbers[at] > most) most = numbers[at];
    return most;
}

KERNEL ptrdiff_t first_above(const int64_t *numbers, size_t len, size_t from, int64_t bound) {
    for (size_t at = from; at < len; at++)
        if (numbers[at] > bound) return (ptrdiff_t)at;
    return NONE;
}

static uint64_t nanoseconds(void) {
    struct timespec now;
    clock_gettime(CLOCK_MONOTONIC, &now);
    return (uint64_t)now.tv_sec * 1000000000u + (uint64_t)now.tv_nsec;
}

static uint64_t next(uint64_t state) { return state * 6364136223846793005u + 1442695040888963407u; }

static uint64_t *sample_words(size_t len, uint64_t seed) {
    uint64_t *words = malloc(len * sizeof *words);
    for (size_t at = 0; at < len; at++) words[at] = seed = next(seed);
    return words;
}

static void fill(uint64_t *words, size_t len, uint64_t word) {
    for (size_t at = 0; at < len; at++) words[at] = word;
}

static int64_t *sample_numbers(size_t len) {
    int64_t *numbers = malloc(len * sizeof *numbers);
    uint64_t state = 3;
    for (size_t at = 0; at < len; at++) numbers[at] = (int64_t)((state = next(state)) >> 24);
    return numbers;
}

#define MEASURE(name, call)                                                                                        \
    do {                                                                                                           \
        uint64_t sum = 0, start = nanoseconds();                                                                   \
        for (size_t i = 0; i < calls; i++) { call; }                                                               \
        uint64_t time = nanoseconds() - start;                                                                     \
        printf("%s %zu %llu %zu %llu\n", name, len, (unsigned long long)time, calls, (unsigned long long)sum);     \
    } while (0)

static void measure_words(size_t len, size_t calls) {
    uint64_t *words = sample_words(len, 1), *others = sample_words(len, 2);
    MEASURE("and_into", words[0] ^= sum & 1; and_into(words, others, len); sum += words[0]);
    free(words);
    words = sample_words(len, 1);
    MEASURE("or_into", words[0] ^= sum & 1; or_into(words, others, len); sum += words[0]);
    free(words);
    words = sample_words(len, 1);
    MEASURE("count_ones", words[0] ^= sum & 1; sum += count_ones(words, len));
    fill(others, len, UINT64_MAX);
    MEASURE("is_subset", words[0] ^= sum & 1; sum += (uint64_t)is_subset(words, others, len));
    fill(words, len, 0);
    MEASURE("first_one", words[len - 1] = (sum & 2) + 2; sum += (uint64_t)first_one(words, len) + 1);
    fill(words, len, 0);
    MEASURE("last_one", words[0] = (sum & 2) + 1; sum += (uint64_t)last_one(words, len) + 1);
    free(words);
    free(others);
}

static void measure_numbers(size_t len, size_t calls) {
    int64_t *numbers = calloc(len, sizeof *numbers);
    MEASURE("add_over", add_over(numbers, 0, len, 1); sum += (uint64_t)numbers[0]);
    free(numbers);
    numbers = sample_numbers(len);
    MEASURE("max_over", numbers[0] = (int64_t)(sum & 1); sum += (uint64_t)max_over(numbers, 0, len));
    MEASURE("first_above", numbers[0] = (int64_t)(sum & 1); sum += first_above(numbers, len, 0, (int64_t)1 << 40) == NONE);
    free(numbers);
}

int main(void) {
    static const size_t lens[] = {1, 8, 65, 1024, 65536};
    for (size_t i = 0; i < sizeof lens / sizeof *lens; i++) {
        size_t calls = 4000000 / (lens[i] + 16) + 1;
        measure_words(lens[i], calls);
        measure_numbers(lens[i], calls);
    }
}

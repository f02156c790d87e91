/* How the trace checker's time grows with the trace: the best of 40 runs, in microseconds, on traces that are hard in different ways. */
#define _POSIX_C_SOURCE 199309L
#include "zab.h"

#include <stdio.h>
#include <time.h>

enum { E = 1, B = 2, V = 3, X = 4, RUNS = 40 };

static uint8_t trace[ZAB_TRACE_MOST][ZAB_TRACE_RECORD];
static int c;

static void put(uint64_t kind, uint64_t server, uint64_t epoch, uint64_t counter, uint64_t value)
{
    const uint64_t words[] = {kind, server, epoch, counter, value};
    for (size_t k = 0; k < sizeof trace[0]; k++)
        trace[c][k] = (uint8_t)(words[k / ZAB_WORD] >> 8 * (k % ZAB_WORD));
    c++;
}

static void rising(int n)
{
    while (c < n)
        put(E, 0, c + 1, 0, 0);
}

static void falling(int n)
{
    while (c < n)
        put(E, 0, n - c, 0, 0);
}

/* the longest walks in the table of epochs: the lowest 53 bits of all are the same */
static void high_bits(int n)
{
    while (c < n)
        put(E, 0, (uint64_t)(c + 1) << 53, 0, 0);
}

static void all_then_delivered(int n)
{
    put(E, 0, 1, 0, 0);
    while (c < n / 2)
        put(B, 0, 1, c, c);
    for (int i = 1; c < n && i < n / 2; i++)
        put(V, 0, 1, i, i);
}

static void epochs_then_each(int n)
{
    for (int i = 0; i < n / 2; i++)
        put(E, 0, i + 1, 0, 0);
    for (int i = 0; c < n; i++)
        put(B, 0, i + 1, 1, 5);
}

static void seven_deliver(int n)
{
    put(E, 0, 1, 0, 0);
    for (int i = 1; c + 8 <= n; i++) {
        put(B, 0, 1, i, i);
        for (int s = 0; s < 7; s++)
            put(V, s, 1, i, i);
    }
}

static void server_by_server(int n)
{
    int m = (n - 1) / 8;
    put(E, 0, 1, 0, 0);
    for (int i = 1; i <= m; i++)
        put(B, 0, 1, i, i);
    for (int s = 0; s < 7; s++)
        for (int i = 1; i <= m; i++)
            put(V, s, 1, i, i);
}

static void in_turn(int n)
{
    for (int i = 0; i < 32; i++)
        put(E, 0, i + 1, 0, 0);
    for (int i = 0; c < n; i++)
        put(B, 0, i % 32 + 1, i / 32 + 1, 5);
}

static void refusals_between(int n)
{
    put(E, 0, 1, 0, 0);
    put(B, 0, 1, 1, 1);
    while (c + 1 < n)
        put(X, 1, 1, 0, 0);
    put(B, 0, 1, 2, 2);
}

static double best(uint8_t *answer)
{
    uint8_t place[ZAB_PLACE];
    double least = 1e9;
    for (int k = 0; k < RUNS; k++) {
        struct timespec a, b;
        clock_gettime(CLOCK_MONOTONIC, &a);
        *answer = zab_check(7, trace[0], (size_t)c * sizeof trace[0], place, sizeof place);
        clock_gettime(CLOCK_MONOTONIC, &b);
        double d = (double)(b.tv_sec - a.tv_sec) * 1e6 + (double)(b.tv_nsec - a.tv_nsec) / 1e3;
        least = d < least ? d : least;
    }
    return least;
}

int main(void)
{
    static const struct {
        const char *name;
        void (*make)(int);
    } cases[] = {
        {"epochs rising", rising}, {"epochs falling", falling}, {"epochs that differ in high bits", high_bits},
        {"one epoch, all B, then all V", all_then_delivered}, {"half E, then a B of each", epochs_then_each}, {"a B, then V at seven", seven_deliver},
        {"all B, then V server by server", server_by_server}, {"32 epochs, a B of each in turn", in_turn},
        {"X between two B", refusals_between},
    };
    for (size_t t = 0; t < sizeof cases / sizeof cases[0]; t++) {
        printf("%-32s", cases[t].name);
        for (int n = 256; n <= ZAB_TRACE_MOST; n *= 2) {
            uint8_t answer;
            c = 0;
            cases[t].make(n);
            double us = best(&answer);
            printf("  %4d: %6.1f (%u)", c, us, answer);
        }
        printf("\n");
    }
    return 0;
}

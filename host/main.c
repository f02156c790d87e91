/* Three cabinets in one process. Their messages go through plain arrays, first in, first out. */
#include "zab.h"

#include <stdio.h>
#include <stdlib.h>
#include <string.h>

enum { N = 3, ROOM = 8, DEPTH = 4 };

static uint8_t record[N][ZAB_RECORD];
static uint8_t hist[N][ZAB_HISTORY_BYTES(ROOM)];
static uint8_t cand[N][ZAB_HISTORY_BYTES(ROOM)];
static uint8_t out[ZAB_OUTBOX_BYTES(ROOM)];
static uint8_t told[ZAB_TOLD];
static const uint8_t none[1];

static uint8_t channel[N][N][DEPTH][ZAB_MESSAGE_BYTES(ROOM)];
static int waiting[N][N];

static uint64_t word(const uint8_t *b, size_t at)
{
    uint64_t x = 0;
    for (size_t i = ZAB_WORD; i > 0; i--)
        x = x << 8 | b[ZAB_WORD * at + i - 1];
    return x;
}

static void post(int from, const uint8_t *slot)
{
    int to = (int)word(slot, 0);
    if (waiting[from][to] == DEPTH) {
        fprintf(stderr, "the channel %d to %d is full\n", from, to);
        exit(1);
    }
    memcpy(channel[from][to][waiting[from][to]++], slot + ZAB_WORD, ZAB_MESSAGE_BYTES(ROOM));
}

static void drop(int i)
{
    for (int j = 0; j < N; j++)
        waiting[i][j] = waiting[j][i] = 0;
}

/* What happens, for the checker: who enters L4, what is submitted, what is delivered. */
static uint8_t trace[64][ZAB_TRACE_RECORD];
static size_t records;

static void note(uint8_t kind, int i, uint64_t epoch, uint64_t counter, uint64_t value)
{
    const uint64_t words[] = {kind, (uint64_t)i, epoch, counter, value};
    for (size_t k = 0; k < sizeof trace[0]; k++)
        trace[records][k] = (uint8_t)(words[k / ZAB_WORD] >> 8 * (k % ZAB_WORD));
    records++;
}

static void note_entry(uint8_t kind, int i, size_t place)
{
    uint64_t id = word(hist[i], 2 * place);
    note(kind, i, id >> 32, id & 0xffffffff, word(hist[i], 2 * place + 1));
}

/* A step of cabinet i, and what it sends put into the channels. */
static uint8_t step(int i, uint8_t event, int who, uint64_t value, const uint8_t *msg)
{
    size_t msg_len = event == ZAB_ON_DELIVERY ? ZAB_MESSAGE_BYTES(ROOM) : 0;
    uint64_t stage = word(record[i], ZAB_STAGE), d = word(record[i], ZAB_D);
    uint8_t code = zab_step(N, ROOM, record[i], sizeof record[i], hist[i], sizeof hist[i],
                            cand[i], sizeof cand[i], event, (uint8_t)who, value, msg, msg_len,
                            out, sizeof out, told, sizeof told);
    if (code != 0)
        return code;
    if (stage != 8 && word(record[i], ZAB_STAGE) == 8)
        note(1, i, word(record[i], ZAB_P), 0, 0);
    if (event == ZAB_ON_SUBMISSION)
        note_entry(2, i, word(record[i], ZAB_LEN) - 1);
    for (; d < word(record[i], ZAB_D); d++)
        note_entry(3, i, d);
    if (told[1])
        drop(i);
    for (size_t k = 0; k < told[0]; k++)
        post(i, out + k * ZAB_SLOT_BYTES(ROOM));
    return 0;
}

/* The first message that waits from one cabinet to another, handed over. */
static void deliver(int from, int to)
{
    uint8_t msg[ZAB_MESSAGE_BYTES(ROOM)];
    memcpy(msg, channel[from][to][0], sizeof msg);
    waiting[from][to]--;
    memmove(channel[from][to][0], channel[from][to][1], (DEPTH - 1) * sizeof msg);
    uint8_t code = step(to, ZAB_ON_DELIVERY, from, 0, msg);
    if (code != 0)
        printf("cabinet %d refused a message of %d: %u\n", to, from, code);
}

static void settle(void)
{
    for (int moved = 1; moved;) {
        moved = 0;
        for (int f = 0; f < N; f++)
            for (int t = 0; t < N; t++)
                if (waiting[f][t]) {
                    deliver(f, t);
                    moved = 1;
                }
    }
}

static void name(int i, int leader)
{
    printf("cabinet %d is told that %d leads: %u\n", i, leader, step(i, ZAB_ON_ORACLE, leader, 0, none));
}

static void submit(int i, uint64_t limit)
{
    printf("limit %llu at cabinet %d: %u\n", (unsigned long long)limit, i, step(i, ZAB_ON_SUBMISSION, 0, limit, none));
}

static void show(void)
{
    for (int i = 0; i < N; i++) {
        printf("cabinet %d, stage %llu, epoch %llu, limits:", i, (unsigned long long)word(record[i], ZAB_STAGE),
               (unsigned long long)word(record[i], ZAB_P));
        for (size_t k = 0; k < word(record[i], ZAB_D); k++)
            printf(" %llu", (unsigned long long)word(hist[i], 2 * k + 1));
        printf("\n");
    }
}

int main(void)
{
    for (int i = 0; i < N; i++)
        record[i][ZAB_WORD * ZAB_ME] = (uint8_t)i;

    name(0, 0);
    name(1, 0);
    name(2, 0);
    settle();
    submit(0, 50);
    submit(0, 80);
    settle();
    show();

    printf("cabinet 2 restarts: %u\n", step(2, ZAB_ON_RESTART, 0, 0, none));
    submit(0, 30);
    settle();
    show();

    name(2, 0);
    settle();
    submit(0, 60);
    submit(1, 90);
    settle();
    show();

    uint8_t place[ZAB_PLACE] = {0};
    printf("a trace of %zu records: %u\n", records, zab_check(N, trace[0], records * sizeof trace[0], place, sizeof place));
    records--;
    note(3, 2, 1, 3, 31);
    uint8_t rule = zab_check(N, trace[0], records * sizeof trace[0], place, sizeof place);
    printf("with another last limit: rule %u at record %llu\n", rule, (unsigned long long)word(place, 0));

    printf("an unknown event: %u\n", step(0, 9, 0, 0, none));
    printf("a short record: %u\n", zab_step(N, ROOM, record[0], ZAB_RECORD - 1, hist[0], sizeof hist[0],
                                            cand[0], sizeof cand[0], ZAB_ON_RESTART, 0, 0, none, 0,
                                            out, sizeof out, told, sizeof told));
    return 0;
}

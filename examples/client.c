/* A marking client: starts a trail on table M, marks T4's events, puts the trail down half way and takes it up again,
 * closes it and prints the sheet. The output is examples/T4/sheet.
 *
 *     tools/build
 *     gcc -std=c11 -O2 -Iinclude examples/client.c -Ltarget/staticlib -lclient -o client && ./client
 */
#include "conform.h"
#include <stdio.h>
#include <stdlib.h>

/* The answer's second number; a refusal ends the program. */
static uint32_t taken(const char *call, uint64_t answer)
{
    if (CONFORM_NUMBER(answer) != 0) {
        fprintf(stderr, "%s: refused %u (%u)\n", call, (unsigned)CONFORM_NUMBER(answer), (unsigned)CONFORM_SECOND(answer));
        exit(1);
    }
    return CONFORM_SECOND(answer);
}

/* n numbers, four bytes each, least significant first; how many bytes that are. */
static size_t put(uint8_t *out, const uint32_t *numbers, size_t n)
{
    for (size_t i = 0; i < n; i++) {
        for (size_t k = 0; k < 4; k++) {
            out[4 * i + k] = (uint8_t)(numbers[i] >> (8 * k));
        }
    }
    return 4 * n;
}

/* Table M: the contents (start and length of each body), then the bodies. */
static const uint32_t table_m[] = {
    32, 16, 48, 24, 72, 16, 88, 40,
    0, 2, 3, 5,                         /* kinds: source, sink */
    0, 0, 0, 1, 1, 1,                   /* places: kind */
    1, 1, 2, 1,                         /* activities: number of arcs */
    0, 1, 3, 4, 1, 1, 4, 5, 1, 2,       /* arcs: input place, output place */
};

enum { SCRIPT, SHEET };
enum { OPEN, LOAD_MAXIMUM, AWARD, SEAL };

struct event {
    uint32_t activity;
    size_t n;
    uint32_t objects[2];
};

static const struct event marked[] = {
    {OPEN, 1, {0}}, {LOAD_MAXIMUM, 1, {1}}, {AWARD, 2, {0, 1}}, {AWARD, 2, {0, 2}}, {SEAL, 1, {0}},
};

static uint8_t trail[CONFORM_MAX_RECORD];
static size_t trail_len;

static void mark(const struct event *e)
{
    uint8_t objects[8];
    size_t n = put(objects, e->objects, e->n);
    taken("event", conform_event(trail, trail_len, e->activity, objects, n));
}

/* Places and activities are asked for until there are no more; the table's contents have their numbers too (conform.h). */
static void print_sheet(void)
{
    uint8_t line[CONFORM_MAX_LINE];
    uint64_t answer;
    uint32_t places = 0;

    fwrite(line, 1, taken("trail line", conform_trail_line(trail, trail_len, line, sizeof line)), stdout);
    while (CONFORM_NUMBER(answer = conform_place_line(trail, trail_len, places, line, sizeof line)) != 51) {
        fwrite(line, 1, taken("place line", answer), stdout);
        places++;
    }
    for (uint32_t a = 0; CONFORM_NUMBER(answer = conform_act_line(trail, trail_len, a, line, sizeof line)) != 52; a++) {
        fwrite(line, 1, taken("act line", answer), stdout);
    }
    for (uint32_t from = 0; from < places; from++) {
        for (uint32_t to = 0; to < places; to++) {
            answer = conform_jump_line(trail, trail_len, from, to, line, sizeof line);
            fwrite(line, 1, taken("jump line", answer), stdout);
        }
    }
}

int main(void)
{
    static uint8_t kept[CONFORM_MAX_RECORD];
    const uint32_t register_of_three[] = {SCRIPT, SHEET, SHEET};
    uint8_t table[sizeof table_m], objects[12];
    size_t table_len = put(table, table_m, sizeof table_m / sizeof *table_m);
    size_t objects_len = put(objects, register_of_three, 3);

    trail_len = taken("start", conform_start(table, table_len, objects, objects_len, trail, sizeof trail));
    for (size_t i = 0; i < 3; i++) {
        mark(&marked[i]);
    }

    /* the desk is left, and the trail taken up from what was kept */
    size_t kept_len = taken("save", conform_save(trail, trail_len, kept, sizeof kept));
    for (size_t i = 0; i < sizeof trail; i++) {
        trail[i] = 0;
    }
    trail_len = taken("restore", conform_restore(kept, kept_len, trail, sizeof trail));

    for (size_t i = 3; i < sizeof marked / sizeof *marked; i++) {
        mark(&marked[i]);
    }
    taken("close", conform_close(trail, trail_len));
    print_sheet();
    return 0;
}

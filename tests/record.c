/* record TABLE TRAIL EVENTS: replays the first EVENTS events of a trail file with the C functions and writes the desk record
 * that conform_save gives to standard output. On the way it counts places, activities and objects as include/conform.h says,
 * in every way that is named there. The files are those of examples/: nothing in them is checked here.
 */
#include "conform.h"
#include <stdio.h>
#include <stdlib.h>

static void fail(const char *what)
{
    fprintf(stderr, "record: %s\n", what);
    exit(1);
}

/* The file's bytes, as many as fit; how many they are. */
static size_t read_file(const char *path, uint8_t *out, size_t size)
{
    FILE *file = fopen(path, "rb");
    if (file == NULL) {
        fail(path);
    }
    size_t n = fread(out, 1, size, file);
    fclose(file);
    return n;
}

/* The number at a byte, four bytes, least significant first. */
static uint32_t number(const uint8_t *at)
{
    return at[0] | (uint32_t)at[1] << 8 | (uint32_t)at[2] << 16 | (uint32_t)at[3] << 24;
}

static uint32_t taken(const char *call, uint64_t answer)
{
    if (CONFORM_NUMBER(answer) != 0) {
        fail(call);
    }
    return CONFORM_SECOND(answer);
}

int main(int argc, char **argv)
{
    static uint8_t table[CONFORM_MAX_TABLE], file[65536], trail[CONFORM_MAX_RECORD], record[CONFORM_MAX_RECORD];
    uint8_t line[CONFORM_MAX_LINE];
    if (argc != 4) {
        fail("TABLE TRAIL EVENTS");
    }
    size_t table_len = read_file(argv[1], table, sizeof table);
    read_file(argv[2], file, sizeof file);
    uint32_t objects_len = number(file + 4);
    size_t trail_len = taken("start", conform_start(table, table_len, file + 16, objects_len, trail, sizeof trail));
    size_t at = 16 + objects_len;
    for (int i = 0; i < atoi(argv[3]); i++) {
        uint32_t n = number(file + at + 4);
        taken("event", conform_event(trail, trail_len, number(file + at), file + at + 8, 4 * n));
        at += 8 + 4 * n;
    }

    uint32_t places = number(table + 12) / 4, activities = number(table + 20) / 4;
    if (number(trail + 52) / 4 != places || number(trail + 60) / 4 != activities) {
        fail("the trail's own table has other numbers");
    }
    taken("the last place", conform_place_line(trail, trail_len, places - 1, line, sizeof line));
    taken("the last activity", conform_act_line(trail, trail_len, activities - 1, line, sizeof line));
    if (CONFORM_NUMBER(conform_place_line(trail, trail_len, places, line, sizeof line)) != 51) {
        fail("places: not as many as the table's contents say");
    }
    if (CONFORM_NUMBER(conform_act_line(trail, trail_len, activities, line, sizeof line)) != 52) {
        fail("activities: not as many as the table's contents say");
    }
    taken("counts", conform_trail_counts(trail, trail_len, line, sizeof line));
    if (number(line) != objects_len / 4) {
        fail("objects: not as many as the register has");
    }
    fwrite(record, 1, taken("save", conform_save(trail, trail_len, record, sizeof record)), stdout);
    return 0;
}

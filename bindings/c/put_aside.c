/* Document 01's Reach put aside after every fourth plan line and gone on with, and prints as the program `answer` does. */
#include "capeshard.h"

#include <inttypes.h>
#include <stdio.h>
#include <string.h>

enum { ROWS = 24, STORED = 384, LINES = 4, SPENT = 19 };

static const char *const SHEET = "guide=1\nnodes=10\ntable=0\nvar=1\ncopy=1,2\ndrop=1\ntable=0\ncopy=0,2\ndrop=0\npair=join\ndrop=2\nfix=1\n";
static const char *const BOOK = "guide=1\ntables=1\ncols=0,1\nrows=2\nrow=1,2\nrow=2,3\n";

static uint32_t query[CAPESHARD_QUERY_ROOM];
static uint32_t database[CAPESHARD_DATABASE_ROOM];
static uint32_t store[CAPESHARD_COLUMNS * STORED];
static uint32_t workspace[CAPESHARD_WORKSPACE(10, 1, ROWS)];
static uint32_t answer[CAPESHARD_COLUMNS * ROWS];
static uint32_t told[CAPESHARD_RUN_ROOM];
static uint32_t pause[CAPESHARD_PAUSE_ROOM];

#define LENGTH(slice) (sizeof(slice) / sizeof((slice)[0]))

typedef uint64_t part(const uint32_t *, size_t, const uint32_t *, size_t, const uint32_t *, size_t, size_t, size_t, uint32_t, uint32_t *, size_t,
                      uint32_t *, size_t, uint32_t *, size_t, uint32_t *, size_t);

/* The first lines of a run, or the next ones: the workspace and the pause between two calls are what the first one left. */
static uint64_t made(part *call)
{
    return call(query, LENGTH(query), database, LENGTH(database), store, LENGTH(store), CAPESHARD_NODES, ROWS, LINES, workspace, LENGTH(workspace), answer,
                LENGTH(answer), told, LENGTH(told), pause, LENGTH(pause));
}

static int refused(uint64_t status)
{
    if (status == 0)
        return 0;
    printf("refused=%" PRIu32 ",%" PRIu32 "\n", CAPESHARD_NUMBER(status), CAPESHARD_PLACE(status));
    return 1;
}

/* A line of the numbers at the answer's columns: the columns themselves, or a row's values. */
static void print_line(const char *key, const uint32_t *row)
{
    const char *comma = "";
    printf("%s=", key);
    for (uint32_t c = 0; c < CAPESHARD_COLUMNS; c++) {
        if (told[0] >> c & 1) {
            printf("%s%" PRIu32, comma, row ? row[c] : c);
            comma = ",";
        }
    }
    printf("\n");
}

int main(void)
{
    uint64_t status;
    if (refused(capeshard_read_database((const uint8_t *)BOOK, strlen(BOOK), database, LENGTH(database), store, LENGTH(store))))
        return 1;
    if (refused(capeshard_read_query((const uint8_t *)SHEET, strlen(SHEET), CAPESHARD_NODES, query, LENGTH(query))))
        return 1;
    status = made(capeshard_begin);
    while (CAPESHARD_NUMBER(status) == SPENT) {
        fprintf(stderr, "put aside after %" PRIu32 " lines, the next is %" PRIu32 "\n", pause[1], pause[0]);
        status = made(capeshard_resume);
    }
    if (refused(status))
        return 1;
    printf("guide=1\n");
    print_line("cols", NULL);
    printf("rows=%" PRIu32 "\n", told[1]);
    for (uint32_t i = 0; i < told[1]; i++)
        print_line("row", answer + CAPESHARD_COLUMNS * i);
    printf("ran=%" PRIu32 "\n", told[2]);
    return 0;
}

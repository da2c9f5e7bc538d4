/* Document 01's Reach through the C calls: reads the sheet and the book, runs, and prints as the program `answer` does. */
#include "capeshard.h"

#include <inttypes.h>
#include <stdio.h>
#include <string.h>

enum { ROWS = 24, STORED = 384 };

static const char *const SHEET = "guide=1\nnodes=10\ntable=0\nvar=1\ncopy=1,2\ndrop=1\ntable=0\ncopy=0,2\ndrop=0\npair=join\ndrop=2\nfix=1\n";
static const char *const BOOK = "guide=1\ntables=1\ncols=0,1\nrows=2\nrow=1,2\nrow=2,3\n";

static uint32_t query[CAPESHARD_QUERY_ROOM];
static uint32_t database[CAPESHARD_DATABASE_ROOM];
static uint32_t store[CAPESHARD_COLUMNS * STORED];
static uint32_t workspace[CAPESHARD_WORKSPACE(CAPESHARD_NODES, CAPESHARD_NODES, ROWS)];
static uint32_t answer[CAPESHARD_COLUMNS * ROWS];
static uint32_t told[CAPESHARD_RUN_ROOM];

#define LENGTH(slice) (sizeof(slice) / sizeof((slice)[0]))

static int refused(uint64_t status)
{
    if (status == 0)
        return 0;
    printf("refused=%" PRIu32 ",%" PRIu32 "\n", CAPESHARD_NUMBER(status), CAPESHARD_PLACE(status));
    return 1;
}

/* A line of the numbers at the answer's columns: the columns themselves, or a row's values. */
static void print_line(const char *key, const uint32_t *row)
{
    const char *comma = "";
    printf("%s=", key);
    for (uint32_t c = 0; c < CAPESHARD_COLUMNS; c++) {
        if (told[0] >> c & 1) {
            printf("%s%" PRIu32, comma, row ? row[c] : c);
            comma = ",";
        }
    }
    printf("\n");
}

int main(void)
{
    if (refused(capeshard_read_database((const uint8_t *)BOOK, strlen(BOOK), database, LENGTH(database), store, LENGTH(store))))
        return 1;
    if (refused(capeshard_read_query((const uint8_t *)SHEET, strlen(SHEET), CAPESHARD_NODES, query, LENGTH(query))))
        return 1;
    if (refused(capeshard_run(query, LENGTH(query), database, LENGTH(database), store, LENGTH(store), CAPESHARD_NODES, ROWS, 1000000, workspace,
                              LENGTH(workspace), answer, LENGTH(answer), told, LENGTH(told))))
        return 1;
    printf("guide=1\n");
    print_line("cols", NULL);
    printf("rows=%" PRIu32 "\n", told[1]);
    for (uint32_t i = 0; i < told[1]; i++)
        print_line("row", answer + CAPESHARD_COLUMNS * i);
    printf("ran=%" PRIu32 "\n", told[2]);
    return 0;
}

/* Capeshard for C: reading, checking, rewriting, compiling and running queries over flat slices.
 *
 * Link with crates/capi/out/libcapi.a, which `rt lib` writes in crates/capi. A slice is a pointer and a count of entries, also where it is empty
 * (the pointer is never null). What a call may write must be lent to nobody else while it runs. Nothing else is asked: whatever stands in the
 * slices, each call returns what the definitions of crates/capi/specs say.
 *
 * A query takes CAPESHARD_QUERY_ROOM entries: its node count, then CAPESHARD_LINE_ENTRIES entries a line, a code and two numbers, 0 where the line
 * has none. A line with another code is off the form (1 with its node). Lines past the count mean nothing.
 *
 * A database takes CAPESHARD_DATABASE_ROOM entries: its table count, then CAPESHARD_TABLE_ENTRIES entries a table, its columns, column c being worth
 * 1 << c, and its row count. A higher bit makes the table off the form (11 with its number). Its rows stand in a store, table after table,
 * CAPESHARD_COLUMNS entries a row, 0 where the table lacks the column.
 *
 * A call returns 0 if it accepts, else a refusal's number and place (below). A flat slice below its room gives 17 before any other test. A refusal
 * changes no slice but the workspace of a run that began, which is all zeros after it; where capeshard_begin or capeshard_resume gives 19, the workspace
 * and pause hold what the run is gone on with.
 */
#ifndef CAPESHARD_H
#define CAPESHARD_H

#include <stddef.h>
#include <stdint.h>

#ifdef __cplusplus
extern "C" {
#endif

enum {
    CAPESHARD_COLUMNS = 8,
    CAPESHARD_NODES = 128,
    CAPESHARD_TABLES = 16,
    CAPESHARD_PATH_BYTES = 128,
    CAPESHARD_LINE_ENTRIES = 3,
    CAPESHARD_QUERY_ROOM = 1 + CAPESHARD_LINE_ENTRIES * CAPESHARD_NODES,
    CAPESHARD_TABLE_ENTRIES = 2,
    CAPESHARD_DATABASE_ROOM = 1 + CAPESHARD_TABLE_ENTRIES * CAPESHARD_TABLES,
    CAPESHARD_RUN_ROOM = 3,
    CAPESHARD_SLOT_ENTRIES = 7,
    CAPESHARD_PLAN_ROOM = 1 + CAPESHARD_SLOT_ENTRIES * CAPESHARD_NODES,
    CAPESHARD_ALLOWANCE_ROOM = 1,
    CAPESHARD_PAUSE_ROOM = 2
};

/* The codes of lines, in the order of document 01's table, and of document 02's mu and last. */
enum {
    CAPESHARD_TABLE = 1, /* table=a */
    CAPESHARD_VAR = 2, /* var=a */
    CAPESHARD_FACT = 3, /* fact=a,b */
    CAPESHARD_UNION = 4, /* pair=union */
    CAPESHARD_JOIN = 5, /* pair=join */
    CAPESHARD_EXCEPT = 6, /* pair=except */
    CAPESHARD_EQ = 7, /* eq=a,b */
    CAPESHARD_NE = 8, /* ne=a,b */
    CAPESHARD_MAX = 9, /* max=a,b; a column that holds 0 passes no max */
    CAPESHARD_SAME = 10, /* same=a,b */
    CAPESHARD_COPY = 11, /* copy=a,b */
    CAPESHARD_DROP = 12, /* drop=a */
    CAPESHARD_FIX = 13, /* fix=a */
    CAPESHARD_MU = 15, /* mu=a; 14 is a plan's code */
    CAPESHARD_LAST = 16 /* last=a */
};

/* A mu takes one operand, its body. Before 4 is tested each mu is split into a fix with one node fewer, whose seed are the closed branches of the body
 * and whose step the open ones (20 if either is missing). The places of 4 to 10, the nodes of rewrites, plans and registers count in the split query;
 * limit, and the places of 1, 3 and 20, in the query as given. */

/* A last keeps a row exactly if no other row agrees with it in every other column and holds more in column a. Adding rows can remove its results, so an
 * open operand gets 5 with the node of the last. No kind of rewrite moves it (12). */

/* The number of a refusal (0 of an accepted call) and its place, a line, a node, a table or a path's byte; a place over 4,294,967,295 is given as that. */
#define CAPESHARD_NUMBER(status) ((uint32_t)((status) >> 32))
#define CAPESHARD_PLACE(status) ((uint32_t)((status) & UINT32_C(4294967295)))

/* Entries of workspace that a run of so many nodes and fixes with a row limit needs. A mu is one node and no fix as given, and a fix with one node fewer
 * once it is split: the entries are the same. */
#define CAPESHARD_WORKSPACE(nodes, fixes, rows) (((size_t)(nodes) + (size_t)(fixes)) * (1 + (size_t)CAPESHARD_COLUMNS * (size_t)(rows)))

/* The wall panel: its most nodes, its row limit, and entries of workspace that are enough for each of its queries. A fix has its own line and its
 * var's, and one line is neither: of n nodes at most (n - 1) / 2 are fixes. */
enum {
    CAPESHARD_PANEL_NODES = 32,
    CAPESHARD_PANEL_ROWS = 64,
    CAPESHARD_PANEL_WORKSPACE =
        (CAPESHARD_PANEL_NODES + (CAPESHARD_PANEL_NODES - 1) / 2) * (1 + CAPESHARD_COLUMNS * CAPESHARD_PANEL_ROWS)
};

/* Reads a sheet's text (1, 2, 17). limit: the highest node count taken, at most CAPESHARD_NODES. */
uint64_t capeshard_read_query(const uint8_t *text, size_t text_len, size_t limit, uint32_t *query, size_t query_len);

/* Reads a SPARQL 1.1 property path over a database into a query: |, /, prefix ^, postfix +, parentheses, table numbers 0 to 15 as names, no blanks, 1 to
 * CAPESHARD_PATH_BYTES bytes. The query means the pairs that the path links, from column 0 to column 1. 21, its place the byte, counted from 1, at which the
 * text so far begins no path, the one past the most bytes, or the one past the end; then 11; then by the first such name 10 (no such table) or 9 (columns
 * other than 0 and 1), place 0; then 2, place 0, over limit nodes. limit: as for a sheet. A query that is accepted passes the check over that database. */
uint64_t capeshard_read_path(const uint8_t *path, size_t path_len, const uint32_t *database, size_t database_len, const uint32_t *store,
                             size_t store_len, size_t limit, uint32_t *query, size_t query_len);

/* Reads a book's text (11, 17); its rows go into the store from its start on. A text of 0 bytes is a book without tables. */
uint64_t capeshard_read_database(const uint8_t *text, size_t text_len, uint32_t *database, size_t database_len, uint32_t *store, size_t store_len);

/* Checks a query over a database (11, then 2, 1, 3, 20, 4 to 10). */
uint64_t capeshard_check(const uint32_t *query, size_t query_len, const uint32_t *database, size_t database_len, const uint32_t *store,
                         size_t store_len, size_t limit);

/* Rewrites a query by a kind, 1 to 11, at a node: as the check, then 12 to 15; of kinds 7 to 11 instead 12, then 22, or 2 with place 0 if the query, each mu
 * split, has as many nodes as it may have and kind 7 would add one. Accepted, the query is the rule's, with each mu split; refused, it is unchanged. A column
 * that must be stable (13) is one that the step's result has with itself as origin: a copy passes the origin on, a drop removes it. */
uint64_t capeshard_rewrite(uint32_t *query, size_t query_len, const uint32_t *database, size_t database_len, const uint32_t *store, size_t store_len,
                           size_t limit, uint32_t kind, uint32_t node);

/* Compiles a query (as the check). Accepted, plan holds the line count, then CAPESHARD_SLOT_ENTRIES entries a line: a code, the register that the
 * line writes, three numbers in the order of the fields of plan::Op, and the columns of a pair's operands as bits. The codes are those of the node
 * lines; 13 is a fix's own line (again), 14 its start. */
uint64_t capeshard_compile(const uint32_t *query, size_t query_len, const uint32_t *database, size_t database_len, const uint32_t *store,
                           size_t store_len, size_t limit, uint32_t *plan, size_t plan_len);

/* How large an allowance is enough: compiles a query (as the check, then 16) and tells beside the plan, in allowance, the plan's number of lines times
 * rows, the row limit. However a run with that row limit ends, it runs no more lines, so a budget of that many or more never gives 19. limit: as for a
 * sheet. Nothing is run, and no workspace is asked for. */
uint64_t capeshard_allowance(const uint32_t *query, size_t query_len, const uint32_t *database, size_t database_len, const uint32_t *store,
                             size_t store_len, size_t limit, size_t rows, uint32_t *plan, size_t plan_len, uint32_t *allowance,
                             size_t allowance_len);

/* Runs a query (as the check, then 16 to 19). rows: the row limit; budget: the most plan lines that are run. Accepted, the answer's rows ascend
 * from the start of answer, CAPESHARD_COLUMNS entries a row, and told holds the answer's columns as bits, its row count, and the lines run. */
uint64_t capeshard_run(const uint32_t *query, size_t query_len, const uint32_t *database, size_t database_len, const uint32_t *store, size_t store_len,
                       size_t limit, size_t rows, uint32_t budget, uint32_t *workspace, size_t workspace_len, uint32_t *answer, size_t answer_len,
                       uint32_t *told, size_t told_len);

/* Begins a run that can be put aside: as capeshard_run, but where the budget is spent (19) it is paused. Then pause holds the next plan line, counted from 1,
 * and the lines run, and the workspace the registers, one a node of the split query and then one more a fix, each a count and rows rows of CAPESHARD_COLUMNS
 * entries, with zeros elsewhere. Neither answer nor told is written. On every other outcome pause is unchanged. */
uint64_t capeshard_begin(const uint32_t *query, size_t query_len, const uint32_t *database, size_t database_len, const uint32_t *store,
                         size_t store_len, size_t limit, size_t rows, uint32_t budget, uint32_t *workspace, size_t workspace_len, uint32_t *answer,
                         size_t answer_len, uint32_t *told, size_t told_len, uint32_t *pause, size_t pause_len);

/* Goes on with a run that was put aside. budget: the most plan lines that are run besides those of the pause. As the check, then 16, 17 for the workspace, and
 * 23, place 0: the next line isn't in the plan; a register has more than rows rows, rows that don't ascend or a slot filled outside its line's columns, or is a
 * var's and not zero; another entry of the workspace, up to its end, is filled; or the lines run and budget come to more than 4,294,967,295. Up to here a
 * refusal changes no slice. Then as capeshard_begin, told and pause giving the lines run in all: with the query, database and rows of the run, and the workspace and
 * pause as it left them, it ends as one run with both budgets does. Budget 0 gives the same pause again. A pause that came from elsewhere and is not
 * refused goes on as the plan does from there. */
uint64_t capeshard_resume(const uint32_t *query, size_t query_len, const uint32_t *database, size_t database_len, const uint32_t *store,
                          size_t store_len, size_t limit, size_t rows, uint32_t budget, uint32_t *workspace, size_t workspace_len, uint32_t *answer,
                          size_t answer_len, uint32_t *told, size_t told_len, uint32_t *pause, size_t pause_len);

/* The calls of the panel: those above with the limit CAPESHARD_PANEL_NODES and CAPESHARD_PANEL_ROWS rows, over the same slices with the same room. A
 * query of at most CAPESHARD_PANEL_NODES nodes serves both, whichever rewrote it; where both finish a run, the answer's rows and told are the same. */

/* Reads a sheet's text for the panel (1, 2, 17). */
uint64_t capeshard_panel_read_query(const uint8_t *text, size_t text_len, uint32_t *query, size_t query_len);

/* Reads a property path over a database for the panel (21, 11, 10 or 9, 2). */
uint64_t capeshard_panel_read_path(const uint8_t *path, size_t path_len, const uint32_t *database, size_t database_len, const uint32_t *store,
                                   size_t store_len, uint32_t *query, size_t query_len);

/* Checks a query over a database for the panel (11, then 2, 1, 3, 20, 4 to 10). */
uint64_t capeshard_panel_check(const uint32_t *query, size_t query_len, const uint32_t *database, size_t database_len, const uint32_t *store,
                               size_t store_len);

/* Rewrites a query by a kind at a node (as the panel's check, then as capeshard_rewrite). */
uint64_t capeshard_panel_rewrite(uint32_t *query, size_t query_len, const uint32_t *database, size_t database_len, const uint32_t *store,
                                 size_t store_len, uint32_t kind, uint32_t node);

/* Compiles a query (as the panel's check); plan takes CAPESHARD_PLAN_ROOM entries here too. */
uint64_t capeshard_panel_compile(const uint32_t *query, size_t query_len, const uint32_t *database, size_t database_len, const uint32_t *store,
                                 size_t store_len, uint32_t *plan, size_t plan_len);

/* How large an allowance is enough on the panel (as the panel's check): the plan's number of lines times CAPESHARD_PANEL_ROWS. */
uint64_t capeshard_panel_allowance(const uint32_t *query, size_t query_len, const uint32_t *database, size_t database_len, const uint32_t *store,
                                   size_t store_len, uint32_t *plan, size_t plan_len, uint32_t *allowance, size_t allowance_len);

/* Runs a query (as the panel's check, then 17 to 19; never 16, as no row limit is handed in). It needs CAPESHARD_WORKSPACE(nodes, fixes,
 * CAPESHARD_PANEL_ROWS) entries of workspace: CAPESHARD_PANEL_WORKSPACE are always enough. An answer has at most CAPESHARD_PANEL_ROWS rows. */
uint64_t capeshard_panel_run(const uint32_t *query, size_t query_len, const uint32_t *database, size_t database_len, const uint32_t *store,
                             size_t store_len, uint32_t budget, uint32_t *workspace, size_t workspace_len, uint32_t *answer, size_t answer_len,
                             uint32_t *told, size_t told_len);

/* Begins a run on the panel that can be put aside (as capeshard_panel_run). Its pause is one of the desk with CAPESHARD_PANEL_ROWS rows, and such a one of the
 * desk is the panel's if the query is: either goes on with it. */
uint64_t capeshard_panel_begin(const uint32_t *query, size_t query_len, const uint32_t *database, size_t database_len, const uint32_t *store,
                               size_t store_len, uint32_t budget, uint32_t *workspace, size_t workspace_len, uint32_t *answer, size_t answer_len,
                               uint32_t *told, size_t told_len, uint32_t *pause, size_t pause_len);

/* Goes on with a run on the panel (as the panel's check, then 17 for the workspace, 23, and as capeshard_panel_begin). */
uint64_t capeshard_panel_resume(const uint32_t *query, size_t query_len, const uint32_t *database, size_t database_len, const uint32_t *store,
                                size_t store_len, uint32_t budget, uint32_t *workspace, size_t workspace_len, uint32_t *answer, size_t answer_len,
                                uint32_t *told, size_t told_len, uint32_t *pause, size_t pause_len);

#ifdef __cplusplus
}
#endif

#endif

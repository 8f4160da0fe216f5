/* host TABLE LOG: a host of the keeper. It makes the requests of a log, runs the callbacks that the keeper asks for and feeds their results.
 * The callbacks are pretended: they switch nothing, and return what the log has as their results. After record 5 the battery is changed. */
#include "keeper.h"
#include <stdio.h>
#include <stdlib.h>
#include <string.h>

static const char *const REQUEST[] = {"unknown", "enable", "disable", "get", "get and wake", "put", "put and idle", "idle", "suspend",
                                      "wake", "set active", "set suspended", "ignore children", "result"};
static const char *const CALLBACK[] = {"", "suspend", "resume", "idle"};
static const char *const STATUS[] = {"suspended", "resuming", "active", "suspending"};
static uint8_t state[KEEPER_STATE_BYTES], flash[KEEPER_STATE_BYTES], table[KEEPER_TABLE_MOST + 1];

static void fail(const char *what) {
    fprintf(stderr, "host: %s\n", what);
    exit(1);
}
/* What a call answered, if it was not refused. */
static int checked(const char *what, int32_t answer) {
    if (answer >= 0) return (int)answer;
    fprintf(stderr, "host: %s: refused %d\n", what, (int)-answer);
    exit(1);
}
/* A value or a code, of 16 bits. */
static int number(const uint8_t *at) { return at[0] + 256 * at[1] - (at[1] < 128 ? 0 : 65536); }
/* The next record of the log; 0 at its end. */
static int next_record(FILE *log, uint8_t *record) {
    size_t got = fread(record, 1, KEEPER_RECORD_BYTES, log);
    if (ferror(log) || (got != 0 && got != KEEPER_RECORD_BYTES)) fail("the log cannot be read, or ends within a record");
    return got != 0;
}
static int run_callback(FILE *log, unsigned kind, unsigned part) {
    uint8_t result[KEEPER_RECORD_BYTES];
    if (!next_record(log, result) || result[0] != KEEPER_KIND_RESULT || result[1] != part) fail("the log has no result for a callback");
    printf("    %s part %u: %d\n", CALLBACK[kind], part, number(result + 2));
    return number(result + 2);
}
static void show_parts(void) {
    for (unsigned part = 0; part < table[5]; part++) {
        int status = checked("status", keeper_ask(state, sizeof state, KEEPER_ASK_STATUS, part, 0));
        int uses = checked("use count", keeper_ask(state, sizeof state, KEEPER_ASK_USE_COUNT, part, 0));
        printf("        part %u is %s, use count %d\n", part, STATUS[status], uses);
    }
}
static void change_battery(void) {
    memcpy(flash, state, sizeof state);
    memset(state, 0, sizeof state);
    printf("    battery out: keeper_ask returns %d\n", (int)keeper_ask(state, sizeof state, KEEPER_ASK_STATUS, 0, 0));
    memcpy(state, flash, sizeof state);
    printf("    battery in:\n");
    show_parts();
}
int main(int count, char **names) {
    uint8_t record[KEEPER_RECORD_BYTES], reply[KEEPER_REPLY_BYTES(KEEPER_RECORD_BYTES)];
    FILE *file = count == 3 ? fopen(names[1], "rb") : NULL, *log = count == 3 ? fopen(names[2], "rb") : NULL;
    if (file == NULL || log == NULL) fail("a table and a log are needed: host TABLE LOG");
    size_t length = fread(table, 1, sizeof table, file); /* a longer file is refused by what is read of it */
    checked("table", keeper_load(table, length, state, sizeof state));
    int fed = 0;
    while (next_record(log, record)) {
        printf("%s part %u\n", REQUEST[record[0] <= KEEPER_KIND_RESULT ? record[0] : 0], record[1]);
        for (;;) {
            if (checked("piece", keeper_feed(state, sizeof state, record, sizeof record, reply, sizeof reply)) != 1) fail("no reply");
            if (++fed == 5) change_battery();
            if (reply[0] == KEEPER_REPLY_FINISHED || reply[0] == KEEPER_REPLY_REFUSED) break;
            unsigned result = (unsigned)run_callback(log, reply[0], reply[1]);
            record[0] = KEEPER_KIND_RESULT, record[1] = reply[1], record[2] = (uint8_t)result, record[3] = (uint8_t)(result >> 8);
        }
        checked("record", reply[0] == KEEPER_REPLY_REFUSED ? -number(reply + 2) : 0);
        printf("    finished for part %u: %d\n", reply[1], number(reply + 2));
        if (record[0] == KEEPER_KIND_RESULT) show_parts(); /* callbacks were run */
    }
    if (ferror(stdout) || fclose(stdout) != 0) fail("what was printed is not complete");
    return fclose(file) != 0 || fclose(log) != 0;
}

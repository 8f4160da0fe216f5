/* constants DAY: the numbers of keeper.h against what the calls do, every refusal, and what each call writes; DAY is the folder examples/day.
 * It is C99 and C++11. Buffers are cut from the heap for each call, with GUARD bytes before and after that have to stay; with -DGUARD=0 they
 * are exactly as long as the call is told, for a memory checker. */
#include "keeper.h"
#include <stdio.h>
#include <stdlib.h>
#include <string.h>

#ifndef GUARD
#define GUARD 64
#endif
#define COUNT(array) (sizeof(array) / sizeof((array)[0]))

static long checks, failures;

static void same(const char *what, long expected, long got) {
    checks++;
    if (expected == got) return;
    failures++;
    printf("FAILED %s: expected %ld, got %ld\n", what, expected, got);
}

static void holds(const char *what, const char *claim, int true_of_it) {
    checks++;
    if (true_of_it) return;
    failures++;
    printf("FAILED %s: %s\n", what, claim);
}

/* ---- buffers */

typedef struct {
    uint8_t *base, *before, *at;
    size_t all, len;
} Buffer;

static size_t shift; /* how far buffers stand from an aligned address */

static void *room_for(size_t bytes) {
    void *p = malloc(bytes != 0 ? bytes : 1);
    if (p == NULL) {
        fprintf(stderr, "constants: no memory\n");
        exit(2);
    }
    return p;
}

/* A buffer with this content, or with a pattern for a null one; its pointer is null where its length is 0. */
static Buffer make(const uint8_t *content, size_t len) {
    Buffer b;
    size_t i;
    b.all = GUARD + shift + len + GUARD;
    b.len = len;
    b.base = (uint8_t *)room_for(b.all);
    b.before = (uint8_t *)room_for(b.all);
    for (i = 0; i < b.all; i++) b.base[i] = (uint8_t)(0xA5 ^ (i * 31));
    b.at = len != 0 ? b.base + GUARD + shift : NULL;
    if (content != NULL && len != 0) memcpy(b.at, content, len);
    memcpy(b.before, b.base, b.all);
    return b;
}

/* Whether the bytes from a place on, and those before and after the buffer, are as they were. */
static int kept(Buffer b, size_t from) {
    size_t start = GUARD + shift;
    if (from > b.len) return 0;
    return memcmp(b.base, b.before, start) == 0 && memcmp(b.base + start + from, b.before + start + from, b.all - start - from) == 0;
}

static void drop(Buffer b) {
    free(b.base);
    free(b.before);
}

/* ---- the calls, each with the buffers it has to leave */

static uint8_t state[KEEPER_STATE_BYTES];  /* the bench that the last load or feed left */
static uint8_t replies[KEEPER_PIECE_MOST]; /* the replies of the last feed */
static const size_t FORM = KEEPER_STATE_BYTES;

static void load(const char *what, long expected, const uint8_t *table, size_t len, size_t room) {
    Buffer t = make(table, len), s = make(NULL, room);
    int32_t got = keeper_load(t.at, t.len, s.at, s.len);
    same(what, expected, got);
    holds(what, "the table is as it was", kept(t, 0));
    holds(what, "the state is as it was, where it has to be", kept(s, got < 0 ? 0 : FORM));
    if (got == 0 && room >= FORM) memcpy(state, s.at, FORM);
    drop(t);
    drop(s);
}

/* A piece against state bytes; a taken one becomes the state. */
static void feed(const char *what, long expected, const uint8_t *from, size_t from_len, const uint8_t *piece, size_t len, size_t room) {
    Buffer s = make(from, from_len), p = make(piece, len), r = make(NULL, room);
    int32_t got = keeper_feed(s.at, s.len, p.at, p.len, r.at, r.len);
    size_t written = got < 0 ? 0 : 4 * (size_t)got;
    same(what, expected, got);
    holds(what, "the piece is as it was", kept(p, 0));
    holds(what, "the state is as it was, where it has to be", kept(s, got < 0 ? 0 : FORM));
    holds(what, "the reply buffer is as it was, where it has to be", kept(r, written));
    if (got >= 0 && from_len >= FORM) memcpy(state, s.at, FORM);
    if (written != 0 && written <= room && written <= sizeof replies) memcpy(replies, r.at, written);
    drop(s);
    drop(p);
    drop(r);
}

static void ask_of(const char *what, long expected, const uint8_t *from, size_t from_len, uint32_t question, uint32_t part, uint32_t second) {
    Buffer s = make(from, from_len);
    same(what, expected, keeper_ask(s.at, s.len, question, part, second));
    holds(what, "the state is as it was", kept(s, 0));
    drop(s);
}

static void ask(const char *what, long expected, uint32_t question, uint32_t part, uint32_t second) {
    ask_of(what, expected, state, FORM, question, part, second);
}

/* One record, and the reply to it. */
static void record(const char *what, unsigned kind, unsigned part, int value, int reply, unsigned reply_part, int code) {
    uint8_t bytes[4];
    bytes[0] = (uint8_t)kind;
    bytes[1] = (uint8_t)part;
    bytes[2] = (uint8_t)((unsigned)value & 255);
    bytes[3] = (uint8_t)((unsigned)value >> 8 & 255);
    memset(replies, 0xEE, 4);
    feed(what, 1, state, FORM, bytes, 4, 4);
    same(what, reply, replies[0]);
    same(what, (long)reply_part, replies[1]);
    same(what, code, replies[2] + 256L * replies[3] - (replies[3] < 128 ? 0 : 65536));
}

/* ---- tables */

static const uint8_t ONE_PART[] = {'T', 'W', 'B', 1, 0, 1, 0, 255, 0};
static const uint8_t TWO_LINKS[] = {'T', 'W', 'B', 1, 0, 3, 2, 255, 0, 0, 0, 0, 0, 2, 0, 0, 2, 1, 0};
static uint8_t day[64], longest[KEEPER_TABLE_MOST + 1];
static size_t day_len;

/* A table with one byte changed is refused, however much room the state has. */
static void faulty(const char *what, long refusal, const uint8_t *table, size_t len, size_t at, uint8_t byte) {
    uint8_t copy[64];
    memcpy(copy, table, len);
    copy[at] = byte;
    load(what, -refusal, copy, len, FORM);
    load(what, -refusal, copy, len, FORM - 1);
    load(what, -refusal, copy, len, 0);
}

/* 64 parts and 128 links: 63 to supplier 0, 62 to supplier 1, and 3 to supplier 2. */
static size_t make_longest(void) {
    size_t at = 0, c, s;
    const uint8_t head[] = {'T', 'W', 'B', 1, 0, 64, 128};
    memcpy(longest, head, sizeof head);
    at = sizeof head;
    for (c = 0; c < 64; c++) {
        longest[at++] = 255;
        longest[at++] = 0;
    }
    for (c = 1; c < 64; c++) {
        for (s = 0; s < c && s < (c <= 5 ? 3 : 2); s++) {
            longest[at++] = (uint8_t)c;
            longest[at++] = (uint8_t)s;
            longest[at++] = 1;
        }
    }
    return at;
}

static void tables(void) {
    uint8_t longer[sizeof TWO_LINKS + 1];
    size_t len;
    load("a table, and the room of a state", 0, day, day_len, FORM);
    holds("a loaded state", "it begins with its mark and version", memcmp(state, "TWS\1\0", 5) == 0);
    load("a table, and more room", 0, day, day_len, FORM + 1);
    load("a table, and much more room", 0, day, day_len, FORM + 4096);
    load("a table with two links", 0, TWO_LINKS, sizeof TWO_LINKS, FORM);
    load("a byte of room too little", -KEEPER_REFUSED_STATE_ROOM, day, day_len, FORM - 1);
    load("a byte of room", -KEEPER_REFUSED_STATE_ROOM, day, day_len, 1);
    load("no room", -KEEPER_REFUSED_STATE_ROOM, day, day_len, 0);
    for (len = 0; len < day_len; len++) {
        long refusal = len < 7 ? KEEPER_REFUSED_TABLE_SHORT : KEEPER_REFUSED_TABLE_LENGTH;
        load("a part of a table", -refusal, day, len, FORM);
        load("a part of a table, no room", -refusal, day, len, 0);
        /* a whole table stands there, and the length is what counts */
        same("a part of a table", -refusal, keeper_load(day, len, state, FORM));
    }
    faulty("a short table with another mark", KEEPER_REFUSED_TABLE_SHORT, ONE_PART, 6, 0, 'S');
    faulty("first byte of the mark", KEEPER_REFUSED_TABLE_MARK, ONE_PART, sizeof ONE_PART, 0, 'S');
    faulty("second byte of the mark", KEEPER_REFUSED_TABLE_MARK, ONE_PART, sizeof ONE_PART, 1, 'V');
    faulty("third byte of the mark", KEEPER_REFUSED_TABLE_MARK, ONE_PART, sizeof ONE_PART, 2, 'S');
    faulty("mark of a table of 7 bytes", KEEPER_REFUSED_TABLE_MARK, ONE_PART, 7, 2, 'S');
    faulty("version 0", KEEPER_REFUSED_TABLE_VERSION, ONE_PART, sizeof ONE_PART, 3, 0);
    faulty("version 257", KEEPER_REFUSED_TABLE_VERSION, ONE_PART, sizeof ONE_PART, 4, 1);
    faulty("no part", KEEPER_REFUSED_TABLE_LIMITS, ONE_PART, sizeof ONE_PART, 5, 0);
    faulty("65 parts", KEEPER_REFUSED_TABLE_LIMITS, ONE_PART, sizeof ONE_PART, 5, 65);
    faulty("129 links", KEEPER_REFUSED_TABLE_LIMITS, ONE_PART, sizeof ONE_PART, 6, 129);
    faulty("64 parts and not the length", KEEPER_REFUSED_TABLE_LENGTH, ONE_PART, sizeof ONE_PART, 5, 64);
    faulty("128 links and not the length", KEEPER_REFUSED_TABLE_LENGTH, ONE_PART, sizeof ONE_PART, 6, 128);
    faulty("a byte too few", KEEPER_REFUSED_TABLE_LENGTH, TWO_LINKS, sizeof TWO_LINKS - 1, 0, 'T');
    memcpy(longer, TWO_LINKS, sizeof TWO_LINKS);
    faulty("a byte too many", KEEPER_REFUSED_TABLE_LENGTH, longer, sizeof longer, sizeof TWO_LINKS, 0);
    faulty("parent of the first part", KEEPER_REFUSED_TABLE_PART, TWO_LINKS, sizeof TWO_LINKS, 7, 0);
    faulty("parent not below the part", KEEPER_REFUSED_TABLE_PART, TWO_LINKS, sizeof TWO_LINKS, 11, 2);
    faulty("flags of a part", KEEPER_REFUSED_TABLE_PART, TWO_LINKS, sizeof TWO_LINKS, 12, 2);
    faulty("consumer that is no part", KEEPER_REFUSED_TABLE_LINK, TWO_LINKS, sizeof TWO_LINKS, 16, 3);
    faulty("supplier not below the consumer", KEEPER_REFUSED_TABLE_LINK, TWO_LINKS, sizeof TWO_LINKS, 17, 2);
    faulty("flags of a link", KEEPER_REFUSED_TABLE_LINK, TWO_LINKS, sizeof TWO_LINKS, 18, 4);
    faulty("a pair that stands twice", KEEPER_REFUSED_TABLE_LINK, TWO_LINKS, sizeof TWO_LINKS, 17, 0);
    faulty("links out of order", KEEPER_REFUSED_TABLE_LINK, TWO_LINKS, sizeof TWO_LINKS, 16, 1);
    len = make_longest();
    same("the longest table", KEEPER_TABLE_MOST, (long)len);
    load("the longest table", 0, longest, len, FORM);
    load("the longest table, a byte of room too little", -KEEPER_REFUSED_STATE_ROOM, longest, len, FORM - 1);
    load("a longer table", -KEEPER_REFUSED_TABLE_LENGTH, longest, len + 1, FORM);
    same("a buffer for the longest table and a byte more", KEEPER_TABLE_MOST + 1, (long)sizeof longest);
}

/* ---- bytes that are no state */

static const uint32_t QUESTIONS[] = {KEEPER_ASK_STATUS,     KEEPER_ASK_USE_COUNT,   KEEPER_ASK_CHILD_COUNT,
                                     KEEPER_ASK_USER_HOLDS, KEEPER_ASK_IN_WAKE_SET, KEEPER_ASK_PARENTS_ABOVE};
/* numbers past every table, with low bytes that would be parts or questions */
static const uint32_t WIDE[] = {254,     255,     256,     257,       258,        260,        511,        512,        0x8000,    0xFF00,
                                0xFFFF,  0x10000, 0x10004, 0x1000000, 0x7FFFFFFF, 0x80000000, 0x80000004, 0xFFFFFF00, 0xFFFFFFFF};
static const uint8_t NOTHING[KEEPER_PIECE_MOST + 1] = {0};

/* 21 comes before the other refusals of feed and ask. */
static void no_state(const char *what, const uint8_t *from, size_t len) {
    size_t i;
    feed(what, -KEEPER_REFUSED_STATE, from, len, NOTHING, 4, 4);
    feed(what, -KEEPER_REFUSED_STATE, from, len, NULL, 0, 0);
    feed(what, -KEEPER_REFUSED_STATE, from, len, NOTHING, 4, 3);
    feed(what, -KEEPER_REFUSED_STATE, from, len, NOTHING, KEEPER_PIECE_MOST + 1, 0);
    for (i = 0; i < COUNT(QUESTIONS); i++) ask_of(what, -KEEPER_REFUSED_STATE, from, len, QUESTIONS[i], 0, 0);
    ask_of(what, -KEEPER_REFUSED_STATE, from, len, KEEPER_ASK_STATUS, 0xFFFFFFFF, 0);
    ask_of(what, -KEEPER_REFUSED_STATE, from, len, KEEPER_ASK_IN_WAKE_SET, 0, 256);
    ask_of(what, -KEEPER_REFUSED_STATE, from, len, 0xFFFFFFFF, 0, 0);
}

static void damaged(const char *what, size_t at, uint8_t byte) {
    uint8_t copy[KEEPER_STATE_BYTES + 1];
    memcpy(copy, state, FORM);
    copy[at] = byte;
    copy[FORM] = 1;
    no_state(what, copy, FORM);
    no_state(what, copy, FORM + 1);
}

static void states(void) {
    static const size_t short_of[] = {0, 1, 4, 5, 4096, KEEPER_STATE_BYTES - 1};
    uint8_t more[KEEPER_STATE_BYTES + 1000];
    size_t i;
    load("a table", 0, day, day_len, FORM);
    for (i = 0; i < COUNT(short_of); i++) {
        uint8_t reply[4];
        no_state("too few bytes for a state", state, short_of[i]);
        /* a whole state stands there, and the length is what counts */
        same("feed, a part of a state", -KEEPER_REFUSED_STATE, keeper_feed(state, short_of[i], NOTHING, 4, reply, 4));
        same("ask, a part of a state", -KEEPER_REFUSED_STATE, keeper_ask(state, short_of[i], KEEPER_ASK_STATUS, 0, 0));
    }
    no_state("a table for a state", longest, KEEPER_TABLE_MOST);
    memset(more, 0, sizeof more);
    no_state("zeros", more, FORM);
    damaged("mark of a state", 0, 'S');
    damaged("mark of a table", 2, 'B');
    damaged("version 0 of a state", 3, 0);
    damaged("a later version of a state", 3, 200);
    damaged("version 257 of a state", 4, 1);
    damaged("parent of a part that is not there", 8, 1);
    damaged("a status of 4", 517, 4);
    damaged("a powered part on one that sleeps", 519, 2);
    damaged("a child count", 1029, 1);
    damaged("no parts", 1669, 0);
    damaged("65 parts", 1669, 65);
    damaged("an open callback", 1670, 1);
    damaged("four carried bytes", 1673, 4);
    damaged("a carried byte that is not used", 1674, 1);
    damaged("the last byte", 4752, 1);
    memset(more, 0x5A, sizeof more);
    memcpy(more, state, FORM);
    feed("a state with bytes after it", 1, more, sizeof more, NOTHING, 5, 9);
    ask_of("a state with bytes after it", KEEPER_STATUS_SUSPENDED, more, sizeof more, KEEPER_ASK_STATUS, 2, 0);
    ask_of("a state with a byte after it", -KEEPER_REFUSED_QUESTION, more, FORM + 1, KEEPER_ASK_STATUS, 3, 0);
}

/* ---- pieces and room */

static void pieces(void) {
    static const size_t lens[] = {0, 1, 2, 3, 4, 5, 6, 7, 8, 9, 100, 4093, 4094, 4095, KEEPER_PIECE_MOST};
    uint8_t begun[4][KEEPER_STATE_BYTES];
    size_t i, c;
    for (c = 0; c < 4; c++) {
        load("a table", 0, day, day_len, FORM);
        feed("carried bytes need no room", 0, state, FORM, NOTHING, c, 0);
        memcpy(begun[c], state, FORM);
        if (c > 0) holds("carried bytes", "they are kept in the state", memcmp(begun[c], begun[0], FORM) != 0);
    }
    for (i = 0; i < COUNT(lens); i++) {
        size_t most = KEEPER_REPLY_BYTES(lens[i]);
        for (c = 0; c < 4; c++) {
            long count = (long)((c + lens[i]) / KEEPER_RECORD_BYTES);
            size_t room = (size_t)count * KEEPER_RECORD_BYTES;
            feed("the room that is needed", count, begun[c], FORM, NOTHING, lens[i], room);
            feed("the room that is needed at most", count, begun[c], FORM, NOTHING, lens[i], most);
            feed("more room", count, begun[c], FORM, NOTHING, lens[i], room + 101);
            if (room > 0) feed("a byte of room too little", -KEEPER_REFUSED_REPLY_ROOM, begun[c], FORM, NOTHING, lens[i], room - 1);
            if (room > 0) feed("no room", -KEEPER_REFUSED_REPLY_ROOM, begun[c], FORM, NOTHING, lens[i], 0);
            if (c == 3) same("the room that is needed at most, with 3 bytes carried", (long)room, (long)most);
        }
    }
    for (c = 0; c < 4; c++) {
        feed("a piece too long", -KEEPER_REFUSED_PIECE_LONG, begun[c], FORM, NOTHING, KEEPER_PIECE_MOST + 1, KEEPER_PIECE_MOST + 4);
        feed("a piece too long, no room", -KEEPER_REFUSED_PIECE_LONG, begun[c], FORM, NOTHING, KEEPER_PIECE_MOST + 1, 0);
    }
}

/* ---- questions that have no answer */

static void unknown(uint32_t parts) {
    size_t i, k;
    for (k = 0; k < COUNT(QUESTIONS); k++) {
        ask("the first part that is not there", -KEEPER_REFUSED_QUESTION, QUESTIONS[k], parts, 0);
        for (i = 0; i < COUNT(WIDE); i++) {
            ask("a part that is not there", -KEEPER_REFUSED_QUESTION, QUESTIONS[k], WIDE[i], 0);
            if (QUESTIONS[k] != KEEPER_ASK_IN_WAKE_SET) ask("a second part is not looked at", 0, QUESTIONS[k], 0, WIDE[i]);
        }
    }
    ask("the last part, itself", 1, KEEPER_ASK_IN_WAKE_SET, parts - 1, parts - 1);
    ask("the first second part that is not there", -KEEPER_REFUSED_QUESTION, KEEPER_ASK_IN_WAKE_SET, 0, parts);
    for (i = 0; i < COUNT(WIDE); i++) {
        ask("a second part that is not there", -KEEPER_REFUSED_QUESTION, KEEPER_ASK_IN_WAKE_SET, 0, WIDE[i]);
        ask("both not there", -KEEPER_REFUSED_QUESTION, KEEPER_ASK_IN_WAKE_SET, WIDE[i], WIDE[i]);
        ask("no such question", -KEEPER_REFUSED_QUESTION, WIDE[i], 0, 0);
    }
    for (i = COUNT(QUESTIONS); i < 20; i++) ask("no such question", -KEEPER_REFUSED_QUESTION, (uint32_t)i, 0, 0);
}

/* ---- records by their kinds */

static void kinds(void) {
    unsigned kind;
    for (kind = 0; kind < 256; kind++) {
        load("a table", 0, day, day_len, FORM);
        if (kind < KEEPER_KIND_ENABLE || kind > KEEPER_KIND_RESULT)
            record("no such kind", kind, 200, 2, KEEPER_REPLY_REFUSED, 200, KEEPER_REFUSED_RECORD_KIND);
        else if (kind == KEEPER_KIND_RESULT)
            record("a result, nothing open", kind, 0, 0, KEEPER_REPLY_REFUSED, 0, KEEPER_REFUSED_NO_CALLBACK);
        else {
            record("a known kind, no such part", kind, 3, 2, KEEPER_REPLY_REFUSED, 3, KEEPER_REFUSED_RECORD_PART);
            record("a known kind, no such value", kind, 0, 2, KEEPER_REPLY_REFUSED, 0, KEEPER_REFUSED_RECORD_VALUE);
            record("a known kind, no such value", kind, 2, -1, KEEPER_REPLY_REFUSED, 2, KEEPER_REFUSED_RECORD_VALUE);
            record("the value 1", kind, 1, 1, kind == KEEPER_KIND_IGNORE_CHILDREN ? KEEPER_REPLY_FINISHED : KEEPER_REPLY_REFUSED, 1,
                   kind == KEEPER_KIND_IGNORE_CHILDREN ? 0 : KEEPER_REFUSED_RECORD_VALUE);
        }
    }
    load("a table", 0, day, day_len, FORM);
    record("result 1", KEEPER_KIND_RESULT, 0, 1, KEEPER_REPLY_REFUSED, 0, KEEPER_REFUSED_RECORD_VALUE);
    record("result -4095", KEEPER_KIND_RESULT, 0, -4095, KEEPER_REPLY_REFUSED, 0, KEEPER_REFUSED_NO_CALLBACK);
    record("result -4096", KEEPER_KIND_RESULT, 0, -4096, KEEPER_REPLY_REFUSED, 0, KEEPER_REFUSED_RECORD_VALUE);
    same("the number of kinds", 13, KEEPER_KIND_RESULT);
}

/* Records and questions on the table of the day: every kind, reply, question and status. */
static void steps(void) {
    uint32_t p;
    load("a table", 0, day, day_len, FORM);
    for (p = 0; p < 3; p++) {
        ask("status of a loaded part", KEEPER_STATUS_SUSPENDED, KEEPER_ASK_STATUS, p, 0);
        ask("use count of a loaded part", 0, KEEPER_ASK_USE_COUNT, p, 0);
        ask("user holds of a loaded part", 0, KEEPER_ASK_USER_HOLDS, p, 0);
        ask("child count of a loaded part", 0, KEEPER_ASK_CHILD_COUNT, p, 0);
        ask("wake set of part 2", 1, KEEPER_ASK_IN_WAKE_SET, 2, p);
        ask("wake set of part 0", p == 0, KEEPER_ASK_IN_WAKE_SET, 0, p);
        ask("wake set of part 1", p == 1, KEEPER_ASK_IN_WAKE_SET, 1, p);
        ask("parents above", p == 2, KEEPER_ASK_PARENTS_ABOVE, p, 0);
    }
    unknown(3);
    record("enable", KEEPER_KIND_ENABLE, 0, 0, KEEPER_REPLY_FINISHED, 0, 0);
    record("enable again", KEEPER_KIND_ENABLE, 0, 0, KEEPER_REPLY_FINISHED, 0, -75);
    record("disable", KEEPER_KIND_DISABLE, 0, 0, KEEPER_REPLY_FINISHED, 0, 0);
    record("wake a disabled part", KEEPER_KIND_WAKE, 0, 0, KEEPER_REPLY_FINISHED, 0, -13);
    record("set active", KEEPER_KIND_SET_ACTIVE, 0, 0, KEEPER_REPLY_FINISHED, 0, 0);
    ask("set active", KEEPER_STATUS_ACTIVE, KEEPER_ASK_STATUS, 0, 0);
    record("set suspended", KEEPER_KIND_SET_SUSPENDED, 0, 0, KEEPER_REPLY_FINISHED, 0, 0);
    ask("set suspended", KEEPER_STATUS_SUSPENDED, KEEPER_ASK_STATUS, 0, 0);
    record("enable", KEEPER_KIND_ENABLE, 0, 0, KEEPER_REPLY_FINISHED, 0, 0);
    record("set active, enabled", KEEPER_KIND_SET_ACTIVE, 0, 0, KEEPER_REPLY_FINISHED, 0, -11);
    record("enable", KEEPER_KIND_ENABLE, 1, 0, KEEPER_REPLY_FINISHED, 1, 0);
    record("enable", KEEPER_KIND_ENABLE, 2, 0, KEEPER_REPLY_FINISHED, 2, 0);
    record("get", KEEPER_KIND_GET, 1, 0, KEEPER_REPLY_FINISHED, 1, 0);
    record("get", KEEPER_KIND_GET, 1, 0, KEEPER_REPLY_FINISHED, 1, 0);
    ask("get", 2, KEEPER_ASK_USER_HOLDS, 1, 0);
    record("put", KEEPER_KIND_PUT, 1, 0, KEEPER_REPLY_FINISHED, 1, 0);
    ask("put", 1, KEEPER_ASK_USER_HOLDS, 1, 0);
    record("put", KEEPER_KIND_PUT, 1, 0, KEEPER_REPLY_FINISHED, 1, 0);
    record("put too often", KEEPER_KIND_PUT, 1, 0, KEEPER_REPLY_FINISHED, 1, -75);
    record("get and wake", KEEPER_KIND_GET_AND_WAKE, 2, 0, KEEPER_REPLY_RUN_RESUME, 0, 0);
    ask("get and wake", 1, KEEPER_ASK_USER_HOLDS, 2, 0);
    ask("resume open", KEEPER_STATUS_RESUMING, KEEPER_ASK_STATUS, 0, 0);
    record("while a callback is open", KEEPER_KIND_GET, 1, 0, KEEPER_REPLY_FINISHED, 1, -115);
    record("result of another part", KEEPER_KIND_RESULT, 1, 0, KEEPER_REPLY_REFUSED, 1, KEEPER_REFUSED_OTHER_PART);
    record("resumed", KEEPER_KIND_RESULT, 0, 0, KEEPER_REPLY_RUN_RESUME, 1, 0);
    ask("resumed", KEEPER_STATUS_ACTIVE, KEEPER_ASK_STATUS, 0, 0);
    ask("resume open", KEEPER_STATUS_RESUMING, KEEPER_ASK_STATUS, 1, 0);
    ask("not yet resumed", KEEPER_STATUS_SUSPENDED, KEEPER_ASK_STATUS, 2, 0);
    for (p = 0; p < 3; p++) ask("wake set of part 2, on the way", p != 0, KEEPER_ASK_IN_WAKE_SET, 2, p);
    record("resumed", KEEPER_KIND_RESULT, 1, 0, KEEPER_REPLY_RUN_RESUME, 2, 0);
    record("resumed", KEEPER_KIND_RESULT, 2, 0, KEEPER_REPLY_FINISHED, 2, 0);
    record("result, nothing open", KEEPER_KIND_RESULT, 2, 0, KEEPER_REPLY_REFUSED, 2, KEEPER_REFUSED_NO_CALLBACK);
    for (p = 0; p < 3; p++) {
        ask("awake", KEEPER_STATUS_ACTIVE, KEEPER_ASK_STATUS, p, 0);
        ask("use counts", p != 0, KEEPER_ASK_USE_COUNT, p, 0);
        ask("child counts", p == 0, KEEPER_ASK_CHILD_COUNT, p, 0);
        ask("user holds", p == 2, KEEPER_ASK_USER_HOLDS, p, 0);
        ask("wake set of part 2, awake", 0, KEEPER_ASK_IN_WAKE_SET, 2, p);
    }
    record("suspend a supplier in use", KEEPER_KIND_SUSPEND, 1, 0, KEEPER_REPLY_FINISHED, 1, -11);
    record("suspend a parent in use", KEEPER_KIND_SUSPEND, 0, 0, KEEPER_REPLY_FINISHED, 0, -16);
    record("ignore children", KEEPER_KIND_IGNORE_CHILDREN, 0, 1, KEEPER_REPLY_FINISHED, 0, 0);
    record("suspend", KEEPER_KIND_SUSPEND, 0, 0, KEEPER_REPLY_RUN_SUSPEND, 0, 0);
    ask("suspend open", KEEPER_STATUS_SUSPENDING, KEEPER_ASK_STATUS, 0, 0);
    record("suspended", KEEPER_KIND_RESULT, 0, 0, KEEPER_REPLY_FINISHED, 0, 0);
    ask("suspended", KEEPER_STATUS_SUSPENDED, KEEPER_ASK_STATUS, 0, 0);
    record("suspend again", KEEPER_KIND_SUSPEND, 0, 0, KEEPER_REPLY_FINISHED, 0, 1);
    record("ignore children no more", KEEPER_KIND_IGNORE_CHILDREN, 0, 0, KEEPER_REPLY_FINISHED, 0, -16);
    record("wake", KEEPER_KIND_WAKE, 0, 0, KEEPER_REPLY_RUN_RESUME, 0, 0);
    record("resume failed", KEEPER_KIND_RESULT, 0, -5, KEEPER_REPLY_FINISHED, 0, -5);
    record("wake a failed part", KEEPER_KIND_WAKE, 0, 0, KEEPER_REPLY_FINISHED, 0, -22);
    record("set suspended, failed", KEEPER_KIND_SET_SUSPENDED, 0, 0, KEEPER_REPLY_FINISHED, 0, 0);
    record("wake", KEEPER_KIND_WAKE, 0, 0, KEEPER_REPLY_RUN_RESUME, 0, 0);
    record("resumed", KEEPER_KIND_RESULT, 0, 0, KEEPER_REPLY_FINISHED, 0, 0);
    record("wake again", KEEPER_KIND_WAKE, 0, 0, KEEPER_REPLY_FINISHED, 0, 1);
    record("put and idle", KEEPER_KIND_PUT_AND_IDLE, 2, 0, KEEPER_REPLY_RUN_IDLE, 2, 0);
    ask("put and idle", 0, KEEPER_ASK_USER_HOLDS, 2, 0);
    record("not idle", KEEPER_KIND_RESULT, 2, -11, KEEPER_REPLY_FINISHED, 2, -11);
    record("idle", KEEPER_KIND_IDLE, 2, 0, KEEPER_REPLY_RUN_IDLE, 2, 0);
    record("idle said 0", KEEPER_KIND_RESULT, 2, 0, KEEPER_REPLY_RUN_SUSPEND, 2, 0);
    ask("suspend open", KEEPER_STATUS_SUSPENDING, KEEPER_ASK_STATUS, 2, 0);
    record("busy", KEEPER_KIND_RESULT, 2, -16, KEEPER_REPLY_FINISHED, 2, -16);
    ask("busy", KEEPER_STATUS_ACTIVE, KEEPER_ASK_STATUS, 2, 0);
}

/* ---- the greatest answers */

static void greatest(void) {
    uint8_t table[7 + 2 * 64] = {'T', 'W', 'B', 1, 0, 64, 0}, gets[KEEPER_PIECE_MOST];
    unsigned p;
    size_t i;
    load("the longest table", 0, longest, KEEPER_TABLE_MOST, FORM);
    unknown(64);
    for (p = 0; p < 64; p++) record("set active", KEEPER_KIND_SET_ACTIVE, p, 0, KEEPER_REPLY_FINISHED, p, 0);
    ask("links to part 0", 63, KEEPER_ASK_USE_COUNT, 0, 0);
    ask("links to part 1", 62, KEEPER_ASK_USE_COUNT, 1, 0);
    ask("links to part 2", 3, KEEPER_ASK_USE_COUNT, 2, 0);
    memset(gets, 0, sizeof gets);
    for (i = 0; i < sizeof gets; i += 4) gets[i] = KEEPER_KIND_GET;
    for (i = 0; i < 31; i++) feed("1,024 gets", 1024, state, FORM, gets, sizeof gets, sizeof gets);
    feed("1,023 gets", 1023, state, FORM, gets, sizeof gets - 4, sizeof gets);
    ask("the most user holds", 32767, KEEPER_ASK_USER_HOLDS, 0, 0);
    ask("the greatest use count", 32830, KEEPER_ASK_USE_COUNT, 0, 0);
    record("one get more", KEEPER_KIND_GET, 0, 0, KEEPER_REPLY_FINISHED, 0, -75);
    for (p = 0; p < 64; p++) table[7 + 2 * p] = (uint8_t)(p == 0 ? 255 : p - 1);
    load("a chain", 0, table, sizeof table, FORM);
    for (p = 0; p < 64; p++) ask("parents above", (long)p, KEEPER_ASK_PARENTS_ABOVE, p, 0);
    for (p = 0; p < 64; p++) ask("wake set of the last of a chain", 1, KEEPER_ASK_IN_WAKE_SET, 63, p);
    for (p = 0; p < 64; p++) table[7 + 2 * p] = p == 0 ? 255 : 0;
    load("63 children", 0, table, sizeof table, FORM);
    for (p = 0; p < 64; p++) record("set active", KEEPER_KIND_SET_ACTIVE, p, 0, KEEPER_REPLY_FINISHED, p, 0);
    ask("63 children", 63, KEEPER_ASK_CHILD_COUNT, 0, 0);
}

/* ---- null pointers, and pointers to no bytes */

static void nulls(void) {
    uint8_t s[KEEPER_STATE_BYTES], before[KEEPER_STATE_BYTES], r[4] = {1, 2, 3, 4};
    const uint8_t record_of_day[] = {KEEPER_KIND_ENABLE, 0, 0, 0}, r_before[4] = {1, 2, 3, 4};
    same("load, all null", -KEEPER_REFUSED_TABLE_SHORT, keeper_load(NULL, 0, NULL, 0));
    same("load, no state", -KEEPER_REFUSED_STATE_ROOM, keeper_load(day, day_len, NULL, 0));
    same("feed, all null", -KEEPER_REFUSED_STATE, keeper_feed(NULL, 0, NULL, 0, NULL, 0));
    same("ask, no state", -KEEPER_REFUSED_STATE, keeper_ask(NULL, 0, KEEPER_ASK_STATUS, 0, 0));
    memset(s, 7, sizeof s);
    memset(before, 7, sizeof before);
    same("load, no table", -KEEPER_REFUSED_TABLE_SHORT, keeper_load(NULL, 0, s, sizeof s));
    same("load, a table of no bytes", -KEEPER_REFUSED_TABLE_SHORT, keeper_load(day, 0, s, sizeof s));
    holds("load, no table", "the state is as it was", memcmp(s, before, sizeof s) == 0);
    same("load", 0, keeper_load(day, day_len, s, sizeof s));
    memcpy(before, s, sizeof s);
    same("feed, no piece and no room", 0, keeper_feed(s, sizeof s, NULL, 0, NULL, 0));
    same("feed, no piece", 0, keeper_feed(s, sizeof s, NULL, 0, r, sizeof r));
    same("feed, a piece of no bytes", 0, keeper_feed(s, sizeof s, record_of_day, 0, r, 0));
    same("feed, a state of no bytes", -KEEPER_REFUSED_STATE, keeper_feed(s, 0, record_of_day, 4, r, 4));
    same("feed, no room", -KEEPER_REFUSED_REPLY_ROOM, keeper_feed(s, sizeof s, record_of_day, 4, NULL, 0));
    holds("feed of nothing", "the state is as it was", memcmp(s, before, sizeof s) == 0);
    holds("feed of nothing", "the reply buffer is as it was", memcmp(r, r_before, sizeof r) == 0);
    same("feed, three bytes and no room", 0, keeper_feed(s, sizeof s, record_of_day, 3, NULL, 0));
    same("feed, the fourth byte", 1, keeper_feed(s, sizeof s, record_of_day + 3, 1, r, sizeof r));
    holds("feed, the fourth byte", "its reply", memcmp(r, NOTHING, 4) == 0);
}

/* ---- the day of examples/day: cut at each byte into two pieces, with the state at another place for each, and at every alignment */

static size_t read_file(const char *folder, const char *name, uint8_t *to, size_t most) {
    char path[4096];
    FILE *f;
    size_t got;
    snprintf(path, sizeof path, "%s/%s", folder, name);
    f = fopen(path, "rb");
    if (f == NULL) {
        fprintf(stderr, "constants: %s cannot be opened\n", path);
        exit(2);
    }
    got = fread(to, 1, most, f);
    fclose(f);
    return got;
}

static void whole_day(const char *folder) {
    static uint8_t log[48], expected[48], shipped[KEEPER_STATE_BYTES + 1], last[KEEPER_STATE_BYTES], got[48];
    size_t cut;
    same("log.bin", 48, (long)read_file(folder, "log.bin", log, sizeof log));
    same("replies.bin", 48, (long)read_file(folder, "replies.bin", expected, sizeof expected));
    same("state.bin", KEEPER_STATE_BYTES, (long)read_file(folder, "state.bin", shipped, sizeof shipped));
    load("the day", 0, day, day_len, FORM);
    feed("the day", 12, state, FORM, log, 48, KEEPER_REPLY_BYTES(48));
    holds("the day", "its replies", memcmp(replies, expected, 48) == 0);
    memcpy(last, state, FORM);
    for (cut = 0; cut <= 48; cut++) {
        size_t first = cut / 4 * 4;
        shift = cut % 16;
        load("the day, cut", 0, day, day_len, FORM);
        feed("the day, first piece", (long)(cut / 4), state, FORM, log, cut, KEEPER_REPLY_BYTES(cut));
        memcpy(got, replies, first);
        if (cut == 18) holds("the first 18 bytes of the day", "the state is that of state.bin", memcmp(state, shipped, FORM) == 0);
        shift = (cut + 5) % 16;
        feed("the day, second piece", (long)(12 - cut / 4), state, FORM, log + cut, 48 - cut, KEEPER_REPLY_BYTES(48 - cut));
        memcpy(got + first, replies, 48 - first);
        holds("the day, cut", "its replies", memcmp(got, expected, 48) == 0);
        holds("the day, cut", "the state at its end", memcmp(state, last, FORM) == 0);
    }
    shift = 0;
}

int main(int count, char **names) {
    if (count != 2) {
        fprintf(stderr, "usage: constants DAY\n");
        return 2;
    }
    setvbuf(stdout, NULL, _IOLBF, BUFSIZ);
    day_len = read_file(names[1], "table.bin", day, sizeof day);
    same("table.bin", 16, (long)day_len);
    tables();
    states();
    pieces();
    kinds();
    steps();
    greatest();
    nulls();
    whole_day(names[1]);
    printf("%ld checks, %ld failed\n", checks, failures);
    return failures != 0;
}

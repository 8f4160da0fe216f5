/* keeper.h: the bench keeper for a C host, C99 or C++11. Tables, records, replies and saved states byte by byte: docs/FORMATS.md.
 *
 * The host keeps a bench as bytes. The first KEEPER_STATE_BYTES of them are its saved state, which has no pointers: between calls it may
 * be copied, moved, or written to flash and read back. The library has no memory of its own, so a host may keep several benches, and may
 * call from several threads as long as no call writes bytes that another uses. It needs memcpy and memset.
 *
 * A buffer is a pointer and a length in bytes. It needs no alignment. With length 0 the pointer may be null. The buffers of one call must
 * not overlap.
 *
 * Each call returns a refusal's number negated, or what the call answers, which is 0 or more. A call that is refused writes nothing. */
#ifndef KEEPER_H
#define KEEPER_H

#include <stddef.h>
#include <stdint.h>

#ifdef __cplusplus
extern "C" {
#endif

#define KEEPER_STATE_BYTES 4753 /* the room that a state needs */
#define KEEPER_TABLE_MOST 519   /* the longest table: 64 parts and 128 links, 7 + 2 * 64 + 3 * 128 */
#define KEEPER_PIECE_MOST 4096  /* the longest piece of log */
#define KEEPER_RECORD_BYTES 4   /* a record; a reply has as many */

/* The room that the replies to a piece need at most: up to 3 bytes may be carried from the pieces before it. */
#define KEEPER_REPLY_BYTES(piece_len) ((3u + (piece_len)) / 4u * 4u)

/* What the calls refuse, as negative results, and the codes of replies of kind KEEPER_REPLY_REFUSED. */
enum keeper_refusal {
    /* keeper_load */
    KEEPER_REFUSED_TABLE_SHORT = 1,   /* fewer than 7 bytes */
    KEEPER_REFUSED_TABLE_MARK = 2,    /* the first three are not "TWB" */
    KEEPER_REFUSED_TABLE_VERSION = 3, /* the version is not 1 */
    KEEPER_REFUSED_TABLE_LIMITS = 4,  /* no part, more than 64 parts or more than 128 links */
    KEEPER_REFUSED_TABLE_LENGTH = 5,  /* not the length for so many parts and links */
    KEEPER_REFUSED_TABLE_PART = 6,    /* the entry of a part breaks the rules */
    KEEPER_REFUSED_TABLE_LINK = 7,    /* the entry of a link breaks the rules, or is out of order */
    KEEPER_REFUSED_STATE_ROOM = 8,    /* fewer than KEEPER_STATE_BYTES for the state */
    /* in replies */
    KEEPER_REFUSED_RECORD_KIND = 11,  /* none of enum keeper_kind */
    KEEPER_REFUSED_RECORD_PART = 12,  /* no such part */
    KEEPER_REFUSED_RECORD_VALUE = 13, /* a value that the kind does not have */
    KEEPER_REFUSED_NO_CALLBACK = 14,  /* a result while no callback is open */
    KEEPER_REFUSED_OTHER_PART = 15,   /* a result for another part than the one asked */
    /* keeper_feed and keeper_ask */
    KEEPER_REFUSED_STATE = 21, /* the bytes do not begin with a saved state of the newest version */
    /* keeper_feed */
    KEEPER_REFUSED_PIECE_LONG = 22, /* more than KEEPER_PIECE_MOST bytes */
    KEEPER_REFUSED_REPLY_ROOM = 23, /* fewer than 4 bytes for each reply */
    /* keeper_ask */
    KEEPER_REFUSED_QUESTION = 24 /* no such question, or no such part */
};

/* Records: kind, part, value (signed, 16 bits, low byte first). The value is 0 where nothing is said of it. */
enum keeper_kind {
    KEEPER_KIND_ENABLE = 1,           /* one disable less */
    KEEPER_KIND_DISABLE = 2,          /* one disable more; a loaded part has one */
    KEEPER_KIND_GET = 3,              /* one user hold more */
    KEEPER_KIND_GET_AND_WAKE = 4,     /* the same, then as wake; the hold stays even if the wake fails */
    KEEPER_KIND_PUT = 5,              /* one user hold less */
    KEEPER_KIND_PUT_AND_IDLE = 6,     /* the same, then as idle if the use count has come to 0 */
    KEEPER_KIND_IDLE = 7,             /* ask the part whether it may sleep, and suspend it if so */
    KEEPER_KIND_SUSPEND = 8,          /* suspend the part */
    KEEPER_KIND_WAKE = 9,             /* resume the part, and first what it needs */
    KEEPER_KIND_SET_ACTIVE = 10,      /* count a disabled or failed part as active; no callback is run */
    KEEPER_KIND_SET_SUSPENDED = 11,   /* count it as suspended; no callback is run */
    KEEPER_KIND_IGNORE_CHILDREN = 12, /* value 1: children no longer keep the part awake; 0: they do again */
    KEEPER_KIND_RESULT = 13           /* what the callback that was asked for returned: 0, or an error from -1 to -4095 */
};

/* Replies: kind, part, code (signed, 16 bits, low byte first). After a reply that asks for a callback the host runs that callback of that
 * part and feeds its result; until then every other well-formed record is finished with -115. */
enum keeper_reply {
    KEEPER_REPLY_FINISHED = 0,    /* the request is finished; the code is its answer: 0, 1, or an error below 0 */
    KEEPER_REPLY_RUN_SUSPEND = 1, /* run the suspend callback of the part */
    KEEPER_REPLY_RUN_RESUME = 2,  /* run the resume callback of the part, which need not be the part requested */
    KEEPER_REPLY_RUN_IDLE = 3,    /* run the idle callback of the part */
    KEEPER_REPLY_REFUSED = 4      /* the record is refused; the code is the number of the refusal, 11 to 15 */
};

/* Questions for keeper_ask, and what it answers. */
enum keeper_question {
    KEEPER_ASK_STATUS = 0,       /* one of enum keeper_status */
    KEEPER_ASK_USE_COUNT = 1,    /* user holds, and runtime links to the part from powered parts */
    KEEPER_ASK_CHILD_COUNT = 2,  /* powered children: those that are active or suspending */
    KEEPER_ASK_USER_HOLDS = 3,   /* user holds alone */
    KEEPER_ASK_IN_WAKE_SET = 4,  /* 1 if a wake of `part` has to resume `second`, which may be `part` itself; else 0 */
    KEEPER_ASK_PARENTS_ABOVE = 5 /* how many parents stand above the part */
};

enum keeper_status {
    KEEPER_STATUS_SUSPENDED = 0,
    KEEPER_STATUS_RESUMING = 1,
    KEEPER_STATUS_ACTIVE = 2,
    KEEPER_STATUS_SUSPENDING = 3
};

/* Loads a table: `state` becomes the bench in which every part is suspended and disabled once.
 *
 * Returns 0, or the table's refusal negated: 1 to 7, the first fault in reading order; then 8 if state_len is below KEEPER_STATE_BYTES.
 * Writes the first KEEPER_STATE_BYTES of `state`, whatever they were. The bytes after them stay. */
int32_t keeper_load(const uint8_t *table, size_t table_len, uint8_t *state, size_t state_len);

/* Feeds a piece of log, 0 to KEEPER_PIECE_MOST bytes, cut anywhere. Each record that is complete with it is answered by one reply; up to
 * 3 bytes that are left over are carried in `state` to the next piece.
 *
 * Returns how many replies there are, or a refusal negated. Tested in this order: 21, then 22, then 23 if replies_len is below 4 times the
 * number of replies; KEEPER_REPLY_BYTES(piece_len) is always enough. A record that is refused is no refusal of the piece: its reply says so.
 * Writes the first KEEPER_STATE_BYTES of `state`, and the replies at the front of `replies`. The bytes after them stay. */
int32_t keeper_feed(uint8_t *state, size_t state_len, const uint8_t *piece, size_t piece_len, uint8_t *replies, size_t replies_len);

/* Asks about a part. `second` counts in KEEPER_ASK_IN_WAKE_SET alone.
 *
 * Returns the answer, or a refusal negated. Tested in this order: 21; then 24 for a question that is none of enum keeper_question, for a
 * part that is not in the table, and in KEEPER_ASK_IN_WAKE_SET for such a second part. No number is cut down to fewer bits. Writes nothing. */
int32_t keeper_ask(const uint8_t *state, size_t state_len, uint32_t question, uint32_t part, uint32_t second);

#ifdef __cplusplus
}
#endif

#endif

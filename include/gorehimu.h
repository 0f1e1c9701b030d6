/* Gorehimu: a small transactional store over 13,824 bytes that the host lends, or 13,056 for a wide one. Read atomic isolation: a transaction's
 * writes become visible together or not at all, and a reader never sees half of one beside the older state of the rest. Power may go between any
 * two record writes; a scan of the store starts the desk again, and nothing that was acknowledged is lost.
 *
 * The library keeps nothing between calls, allocates nothing and touches no memory but what it is lent:
 *
 *   store   GOREHIMU_STORE bytes, or GOREHIMU_WIDE_STORE, the host's to keep (a file, flash, battery-backed memory). All zeros is an empty store.
 *   image   GOREHIMU_IMAGE bytes, the station: what is lost when power goes. gorehimu_empty and gorehimu_recover make one, for a wide store
 *           gorehimu_empty_wide and gorehimu_recover_wide. After an update of the library recover it from the store (GOREHIMU_IMAGE_VERSION).
 *
 * A store is of one of two kinds; the wide one is for transactions that write more than 8 keys. The first byte of an image says which its store is,
 * and gorehimu_call and gorehimu_run go by that:
 *
 *            image[0]   bytes                 slots   records of a slot   keys of a write set, at most
 *   narrow   1          GOREHIMU_STORE        64      9                   8
 *   wide     2          GOREHIMU_WIDE_STORE   32      17                  16
 *
 * All else is the same for both: keys are 0 to 63, 8 transactions live at most, a read set has 16 keys at most, a sweep collects 64 at most.
 * gorehimu_move_out and gorehimu_move_back copy what is committed into a store of the other kind.
 *
 * Build: tools/prove staticlib interface, then link target/staticlib/libinterface.a. Its functions are proved to do what is said here for any
 * bytes whatever; the definitions are in crates/interface/specs and crates/model/specs.
 *
 * To survive a loss of power, bring the record that a request wrote, 24 bytes, whole or not at all, to where the store lasts before the
 * next request; so let a request that writes one (step, collect, sweep) be the last of its call. The store is 64 slots of 9 records: record n
 * of a slot begins at byte 24 * (9 * slot + n), which is gorehimu_record_place(slot, n). Record 0 is the commit record, 1 to 8 are version
 * records. A wide store is 32 slots of 17 records: 24 * (17 * slot + n), gorehimu_record_place_wide(slot, n), and 1 to 16 are version records.
 * The answer tells which was written:
 *
 *   stored      the nth such answer to a transaction since its closing: record n of the slot that closing gave (several transactions may be
 *               closing at once: keep the slot and n of each)
 *   slipped     record 0 of slot a
 *   collected   record 0 of the slot asked
 *   swept       record 0 of each slot that was cleared, a in number, all zeros, oldest id first: gorehimu_cleared tells which (of a wide
 *               store gorehimu_cleared_wide)
 *
 * With any other answer no byte of the store was written. examples/desk.c is a host that does so, examples/festival.c one with a wide store.
 *
 * A sweep is several collects, so it may write several records in one request. There are two ways to bring them: sweep with limit 1 again and
 * again until the answer is swept 0, and bring the one record after each; or sweep with any limit, and then bring the records one at a time,
 * oldest id first. gorehimu_cleared serves both, and collect; lasting is the host's copy of what lasts, which each record brought is part of:
 *
 *   while ((slot = gorehimu_cleared(store, lasting)) < 64) bring(slot, 0);
 *
 * Where power goes between two of these records, the sweep's first few collects are done and the rest not begun. The theorem that nothing is
 * lost (crates/history) covers that: it holds after every record of a sweep.
 *
 * To go from one kind of store to the other:
 *
 *   1  let what is live come to its end: a move takes what is committed, the rest is dropped with the old station
 *   2  gorehimu_move_out from the narrow store into a wide one, or gorehimu_move_back from the wide one. The source is only read. Where the
 *      answer is moved, what the target held is gone; where it is refused, no byte was written
 *   3  bring the whole target to where it lasts, and then, in one write, the note that says which of the two is the store
 *   4  gorehimu_recover_wide, or gorehimu_recover, from the target: the history of the source goes on there. Slots have other numbers than before
 *
 * Until the note is there the source is the store: where power goes earlier, go on with the source, or begin the move again. The target depends on
 * the source alone, so it comes out the same, whatever the first attempt left there. Of half a target nothing is promised, even where a scan of it
 * is not refused.
 *
 * To go to Redis and back: gorehimu_export writes what is committed in a narrow store as the commands that Redis takes (redis-cli --pipe), and
 * gorehimu_import fills a narrow store from such a stream. An import that is not refused ends the history of the store that it fills. Bring the whole
 * store to where it lasts, and gorehimu_recover it then: a new history begins, with the stream's transactions in it. Where power goes earlier, begin the
 * import again: the store depends on the stream alone. Of half of it nothing is promised.
 *
 * Each pointer must be valid for its length, and may be NULL where that is 0; no alignment is needed. What is lent to one call must not
 * overlap, nor be touched by others meanwhile. Allow 128 KB of stack.
 */
#ifndef GOREHIMU_H
#define GOREHIMU_H

#include <stddef.h>
#include <stdint.h>
#include <string.h>

#ifdef __cplusplus
extern "C" {
#endif

#define GOREHIMU_STORE 13824
#define GOREHIMU_WIDE_STORE 13056
#define GOREHIMU_IMAGE 4552
#define GOREHIMU_REQUEST 16
#define GOREHIMU_ANSWER 32
#define GOREHIMU_RECORD 24
#define GOREHIMU_TARGET 65536

/* The version of the image's format: an image is made and read by one version of the library. Versions 1 and 2 had 4,800
 * and 4,544 bytes (write sets as lists); an image of another length is refused by its length (1). So after an update recover the station from the
 * store, whose format is the same, with gorehimu_recover (a wide one with gorehimu_recover_wide): what was live is then dropped, as after a loss of
 * power. */
#define GOREHIMU_IMAGE_VERSION 3

/* What a request asks. Fields that a verb does not name are 0.
 *
 *   start    transaction                 makes it live and open
 *   put      transaction, key, number    the value under a key of its write set; key 0 to 63, at most 8 keys (wide 16)
 *   get      transaction, key            its own value, or the version that fits its reads
 *   commit   transaction, number         begins to close it; again once it is committed: done (a retry). The number is a clock, 1 to 2^64 - 1, and a lower
 *                                        bound: the clock taken is the one given, or one more than the greatest of any entry or closing transaction,
 *                                        whichever is the greater. So a clock that was set back is no harm. Done says the one taken, in b
 *   step     transaction                 stores its next record; the last step acknowledges
 *   abort    transaction                 forgets an open transaction
 *   collect  key                         frees a slot (0 to 63, wide 0 to 31) whose entry is superseded and read by no one
 *   scan                                 drops the station and reads it off the store, which is of the image's kind; where that is refused, the station
 *                                        is the empty one
 *   sweep    number                      collects the oldest entries that may be collected, at most so many (1 to 64)
 */
enum gorehimu_verb {
    GOREHIMU_START = 1,
    GOREHIMU_PUT = 2,
    GOREHIMU_GET = 3,
    GOREHIMU_COMMIT = 4,
    GOREHIMU_STEP = 5,
    GOREHIMU_ABORT = 6,
    GOREHIMU_COLLECT = 7,
    GOREHIMU_SCAN = 8,
    GOREHIMU_SWEEP = 9
};

/* What came of it, with a, b and c (0 where nothing is said). */
enum gorehimu_kind {
    GOREHIMU_STARTED = 1,   /* start */
    GOREHIMU_KEPT = 2,      /* put */
    GOREHIMU_OWN = 3,       /* get: a the value that this transaction put */
    GOREHIMU_VERSION = 4,   /* get: a the value, b and c the clock and the transaction that wrote it; the key joins the read set */
    GOREHIMU_NONE = 5,      /* get: no one has written the key */
    GOREHIMU_NOFIT = 6,     /* get: no version fits what was read before. a the key in the way, the lowest: this transaction has read it, and the
                             * newest version of the wanted key was written together with a newer one of a. Read again, a gives the same, so
                             * abort, start again, and read a first */
    GOREHIMU_CLOSING = 7,   /* commit: a the slot; now step until done */
    GOREHIMU_EMPTY = 8,     /* commit: nothing was put, the transaction is over */
    GOREHIMU_DONE = 9,      /* commit of a committed transaction, or the last step: b the clock taken, c the transaction */
    GOREHIMU_STORED = 10,   /* step: a the key whose version record was written; keys come from the lowest up */
    GOREHIMU_SLIPPED = 11,  /* step: a the slot; the commit record was written, the transaction is committed */
    GOREHIMU_DROPPED = 12,  /* abort */
    GOREHIMU_COLLECTED = 13,/* collect: b and c the clock and the transaction whose entry is gone */
    GOREHIMU_FOUND = 14,    /* scan: a how many transactions the store holds */
    GOREHIMU_REFUSED = 15,  /* a the number below, b the slot with 18, the line of a log. Store and station are as they were; after a scan the station is
                             * empty */
    GOREHIMU_SWEPT = 16,    /* sweep: a how many entries are gone, the limit or fewer: no other may be collected, or the commit record of the next
                             * is not the station's (a collect of it is refused with 17) */
    GOREHIMU_MOVED = 17,    /* a move: a how many committed slots of the source are in the target */
    GOREHIMU_CLEAN = 18,    /* a log: no line is bad */
    GOREHIMU_BAD = 19,      /* a log: a its first bad line, counted from 1 */
    GOREHIMU_EXPORTED = 20, /* an export: a the length of the stream */
    GOREHIMU_IMPORTED = 21  /* an import: a how many transactions the store has */
};

/* Why a request, a move, an export, an import or a line of a log is refused. 19 comes before all others; of the rest, where several apply, the lowest. */
enum gorehimu_refusal {
    GOREHIMU_STORE_LENGTH = 1,      /* get, step, collect, sweep, scan: the store has not the bytes of the image's kind, GOREHIMU_STORE or
                                     * GOREHIMU_WIDE_STORE; moves: one of the two stores has not those of its kind; export, import: the store
                                     * has not GOREHIMU_STORE; export: the target has not GOREHIMU_TARGET */
    GOREHIMU_UNSOUND = 2,           /* every verb but scan: the image is no sound station */
    GOREHIMU_TRANSACTION_ZERO = 3,  /* start, put, get, commit, step, abort: the transaction is 0 */
    GOREHIMU_KEY_RANGE = 4,         /* put, get: the key is above 63 */
    GOREHIMU_CLOCK_ZERO = 5,        /* commit: the clock is 0 */
    GOREHIMU_TAKEN = 6,             /* start: the transaction is live or held already */
    GOREHIMU_LIVE_FULL = 7,         /* start: eight transactions are live */
    GOREHIMU_NOT_LIVE = 8,          /* put, get, commit, step, abort: the transaction is not live (commit: nor held) */
    GOREHIMU_IS_CLOSING = 9,        /* put, get, commit, abort: the transaction is closing */
    GOREHIMU_NOT_CLOSING = 10,      /* step: the transaction is open */
    GOREHIMU_WRITES_FULL = 11,      /* put: the write set has 8 other keys (wide 16) */
    GOREHIMU_READS_FULL = 12,       /* get: a version would be answered, and the read set has 16 other keys */
    GOREHIMU_SLOTS_FULL = 13,       /* commit: the write set is not empty, and no slot of 64 (wide 32) is free: collect one, or sweep;
                                     * import: the stream has more than 64 transactions */
    GOREHIMU_NOT_HELD = 14,         /* collect: the slot is above 63 (wide 31), or holds no entry */
    GOREHIMU_NEWEST = 15,           /* collect: the entry is the newest for a key that it wrote */
    GOREHIMU_IS_READ = 16,          /* collect: a live transaction has read the entry */
    GOREHIMU_RECORD_CHANGED = 17,   /* get, collect: the record in the store is not the station's: the store was changed from outside */
    GOREHIMU_DAMAGED = 18,          /* scan, and a move or an export of its source: slot b, and none below it, breaks the format's rules or has the transaction of a
                                     * lower slot. A commit record of the other kind breaks them */
    GOREHIMU_MALFORMED = 19,        /* no request: an unknown verb, or a byte that must be 0 is not; a log: a line is not of the form, or a field not in
                                     * its range */
    GOREHIMU_LIMIT_RANGE = 20,      /* sweep: the limit is 0 or above 64, of either kind */
    GOREHIMU_NO_CLOCK = 21,         /* commit: the write set is not empty, and an entry or closing transaction has the last clock, 2^64 - 1: none is left */
    GOREHIMU_TOO_MANY_SLOTS = 22,   /* move out: more than 32 slots are committed: collect some, or sweep, and move then */
    GOREHIMU_TOO_MANY_KEYS = 23,    /* move back: a write set has more than 8 keys: put them anew in smaller transactions, collect it, and move then */
    GOREHIMU_NOT_A_STREAM = 27,     /* import: the bytes are not of the form, or not in its order, or have a transaction twice */
    GOREHIMU_LOG_LIMITS = 28        /* a log: a 65th ticket that writes or reads, a 9th key written or a 17th key read by one ticket */
};

/* Each function returns 0; or 1, with nothing written, where a length is wrong: image_len must be GOREHIMU_IMAGE, a request
 * GOREHIMU_REQUEST and an answer GOREHIMU_ANSWER bytes. A store of another length is not wrong by itself: the verbs that need the store
 * refuse it (1).
 *
 * A request: verb 1 byte, key 1, two zeros, transaction 4, number 8. An answer: kind, a, b, c, 8 bytes each. Least byte first.
 *
 * An image whose bytes are no station's (gorehimu_empty, gorehimu_recover, their like for wide stores and the calls make only such as are) is
 * taken too: every verb but scan is then refused, and the image stays as it is; scan takes the store for a narrow one. */

/* Makes image the empty station: that of a store of zeros, narrow or wide. */
uint32_t gorehimu_empty(uint8_t *image, size_t image_len);
uint32_t gorehimu_empty_wide(uint8_t *image, size_t image_len);

/* Reads the station off a store, as after a loss of power: image is then that station, answer is found, or refused with 1 or 18, and the
 * station empty, of the same kind. Nothing of the store is changed. */
uint32_t gorehimu_recover(uint8_t *image, size_t image_len, const uint8_t *store, size_t store_len, uint8_t *answer, size_t answer_len);
uint32_t gorehimu_recover_wide(uint8_t *image, size_t image_len, const uint8_t *store, size_t store_len, uint8_t *answer, size_t answer_len);

/* Carries out one request. */
uint32_t gorehimu_call(uint8_t *image, size_t image_len, uint8_t *store, size_t store_len, const uint8_t *request, size_t request_len,
                       uint8_t *answer, size_t answer_len);

/* Carries out any number of requests one after the other, as gorehimu_call would, in one crossing: the image is read and written once.
 * requests_len is a multiple of GOREHIMU_REQUEST, answers_len is GOREHIMU_ANSWER for each request. */
uint32_t gorehimu_run(uint8_t *image, size_t image_len, uint8_t *store, size_t store_len, const uint8_t *requests, size_t requests_len,
                      uint8_t *answers, size_t answers_len);

/* Copies what is committed in a narrow store into a wide one; and back. The committed slots, in ascending order, fill the target's from 0, with the
 * transactions, clocks and values that they had, and all else becomes zero, whatever the target held. The source is never written. The answer is
 * moved, or refused with 1, 18 (the slot in b), 22 on the way out or 23 on the way back; a refusal alters no byte of the target. They return 1 where
 * answer_len is wrong, and only there. */
uint32_t gorehimu_move_out(const uint8_t *narrow, size_t narrow_len, uint8_t *wide, size_t wide_len, uint8_t *answer, size_t answer_len);
uint32_t gorehimu_move_back(const uint8_t *wide, size_t wide_len, uint8_t *narrow, size_t narrow_len, uint8_t *answer, size_t answer_len);

/* What is committed in a narrow store as a RESP stream, over the front of the target, which has GOREHIMU_TARGET bytes; those past the stream stay as they
 * were. Each command is an array of three bulk strings: SET, a name, a value.
 *
 *   v/key/clock/transaction   the value, in decimal
 *   c/clock/transaction       the keys that the transaction wrote, ascending, parted by commas
 *
 * A transaction's versions, keys ascending, stand right before its commit; transactions come oldest first, by clock and then number. A stream has at most
 * 47,808 bytes. The answer is exported, or refused with 1 or 18 (the slot in b); then no byte of the target is written. The store is never written. It
 * returns 1 where answer_len is wrong, and only there. */
uint32_t gorehimu_export(const uint8_t *store, size_t store_len, uint8_t *target, size_t target_len, uint8_t *answer, size_t answer_len);

/* A narrow store from a stream of that form: the oldest transaction in slot 63, the next in 62, and all else zero, whatever the store held. The whole stream
 * is checked before the first byte of the store is written. The answer is imported, or refused with 1, with 27, or with 13 where it has the form and more than
 * 64 transactions; then no byte of the store is written. A stream of no bytes is good: it has no transaction. It returns 1 where answer_len is wrong, and
 * only there. */
uint32_t gorehimu_import(const uint8_t *stream, size_t stream_len, uint8_t *store, size_t store_len, uint8_t *answer, size_t answer_len);

/* The verdict on another shop's log: whether its readers saw read atomic isolation. It needs no image and no store. The log is lines of text, each
 * ended by a newline, which the last may lack, of at most 64 bytes, five fields parted by commas: kind,ticket,key,clock,author.
 *
 *   write,5,2,0,0       ticket 5 writes key 2
 *   commit,5,0,100,0    ticket 5 commits, with clock 100
 *   read,6,2,100,5      ticket 6 reads key 2, in the version of clock 100 by ticket 5
 *
 * Numbers are decimal without needless zeros: tickets 1 to 2^32 - 1, keys 0 to 63, clocks 1 to 2^64 - 1; fields that a kind does not name are 0.
 *
 * Lines go in turn, and the first that is refused or bad is the whole answer: clean; bad, the line in a; or refused with 19 or 28 in a and the line in
 * b. On one line 19 comes before 28, and 28 before bad. Bad is a write, a read or a second commit by a committed ticket; a commit with no write; and a
 * read whose author has no commit line above with that clock or did not write the key above, whose reader wrote the key above, that breaks the reader's
 * Atomic Readset (of two versions read, the older is of a key that the newer one's ticket wrote too), or that takes a key at a second version.
 *
 * A log of no bytes is clean. It returns 1 where answer_len is wrong, and only there. */
uint32_t gorehimu_check_log(const uint8_t *log, size_t log_len, uint8_t *answer, size_t answer_len);

/* ---- the bytes of a request, of an answer and of a store, for C ----
 *
 * These take numbers as wide as a caller may have them, and narrow none: what has no room in its field is refused. */

struct gorehimu_answer {
    uint64_t kind, a, b, c;
};

/* The number in n bytes; n is at most 8. */
static inline uint64_t gorehimu_number(const uint8_t *p, size_t n) {
    uint64_t x = 0;
    while (n > 0) x = x << 8 | p[--n];
    return x;
}

/* A number as n bytes. Returns 0; or 1, with nothing written, where n bytes do not hold it. */
static inline uint32_t gorehimu_put_number(uint8_t *p, size_t n, uint64_t x) {
    if (n < 8 && x >> 8 * n != 0) return 1;
    for (size_t i = 0; i < n; i++, x >>= 8) p[i] = (uint8_t)(x & 0xff);
    return 0;
}

/* A request. Returns 0; or 1, with nothing written, where the verb or the key is above 255 or the transaction above 2^32 - 1. */
static inline uint32_t gorehimu_write_request(uint8_t *p, uint64_t verb, uint64_t transaction, uint64_t key, uint64_t number) {
    if (verb > 0xff || transaction > 0xffffffff || key > 0xff) return 1;
    memset(p, 0, GOREHIMU_REQUEST);
    gorehimu_put_number(p, 1, verb);
    gorehimu_put_number(p + 1, 1, key);
    gorehimu_put_number(p + 4, 4, transaction);
    gorehimu_put_number(p + 8, 8, number);
    return 0;
}

static inline struct gorehimu_answer gorehimu_read_answer(const uint8_t *p) {
    struct gorehimu_answer a = {gorehimu_number(p, 8), gorehimu_number(p + 8, 8), gorehimu_number(p + 16, 8), gorehimu_number(p + 24, 8)};
    return a;
}

/* The verdict on a log of so many bytes. */
static inline struct gorehimu_answer gorehimu_log_verdict(const void *log, size_t log_len) {
    uint8_t answer[GOREHIMU_ANSWER];
    gorehimu_check_log((const uint8_t *)log, log_len, answer, sizeof answer);
    return gorehimu_read_answer(answer);
}

/* One request over a store of so many bytes and an image of its length. Where gorehimu_write_request refuses its fields, the answer is refused with
 * 19, as for any other request that asks nothing, and nothing is done. */
static inline struct gorehimu_answer gorehimu_ask_over(uint8_t *image, uint8_t *store, size_t store_len, uint64_t verb, uint64_t transaction,
                                                       uint64_t key, uint64_t number) {
    uint8_t request[GOREHIMU_REQUEST], answer[GOREHIMU_ANSWER];
    struct gorehimu_answer malformed = {GOREHIMU_REFUSED, GOREHIMU_MALFORMED, 0, 0};
    if (gorehimu_write_request(request, verb, transaction, key, number)) return malformed;
    gorehimu_call(image, GOREHIMU_IMAGE, store, store_len, request, sizeof request, answer, sizeof answer);
    return gorehimu_read_answer(answer);
}

/* Over a narrow store, and over a wide one. */
static inline struct gorehimu_answer gorehimu_ask(uint8_t *image, uint8_t *store, uint64_t verb, uint64_t transaction, uint64_t key,
                                                  uint64_t number) {
    return gorehimu_ask_over(image, store, GOREHIMU_STORE, verb, transaction, key, number);
}

static inline struct gorehimu_answer gorehimu_ask_wide(uint8_t *image, uint8_t *store, uint64_t verb, uint64_t transaction, uint64_t key,
                                                       uint64_t number) {
    return gorehimu_ask_over(image, store, GOREHIMU_WIDE_STORE, verb, transaction, key, number);
}

/* Where record n of a slot begins in a store of so many slots and so many records in each; its end, where there is no such record. */
static inline size_t gorehimu_place_of(uint64_t slots, uint64_t records, uint64_t slot, uint64_t n) {
    return (size_t)(GOREHIMU_RECORD * (slot < slots && n < records ? records * slot + n : records * slots));
}

/* In a narrow store; GOREHIMU_STORE where the slot is above 63 or n above 8. */
static inline size_t gorehimu_record_place(uint64_t slot, uint64_t n) {
    return gorehimu_place_of(64, 9, slot, n);
}

/* In a wide store; GOREHIMU_WIDE_STORE where the slot is above 31 or n above 16. */
static inline size_t gorehimu_record_place_wide(uint64_t slot, uint64_t n) {
    return gorehimu_place_of(32, 17, slot, n);
}

/* The slot whose commit record is the next to bring to where the store lasts, after a sweep or a collect; slots, their number, where there is none.
 * lasting is the host's copy of what lasts, as long as the store: of the slots that are committed there (with the kind's mark) and free in the store
 * (mark 0), the one of the oldest id, by clock and then transaction. */
static inline uint64_t gorehimu_cleared_of(uint64_t slots, uint64_t records, uint8_t mark, const uint8_t *store, const uint8_t *lasting) {
    uint64_t oldest = slots, clock = 0, transaction = 0;
    for (uint64_t slot = 0; slot < slots; slot++) {
        const size_t place = gorehimu_place_of(slots, records, slot, 0);
        if (lasting[place] != mark || store[place] != 0) continue;
        const uint64_t c = gorehimu_number(lasting + place + 8, 8), t = gorehimu_number(lasting + place + 4, 4);
        if (oldest < slots && (c > clock || (c == clock && t > transaction))) continue;
        oldest = slot, clock = c, transaction = t;
    }
    return oldest;
}

/* Of a narrow store (mark 1); 64 where there is none. */
static inline uint64_t gorehimu_cleared(const uint8_t *store, const uint8_t *lasting) {
    return gorehimu_cleared_of(64, 9, 1, store, lasting);
}

/* Of a wide store (mark 2); 32 where there is none. */
static inline uint64_t gorehimu_cleared_wide(const uint8_t *store, const uint8_t *lasting) {
    return gorehimu_cleared_of(32, 17, 2, store, lasting);
}

#ifdef __cplusplus
}
#endif

#endif

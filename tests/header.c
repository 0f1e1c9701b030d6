/* The header's helpers, for both kinds of store: nothing is narrowed, records lie where it says, the slots that a sweep cleared come oldest first, an
 * image of another version is refused, and where a length is 0 the pointer may be NULL; the moves; the check of a log. */
#include "gorehimu.h"
#include <stdio.h>

static int failures;

static void check(int holds, const char *what) {
    if (holds) return;
    fprintf(stderr, "tests/header.c: not so: %s\n", what);
    failures++;
}

#define CHECK(x) check(x, #x)

/* The helpers of a kind, and its numbers. */
struct kind {
    struct gorehimu_answer (*ask)(uint8_t *, uint8_t *, uint64_t, uint64_t, uint64_t, uint64_t);
    size_t (*place)(uint64_t, uint64_t);
    uint64_t (*cleared)(const uint8_t *, const uint8_t *);
    uint32_t (*empty)(uint8_t *, size_t);
    uint64_t slots, keys;
    uint8_t mark;
    size_t size;
};

static const struct kind narrow = {gorehimu_ask, gorehimu_record_place, gorehimu_cleared, gorehimu_empty, 64, 8, 1, GOREHIMU_STORE};
static const struct kind wide = {gorehimu_ask_wide, gorehimu_record_place_wide, gorehimu_cleared_wide, gorehimu_empty_wide, 32, 16, 2, GOREHIMU_WIDE_STORE};

/* A commit record as far as gorehimu_cleared reads it. */
static void commit_at(const struct kind *k, uint8_t *store, uint64_t slot, uint8_t mark, uint64_t clock, uint64_t transaction) {
    uint8_t *record = store + k->place(slot, 0);
    record[0] = mark;
    gorehimu_put_number(record + 4, 4, transaction);
    gorehimu_put_number(record + 8, 8, clock);
}

/* The slots that gorehimu_cleared gives, each brought to where the store lasts, come in this order. */
static int cleared_are(const struct kind *k, const uint8_t *store, uint8_t *lasting, const uint64_t *slots, size_t n) {
    for (size_t i = 0; i < n; i++) {
        if (k->cleared(store, lasting) != slots[i]) return 0;
        size_t place = k->place(slots[i], 0);
        memcpy(lasting + place, store + place, GOREHIMU_RECORD);
    }
    return k->cleared(store, lasting) == k->slots;
}

/* A whole transaction that puts so many keys from one on. */
static void whole(const struct kind *k, uint8_t *image, uint8_t *store, uint64_t transaction, uint64_t key, uint64_t keys, uint64_t clock) {
    k->ask(image, store, GOREHIMU_START, transaction, 0, 0);
    for (uint64_t i = 0; i < keys; i++) k->ask(image, store, GOREHIMU_PUT, transaction, key + i, 7);
    k->ask(image, store, GOREHIMU_COMMIT, transaction, 0, clock);
    while (k->ask(image, store, GOREHIMU_STEP, transaction, 0, 0).kind != GOREHIMU_REFUSED) {
    }
}

static void try_kind(const struct kind *k) {
    static uint8_t image[GOREHIMU_IMAGE], store[GOREHIMU_STORE], cleared[GOREHIMU_STORE], lasting[GOREHIMU_STORE], older[4544];
    const uint64_t most = ~(uint64_t)0, last = k->slots - 1;
    memset(store, 0, sizeof store);
    memset(cleared, 0, sizeof cleared);
    memset(lasting, 0, sizeof lasting);

    CHECK(k->place(0, 0) == 0 && k->place(0, k->keys) == 24 * k->keys && k->place(1, 0) == 24 * (k->keys + 1));
    CHECK(k->place(last - 1, 1) == 24 * ((k->keys + 1) * (last - 1) + 1));
    CHECK(k->place(last, k->keys) == k->size - GOREHIMU_RECORD);
    CHECK(k->place(k->slots, 0) == k->size && k->place(k->slots, 1) == k->size && k->place(0, k->keys + 1) == k->size && k->place(most, most) == k->size);

    /* by clock, then transaction, whichever the slot; a record that is no commit where the store lasts, or is one in the store, is none */
    const uint64_t by_id[] = {9, 5, last, 0, 20}, by_sweep[] = {last - 1, last};
    CHECK(k->cleared(cleared, lasting) == k->slots);
    commit_at(k, lasting, 0, k->mark, 300, 1);
    commit_at(k, lasting, 5, k->mark, 100, 7);
    commit_at(k, lasting, 9, k->mark, 100, 5);
    commit_at(k, lasting, 20, k->mark, most, 0xffffffff);
    commit_at(k, lasting, 21, 3 - k->mark, 1, 1);
    commit_at(k, lasting, 22, 0, 1, 1);
    commit_at(k, lasting, 24, k->mark, 2, 2);
    commit_at(k, cleared, 24, k->mark, 2, 2);
    commit_at(k, lasting, 25, k->mark, 3, 3);
    commit_at(k, cleared, 25, 3 - k->mark, 3, 3);
    commit_at(k, lasting, last, k->mark, 256, 2);
    CHECK(cleared_are(k, cleared, lasting, by_id, 5));

    /* the kind's limits; a store of the other kind's length is refused */
    const struct kind *other = k == &wide ? &narrow : &wide;
    CHECK(k->empty(NULL, 0) == 1 && k->empty(older, sizeof older) == 1 && k->empty(image, sizeof image) == 0 && image[0] == k->mark);
    CHECK(k->ask(image, store, GOREHIMU_START, 1, 0, 0).kind == GOREHIMU_STARTED);
    CHECK(k->ask(image, store, GOREHIMU_GET, 1, 0, 0).kind == GOREHIMU_NONE);
    CHECK(other->ask(image, store, GOREHIMU_GET, 1, 0, 0).a == GOREHIMU_STORE_LENGTH);
    for (uint64_t key = 0; key < k->keys; key++) CHECK(k->ask(image, store, GOREHIMU_PUT, 1, 2 * key, 5).kind == GOREHIMU_KEPT);
    CHECK(k->ask(image, store, GOREHIMU_PUT, 1, 2 * k->keys, 5).a == GOREHIMU_WRITES_FULL);
    CHECK(k->ask(image, store, GOREHIMU_COMMIT, 1, 0, 9).a == last);
    CHECK(k->ask(image, store, GOREHIMU_COLLECT, 0, k->slots, 0).a == GOREHIMU_NOT_HELD);
    CHECK(k->ask(image, store, GOREHIMU_COLLECT, 0, last, 0).a == GOREHIMU_NOT_HELD);
    while (k->ask(image, store, GOREHIMU_STEP, 1, 0, 0).kind != GOREHIMU_REFUSED) {
    }
    CHECK(k->ask(image, store, GOREHIMU_COLLECT, 0, last, 0).a == GOREHIMU_NEWEST);
    CHECK(store[k->place(last, 0)] == k->mark && store[k->place(last, 0) + 1] == k->keys && store[k->place(last, k->keys)] == 2 * (k->keys - 1));
    for (uint64_t slot = 0; slot < last; slot++) whole(k, image, store, 100 + slot, 1, 1, 9);
    CHECK(k->ask(image, store, GOREHIMU_START, 2, 0, 0).kind == GOREHIMU_STARTED);
    CHECK(k->ask(image, store, GOREHIMU_PUT, 2, 1, 0).kind == GOREHIMU_KEPT);
    CHECK(k->ask(image, store, GOREHIMU_COMMIT, 2, 0, 9).a == GOREHIMU_SLOTS_FULL);
    CHECK(other->ask(image, store, GOREHIMU_SCAN, 0, 0, 0).a == GOREHIMU_STORE_LENGTH && image[0] == k->mark);
    CHECK(k->ask(image, store, GOREHIMU_SCAN, 0, 0, 0).a == k->slots && image[0] == k->mark);

    /* a sweep: 8 has the slot that 9 had, and is newer than 6 */
    memset(store, 0, sizeof store);
    CHECK(k->empty(image, sizeof image) == 0);
    whole(k, image, store, 9, 1, 1, 200);
    whole(k, image, store, 6, 1, 1, 50);
    CHECK(k->ask(image, store, GOREHIMU_SWEEP, 0, 0, 64).a == 1);
    whole(k, image, store, 8, 1, 1, 100);
    whole(k, image, store, 7, 1, 1, 100);
    memcpy(lasting, store, sizeof lasting);
    CHECK(k->ask(image, store, GOREHIMU_SWEEP, 0, 0, 0).a == GOREHIMU_LIMIT_RANGE);
    CHECK(k->ask(image, store, GOREHIMU_SWEEP, 0, 0, 65).a == GOREHIMU_LIMIT_RANGE);
    CHECK(k->ask(image, store, GOREHIMU_SWEEP, 0, 0, most).a == GOREHIMU_LIMIT_RANGE);
    CHECK(k->ask(image, store, GOREHIMU_SWEEP, 1, 0, 1).a == GOREHIMU_MALFORMED);
    CHECK(k->ask(image, store, GOREHIMU_SWEEP, 0, 1, 1).a == GOREHIMU_MALFORMED);
    CHECK(k->ask(image, store, GOREHIMU_SWEEP + 1, 0, 0, 1).a == GOREHIMU_MALFORMED);
    CHECK(k->cleared(store, lasting) == k->slots);
    struct gorehimu_answer swept = k->ask(image, store, GOREHIMU_SWEEP, 0, 0, 64);
    CHECK(swept.kind == GOREHIMU_SWEPT && swept.a == 2 && swept.b == 0 && swept.c == 0);
    CHECK(cleared_are(k, store, lasting, by_sweep, 2) && memcmp(store, lasting, sizeof lasting) == 0);
    swept = k->ask(image, store, GOREHIMU_SWEEP, 0, 0, 64);
    CHECK(swept.kind == GOREHIMU_SWEPT && swept.a == 0);

    /* the clock given is the least that is taken; after the last there is none */
    struct gorehimu_answer done = k->ask(image, store, GOREHIMU_COMMIT, 7, 0, 1);
    CHECK(done.kind == GOREHIMU_DONE && done.b == 203 && done.c == 7);
    whole(k, image, store, 5, 1, 1, most);
    CHECK(k->ask(image, store, GOREHIMU_START, 4, 0, 0).kind == GOREHIMU_STARTED);
    CHECK(k->ask(image, store, GOREHIMU_PUT, 4, 1, 5).kind == GOREHIMU_KEPT);
    CHECK(k->ask(image, store, GOREHIMU_COMMIT, 4, 0, 1).a == GOREHIMU_NO_CLOCK);
}

typedef uint32_t mover(const uint8_t *, size_t, uint8_t *, size_t, uint8_t *, size_t);

/* What a move between two stores answers; where it is refused, no byte of the target is another. */
static struct gorehimu_answer moved(mover *move, const uint8_t *source, size_t source_len, uint8_t *target, size_t target_len) {
    static uint8_t answer[GOREHIMU_ANSWER], before[GOREHIMU_STORE];
    if (target_len > 0) memcpy(before, target, target_len);
    CHECK(move(source, source_len, target, target_len, answer, sizeof answer - 1) == 1);
    CHECK(target_len == 0 || memcmp(before, target, target_len) == 0);
    CHECK(move(source, source_len, target, target_len, answer, sizeof answer) == 0);
    CHECK(answer[0] == GOREHIMU_MOVED || (answer[0] == GOREHIMU_REFUSED && (target_len == 0 || memcmp(before, target, target_len) == 0)));
    return gorehimu_read_answer(answer);
}

static void try_moves(void) {
    static uint8_t image[GOREHIMU_IMAGE], answer[GOREHIMU_ANSWER], n[GOREHIMU_STORE], w[GOREHIMU_WIDE_STORE], back[GOREHIMU_STORE], again[GOREHIMU_WIDE_STORE];
    CHECK(gorehimu_empty(image, sizeof image) == 0);
    for (uint64_t t = 1; t <= 32; t++) whole(&narrow, image, n, t, t, t % 8 + 1, 10 * t);

    /* out: the slots from 0 are in the source's order, so the last transaction is first; a wide commit record has its keys as a number */
    struct gorehimu_answer r = moved(gorehimu_move_out, n, sizeof n, w, sizeof w);
    CHECK(r.kind == GOREHIMU_MOVED && r.a == 32 && r.b == 0 && r.c == 0);
    CHECK(gorehimu_number(w, 4) == 2 + 256 * 1 && gorehimu_number(w + 4, 4) == 32 && gorehimu_number(w + 8, 8) == 320);
    CHECK(gorehimu_number(w + 16, 8) == (uint64_t)1 << 32 && gorehimu_number(w + 24, 1) == 32 && gorehimu_number(w + 40, 8) == 7);
    CHECK(gorehimu_recover_wide(image, sizeof image, w, sizeof w, answer, sizeof answer) == 0);
    CHECK(answer[0] == GOREHIMU_FOUND && answer[8] == 32 && image[0] == 2);
    CHECK(gorehimu_ask_wide(image, w, GOREHIMU_COMMIT, 31, 0, 1).b == 310);

    /* whatever the target held; and back, from 0 again; and out once more */
    memset(again, 0xff, sizeof again);
    CHECK(moved(gorehimu_move_out, n, sizeof n, again, sizeof again).a == 32 && memcmp(w, again, sizeof w) == 0);
    memset(back, 0xff, sizeof back);
    CHECK(moved(gorehimu_move_back, w, sizeof w, back, sizeof back).a == 32);
    CHECK(memcmp(back, n + gorehimu_record_place(32, 0), sizeof back / 2) == 0 && back[gorehimu_record_place(32, 0)] == 0);
    memset(again, 0xff, sizeof again);
    CHECK(moved(gorehimu_move_out, back, sizeof back, again, sizeof again).a == 32 && memcmp(w, again, sizeof w) == 0);
    CHECK(gorehimu_recover(image, sizeof image, back, sizeof back, answer, sizeof answer) == 0 && answer[0] == GOREHIMU_FOUND && answer[8] == 32);

    /* refused */
    CHECK(moved(gorehimu_move_out, NULL, 0, NULL, 0).a == GOREHIMU_STORE_LENGTH && moved(gorehimu_move_back, NULL, 0, NULL, 0).a == GOREHIMU_STORE_LENGTH);
    CHECK(moved(gorehimu_move_out, n, sizeof n - 1, w, sizeof w).a == GOREHIMU_STORE_LENGTH);
    CHECK(moved(gorehimu_move_out, n, sizeof n, back, sizeof back).a == GOREHIMU_STORE_LENGTH);
    CHECK(moved(gorehimu_move_back, back, sizeof back, n, sizeof n).a == GOREHIMU_STORE_LENGTH);
    CHECK(moved(gorehimu_move_back, w, sizeof w, again, sizeof again).a == GOREHIMU_STORE_LENGTH);
    whole(&narrow, image, back, 33, 0, 1, 1);
    CHECK(moved(gorehimu_move_out, back, sizeof back, w, sizeof w).a == GOREHIMU_TOO_MANY_SLOTS);
    back[gorehimu_record_place(40, 0)] = 2;
    r = moved(gorehimu_move_out, back, sizeof back, w, sizeof w);
    CHECK(r.a == GOREHIMU_DAMAGED && r.b == 40);
    memset(w, 0, sizeof w);
    CHECK(gorehimu_empty_wide(image, sizeof image) == 0);
    whole(&wide, image, w, 1, 0, 8, 1);
    CHECK(moved(gorehimu_move_back, w, sizeof w, n, sizeof n).a == 1 && n[0] == 1);
    whole(&wide, image, w, 2, 0, 9, 1);
    CHECK(moved(gorehimu_move_back, w, sizeof w, n, sizeof n).a == GOREHIMU_TOO_MANY_KEYS);
    w[gorehimu_record_place_wide(20, 0)] = 1;
    r = moved(gorehimu_move_back, w, sizeof w, n, sizeof n);
    CHECK(r.a == GOREHIMU_DAMAGED && r.b == 20);

    /* a wide store that is damaged has an empty station of its kind; an image that is no station's is taken for a narrow store's */
    CHECK(gorehimu_recover_wide(image, sizeof image, w, sizeof w, answer, sizeof answer) == 0);
    CHECK(gorehimu_read_answer(answer).a == GOREHIMU_DAMAGED && gorehimu_read_answer(answer).b == 20 && image[0] == 2);
    memset(image, 0xff, sizeof image);
    CHECK(gorehimu_ask_wide(image, w, GOREHIMU_SCAN, 0, 0, 0).a == GOREHIMU_STORE_LENGTH && image[0] == 1);
    memset(image, 0xff, sizeof image);
    CHECK(gorehimu_ask(image, n, GOREHIMU_SCAN, 0, 0, 0).kind == GOREHIMU_FOUND && image[0] == 1);
}

static int said(const char *log, uint64_t kind, uint64_t a, uint64_t b) {
    struct gorehimu_answer r = gorehimu_log_verdict(log, strlen(log));
    return r.kind == kind && r.a == a && r.b == b && r.c == 0;
}

static void try_log(void) {
    static const char day[] = "write,5,2,0,0\nwrite,5,3,0,0\ncommit,5,0,100,0\nread,6,2,100,5\n";
    uint8_t answer[GOREHIMU_ANSWER + 1];
    struct gorehimu_answer none = gorehimu_log_verdict(NULL, 0);
    CHECK(none.kind == GOREHIMU_CLEAN && none.a == 0 && none.b == 0 && none.c == 0);
    CHECK(said(day, GOREHIMU_CLEAN, 0, 0));
    CHECK(said("write,5,2,0,0\nread,6,2,100,5", GOREHIMU_BAD, 2, 0));
    CHECK(said("write,5,2,0,0\nwrite,5,64,0,0\n", GOREHIMU_REFUSED, GOREHIMU_MALFORMED, 2));
    CHECK(said("write,5,0,0,0\nwrite,5,1,0,0\nwrite,5,2,0,0\nwrite,5,3,0,0\nwrite,5,4,0,0\nwrite,5,5,0,0\nwrite,5,6,0,0\nwrite,5,7,0,0\nwrite,5,8,0,0",
               GOREHIMU_REFUSED, GOREHIMU_LOG_LIMITS, 9));

    /* an answer of another length: 1, and nothing is written */
    memset(answer, 7, sizeof answer);
    CHECK(gorehimu_check_log((const uint8_t *)day, sizeof day - 1, answer, GOREHIMU_ANSWER - 1) == 1 && answer[0] == 7);
    CHECK(gorehimu_check_log((const uint8_t *)day, sizeof day - 1, answer, GOREHIMU_ANSWER + 1) == 1 && answer[0] == 7);
    CHECK(gorehimu_check_log((const uint8_t *)day, sizeof day - 1, NULL, 0) == 1);
    CHECK(gorehimu_check_log((const uint8_t *)day, sizeof day - 1, answer, GOREHIMU_ANSWER) == 0 && answer[0] == GOREHIMU_CLEAN && answer[GOREHIMU_ANSWER] == 7);
}

int main(void) {
    static uint8_t image[GOREHIMU_IMAGE], store[GOREHIMU_STORE], bytes[GOREHIMU_REQUEST], answer[GOREHIMU_ANSWER], version_1[4800], version_2[4544];
    const uint64_t most = ~(uint64_t)0;

    CHECK(gorehimu_put_number(bytes, 1, 256) == 1 && gorehimu_put_number(bytes, 4, (uint64_t)1 << 32) == 1 && bytes[0] == 0);
    CHECK(gorehimu_put_number(bytes, 8, most) == 0 && gorehimu_number(bytes, 8) == most && gorehimu_number(bytes, 4) == 0xffffffff);
    memset(bytes, 0, sizeof bytes);

    CHECK(gorehimu_write_request(bytes, 257, 1, 0, 0) == 1 && bytes[0] == 0);
    CHECK(gorehimu_write_request(bytes, GOREHIMU_PUT, 1, 256, 0) == 1 && bytes[0] == 0);
    CHECK(gorehimu_write_request(bytes, GOREHIMU_START, (uint64_t)1 << 32, 0, 0) == 1 && bytes[0] == 0);
    CHECK(gorehimu_write_request(bytes, 255, 0xffffffff, 255, most) == 0 && bytes[0] == 255 && bytes[1] == 255 && bytes[15] == 255);

    /* an image of version 1 is no image, whatever its bytes */
    CHECK(GOREHIMU_IMAGE == 4552 && GOREHIMU_IMAGE_VERSION == 3);
    CHECK(gorehimu_empty(version_1, sizeof version_1) == 1);
    CHECK(gorehimu_recover(version_1, sizeof version_1, store, sizeof store, answer, sizeof answer) == 1);
    CHECK(gorehimu_empty(version_2, sizeof version_2) == 1);
    CHECK(gorehimu_recover(version_2, sizeof version_2, store, sizeof store, answer, sizeof answer) == 1);
    CHECK(gorehimu_recover_wide(version_2, sizeof version_2, store, GOREHIMU_WIDE_STORE, answer, sizeof answer) == 1);
    CHECK(gorehimu_recover_wide(image, sizeof image, store, GOREHIMU_WIDE_STORE, answer, sizeof answer - 1) == 1 && image[0] == 0);

    CHECK(gorehimu_empty(NULL, 0) == 1);
    CHECK(gorehimu_empty(image, sizeof image) == 0);
    CHECK(gorehimu_run(image, sizeof image, NULL, 0, NULL, 0, NULL, 0) == 0);
    CHECK(gorehimu_ask(image, store, 257, 1, 0, 0).a == GOREHIMU_MALFORMED);
    CHECK(gorehimu_ask(image, store, GOREHIMU_START, (uint64_t)1 << 32, 0, 0).a == GOREHIMU_MALFORMED);
    CHECK(gorehimu_ask(image, store, GOREHIMU_START, 0, 1, 0).a == GOREHIMU_MALFORMED);
    CHECK(gorehimu_ask(image, store, GOREHIMU_START, 0, 0, 0).a == GOREHIMU_TRANSACTION_ZERO);
    CHECK(gorehimu_ask(image, store, GOREHIMU_START, 1, 0, 0).kind == GOREHIMU_STARTED);
    CHECK(gorehimu_ask(image, store, GOREHIMU_PUT, 1, 255, 5).a == GOREHIMU_KEY_RANGE);
    CHECK(gorehimu_ask(image, store, GOREHIMU_PUT, 1, 256, 5).a == GOREHIMU_MALFORMED);
    CHECK(gorehimu_ask(image, store, GOREHIMU_COLLECT, 0, 64, 0).a == GOREHIMU_NOT_HELD);

    CHECK(GOREHIMU_WIDE_STORE == 32 * 17 * GOREHIMU_RECORD && GOREHIMU_WIDE_STORE == 13056 && GOREHIMU_MOVED == 17);
    CHECK(GOREHIMU_TOO_MANY_SLOTS == 22 && GOREHIMU_TOO_MANY_KEYS == 23);
    try_kind(&narrow);
    try_kind(&wide);
    try_moves();
    try_log();
    return failures != 0;
}

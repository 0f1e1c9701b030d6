/* A day at the desk, in C: a job is committed, power goes while the next one closes, and a scan starts the desk again; a reader is told which
 * of its reads is in the way; at shift change the old jobs are swept, and power goes in the middle of that. The host's disk is an array beside
 * the store: each record goes there, 24 bytes at a time, when it is written and before the next request. */
#include "gorehimu.h"
#include <stdio.h>

static const char *const kinds[] = {"?",    "started", "kept",   "own",     "version", "none",      "nofit", "closing",
                                    "empty", "done",    "stored", "slipped", "dropped", "collected", "found", "refused", "swept"};

static uint8_t store[GOREHIMU_STORE];
static uint8_t image[GOREHIMU_IMAGE];
static uint8_t disk[GOREHIMU_STORE];

static struct gorehimu_answer told(const char *what, struct gorehimu_answer r) {
    printf("%-28s %s %llu %llu %llu\n", what, kinds[r.kind], (unsigned long long)r.a, (unsigned long long)r.b, (unsigned long long)r.c);
    return r;
}

static struct gorehimu_answer say(const char *what, uint64_t verb, uint64_t transaction, uint64_t key, uint64_t number) {
    return told(what, gorehimu_ask(image, store, verb, transaction, key, number));
}

/* Brings record n of a slot to the disk. */
static void keep(uint64_t slot, uint64_t n) {
    size_t place = gorehimu_record_place(slot, n);
    if (place < GOREHIMU_STORE) memcpy(disk + place, store + place, GOREHIMU_RECORD);
}

/* A step of a transaction that closes in a slot, n of its version records being stored; returns how many are then, or -1 after the last step. */
static int step(uint64_t transaction, uint64_t slot, int n) {
    switch (say("step", GOREHIMU_STEP, transaction, 0, 0).kind) {
    case GOREHIMU_STORED:
        keep(slot, (uint64_t)++n);
        return n;
    case GOREHIMU_SLIPPED:
        keep(slot, 0);
        return n;
    default:
        return -1;
    }
}

/* Steps until the transaction is acknowledged. */
static void close_all(uint64_t transaction, struct gorehimu_answer closing) {
    for (int n = 0; n >= 0; n = step(transaction, closing.a, n)) {
    }
}

/* Brings the next commit record that was cleared to the disk, oldest id first; returns 0 where there is none. */
static int keep_cleared(void) {
    uint64_t slot = gorehimu_cleared(store, disk);
    if (slot > 63) return 0;
    keep(slot, 0);
    printf("%-28s slot %llu\n", "brought", (unsigned long long)slot);
    return 1;
}

/* Power went: the disk is what is left. */
static int start_again(void) {
    uint8_t answer[GOREHIMU_ANSWER];
    memcpy(store, disk, sizeof store);
    if (gorehimu_recover(image, sizeof image, store, sizeof store, answer, sizeof answer)) return 1;
    printf("%-28s %s %llu\n", "recover", kinds[answer[0]], (unsigned long long)gorehimu_read_answer(answer).a);
    return 0;
}

int main(void) {
    if (gorehimu_empty(image, sizeof image)) return 1;
    say("start 1", GOREHIMU_START, 1, 0, 0);
    say("put copies", GOREHIMU_PUT, 1, 0, 400);
    say("put counter", GOREHIMU_PUT, 1, 1, 7);
    close_all(1, say("commit at 100", GOREHIMU_COMMIT, 1, 0, 100));

    say("start 2", GOREHIMU_START, 2, 0, 0);
    say("put counter", GOREHIMU_PUT, 2, 1, 8);
    struct gorehimu_answer closing = say("commit at 101", GOREHIMU_COMMIT, 2, 0, 101);
    step(2, closing.a, 0);

    /* power goes: what image and store held is lost, the disk is as it is */
    memset(image, 0xff, sizeof image);
    memset(store, 0xff, sizeof store);
    say("start 3, no station", GOREHIMU_START, 3, 0, 0);
    if (start_again()) return 1;
    say("start 3", GOREHIMU_START, 3, 0, 0);
    say("get counter", GOREHIMU_GET, 3, 1, 0);
    say("get copies", GOREHIMU_GET, 3, 0, 0);
    say("commit 1 again", GOREHIMU_COMMIT, 1, 0, 999);
    if (say("commit 2, lost", GOREHIMU_COMMIT, 2, 0, 101).a != GOREHIMU_NOT_LIVE) return 1;
    say("abort 3", GOREHIMU_ABORT, 3, 0, 0);

    /* a newer job over the same keys: the older one's slot can be freed */
    say("start 4", GOREHIMU_START, 4, 0, 0);
    say("put copies", GOREHIMU_PUT, 4, 0, 250);
    say("put counter", GOREHIMU_PUT, 4, 1, 8);
    if (say("put 256, no key", GOREHIMU_PUT, 4, 256, 1).a != GOREHIMU_MALFORMED) return 1;
    close_all(4, say("commit at 102", GOREHIMU_COMMIT, 4, 0, 102));
    if (say("collect 63", GOREHIMU_COLLECT, 0, 63, 0).kind == GOREHIMU_COLLECTED) keep(63, 0);

    /* a reader has the counter; a job moves it and names a price for the first time: no price fits the counter that was read */
    say("start 5", GOREHIMU_START, 5, 0, 0);
    say("get counter", GOREHIMU_GET, 5, 1, 0);
    say("start 6", GOREHIMU_START, 6, 0, 0);
    say("put counter", GOREHIMU_PUT, 6, 1, 9);
    say("put price", GOREHIMU_PUT, 6, 2, 250);
    close_all(6, say("commit at 103", GOREHIMU_COMMIT, 6, 0, 103));
    struct gorehimu_answer price = say("get price", GOREHIMU_GET, 5, 2, 0);
    if (price.kind != GOREHIMU_NOFIT) return 1;
    say("abort 5", GOREHIMU_ABORT, 5, 0, 0);
    say("start 7", GOREHIMU_START, 7, 0, 0);
    say("get what was in the way", GOREHIMU_GET, 7, price.a, 0);
    say("get price", GOREHIMU_GET, 7, 2, 0);

    /* shift change: two more jobs, then in one batch the reader goes and what is old is swept; the reader had kept the job that it read */
    say("start 8", GOREHIMU_START, 8, 0, 0);
    say("put copies", GOREHIMU_PUT, 8, 0, 300);
    say("put counter", GOREHIMU_PUT, 8, 1, 10);
    close_all(8, say("commit at 104", GOREHIMU_COMMIT, 8, 0, 104));
    say("start 9", GOREHIMU_START, 9, 0, 0);
    say("put price", GOREHIMU_PUT, 9, 2, 260);
    close_all(9, say("commit at 105", GOREHIMU_COMMIT, 9, 0, 105));
    uint8_t requests[2 * GOREHIMU_REQUEST], answers[2 * GOREHIMU_ANSWER];
    gorehimu_write_request(requests, GOREHIMU_ABORT, 7, 0, 0);
    gorehimu_write_request(requests + GOREHIMU_REQUEST, GOREHIMU_SWEEP, 0, 0, 64);
    if (gorehimu_run(image, sizeof image, store, sizeof store, requests, sizeof requests, answers, sizeof answers)) return 1;
    told("abort 7", gorehimu_read_answer(answers));
    told("sweep, at most 64", gorehimu_read_answer(answers + GOREHIMU_ANSWER));

    /* power goes when the first of its two records is on the disk: that collect is done, the other was not begun. Again, one at a time */
    keep_cleared();
    if (start_again()) return 1;
    struct gorehimu_answer swept;
    do {
        swept = say("sweep, at most 1", GOREHIMU_SWEEP, 0, 0, 1);
        while (keep_cleared()) {
        }
    } while (swept.kind == GOREHIMU_SWEPT && swept.a > 0);
    printf("%-28s %s\n", "disk", memcmp(disk, store, sizeof store) == 0 ? "as the store" : "not as the store");

    /* the desk's clock was set back by an hour: a clock given is the least that is taken, so the price just made is the one read */
    say("start 10", GOREHIMU_START, 10, 0, 0);
    say("put price", GOREHIMU_PUT, 10, 2, 270);
    close_all(10, say("commit at 45", GOREHIMU_COMMIT, 10, 0, 45));
    say("start 11", GOREHIMU_START, 11, 0, 0);
    say("get price", GOREHIMU_GET, 11, 2, 0);
    return start_again();
}

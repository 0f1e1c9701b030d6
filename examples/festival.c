/* The week of the festival, in C. A shop with a narrow store takes a job that changes 16 records: it moves out to a wide store, power goes while the
 * job closes, and it is done again. It moves back when smaller jobs have put those records anew and the big one is swept. Each of the two stores
 * has a disk, an array beside it: each record goes there, 24 bytes at a time, when it is written and before the next request. */
#include "gorehimu.h"
#include <stdio.h>

static const char *const kinds[] = {"?",    "started", "kept",    "own",     "version",   "none",  "nofit",   "closing", "empty",
                                    "done", "stored",  "slipped", "dropped", "collected", "found", "refused", "swept",   "moved"};

static uint8_t image[GOREHIMU_IMAGE];
static uint8_t narrow[GOREHIMU_STORE], narrow_disk[GOREHIMU_STORE];
static uint8_t wide[GOREHIMU_WIDE_STORE], wide_disk[GOREHIMU_WIDE_STORE];
/* The note that says which of the two is the shop's store. It lasts, as the disks do. */
static int is_wide;

static struct gorehimu_answer told(const char *what, struct gorehimu_answer r) {
    printf("%-36s %s %llu %llu %llu\n", what, kinds[r.kind], (unsigned long long)r.a, (unsigned long long)r.b, (unsigned long long)r.c);
    return r;
}

static struct gorehimu_answer ask(uint64_t verb, uint64_t transaction, uint64_t key, uint64_t number) {
    return is_wide ? gorehimu_ask_wide(image, wide, verb, transaction, key, number) : gorehimu_ask(image, narrow, verb, transaction, key, number);
}

/* Brings record n of a slot to the disk. */
static void keep(uint64_t slot, uint64_t n) {
    size_t place = is_wide ? gorehimu_record_place_wide(slot, n) : gorehimu_record_place(slot, n);
    if (is_wide && place < sizeof wide) memcpy(wide_disk + place, wide + place, GOREHIMU_RECORD);
    if (!is_wide && place < sizeof narrow) memcpy(narrow_disk + place, narrow + place, GOREHIMU_RECORD);
}

/* Starts a job and puts keys first to last, as far as they are kept. */
static void put_keys(uint64_t transaction, uint64_t first, uint64_t last) {
    char what[96];
    uint64_t key = first;
    struct gorehimu_answer r = ask(GOREHIMU_START, transaction, 0, 0);
    while (key <= last && (r = ask(GOREHIMU_PUT, transaction, key, 100 * transaction + key)).kind == GOREHIMU_KEPT) key++;
    snprintf(what, sizeof what, "job %d, keys %d to %d: %d kept", (int)transaction, (int)first, (int)last, (int)(key - first));
    told(what, r);
}

/* Commits a job, and steps until it is acknowledged or so many of its records are on the disk. */
static void close_job(uint64_t transaction, uint64_t clock, uint64_t records) {
    char what[96];
    uint64_t brought = 0;
    struct gorehimu_answer closing = told("commit", ask(GOREHIMU_COMMIT, transaction, 0, clock)), r = closing;
    while (closing.kind == GOREHIMU_CLOSING && brought < records) {
        r = ask(GOREHIMU_STEP, transaction, 0, 0);
        if (r.kind != GOREHIMU_STORED && r.kind != GOREHIMU_SLIPPED) break;
        brought++;
        keep(closing.a, r.kind == GOREHIMU_STORED ? brought : 0);
    }
    snprintf(what, sizeof what, "steps, %d records brought", (int)brought);
    told(what, r);
}

/* A whole job: none has 18 records. */
static void job(uint64_t transaction, uint64_t first, uint64_t last, uint64_t clock) {
    put_keys(transaction, first, last);
    close_job(transaction, clock, 18);
}

/* Power went: the disks and the note are what is left. */
static int start_again(void) {
    uint8_t answer[GOREHIMU_ANSWER];
    memcpy(narrow, narrow_disk, sizeof narrow);
    memcpy(wide, wide_disk, sizeof wide);
    if (is_wide ? gorehimu_recover_wide(image, sizeof image, wide, sizeof wide, answer, sizeof answer)
                : gorehimu_recover(image, sizeof image, narrow, sizeof narrow, answer, sizeof answer))
        return 1;
    told(is_wide ? "recover, wide" : "recover, narrow", gorehimu_read_answer(answer));
    return 0;
}

/* Moves into the store that is not in use. The disk and the note are the caller's. */
static struct gorehimu_answer move(void) {
    uint8_t answer[GOREHIMU_ANSWER];
    if (is_wide)
        gorehimu_move_back(wide, sizeof wide, narrow, sizeof narrow, answer, sizeof answer);
    else
        gorehimu_move_out(narrow, sizeof narrow, wide, sizeof wide, answer, sizeof answer);
    return told(is_wide ? "move back" : "move out", gorehimu_read_answer(answer));
}

int main(void) {
    if (gorehimu_empty(image, sizeof image)) return 1;
    job(1, 0, 1, 100);
    job(2, 2, 3, 101);

    /* the festival's job has 16 keys: a narrow store refuses the ninth */
    put_keys(3, 0, 15);

    /* out. Power goes when half of the target is on its disk: the note still says narrow, and the move is begun again */
    if (move().kind != GOREHIMU_MOVED) return 1;
    memcpy(wide_disk, wide, sizeof wide / 2);
    if (start_again() || move().kind != GOREHIMU_MOVED) return 1;
    memcpy(wide_disk, wide, sizeof wide);
    is_wide = 1;
    if (start_again()) return 1;
    told("commit 1 again", ask(GOREHIMU_COMMIT, 1, 0, 100));

    /* the job again. Power goes when 10 of its records are on the disk: nothing of it is found */
    put_keys(3, 0, 15);
    close_job(3, 102, 10);
    if (start_again()) return 1;
    told("commit 3, lost", ask(GOREHIMU_COMMIT, 3, 0, 102));
    job(3, 0, 15, 102);

    /* back: not while it is there. Smaller jobs put its keys anew, and the old ones are swept; each record cleared goes to the disk, oldest first */
    if (move().a != GOREHIMU_TOO_MANY_KEYS) return 1;
    job(4, 0, 7, 103);
    job(5, 8, 15, 104);
    told("sweep, at most 64", ask(GOREHIMU_SWEEP, 0, 0, 64));
    for (uint64_t slot; (slot = gorehimu_cleared_wide(wide, wide_disk)) < 32; keep(slot, 0)) printf("brought, slot %d\n", (int)slot);
    if (memcmp(wide, wide_disk, sizeof wide) != 0 || move().kind != GOREHIMU_MOVED) return 1;
    memcpy(narrow_disk, narrow, sizeof narrow);
    is_wide = 0;
    if (start_again()) return 1;
    told("start 6", ask(GOREHIMU_START, 6, 0, 0));
    told("get 0", ask(GOREHIMU_GET, 6, 0, 0));
    told("get 15", ask(GOREHIMU_GET, 6, 15, 0));
    return 0;
}

/* A shop's records for the web desk, in C: what is committed goes out as the commands that Redis takes, and comes back into another store. */
#include "gorehimu.h"
#include <stdio.h>

static uint8_t image[GOREHIMU_IMAGE], store[GOREHIMU_STORE], other[GOREHIMU_STORE], stream[GOREHIMU_TARGET];

/* A ticket that changes the counter, key 0, and the stock, key 1, together. */
static void reprint(uint64_t ticket, uint64_t clock) {
    gorehimu_ask(image, store, GOREHIMU_START, ticket, 0, 0);
    gorehimu_ask(image, store, GOREHIMU_PUT, ticket, 0, 100 * ticket);
    gorehimu_ask(image, store, GOREHIMU_PUT, ticket, 1, 900 - 100 * ticket);
    gorehimu_ask(image, store, GOREHIMU_COMMIT, ticket, 0, clock);
    while (gorehimu_ask(image, store, GOREHIMU_STEP, ticket, 0, 0).kind != GOREHIMU_DONE) {
    }
}

static struct gorehimu_answer imported(size_t len) {
    uint8_t answer[GOREHIMU_ANSWER];
    gorehimu_import(stream, len, other, sizeof other, answer, sizeof answer);
    return gorehimu_read_answer(answer);
}

int main(void) {
    uint8_t answer[GOREHIMU_ANSWER];
    gorehimu_empty(image, sizeof image);
    reprint(1, 100);
    reprint(2, 101);

    gorehimu_export(store, sizeof store, stream, sizeof stream, answer, sizeof answer);
    struct gorehimu_answer r = gorehimu_read_answer(answer);
    size_t len = (size_t)r.a;
    printf("exported, %llu bytes:\n", (unsigned long long)r.a);
    for (size_t i = 0; i < len; i++)
        if (stream[i] != '\r') putchar(stream[i]);

    /* a stream that lost a byte is none, and the other store is not touched */
    r = imported(len - 1);
    printf("without its last byte: refused,%llu\n", (unsigned long long)r.a);

    r = imported(len);
    printf("imported, %llu transactions\n", (unsigned long long)r.a);
    gorehimu_recover(image, sizeof image, other, sizeof other, answer, sizeof answer);
    gorehimu_ask(image, other, GOREHIMU_START, 3, 0, 0);
    for (uint64_t key = 0; key < 2; key++) {
        r = gorehimu_ask(image, other, GOREHIMU_GET, 3, key, 0);
        printf("key %llu: %llu, by %llu at %llu\n", (unsigned long long)key, (unsigned long long)r.a, (unsigned long long)r.c, (unsigned long long)r.b);
    }
    return 0;
}

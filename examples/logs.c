/* Two shops' logs, in C. Our own day, written down as it goes: a line for each put that is kept, each version that is read and each transaction that is
 * done. Then the partner's, where a reader has seen half of a reprint. Both are judged by the same rule. */
#include "gorehimu.h"
#include <stdio.h>

static uint8_t image[GOREHIMU_IMAGE], store[GOREHIMU_STORE];
static char day[1024];
static size_t used;

/* A line of our log: kind,ticket,key,clock,author. */
static void note(const char *kind, uint64_t ticket, uint64_t key, uint64_t clock, uint64_t author) {
    int n = snprintf(day + used, sizeof day - used, "%s,%llu,%llu,%llu,%llu\n", kind, (unsigned long long)ticket, (unsigned long long)key,
                     (unsigned long long)clock, (unsigned long long)author);
    if (n > 0 && (size_t)n < sizeof day - used) used += (size_t)n;
}

static struct gorehimu_answer ask(uint64_t verb, uint64_t ticket, uint64_t key, uint64_t number) {
    struct gorehimu_answer r = gorehimu_ask(image, store, verb, ticket, key, number);
    if (r.kind == GOREHIMU_KEPT) note("write", ticket, key, 0, 0);
    if (r.kind == GOREHIMU_VERSION) note("read", ticket, key, r.b, r.c);
    if (r.kind == GOREHIMU_DONE) note("commit", ticket, 0, r.b, 0);
    return r;
}

/* A ticket that changes the counter, key 0, and the stock, key 1, together. */
static void reprint(uint64_t ticket, uint64_t clock) {
    ask(GOREHIMU_START, ticket, 0, 0);
    ask(GOREHIMU_PUT, ticket, 0, 100 * ticket);
    ask(GOREHIMU_PUT, ticket, 1, 900 - 100 * ticket);
    ask(GOREHIMU_COMMIT, ticket, 0, clock);
    while (ask(GOREHIMU_STEP, ticket, 0, 0).kind != GOREHIMU_DONE) {
    }
}

static void told(const char *whose, const char *log, size_t len) {
    struct gorehimu_answer r = gorehimu_log_verdict(log, len);
    printf("%s:\n%.*s%s", whose, (int)len, log, len > 0 && log[len - 1] == '\n' ? "" : "\n");
    if (r.kind == GOREHIMU_CLEAN) printf("clean\n");
    if (r.kind == GOREHIMU_BAD) printf("bad,%llu\n", (unsigned long long)r.a);
    if (r.kind == GOREHIMU_REFUSED) printf("refused,%llu,%llu\n", (unsigned long long)r.a, (unsigned long long)r.b);
}

int main(void) {
    static const char partner[] = "write,1,0,0,0\nwrite,1,1,0,0\ncommit,1,0,100,0\n"
                                  "write,2,0,0,0\nwrite,2,1,0,0\ncommit,2,0,101,0\n"
                                  "read,3,0,101,2\nread,3,1,100,1\n";
    gorehimu_empty(image, sizeof image);
    reprint(1, 100);
    ask(GOREHIMU_START, 3, 0, 0);
    ask(GOREHIMU_GET, 3, 0, 0);
    reprint(2, 101);
    ask(GOREHIMU_GET, 3, 1, 0);
    told("ours", day, used);
    told("the partner's", partner, sizeof partner - 1);
    told("the partner's, cut short in a line", partner, sizeof partner - 4);
    return 0;
}

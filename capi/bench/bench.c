/* Times libanb: bench <role> <values> <role> <values> <rounds>, of two roles that talk to each other. Prints microseconds
 * of an opening and of a whole run of both, and messages a second between them. bench/library.py runs it. */
#include <anb.h>
#include <stdio.h>
#include <stdlib.h>
#include <string.h>
#include <time.h>

typedef struct { uint8_t *bytes; size_t len; } text;

static double now(void) {
    struct timespec t;
    clock_gettime(CLOCK_MONOTONIC, &t);
    return (double)t.tv_sec + (double)t.tv_nsec * 1e-9;
}

static text file(const char *name) {
    text t = { malloc(1 << 20), 0 };
    FILE *in = fopen(name, "rb");
    if (!in || !t.bytes) { perror(name); exit(2); }
    t.len = fread(t.bytes, 1, 1 << 20, in);
    fclose(in);
    return t;
}

static void owe(int32_t status, int32_t due) {
    if (status != due) { fprintf(stderr, "status %d in place of %d\n", status, due); exit(1); }
}

static uint8_t seed[ANB_SEED_LEN] = { 1 }, out[ANB_ARRIVAL_MAX];
static size_t len;
static uint32_t event, instruction;

static int32_t next(anb_session *s) { return anb_next(s, out, sizeof out, &len, &event, &instruction); }
static void open(anb_session *s, text role, text values) {
    owe(anb_open(s, role.bytes, role.len, values.bytes, values.len, seed, sizeof seed), ANB_DONE);
}

/* Carries messages between both roles until neither goes on; tells how many. */
static long carry(anb_session s[2]) {
    long messages = 0;
    for (int i = 0, idle = 0; idle < 2; i = 1 - i) {
        int32_t status;
        for (idle++; (status = next(&s[i])) == ANB_MESSAGE; idle = 0, messages++) {
            uint8_t spare[1];
            size_t ignored;
            owe(anb_next(&s[1 - i], spare, sizeof spare, &ignored, &event, &instruction), ANB_WAITING);
            owe(anb_arrive(&s[1 - i], out, len), ANB_DONE);
        }
        if (status != ANB_DONE && status != ANB_WAITING) owe(status, ANB_DONE);
    }
    return messages;
}

int main(int argc, char **argv) {
    if (argc < 6) return 2;
    int rounds = atoi(argv[5]);
    text role[2] = { file(argv[1]), file(argv[3]) }, values[2] = { file(argv[2]), file(argv[4]) };
    double opening = 0, running = 0, whole = now();
    long messages = 0;
    for (int i = 0; i < rounds; i++) {
        anb_session s[2] = { ANB_SESSION_INIT, ANB_SESSION_INIT };
        double start = now();
        open(&s[0], role[0], values[0]);
        open(&s[1], role[1], values[1]);
        opening += now() - start;
        start = now();
        messages += carry(s);
        running += now() - start;
        anb_close(&s[0]);
        anb_close(&s[1]);
    }
    whole = now() - whole;
    printf("opening_us %.2f\nrun_us %.2f\nmessages %ld\nmessages_per_s %.0f\n", opening / rounds / 2 * 1e6, whole / rounds * 1e6, messages, (double)messages / running);
    return 0;
}

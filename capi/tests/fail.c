/* Plays both roles of a protocol, again and again, with each allocation of the library failing in turn:
 *     fail <narration> <name> <role> <values> <role> <values>
 * First it fails alone: a list that doesn't get the room to grow asks for less, so the call may still do what it is for.
 * Then all that come behind it in the call fail too, and the call tells it as ANB_NO_MEMORY. What the call leaves is as
 * anb.h says, and with memory again the roles go on to their ends, but for a session that failed.
 * Link with --wrap=malloc and --wrap=realloc. */
#include <anb.h>
#include <stdio.h>
#include <stdlib.h>
#include <string.h>

typedef struct { uint8_t bytes[1 << 16]; size_t len; } text;

static const uint8_t key[] = "a key", seed[ANB_SEED_LEN] = { 1 };
static text out, record;
static uint32_t event, instruction;
static long left = -1;      /* how many allocations succeed before the one that fails; or none does */
static bool alone;          /* it fails alone */
static bool fails, failed;  /* one failed in this call, in this run */

void *__real_malloc(size_t size);
void *__real_realloc(void *at, size_t size);
void *__wrap_malloc(size_t size);
void *__wrap_realloc(void *at, size_t size);

static bool fails_now(void) {
    if (left != 0) return left -= left > 0, false;
    if (alone) left = -1;
    return failed = fails = true;
}

void *__wrap_malloc(size_t size) { return fails_now() ? NULL : __real_malloc(size); }
void *__wrap_realloc(void *at, size_t size) { return fails_now() ? NULL : __real_realloc(at, size); }

static text file(const char *name) {
    text t;
    FILE *in = fopen(name, "rb");
    if (!in) { perror(name); exit(2); }
    t.len = fread(t.bytes, 1, sizeof t.bytes, in);
    fclose(in);
    return t;
}

static void owe(const char *call, int32_t status, int32_t due) {
    if (status == due) return;
    fprintf(stderr, "%s: status %d in place of %d\n", call, status, due);
    exit(1);
}

/* The status of a call, which tells whether allocations failed in it. There is memory again. */
static int32_t told(const char *call, int32_t status) {
    if (fails && !alone) owe(call, status, ANB_NO_MEMORY);
    if (!fails && status == ANB_NO_MEMORY) owe(call, status, ANB_DONE);
    if (fails) left = -1;
    fails = false;
    return status;
}

static int32_t next_of(anb_session *s) { return anb_next(s, out.bytes, sizeof out.bytes, &out.len, &event, &instruction); }
static int32_t park_of(anb_session *s) { return anb_park(s, key, sizeof key, record.bytes, sizeof record.bytes, &record.len); }

/* A session that failed does so from then on. */
static int32_t over(anb_session *s) {
    owe("anb_next", next_of(s), ANB_NO_MEMORY);
    owe("anb_arrive", anb_arrive(s, key, sizeof key), ANB_NO_MEMORY);
    owe("anb_park", park_of(s), ANB_NO_MEMORY);
    return ANB_NO_MEMORY;
}

static int32_t next(anb_session *s) {
    int32_t status = told("anb_next", next_of(s));
    return status == ANB_NO_MEMORY ? over(s) : status;
}

/* Whether a session that told a failure is as it was. It waits then. */
static bool waits(anb_session *s) {
    uint8_t none[1];
    size_t len;
    int32_t status = anb_next(s, none, 0, &len, &event, &instruction);
    if (status == ANB_NO_MEMORY) return over(s), false;
    owe("anb_next", status, ANB_WAITING);
    return true;
}

static void open_it(anb_session *s, const text *role, const text *values) {
    if (told("anb_open", anb_open(s, role->bytes, role->len, values->bytes, values->len, seed, sizeof seed)) == ANB_NO_MEMORY)
        owe("anb_open", anb_open(s, role->bytes, role->len, values->bytes, values->len, seed, sizeof seed), ANB_DONE);
}

/* Parks a session that waits, and goes on from its record. */
static int32_t parked(anb_session *s, const text *role) {
    if (told("anb_park", park_of(s)) == ANB_NO_MEMORY) {
        if (!waits(s)) return ANB_NO_MEMORY;
        owe("anb_park", park_of(s), ANB_DONE);
    }
    anb_close(s);
    if (told("anb_resume", anb_resume(s, role->bytes, role->len, key, sizeof key, record.bytes, record.len)) == ANB_NO_MEMORY)
        owe("anb_resume", anb_resume(s, role->bytes, role->len, key, sizeof key, record.bytes, record.len), ANB_DONE);
    return ANB_DONE;
}

static int32_t arrive(anb_session *s) {
    if (told("anb_arrive", anb_arrive(s, out.bytes, out.len)) == ANB_NO_MEMORY) {
        if (!waits(s)) return ANB_NO_MEMORY;
        owe("anb_arrive", anb_arrive(s, out.bytes, out.len), ANB_DONE);
    }
    return ANB_DONE;
}

/* Carries messages between both roles to their ends; or one of them failed. */
static int32_t carried(anb_session s[2], const text roles[2]) {
    for (int i = 0, idle = 0; idle < 2; i = 1 - i) {
        int32_t status;
        for (idle++; (status = next(&s[i])) == ANB_MESSAGE; idle = 0) {
            if ((status = parked(&s[1 - i], &roles[1 - i])) != ANB_DONE) return status;
            if ((status = arrive(&s[1 - i])) != ANB_DONE) return status;
        }
        if (status == ANB_NO_MEMORY) return status;
        if (status != ANB_DONE) owe("anb_next", status, ANB_WAITING);
    }
    owe("anb_next", next_of(&s[0]), ANB_DONE);
    owe("anb_next", next_of(&s[1]), ANB_DONE);
    return ANB_DONE;
}

static void compiles(const text *narration, const char *name) {
    size_t len = strlen(name);
    uint32_t where;
    const uint8_t *role = (const uint8_t *)name;
    if (told("anb_compile", anb_compile(narration->bytes, narration->len, role, len, out.bytes, sizeof out.bytes, &out.len, &where)) == ANB_NO_MEMORY)
        owe("anb_compile", anb_compile(narration->bytes, narration->len, role, len, out.bytes, sizeof out.bytes, &out.len, &where), ANB_DONE);
}

static void play(const text roles[2], const text values[2]) {
    anb_session s[2] = { ANB_SESSION_INIT, ANB_SESSION_INIT };
    open_it(&s[0], &roles[0], &values[0]);
    open_it(&s[1], &roles[1], &values[1]);
    int32_t status = carried(s, roles);
    if (!failed) owe("the run", status, ANB_DONE);
    anb_close(&s[0]);
    anb_close(&s[1]);
}

int main(int argc, char **argv) {
    if (argc != 7) return 2;
    static text narration, roles[2], values[2];
    narration = file(argv[1]);
    for (int i = 0; i < 2; i++) {
        roles[i] = file(argv[3 + 2 * i]);
        values[i] = file(argv[4 + 2 * i]);
    }
    for (int i = 0; i < 2; i++) {
        alone = i == 0;
        long compiling = -1, playing = -1;
        do {
            failed = false;
            left = ++compiling;
            compiles(&narration, argv[2]);
        } while (failed);
        do {
            failed = false;
            left = ++playing;
            play(roles, values);
        } while (failed);
        printf("%s%ld of compiling and %ld of playing %s", i ? ", " : "", compiling, playing, alone ? "alone" : "with all behind them\n");
    }
    return 0;
}

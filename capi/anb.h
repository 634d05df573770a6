/* anb.h: a role of an Alice-and-Bob narration inside a program.
 *
 * A session plays one role. It does no input and no output: the caller takes each message from
 * anb_next and carries it to the other side, and hands each arrival to anb_arrive. A caller who
 * does just that plays the role: the session writes exactly the messages of the narration, makes
 * every check that the narration implies, and stops at the first arrival that no honest partner
 * would have sent. That is proved of these calls; what a caller owes, below, nobody checks.
 *
 *     anb_session s = ANB_SESSION_INIT;
 *     int32_t status = anb_open(&s, role, role_len, values, values_len, seed, 32);
 *     while (status == ANB_DONE || status == ANB_MESSAGE || status == ANB_WAITING) {
 *         status = anb_next(&s, buffer, sizeof buffer, &len, &event, &instruction);
 *         if (status == ANB_MESSAGE) send the len bytes of buffer;
 *         else if (status == ANB_WAITING) receive some bytes, and
 *             status = anb_arrive(&s, bytes, bytes_len);
 *         else break;                                    // ANB_DONE: the role is played
 *     }
 *     anb_close(&s);
 *
 * What a caller owes:
 *  - A pointer is never NULL and is good for its length, also where that is 0 (any address will
 *    do). The buffers and the places that one call gets don't overlap.
 *  - An anb_session begins as ANB_SESSION_INIT. Its fields are the library's. It may be moved, but
 *    of two copies only one may be used from then on.
 *  - A session belongs to one thread at a time. Sessions share nothing, and the library has no
 *    state of its own, so different sessions may be used by different threads at once. No call is
 *    for signal handlers.
 *
 * Memory: only an open session holds any, and anb_close frees it. Each call copies what it is
 * given; nothing that the caller passes is kept. A session keeps its registers, and all that
 * arrived, since the record of anb_park holds it. Nothing is wiped: keys, seeds and messages may
 * stand in freed memory and on the stack. Wipe your own buffers, and end the process where that
 * matters.
 *
 * Statuses below 100 are those of the program anb, with the same meaning. */
#ifndef ANB_H
#define ANB_H

#include <stdbool.h>
#include <stddef.h>
#include <stdint.h>

#ifdef __cplusplus
extern "C" {
#endif

typedef struct anb_session {
    bool live;
    void *state;
} anb_session;

#define ANB_SESSION_INIT { false, NULL }

enum {
    ANB_DONE = 0,           /* the call did what it is for; of anb_next: the role is played */
    ANB_LONG = 3,           /* a role file above 16 MiB, or a narration or values above 1 MiB */
    ANB_BAD_NARRATION = 4,  /* the text is no narration, or isn't well formed */
    ANB_NO_ROLE = 5,        /* no role of the narration has the name */
    ANB_CANNOT_SEND = 6,    /* some role must send a message that it can't compose */
    ANB_BAD_VALUES = 7,     /* the values aren't those that the role file takes */
    ANB_NO_SEED = 8,        /* the role makes names, and there is no seed */
    ANB_STOPPED = 10,       /* an arrival isn't what an honest partner sends; nothing follows */
    ANB_WAITING = 11,       /* the role waits for an arrival */
    ANB_TOO_LARGE = 13,     /* an arrival above ANB_ARRIVAL_MAX */
    ANB_BAD_ROLE_FILE = 16, /* the text is no role file, or its code isn't accepted */
    ANB_BAD_RECORD = 30,    /* no record of a waiting session of this role file under this key */
    ANB_NO_MEMORY = 99,
    ANB_MESSAGE = 100,      /* a message is in the buffer */
    ANB_SHORT = 101,        /* the buffer is too short; *written tells what it needs */
    ANB_MISUSED = 102       /* the call doesn't fit where the session stands */
};

#define ANB_ARRIVAL_MAX 262144u /* the most bytes of an arrival and of an initial value */
#define ANB_SEED_LEN 32u
#define ANB_VERSION 1u          /* of this interface */

/* The version of the interface that the library has. Compare it with ANB_VERSION. */
uint32_t anb_version(void);

/* Writes what a status says, in English and without a zero byte, and its length.
 *   ANB_DONE     the text is in out
 *   ANB_SHORT    *written is the length that is needed; out is as it was
 * Of a number that is no status it says so. */
int32_t anb_status_text(int32_t status, uint8_t *out, size_t out_len, size_t *written);

/* Writes the role file of a role of a narration, as `anb compile` does. One call a role is enough
 * for all its sessions: keep the file.
 *   ANB_DONE           the role file is in out, and *written is its length
 *   ANB_SHORT          *written is the length that is needed; compile again
 *   ANB_LONG
 *   ANB_BAD_NARRATION  *where is the place in the text where it can't be read, from 0; or 0 where
 *                      it was read and isn't well formed. `anb check` says more
 *   ANB_NO_ROLE
 *   ANB_CANNOT_SEND    *where is the action's number, from 1
 *   ANB_NO_MEMORY
 * Without ANB_DONE, out is as it was. */
int32_t anb_compile(const uint8_t *narration, size_t narration_len,
                    const uint8_t *role, size_t role_len,
                    uint8_t *out, size_t out_len, size_t *written, uint32_t *where);

/* Opens a session of the role that a role file spells, before its first message. values is the
 * text of a values file. The nonces that the role makes come from the seed: 32 bytes that nobody
 * can guess and that no other session gets, or none (seed_len 0) where the role makes no names, or
 * where the values have an @seed, which goes before this one.
 *   ANB_DONE           the session is open; anb_close is owed
 *   ANB_MISUSED        the session was open already, and is as it was; or seed_len isn't 0 or 32
 *   ANB_LONG, ANB_BAD_ROLE_FILE, ANB_BAD_VALUES, ANB_NO_SEED, ANB_NO_MEMORY */
int32_t anb_open(anb_session *session, const uint8_t *role_file, size_t role_file_len,
                 const uint8_t *values, size_t values_len,
                 const uint8_t *seed, size_t seed_len);

/* Tells what comes next of the role.
 *   ANB_MESSAGE    send the *written bytes of out, and call again
 *   ANB_SHORT      the next message has *written bytes; out is as it was, and the message comes
 *                  with the next call whose buffer has room for it
 *   ANB_WAITING    the arrival of event *event is wanted: anb_arrive, or anb_park
 *   ANB_DONE       the role is played; so say all calls from now on
 *   ANB_STOPPED    a check failed, after *event messages and arrivals, at instruction *instruction
 *                  of the role file; so say all calls from now on
 *   ANB_NO_MEMORY  the session failed, and this comes again: close it
 *   ANB_MISUSED    the session isn't open
 * Events and instructions count from 1. *written, *event and *instruction are left as they were
 * where they aren't named. */
int32_t anb_next(anb_session *session, uint8_t *out, size_t out_len, size_t *written,
                 uint32_t *event, uint32_t *instruction);

/* Hands in the arrival that the role waits for. Its checks are made by the next anb_next.
 *   ANB_DONE       it was taken
 *   ANB_TOO_LARGE  it has more than ANB_ARRIVAL_MAX bytes; the session is as it was
 *   ANB_MISUSED    the session isn't open, or the role has something else to do first, or is over;
 *                  nothing is lost
 *   ANB_NO_MEMORY  it wasn't taken. The session is as it was, unless anb_next gives this too */
int32_t anb_arrive(anb_session *session, const uint8_t *bytes, size_t bytes_len);

/* Writes a record of a session that waits, sealed under a key of any length. It goes on from there
 * by anb_resume, with the same role file and key, in this process or another. The session stays
 * open, and as it was: close it. Nothing keeps a record from being used twice; two sessions that go
 * on from one record make the same names.
 *   ANB_DONE       the record is in out, and *written is its length
 *   ANB_SHORT      *written is the length that is needed; out is as it was
 *   ANB_MISUSED    the session isn't open, or doesn't wait; nothing is lost
 *   ANB_NO_MEMORY  the session is as it was, unless anb_next gives this too */
int32_t anb_park(anb_session *session, const uint8_t *key, size_t key_len,
                 uint8_t *out, size_t out_len, size_t *written);

/* Opens the session that a record of anb_park is of, where it waits. No message of it comes again.
 *   ANB_DONE           the session is open; anb_close is owed
 *   ANB_MISUSED        the session was open already, and is as it was
 *   ANB_LONG, ANB_BAD_ROLE_FILE, ANB_BAD_RECORD, ANB_NO_MEMORY */
int32_t anb_resume(anb_session *session, const uint8_t *role_file, size_t role_file_len,
                   const uint8_t *key, size_t key_len,
                   const uint8_t *record, size_t record_len);

/* Closes a session and frees what it held. A session that isn't open stays so. */
void anb_close(anb_session *session);

#ifdef __cplusplus
}
#endif

#endif

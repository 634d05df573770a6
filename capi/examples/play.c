/* Plays a role over TCP, in the frames of `anb play`, so either may be on the other side:
 *     play <rolefile> <values> listen|dial <port>
 * It ends with the status of the role, 0 where it is played and 10 where a check failed; or with 2
 * or 9 where a file can't be read or the port not reached, and 12, 14 or 15 where the wire fails. */
#define _GNU_SOURCE
#include <anb.h>
#include <arpa/inet.h>
#include <err.h>
#include <errno.h>
#include <stdio.h>
#include <stdlib.h>
#include <string.h>
#include <sys/random.h>
#include <sys/socket.h>
#include <unistd.h>

static uint8_t *room(uint8_t *bytes, size_t len) {
    if (!(bytes = realloc(bytes, len))) err(ANB_NO_MEMORY, "%zu bytes", len);
    return bytes;
}

static uint8_t *file(const char *name, size_t *len) {
    FILE *in = fopen(name, "rb");
    long size = in && fseek(in, 0, SEEK_END) == 0 ? ftell(in) : -1;
    if (size < 0 || fseek(in, 0, SEEK_SET) != 0) err(2, "%s", name);
    uint8_t *bytes = room(NULL, (size_t)size + 1);
    if ((*len = fread(bytes, 1, (size_t)size, in)) != (size_t)size) err(2, "%s", name);
    fclose(in);
    return bytes;
}

static int connection(bool dials, const char *port) {
    struct sockaddr_in at = { .sin_family = AF_INET, .sin_port = htons((uint16_t)atoi(port)), .sin_addr.s_addr = htonl(INADDR_LOOPBACK) };
    for (int tries = 0, yes = 1; tries < 50; tries++, usleep(100000)) {
        int s = socket(AF_INET, SOCK_STREAM, 0), taken = -1;
        if (s >= 0 && dials && connect(s, (struct sockaddr *)&at, sizeof at) == 0) return s;
        if (s >= 0 && !dials && setsockopt(s, SOL_SOCKET, SO_REUSEADDR, &yes, sizeof yes) == 0 && bind(s, (struct sockaddr *)&at, sizeof at) == 0
            && listen(s, 1) == 0 && (taken = accept(s, NULL, NULL)) >= 0) return close(s), taken;
        if (!dials || errno != ECONNREFUSED) break;
        close(s);
    }
    err(9, "port %s", port);
}

static void put(int wire, const void *bytes, size_t len) {
    if (send(wire, bytes, len, MSG_NOSIGNAL) != (ssize_t)len) err(15, "send");
}

static void take(int wire, void *bytes, size_t len) {
    ssize_t taken = recv(wire, bytes, len, MSG_WAITALL);
    if (taken < 0) err(14, "recv");
    if (taken != (ssize_t)len) errx(12, "the input ends");
}

static int32_t play(anb_session *session, int wire) {
    static uint8_t arrival[ANB_ARRIVAL_MAX];
    size_t len, size = 4096;
    uint8_t *out = room(NULL, size);
    uint32_t event, instruction, frame;
    int32_t status;
    do {
        status = anb_next(session, out, size, &len, &event, &instruction);
        if (status == ANB_MESSAGE) {
            frame = htonl((uint32_t)len);
            put(wire, &frame, sizeof frame);
            put(wire, out, len);
        } else if (status == ANB_SHORT) {
            out = room(out, size = len);
        } else if (status == ANB_WAITING) {
            take(wire, &frame, sizeof frame);
            if ((len = ntohl(frame)) > sizeof arrival) errx(ANB_TOO_LARGE, "a frame of %zu bytes", len);
            take(wire, arrival, len);
            int32_t taken = anb_arrive(session, arrival, len);
            if (taken != ANB_DONE) status = taken;
        }
    } while (status == ANB_MESSAGE || status == ANB_SHORT || status == ANB_WAITING);
    if (status == ANB_STOPPED) warnx("event %u, instruction %u", event, instruction);
    free(out);
    return status;
}

int main(int argc, char **argv) {
    if (argc != 5) errx(1, "play <rolefile> <values> listen|dial <port>");
    size_t role_len, values_len, len;
    uint8_t *role = file(argv[1], &role_len), *values = file(argv[2], &values_len), seed[ANB_SEED_LEN], text[128];
    if (getrandom(seed, sizeof seed, 0) != sizeof seed) err(ANB_NO_SEED, "getrandom");
    anb_session session = ANB_SESSION_INIT;
    int32_t status = anb_open(&session, role, role_len, values, values_len, seed, sizeof seed);
    explicit_bzero(seed, sizeof seed); /* the library wipes nothing, and these are ours */
    explicit_bzero(values, values_len);
    free(values);
    free(role);
    if (status == ANB_DONE) {
        int wire = connection(strcmp(argv[3], "dial") == 0, argv[4]);
        status = play(&session, wire);
        close(wire);
    }
    anb_close(&session);
    if (status != ANB_DONE && anb_status_text(status, text, sizeof text, &len) == ANB_DONE) warnx("%.*s", (int)len, (char *)text);
    return status;
}

/* Steps a second through C. */
#include "tank.h"
#include <stdio.h>
#include <stdlib.h>
#include <string.h>
#include <time.h>

enum { STEPS = 2000000 };

static const struct tank_settings SETTINGS = {10000, 5000, 7000, 8500, 1000, 500, 101, 100, 1};

static double now(void) {
    struct timespec t;
    clock_gettime(CLOCK_PROCESS_CPUTIME_ID, &t);
    return t.tv_sec + t.tv_nsec * 1e-9;
}

static void must(uint32_t result) {
    if (result == TANK_DONE) return;
    fprintf(stderr, "%s\n", tank_name(result));
    exit(1);
}

static void put64(uint8_t *at, uint64_t n) {
    for (int i = 7; i >= 0; i--, n >>= 8) at[i] = (uint8_t)n;
}

/* A frame of a message without a body. */
static void head(uint8_t *frame, int kind, int from, int to, uint64_t life, uint64_t epoch, uint64_t number, uint64_t stamp) {
    memset(frame, 0, 42);
    frame[3] = 38, frame[4] = 1, frame[5] = (uint8_t)kind;
    frame[6] = (uint8_t)(from >> 8), frame[7] = (uint8_t)from, frame[8] = (uint8_t)(to >> 8), frame[9] = (uint8_t)to;
    put64(frame + 10, life), put64(frame + 18, epoch), put64(frame + 26, number), put64(frame + 34, stamp);
}

static void say(const char *what, double seconds) {
    printf("%s: %.0f steps a second, %.0f ns each\n", what, STEPS / seconds, seconds / STEPS * 1e9);
}

int main(void) {
    static uint8_t journal[65536], out[65540], record[TANK_RECORD_MOST];
    struct tank_server server = TANK_SERVER_CLOSED;
    struct tank_client client = TANK_CLIENT_CLOSED;
    const struct tank_shape shape = {1, 1, 1, 64};
    const uint64_t lives[1] = {0};
    struct tank_server_stepped server_step;
    struct tank_client_stepped client_step;
    struct tank_record kept;
    uint8_t frame[42];
    uint64_t at;
    size_t count;
    must(tank_server_open(&server, &SETTINGS, &shape, 0, journal, sizeof journal, &at));
    must(tank_server_record(&server, record, sizeof record, &kept));
    must(tank_server_kept(&server));
    head(frame, 1, 1, 32769, 1, 0, 0, 0);
    must(tank_server_step(&server, 1, frame, 42, &server_step));
    must(tank_server_take(&server, out, sizeof out, &count));
    double a = now();
    for (uint64_t i = 1; i <= STEPS; i++) {
        head(frame, 2, 1, 32769, 1, 1, i, i);
        must(tank_server_step(&server, i / 1000 + 1, frame, 42, &server_step));
        must(tank_server_take(&server, out, sizeof out, &count));
        if (count != 42 || out[5] != 33) return 2;
    }
    double b = now();
    say("a server's keep-alives", b - a);
    must(tank_client_open(&client, &SETTINGS, 1, lives, 1));
    head(frame, 64, 0, 1, 0, 0, 0, 0);
    b = now();
    for (uint64_t i = 1; i <= STEPS; i++) {
        must(tank_client_step(&client, i / 1000, frame, 42, &client_step));
        must(tank_client_take(&client, out, sizeof out, &count));
    }
    double c = now();
    say("a client's ticks", c - b);
    tank_client_close(&client);
    tank_server_close(&server);
    return 0;
}

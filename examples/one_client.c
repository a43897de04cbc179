/* A client and its server in one program, and no network. The client is asked to read a page. It
 * greets the server, gets a lease, and asks for a lock; the lease then ends without an answer.
 *
 *     cc -O2 -I../include one_client.c -L. -ltank -o one_client */
#include "tank.h"
#include <stdio.h>
#include <stdlib.h>
#include <string.h>

static struct tank_client client = TANK_CLIENT_CLOSED;
static struct tank_server server = TANK_SERVER_CLOSED;
static uint8_t journal[4096], frame[TANK_FRAME_MOST], out[TANK_FRAME_MOST];
static size_t count; /* bytes in out */

static void must(uint32_t result) {
    if (result == TANK_DONE) return;
    fprintf(stderr, "%s: %s\n", tank_name(result), tank_text(result));
    exit(1);
}

/* A step of the client, and what results. */
static void step(uint64_t now, const uint8_t *bytes, size_t length) {
    struct tank_client_stepped step;
    struct tank_association at;
    struct tank_answer answer;
    struct tank_frame sent;
    must(tank_client_step(&client, now, bytes, length, &step));
    if (step.new_lives) {
        must(tank_client_at(&client, 1, now, &at));
        printf("at %d life %d must be kept before a frame is sent\n", (int)now, (int)at.life);
    }
    must(tank_client_take(&client, out, sizeof out, &count));
    for (size_t first = 0; first < count; first += sent.size) {
        must(tank_frame_at(out + first, count - first, &sent));
        printf("at %d a frame of kind %d to node %d\n", (int)now, sent.kind, sent.to);
        if (sent.kind != TANK_KIND_APPDONE) continue;
        must(tank_decode_answer(out + first, sent.size, &answer, frame, sizeof frame));
        printf("ask %d is answered %d\n", (int)answer.op, (int)answer.answer);
    }
}

/* A step of the server for the frame in out. The frame that results is in out then. */
static void step_server(uint64_t now) {
    struct tank_server_stepped step;
    must(tank_server_step(&server, now, out, count, &step));
    must(tank_server_take(&server, out, sizeof out, &count));
}

int main(void) {
    const struct tank_settings settings = {10000, 5000, 7000, 8500, 1000, 500, 101, 100, 1};
    const struct tank_shape shape = {.id = 1, .servers = 1, .disks = 1, .blocks = 64};
    const struct tank_ask ask = {.client = 1, .op = 1, .ask = TANK_ASK_READ, .server = 1, .ino = 2};
    const uint64_t lives[1] = {0};
    struct tank_association at;
    struct tank_client_stepped step_told;
    uint64_t place;
    must(tank_server_open(&server, &settings, &shape, 0, journal, sizeof journal, &place));
    must(tank_server_kept(&server)); /* two_clients.c keeps the journal */
    must(tank_client_open(&client, &settings, 1, lives, 1));
    must(tank_encode_ask(&ask, frame, 0, frame, 0, out, sizeof out, &count));
    memcpy(frame, out, count);
    step(5, frame, count);
    step_server(7);
    memcpy(frame, out, count);
    step(9, frame, count);
    must(tank_client_at(&client, 1, 9, &at));
    printf("the lease ends at %d\n", (int)at.lease_end);
    must(tank_encode_tick(1, frame, sizeof frame, &count));
    step(10006, frame, count);
    if (tank_client_step(&client, 3, frame, 42, &step_told) != TANK_TIME) return 2;
    tank_client_close(&client);
    tank_server_close(&server);
    return 0;
}

/* Two clients and a server in one program; messages, a disk and the server's journal are in memory.
 * Client 1 writes page 0 of file 2 and syncs it, and client 2 reads it.
 *
 *     cc -O2 -I../include two_clients.c -L. -ltank -o two_clients */
#include "tank.h"
#include <stdio.h>
#include <stdlib.h>
#include <string.h>

enum { SERVER = TANK_SERVER_NODE(1), BLOCKS = 64 };

static struct tank_client clients[2] = {TANK_CLIENT_CLOSED, TANK_CLIENT_CLOSED};
static struct tank_server server = TANK_SERVER_CLOSED;
static struct { struct tank_tag tag; uint8_t page[TANK_PAGE]; } disk[BLOCKS];
static uint8_t journal[65536], page[TANK_PAGE], out[1 << 20], sent[1 << 22];
static size_t count, first, last; /* bytes in out; frames under way are sent[first .. last) */
static uint64_t now;
static int answers;

static void must(uint32_t result) {
    if (result == TANK_DONE) return;
    fprintf(stderr, "%s: %s\n", tank_name(result), tank_text(result));
    exit(1);
}

/* What is in out goes to its nodes. */
static void send_out(void) {
    memcpy(sent + last, out, count);
    last += count;
}

static void keep(void) {
    uint8_t bytes[TANK_RECORD_MOST];
    struct tank_record record;
    must(tank_server_record(&server, bytes, sizeof bytes, &record));
    memcpy(journal + record.gate + 1, bytes, record.size); /* a real journal is synced here, */
    journal[record.gate] = 1;                              /* and here */
    must(tank_server_kept(&server));
}

static void step_server(const uint8_t *frame, size_t length) {
    struct tank_server_stepped step;
    must(tank_server_step(&server, now, frame, length, &step));
    if (step.record) keep();
    must(tank_server_take(&server, out, sizeof out, &count));
    send_out();
}

static void step_client(struct tank_client *client, const uint8_t *frame, size_t length) {
    struct tank_client_stepped step;
    must(tank_client_step(client, now, frame, length, &step)); /* new lives would be kept here */
    must(tank_client_take(client, out, sizeof out, &count));
    send_out();
}

/* A disk command is done at once. */
static void submit(const uint8_t *frame, size_t length) {
    struct tank_command command;
    must(tank_decode_command(frame, length, &command, page, sizeof page));
    int writes = command.command == TANK_COMMAND_WRITE;
    if (writes) disk[command.block].tag = command.tag;
    if (writes) memcpy(disk[command.block].page, page, TANK_PAGE);
    struct tank_done done = {.client = command.client, .number = command.number, .tag = disk[command.block].tag,
                             .result = writes ? TANK_END_WRITTEN : TANK_END_READ};
    must(tank_encode_done(&done, disk[command.block].page, TANK_PAGE, out, sizeof out, &count));
    send_out();
}

static void answered(const uint8_t *frame, size_t length) {
    struct tank_answer answer;
    must(tank_decode_answer(frame, length, &answer, page, sizeof page));
    printf("client %d is answered %d\n", answer.client, (int)answer.answer);
    if (answer.answer == TANK_ANSWER_READ && page[0] != 'x') exit(3);
    answers++;
}

/* The ask is made, and frames are delivered until it is answered. */
static void run(const struct tank_ask *ask, size_t length) {
    struct tank_frame frame;
    must(tank_encode_ask(ask, page, length, page, 0, out, sizeof out, &count));
    send_out();
    for (int wanted = answers + 1; answers < wanted; first += frame.size) {
        int idle = first == last; /* time passes when nothing is under way */
        now += idle;
        for (int node = 0; idle && node < 3; node++) {
            must(tank_encode_tick(node < 2 ? node + 1 : SERVER, out, sizeof out, &count));
            send_out();
        }
        const uint8_t *bytes = sent + first;
        must(tank_frame_at(bytes, last - first, &frame));
        if (frame.to == SERVER) step_server(bytes, frame.size);
        else if (frame.to > 0) step_client(&clients[frame.to - 1], bytes, frame.size);
        else if (frame.kind == TANK_KIND_SUBMIT) submit(bytes, frame.size);
        else answered(bytes, frame.size);
    }
}

int main(void) {
    const struct tank_settings settings = {10000, 2000, 6000, 8000, 1000, 500, 101, 100, 1};
    const struct tank_shape shape = {.id = 1, .servers = 1, .disks = 1, .blocks = BLOCKS};
    const uint64_t lives[1] = {0};
    struct tank_ask ask = {.client = 1, .op = 1, .ask = TANK_ASK_WRITE, .server = 1, .ino = 2};
    uint64_t at;
    must(tank_server_open(&server, &settings, &shape, now, journal, sizeof journal, &at));
    keep();
    for (int i = 0; i < 2; i++) must(tank_client_open(&clients[i], &settings, i + 1, lives, 1));
    memset(page, 'x', TANK_PAGE);
    run(&ask, TANK_PAGE);
    ask.op = 2, ask.ask = TANK_ASK_SYNC;
    run(&ask, 0);
    ask.op = 1, ask.ask = TANK_ASK_READ, ask.client = 2;
    run(&ask, 0);
    for (int i = 0; i < 2; i++) tank_client_close(&clients[i]);
    tank_server_close(&server);
    printf("%d ticks passed\n", (int)now);
    return 0;
}

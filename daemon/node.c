/* node.c: the node itself. This is the one place where a step is taken, what it changed is kept,
 * and what it gave leaves the daemon. What a program around a node owes (docs/PROTOCOL.md,
 * "Building on it"), and where it is done:
 *
 *   Lives before frames: step and begin keep them; give_all comes later.
 *   The record, then the gate, then the frames: keep_record, before give_all.
 *   A journal's disk, and one journal for each server, with the same settings and shape: keep.c.
 *   One clock for each node, which never falls: keep.c.
 *   The clocks' rates: keep.c. CLOCK_BOOTTIME counts while the machine sleeps.
 *   The reading is taken when the step is taken: node_take.
 *   Ticks, and a flush that was missed: tick, next_tick, missed_from, node_take.
 *   Disk commands in time, and disks of blocks: disks.c.
 *   An ask's number is used once: asks.c, new_number.
 *   Frames arrive as they were sent, and `from` is that of the peer: links.c, node_hear.
 *   Frames from and to node 0 stay here: node_hear, give_all.
 *   Demands after grants: node_hear, is_early.
 *
 * The library doesn't have groups of changes, snapshots and `leave` yet. When it does, groups and
 * snapshots belong in keep_record, and `leave` in node_end. */
#include "tankd.h"

enum {
    TICK = 100,    /* milliseconds at most between two ticks of a client that needs them */
    BODY = 4 + 38, /* where the body of a message begins in its frame ("Wire") */
    FLUSH = 4,     /* a phase of a lease */
};

static struct lease { /* what the client had at a server after its last step */
    struct tank_association at;
    uint64_t flushed; /* the end of the lease that a step found in flush */
} leases[SERVERS_MOST + 1];

struct held { /* a demand that is held back */
    uint64_t due;
    size_t size;
    uint16_t from;
    uint8_t frame[];
};

static struct tank_client client = TANK_CLIENT_CLOSED;
static struct tank_server server = TANK_SERVER_CLOSED;
static GByteArray *given; /* the frames of the last step */
static GQueue held = G_QUEUE_INIT;
static struct event *wake, *end, *ticks;
static bool is_asked_soon; /* for its next tick */
static uint64_t gate;      /* a server's, of its journal */
static uint64_t ticked;    /* the reading at which a client got its last tick */
static uint64_t end_by; /* the moment at which the daemon ends, at the latest; 0 before SIGTERM */

/* Keeps the change of a server's step: the record, a sync, its gate, a sync. */
static void keep_record(void) {
    uint8_t bytes[TANK_RECORD_MOST];
    struct tank_record record;
    must(tank_server_record(&server, bytes, sizeof bytes, &record));
    if (!record.size) return;
    journal_write(record.gate + 1, bytes, record.size);
    journal_write(record.gate, "\1", 1);
    must(tank_server_kept(&server));
    gate = record.gate + record.size;
    count(COUNT_CHANGES);
}

static void keep_lives(uint64_t moment) {
    lives.moment = clock_told(moment); /* as in the trace */
    lives_keep();
}

/* The end of a lease with dirty pages that no step has found in flush, or TANK_NEVER. */
static uint64_t end_unflushed(const struct lease *it) {
    bool is_flushed = !it->at.dirty || it->flushed == it->at.lease_end;
    return it->at.lease_end && !is_flushed ? it->at.lease_end : TANK_NEVER;
}

/* The first end of a lease with dirty pages that no step has found in flush, or of which a write is
 * still under way. If the clock reads this much, the client wasn't woken in time. */
static uint64_t missed_from(void) {
    uint64_t first = TANK_NEVER;
    for (uint16_t number = 1; number <= config.servers; number++) {
        const struct lease *it = &leases[number];
        bool is_out = it->at.dirty && it->at.lease_end && disks_write(number);
        first = MIN(first, is_out ? it->at.lease_end : end_unflushed(it));
    }
    return first;
}

static void note_leases(uint64_t now) {
    for (uint16_t number = 1; number <= config.servers; number++) {
        struct tank_association *at = &leases[number].at;
        must(tank_client_at(&client, number, now, at));
        if (at->phase == FLUSH) leases[number].flushed = at->lease_end;
        disks_lease(number, at->life, at->lease_end);
        lives.life[number] = at->life;
    }
    disks_limit(missed_from());
}

static void open_server(uint64_t now, const uint8_t *journal) {
    const struct tank_shape shape = {.id = config.number,
                                     .servers = (uint16_t)config.servers,
                                     .disks = (uint16_t)config.disks,
                                     .blocks = (uint32_t)config.blocks};
    uint64_t at = 0;
    uint32_t result =
        tank_server_open(&server, &config.settings, &shape, now, journal, journal_room, &at);
    if (result != TANK_DONE)
        fail("the journal, at byte %lu: %s: %s", at, tank_name(result), tank_text(result));
    keep_record();
    say(LEVEL_NOTICE, "epoch %lu begins; the journal has %lu of %lu bytes",
        tank_server_epoch(&server), gate, journal_room);
}

/* Opens the client, in the lives after those that were kept. */
static void open_client(uint64_t now, uint64_t moment) {
    const uint64_t *kept = lives.life + 1;
    must(tank_client_open(&client, &config.settings, config.number, kept, config.servers));
    memset(leases, 0, sizeof leases);
    note_leases(now);
    keep_lives(moment);
}

static void begin(void) {
    uint64_t moment = clock_moment(), now = clock_for_step(moment);
    g_autofree uint8_t *journal = config.is_server ? journal_read() : NULL;
    bool is_again = journal ? journal[0] == 1 : lives.life[1] != 0;
    trace_start(is_again, moment, now);
    if (config.is_server) open_server(now, journal);
    else open_client(now, moment);
    if (is_again) trace("\n");
    trace_flush();
    if (config.is_server && config.is_traced) mark_keep(gate);
}

/* Closes the client. What its disks have done is in the trace; they do no more of it. */
static void close_client(void) {
    tank_client_close(&client);
    disks_drop();
    g_queue_clear_full(&held, g_free);
}

/* The client counts as crashed after its last step: what it had is dropped, its applications see
 * the ends of their connections, and it begins again in its next lives. */
static void fence(void) {
    say(LEVEL_WARNING,
        "a lease ended before its dirty pages were written: the client fences itself");
    count(COUNT_FENCED);
    close_client();
    asks_drop();
    begin();
}

/* Notes what the last step told beside its frames. */
static void note_events(void) {
    static struct tank_event *events;
    static size_t room;
    uint32_t result = TANK_SHORT_ROOM;
    size_t told = 0;
    while (result == TANK_SHORT_ROOM) {
        events = g_renew(struct tank_event, events, room = room + told);
        result = config.is_server ? tank_server_events(&server, events, room, &told)
                                  : tank_client_events(&client, events, room, &told);
    }
    must(result);
    for (const struct tank_event *it = events; it < events + told; it++) {
        bool is_suspected = it->event == TANK_EVENT_SUSPECTED;
        if (it->event == TANK_EVENT_LOST)
            say(LEVEL_WARNING, "the lease at server %d was lost in life %lu", it->server, it->life);
        if (!is_suspected && it->event != TANK_EVENT_STOLEN) continue;
        count(is_suspected ? COUNT_SUSPECTED : COUNT_STOLEN);
        say(LEVEL_WARNING, "client %d is %s", it->client,
            is_suspected ? "suspected" : "robbed of its locks");
        hook_run(is_suspected ? "suspected" : "stolen", it->client);
    }
}

static void give_all(void) {
    struct tank_frame frame;
    for (size_t at = 0; at < given->len; at += frame.size) {
        const uint8_t *bytes = given->data + at;
        must(tank_frame_at(bytes, given->len - at, &frame));
        if (frame.kind == TANK_KIND_APPDONE) asks_answer(bytes, frame.size);
        else if (frame.kind == TANK_KIND_SUBMIT) disks_submit(bytes, frame.size);
        else link_send(frame.to, bytes, frame.size);
    }
    g_byte_array_set_size(given, 0);
}

/* Takes a step, keeps what must be kept, and takes out the frames that it gave. */
static uint32_t step(uint64_t moment, uint64_t now, const uint8_t *frame, size_t size) {
    struct tank_server_stepped of_server = {0};
    struct tank_client_stepped of_client = {0};
    uint32_t result = config.is_server ? tank_server_step(&server, now, frame, size, &of_server)
                                       : tank_client_step(&client, now, frame, size, &of_client);
    if (result != TANK_DONE) return result;
    if (of_server.record) keep_record();
    if (!config.is_server) note_leases(now);
    if (of_client.new_lives) keep_lives(moment);
    for (size_t taken = TANK_FRAME_MOST; taken == TANK_FRAME_MOST;) {
        unsigned used = given->len;
        g_byte_array_set_size(given, used + TANK_FRAME_MOST);
        uint8_t *room = given->data + used;
        must(config.is_server ? tank_server_take(&server, room, TANK_FRAME_MOST, &taken)
                              : tank_client_take(&client, room, TANK_FRAME_MOST, &taken));
        g_byte_array_set_size(given, used + (unsigned)taken);
    }
    return TANK_DONE;
}

/* A step that wasn't taken: the frame counts as lost, unless the node can't go on. */
static void note_untaken(uint32_t result) {
    static bool is_said;
    if (result >= TANK_CUT && result <= TANK_TOO_LONG) {
        count(COUNT_FRAMES_BAD);
        return;
    }
    if (result != TANK_JOURNAL_FULL) must(result);
    count(COUNT_JOURNAL_FULL);
    if (!is_said)
        say(LEVEL_ERROR, "the journal is full: nothing that changes names or extents is served");
    is_said = true;
}

/* A node gets its next tick when it is due; if it can't be asked, soon. A client with dirty pages
 * also gets one when the flush phase begins: a step must find it there, even with nothing to do
 * (missed_from). Between two ticks of a client is some time, of which one fits into each flush
 * phase: otherwise a disk that fails would be given the same write at once, again and again. */
static uint64_t next_tick(uint64_t now) {
    const uint64_t length = config.settings.lease - config.settings.flush;
    uint64_t due;
    uint32_t result =
        config.is_server ? tank_server_due(&server, &due) : tank_client_due(&client, now, &due);
    if (result != TANK_DONE) due = now + TICK;
    for (const struct lease *it = leases; it < leases + SERVERS_MOST + 1; it++)
        if (end_unflushed(it) != TANK_NEVER) due = MIN(due, end_unflushed(it) - length);
    return config.is_server ? due : MAX(due, ticked + CLAMP(length / 2, 1, TICK));
}

/* After each step the node is asked for its next tick, once for all steps of a millisecond. */
static void ask_for_tick(void) {
    if (!is_asked_soon) timer_set(ticks, 1);
    is_asked_soon = true;
}

/* If the client fences itself, the frame is lost with what it had. */
void node_take(const uint8_t *frame, size_t size) {
    uint64_t moment = clock_moment(), now = clock_for_step(moment), old_gate = gate;
    if (!config.is_server && now >= missed_from()) {
        fence();
        return;
    }
    trace("step %lu %lu", clock_told(moment), now);
    trace_frames(frame, size);
    trace_flush();
    uint32_t result = step(moment, now, frame, size);
    trace(result == TANK_DONE ? " >" : " -");
    trace_frames(given->data, given->len);
    trace("\n");
    trace_flush();
    if (config.is_traced && gate != old_gate) mark_keep(gate);
    ask_for_tick();
    if (result != TANK_DONE) {
        note_untaken(result);
        return;
    }
    count(COUNT_STEPS);
    note_events();
    give_all();
}

static void tick(UNUSED_OF_EVENT) {
    uint64_t now = clock_at(clock_moment()), due = next_tick(now);
    uint8_t frame[64];
    size_t size;
    is_asked_soon = false;
    if (due > now && due != TANK_NEVER) timer_set(ticks, due - now);
    if (due > now) return;
    must(tank_encode_tick(config.node, frame, sizeof frame, &size));
    ticked = now;
    node_take(frame, size);
}

/* Its effect is in the trace before the client hears of it. */
void node_command_ended(const struct tank_done *done, const uint8_t *page, uint64_t effect) {
    static uint8_t frame[TANK_FRAME_MOST];
    size_t size;
    if (effect) trace("effect %lu %lu\n", clock_told(effect), done->number);
    trace_flush();
    if (!client.full) return; /* it is closed */
    must(tank_encode_done(done, page, TANK_PAGE, frame, sizeof frame, &size));
    node_take(frame, size);
}

/* Whether a demand would take the lock before the ask that waits for it is served. */
static bool is_early(const uint8_t *frame, uint16_t from) {
    uint32_t ino, is_owed;
    memcpy(&ino, frame + BODY, sizeof ino);
    must(tank_client_owes(&client, from - TANK_SERVER_NODE(0), be32toh(ino), &is_owed));
    return is_owed;
}

/* Takes the demands that are no longer early. */
static void take_held(void) {
    uint64_t now = clock_moment();
    for (unsigned left = held.length; left && held.head; left--) {
        struct held *it = g_queue_pop_head(&held);
        if (now < it->due && is_early(it->frame, it->from)) {
            timer_set(wake, (it->due - now) / MILLISECOND + 1);
            g_queue_push_tail(&held, it);
            continue;
        }
        node_take(it->frame, it->size);
        g_free(it);
    }
}

void node_hear(const uint8_t *frame, size_t size) {
    struct tank_frame front;
    must(tank_frame_at(frame, size, &front));
    bool is_input = config.is_server
                        ? front.kind >= TANK_KIND_HELLO && front.kind <= TANK_KIND_DEMANDSEEN
                        : front.kind >= TANK_KIND_WELCOME && front.kind <= TANK_KIND_REASSERTED;
    if (front.to != config.node || !is_input || size < BODY) {
        count(COUNT_FRAMES_BAD);
        return;
    }
    bool has_ino = size >= BODY + sizeof(uint32_t);
    if (front.kind != TANK_KIND_DEMAND || !has_ino || !is_early(frame, front.from)) {
        node_take(frame, size);
        return;
    }
    struct held *it = g_malloc(sizeof *it + size);
    *it = (struct held){clock_moment() + config.hold * MILLISECOND, size, front.from};
    memcpy(it->frame, frame, size);
    g_queue_push_tail(&held, it);
    count(COUNT_HELD);
}

void node_between(void) {
    if (config.is_server) return;
    do {
        take_held();
        asks_give();
        take_held();
    } while (folder_goes_on());
    if (end_by && (asks_are_synced() || clock_moment() >= end_by)) loop_end();
}

/* What was waited for is done by node_between. */
static void woken(UNUSED_OF_EVENT) {}

void node_begin(void) {
    given = g_byte_array_new();
    wake = evtimer_new(base, woken, NULL);
    end = evtimer_new(base, woken, NULL);
    ticks = evtimer_new(base, tick, NULL);
    if (!config.is_server) disks_begin();
    if (!config.is_server) asks_begin();
    begin();
}

void node_end(void) {
    if (config.is_server) loop_end();
    else asks_end();
    end_by = clock_moment() + config.settings.lease * MILLISECOND;
    timer_set(end, config.settings.lease + 1);
}

void node_close(void) {
    if (config.is_server) tank_server_close(&server);
    else close_client();
    trace_end();
}

static void print_server(struct evbuffer *text) {
    struct tank_server_counted it;
    must(tank_server_counts(&server, &it));
    metric(text, "epoch", "The server's epoch.", tank_server_epoch(&server));
    metric(text, "sessions", "Clients with a session in this epoch.", it.sessions);
    metric(text, "suspects", "Clients that are suspected.", it.suspects);
    metric(text, "locks", "Locks of all clients.", it.locks);
    metric(text, "waits", "Waits for locks.", it.waits);
    metric(text, "names", "Entries of all directories.", it.names);
    metric(text, "pages_mapped", "Pages that have a block.", it.mapped);
    metric(text, "blocks_free", "Blocks that no page has.", it.free);
    metric(text, "journal_bytes", "Bytes of the journal that are used.", it.journal);
    metric(text, "journal_room_bytes", "Bytes of the journal.", it.journal_size);
}

static void print_client(struct evbuffer *text) {
    struct tank_client_counted it[SERVERS_MOST + 1];
    for (uint16_t number = 1; number <= config.servers; number++)
        must(tank_client_counts(&client, number, &it[number]));
#define PRINTED(name, value, what)                                                                 \
    metric_head(text, name, what);                                                                 \
    for (uint16_t number = 1; number <= config.servers; number++)                                  \
        metric_value(text, name, number, value);
    PRINTED("lease_phase", leases[number].at.phase,
            "The lease: 1 valid, 2 renewal, 3 quiesce, 4 flush, 5 expired, 0 none.")
    PRINTED("locks", it[number].locks, "Files with a lock.")
    PRINTED("waits", it[number].waits, "Files with a wait that the server has reported.")
    PRINTED("pages_dirty", it[number].dirty, "Pages that must still be written.")
    PRINTED("pages_clean", it[number].clean, "Pages that are as on the disks.")
    PRINTED("disk_commands", it[number].commands, "Disk commands that haven't ended.")
    PRINTED("asks_pending", it[number].pending, "Asks that haven't been answered.")
}

void node_print(struct evbuffer *text) {
    if (config.is_server) print_server(text);
    else print_client(text);
}

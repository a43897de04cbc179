/* asks.c: the asks of applications and of the folder, on their way to the client and back. */
#include "tankd.h"

enum {
    PENDING_MOST = 16,  /* asks that a client of the first two forms takes at once */
    WRITTEN_MOST = 32,  /* pages that patient requests write before a sync of all files begins */
    RESERVED = 1 << 20, /* numbers of asks that are reserved at once */
};

/* An ask that was given to the client. Asks are counted over all lives, from 1 on. */
struct pending {
    struct request *request; /* null if it was forgotten */
    struct tank_ask ask;     /* its `op` is 0 in a place that is free */
    uint64_t number;
};

static GQueue waiting[SERVERS_MOST + 1]; /* by server; 0 has those of others */
static GQueue stalled;                   /* wait for a sync of all files */
static struct pending pending[PENDING_MOST];
static GHashTable *written;   /* by file, the number of the newest write that was answered */
static unsigned syncs, pages; /* syncs of all files that are under way; pages since they began */
static bool is_ending;

static int place_of(uint16_t server) { return server <= config.servers ? server : 0; }

static void *key_of(uint16_t server, uint32_t ino) {
    return GSIZE_TO_POINTER((size_t)server << 32 | ino);
}

static uint16_t server_of(const void *key) { return (uint16_t)(GPOINTER_TO_SIZE(key) >> 32); }

void asks_begin(void) { written = g_hash_table_new(NULL, NULL); }

void asks_put(struct request *it) {
    if (is_ending) it->answered(it, NULL);
    else g_queue_push_tail(&waiting[place_of(it->ask.server)], it);
}

void asks_forget(struct request *it) {
    g_queue_remove(&waiting[place_of(it->ask.server)], it);
    g_queue_remove(&stalled, it);
    for (int i = 0; i < PENDING_MOST; i++)
        if (pending[i].request == it) pending[i].request = NULL;
}

static void synced(struct request *it, const struct reply *reply) {
    uint32_t answer = reply ? reply->answer.answer : TANK_ANSWER_LOST;
    bool is_lost = answer != TANK_ANSWER_HARD && answer != TANK_ANSWER_QUIESCED;
    if (is_lost) folder_lost(it->ask.server, it->ask.ino);
    if (is_ending && answer != TANK_ANSWER_HARD)
        say(LEVEL_WARNING, "file %d:%u: not everything that was written is on the disks",
            it->ask.server, it->ask.ino);
    g_free(it);
    if (--syncs) return;
    for (struct request *other; (other = g_queue_pop_head(&stalled));) asks_put(other);
}

static void sync_file(void *key, G_GNUC_UNUSED void *number, G_GNUC_UNUSED void *data) {
    struct request *it = g_new0(struct request, 1);
    it->ask.ask = TANK_ASK_SYNC;
    it->ask.server = server_of(key);
    it->ask.ino = (uint32_t)GPOINTER_TO_SIZE(key);
    it->answered = synced;
    asks_put(it);
    syncs++;
}

static void sync_all(void) {
    pages = 0;
    g_hash_table_foreach(written, sync_file, NULL);
}

void asks_end(void) {
    sync_all();
    is_ending = true;
}

bool asks_are_synced(void) { return !syncs; }

/* What an answer says of the files that were written. What was written of a file before the ask
 * may need no other sync. */
static void note(const struct pending *it, uint32_t answer) {
    bool is_removed = answer == TANK_ANSWER_NAMED && it->ask.ask == TANK_ASK_REMOVE;
    void *key = key_of(it->ask.server, is_removed ? it->ask.other : it->ask.ino);
    bool is_done = is_removed || answer == TANK_ANSWER_HARD || answer == TANK_ANSWER_LOST;
    if (is_done && GPOINTER_TO_SIZE(g_hash_table_lookup(written, key)) < it->number)
        g_hash_table_remove(written, key);
    if (answer >= TANK_ANSWER_QUIESCED) count(COUNT_REFUSED);
    if (answer != TANK_ANSWER_WRITTEN) return;
    g_hash_table_insert(written, key, GSIZE_TO_POINTER(it->number));
    if (it->request && it->request->is_patient && ++pages >= WRITTEN_MOST && !syncs) sync_all();
}

static struct pending *pending_with(uint64_t op) {
    for (struct pending *it = pending; it < pending + PENDING_MOST; it++)
        if (it->ask.op == op) return it;
    return NULL;
}

/* An ask's number is used once: numbers are reserved on the disk before the first of them is used.
 * Only 32 bits of it are in its `op`. After 4,294,967,295 asks the same ones come again, except for
 * those of asks that have no answer yet: so an answer is never taken for that of another ask. */
static uint64_t new_number(uint64_t *op) {
    static uint64_t last;
    do {
        if (!last) last = lives.asks - 1;
        if (++last >= lives.asks) {
            lives.asks = last + RESERVED;
            lives_keep();
        }
        *op = 1 + (last - 1) % config.ops;
    } while (pending_with(*op));
    return last;
}

static void give_one(struct request *it) {
    static uint8_t frame[TANK_FRAME_MOST];
    size_t size;
    uint64_t number = new_number(&it->ask.op);
    it->ask.client = config.number;
    uint32_t result = tank_encode_ask(&it->ask, it->bytes, it->length, it->other, it->other_length,
                                      frame, sizeof frame, &size);
    if (result != TANK_DONE) {
        say(LEVEL_ERROR, "an ask can't be encoded: %s", tank_text(result));
        it->answered(it, NULL);
        return;
    }
    *pending_with(0) = (struct pending){it, it->ask, number};
    count(COUNT_ASKS);
    node_take(frame, size);
}

/* How many asks are under way, at a server or at all of them (-1). */
static int pending_at(int place) {
    int found = 0;
    for (const struct pending *it = pending; it < pending + PENDING_MOST; it++)
        found += it->ask.op && (place < 0 || place_of(it->ask.server) == place);
    return found;
}

/* No server takes all the room that the client has, so that one that doesn't answer doesn't keep
 * back the asks of others. */
void asks_give(void) {
    const int share = PENDING_MOST / (int)config.servers;
    for (int place = 0; place <= (int)config.servers; place++)
        while (waiting[place].head && pending_at(-1) < PENDING_MOST && pending_at(place) < share)
            give_one(g_queue_pop_head(&waiting[place]));
}

void asks_answer(const uint8_t *frame, size_t size) {
    static uint8_t page[TANK_PAGE];
    struct reply reply = {.page = page, .frame = frame, .size = size};
    must(tank_decode_answer(frame, size, &reply.answer, page, sizeof page));
    struct pending *place = pending_with(reply.answer.op);
    if (!place) return;
    struct request *it = place->request;
    note(place, reply.answer.answer);
    place->ask.op = 0;
    bool is_stalled = it && it->is_patient && reply.answer.answer == TANK_ANSWER_DIRTY_FULL;
    if (is_stalled && !syncs) sync_all();
    if (is_stalled && syncs) g_queue_push_tail(&stalled, it);
    else if (it) it->answered(it, &reply);
}

static void lose_file(void *key, G_GNUC_UNUSED void *number, G_GNUC_UNUSED void *data) {
    folder_lost(server_of(key), (uint32_t)GPOINTER_TO_SIZE(key));
}

void asks_drop(void) {
    GQueue all = stalled;
    stalled = (GQueue)G_QUEUE_INIT;
    for (struct pending *it = pending; it < pending + PENDING_MOST; it++) {
        if (it->ask.op && it->request) g_queue_push_tail(&all, it->request);
        it->ask.op = 0;
    }
    for (int place = 0; place <= SERVERS_MOST; place++)
        while (waiting[place].head) g_queue_push_tail(&all, g_queue_pop_head(&waiting[place]));
    g_hash_table_foreach(written, lose_file, NULL);
    g_hash_table_remove_all(written);
    for (struct request *it; (it = g_queue_pop_head(&all));) it->answered(it, NULL);
}

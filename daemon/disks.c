/* disks.c: the shared disks of a client, and the threads that do its commands. A disk is a file, a
 * device, or a part of one. A block has 8,192 bytes there: its tag, its page, and the CRC-32 of
 * both; the rest is zeros. */
#include "tankd.h"
#include <stdatomic.h>
#include <sys/eventfd.h>
#include <sys/stat.h>
#include <zlib.h>

enum {
    SLOT = 8192, /* bytes of a block */
    BATCH = 32,  /* commands that one sync covers */
    RUN = 16,    /* blocks after one another that one thread does */
};

struct __attribute__((packed)) block { /* each number has its highest byte first */
    uint16_t server;
    uint32_t ino, page;
    uint64_t birth;
    uint8_t bytes[TANK_PAGE];
    uint32_t sum;
};

struct command {
    struct tank_command command;
    uint64_t life;   /* of the lease under which it was submitted */
    uint64_t until;  /* when that lease ended, as its turn came */
    uint64_t effect; /* the moment at which it took effect; 0 if it took none */
    uint32_t end;
    bool writes;
    uint16_t disk, server;
    _Alignas(TANK_PAGE) union { /* aligned for a device */
        struct block block;
        uint8_t slot[SLOT];
    };
};

/* A thread, and the commands on its blocks, in their order. It has opened the disks for itself: the
 * system tells one sync of each opened file if an earlier write fails. */
static struct worker {
    GAsyncQueue *waiting;
    int files[DISKS_MOST + 1];
} * workers;

static GAsyncQueue *ended;            /* commands that must be reported */
static int end_file;                  /* tells the loop that there are some */
static _Atomic uint64_t under_way;    /* commands that were submitted and haven't ended */
static _Atomic int64_t slow, failing; /* for trials */
static struct { _Atomic uint64_t life, end; } leases[SERVERS_MOST + 1];
static _Atomic uint64_t limit = TANK_NEVER; /* from this reading on, no command is carried out */

static GQueue spare = G_QUEUE_INIT;          /* memory of commands that were reported */
static uint64_t submitted[SERVERS_MOST + 1]; /* writes that haven't ended */

/* The threads. A block that was read is whole, or was never written. The sum tells a write of which
 * only a part reached the disk, in a crash of the machine. */

static uint32_t sum_of(const struct block *it) {
    return htobe32((uint32_t)crc32(0, (const uint8_t *)it, offsetof(struct block, sum)));
}

static bool transfer(const int *files, struct command *it) {
    static const uint8_t never[offsetof(struct block, bytes)];
    struct block *block = &it->block;
    off_t place = (off_t)(config.disk_at[it->disk] + (uint64_t)it->command.block * SLOT);
    if (it->disk > config.disks || it->command.block >= config.blocks)
        return false; /* a server of another shape */
    if (it->writes) {
        block->sum = sum_of(block);
        memset(block + 1, 0, SLOT - sizeof *block);
        return pwrite(files[it->disk], it->slot, SLOT, place) == SLOT;
    }
    ssize_t count = pread(files[it->disk], it->slot, SLOT, place);
    if (count < 0) return false;
    memset(it->slot + count, 0, (size_t)(SLOT - count)); /* a file may end before the block */
    return block->sum == sum_of(block) || (!block->sum && !memcmp(block, never, sizeof never));
}

/* Does a command, if its lease lasts, and if it doesn't have to fail for a trial. The lease's end
 * is read first, and disks_lease writes it last: so if the life is then still the command's, the
 * end belongs to this life, too. */
static void begin(const int *files, struct command *it) {
    bool fails = failing > 0 && atomic_fetch_sub(&failing, 1) > 0;
    if (slow) g_usleep((uint64_t)slow * 1000);
    uint64_t end = leases[it->server].end;
    it->until = leases[it->server].life == it->life ? end : 0;
    bool lasts = clock_at(clock_moment()) + config.disk_time < MIN(it->until, limit);
    if (!lasts) count(COUNT_DISK_OVER);
    if (!lasts || fails || !transfer(files, it)) return;
    it->end = it->writes ? TANK_END_WRITTEN : TANK_END_READ;
    it->effect = clock_moment();
}

/* Syncs a disk, if commands of the batch wrote to it; if that fails, their writes failed. */
static void sync_writes(int file, struct command **batch, int size, uint16_t disk) {
    bool is_synced = false, fails = false;
    for (int i = 0; i < size; i++) {
        if (batch[i]->end != TANK_END_WRITTEN || batch[i]->disk != disk) continue;
        if (!is_synced) fails = fdatasync(file);
        is_synced = true;
        if (fails) batch[i]->end = TANK_END_FAILED;
    }
}

static void *work(void *worker) {
    const struct worker *self = worker;
    struct command *batch[BATCH];
    for (int size = 1;; size = 1) {
        g_async_queue_lock(self->waiting);
        batch[0] = g_async_queue_pop_unlocked(self->waiting);
        while (size < BATCH && (batch[size] = g_async_queue_try_pop_unlocked(self->waiting)))
            size++;
        g_async_queue_unlock(self->waiting);
        for (int i = 0; i < size; i++) begin(self->files, batch[i]);
        for (uint16_t disk = 1; disk <= config.disks; disk++)
            sync_writes(self->files[disk], batch, size, disk);
        g_async_queue_lock(ended);
        bool is_told = g_async_queue_length_unlocked(ended) > 0;
        for (int i = 0; i < size; i++) g_async_queue_push_unlocked(ended, batch[i]);
        g_async_queue_unlock(ended);
        under_way -= (uint64_t)size;
        if (!is_told) eventfd_write(end_file, 1);
    }
    return NULL;
}

/* A write that took effect after its lease breaks a premise of the protocol: the disk was slower
 * than `disk-time` says. */
static void report(struct command *it) {
    const struct block *block = &it->block;
    struct tank_done done = {
        .number = it->command.number, .result = it->end, .client = it->command.client};
    if (it->end == TANK_END_READ)
        done.tag = (struct tank_tag){be64toh(block->birth), be32toh(block->ino),
                                     be32toh(block->page), be16toh(block->server)};
    count(it->writes ? COUNT_DISK_WRITES : COUNT_DISK_READS);
    if (it->end == TANK_END_FAILED) count(COUNT_DISK_FAILED);
    uint64_t effect = clock_at(it->effect), of_life = leases[it->server].life;
    uint64_t end = of_life == it->life ? MAX(it->until, leases[it->server].end) : it->until;
    if (it->writes && it->effect && effect >= end) {
        count(COUNT_DISK_LATE);
        say(LEVEL_WARNING, "a write to disk %d took effect after its lease", it->disk);
    }
    node_command_ended(&done, block->bytes, it->effect);
    if (it->writes && submitted[it->server]) submitted[it->server]--;
}

/* What is reported may make the client fence itself, which drops the rest. */
static void hear_ends(UNUSED_OF_EVENT) {
    for (struct command *it; (it = g_async_queue_try_pop(ended)); g_queue_push_head(&spare, it))
        report(it);
}

static int open_disk(uint16_t disk) {
    struct stat found;
    int file = open(config.disk[disk], O_RDWR | O_CLOEXEC);
    /* other machines write to a device, too: its blocks must not be cached here */
    if (file < 0 || fstat(file, &found) ||
        (S_ISBLK(found.st_mode) && fcntl(file, F_SETFL, O_DIRECT)))
        fail("disk %d: %s: %s", disk, config.disk[disk], strerror(errno));
    return file;
}

void disks_begin(void) {
    ended = g_async_queue_new();
    end_file = eventfd(0, EFD_NONBLOCK | EFD_CLOEXEC); /* each write is heard, and needs no read */
    event_add(event_new(base, end_file, EV_READ | EV_PERSIST | EV_ET, hear_ends, NULL), NULL);
    workers = g_new0(struct worker, config.workers);
    for (struct worker *it = workers; it < workers + config.workers; it++) {
        it->waiting = g_async_queue_new();
        for (uint16_t disk = 1; disk <= config.disks; disk++) it->files[disk] = open_disk(disk);
        g_thread_unref(g_thread_new("disks", work, it));
    }
}

void disks_submit(const uint8_t *frame, size_t size) {
    struct command *it = g_queue_pop_head(&spare);
    if (!it) it = aligned_alloc(TANK_PAGE, sizeof *it);
    if (!it) fail("out of memory");
    memset(it, 0, offsetof(struct command, block));
    must(tank_decode_command(frame, size, &it->command, it->block.bytes, TANK_PAGE));
    const struct tank_tag *tag = &it->command.tag;
    it->block.server = htobe16(tag->server);
    it->block.ino = htobe32(tag->ino);
    it->block.page = htobe32(tag->page);
    it->block.birth = htobe64(tag->birth);
    it->end = TANK_END_FAILED;
    it->writes = it->command.command == TANK_COMMAND_WRITE;
    it->disk = it->command.disk;
    it->server = server_of_disk(it->disk);
    it->life = leases[it->server].life;
    submitted[it->server] += it->writes;
    /* commands on one block are done one after another, in this order */
    under_way++;
    g_async_queue_push(workers[(it->disk + it->command.block / RUN) % config.workers].waiting, it);
}

void disks_lease(uint16_t server, uint64_t life, uint64_t end) {
    leases[server].life = life;
    leases[server].end = end;
}

void disks_limit(uint64_t reading) { limit = reading; }

bool disks_write(uint16_t server) { return submitted[server]; }

void disks_drop(void) {
    struct command *it;
    for (uint64_t i = 0; i < config.workers; i++)
        for (; (it = g_async_queue_try_pop(workers[i].waiting)); under_way--)
            g_queue_push_head(&spare, it);
    while (under_way) g_usleep(100); /* this is rare */
    for (; (it = g_async_queue_try_pop(ended)); g_queue_push_head(&spare, it))
        if (it->effect) report(it);
    memset(submitted, 0, sizeof submitted);
}

void disks_try(bool slows, uint64_t number) {
    if (slows) slow = (int64_t)number;
    else failing = (int64_t)number;
}

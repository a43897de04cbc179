/* keep.c: what outlives a crash of the node: the clock, a client's lives, a server's journal. */
#include "tankd.h"
#include <stdio.h>
#include <sys/file.h>
#include <time.h>

enum { AHEAD = 60000, MARGIN = 10000 }; /* milliseconds that the kept reading is above the clock */

struct lives lives;
uint64_t journal_room;

static char *boot;       /* names the machine's present run */
static uint64_t added;   /* what is added to the machine's clock, in milliseconds */
static uint64_t ceiling; /* the clock reads less than this until the file says more */
static int journal, mark;

static char *path_of(const char *kind) {
    return g_strdup_printf("%s/%s.%s", config.state, config.name, kind);
}

/* Opens a file of the node. */
static int open_kept(const char *kind, int flags) {
    g_autofree char *path = path_of(kind);
    int file = open(path, flags | O_CLOEXEC, 0600);
    if (file < 0) fail("%s: %s (--create makes what it needs, once)", path, strerror(errno));
    return file;
}

static char *read_text(const char *path) {
    char *text;
    g_autoptr(GError) fault = NULL;
    if (!g_file_get_contents(path, &text, NULL, &fault)) fail("%s", fault->message);
    return text;
}

static void write_all(int file, const void *bytes, size_t count, off_t place) {
    for (ssize_t done; count; count -= (size_t)done, place += done) {
        done = pwrite(file, bytes, count, place);
        if (done < 0 && errno == EINTR) done = 0;
        else if (done <= 0) fail("what must be kept can't be written: %s", strerror(errno));
        bytes = (const char *)bytes + done;
    }
}

/* Puts the file `new` in place of this one; it returns when the disk has it. */
static void put_in_place(const char *kind, int file) {
    g_autofree char *made = path_of("new"), *path = path_of(kind);
    int folder = open(config.state, O_RDONLY | O_DIRECTORY | O_CLOEXEC);
    if (fsync(file) || close(file) || rename(made, path) || folder < 0 || fsync(folder))
        fail("%s: %s", path, strerror(errno));
    close(folder);
}

static void keep_text(const char *kind, const char *text) {
    int file = open_kept("new", O_WRONLY | O_CREAT | O_TRUNC);
    write_all(file, text, strlen(text), 0);
    put_in_place(kind, file);
}

uint64_t clock_moment(void) {
    struct timespec now;
    if (clock_gettime(CLOCK_BOOTTIME, &now)) fail("this machine has no CLOCK_BOOTTIME");
    return (uint64_t)now.tv_sec * 1000000000 + (uint64_t)now.tv_nsec;
}

/* In a trial, the node's clock runs this many parts in a million faster than the machine's. */
static uint64_t ahead_of(uint64_t moment) { return moment + moment / 1000 * config.ahead / 1000; }

uint64_t clock_at(uint64_t moment) { return added + ahead_of(moment) / MILLISECOND; }

uint64_t clock_told(uint64_t moment) { return config.elsewhere ? ahead_of(moment) : moment; }

static void keep_clock(uint64_t greatest) {
    ceiling = greatest;
    g_autofree char *text =
        g_strdup_printf("%s %lu %lu\n%s\n", boot, added, ceiling, config.common);
    keep_text("clock", text);
}

uint64_t clock_for_step(uint64_t moment) {
    uint64_t reading = clock_at(moment);
    if (reading + MARGIN > ceiling) keep_clock(reading + AHEAD);
    return reading;
}

/* A machine's clock begins again with the machine; the node's goes on from what was kept. */
static void begin_clock(void) {
    g_autofree char *path = path_of("clock"), *text = read_text(path);
    char of[64];
    int end = 0;
    if (sscanf(text, "%63s %lu %lu %n", of, &added, &ceiling, &end) != 3)
        fail("%s: this isn't a clock", path);
    if (strcmp(g_strchomp(text + end), config.common))
        fail("%s: the node was made with the settings, servers, disks and blocks \"%s\", which "
             "must stay, and not with \"%s\"",
             path, text + end, config.common);
    if (strcmp(of, boot)) added = ceiling;
}

void lives_keep(void) {
    GString *text = g_string_new(NULL);
    g_string_printf(text, "tank lives 1 %lu %lu", lives.moment, lives.asks);
    for (uint64_t server = 1; server <= config.servers; server++)
        g_string_append_printf(text, " %lu", lives.life[server]);
    keep_text("lives", g_string_append_c(text, '\n')->str);
    g_string_free(text, true);
}

static void read_lives(void) {
    FILE *file = fdopen(open_kept("lives", O_RDONLY), "r");
    int found = fscanf(file, "tank lives 1 %lu %lu", &lives.moment, &lives.asks);
    for (uint64_t server = 1; found > 0 && server <= config.servers; server++)
        if (fscanf(file, "%lu", &lives.life[server]) != 1) found = 0;
    if (found != 2) fail("the file of lives has none at %d servers", (int)config.servers);
    fclose(file);
}

uint8_t *journal_read(void) {
    uint8_t *bytes = g_malloc(journal_room);
    if (fdatasync(journal)) fail("the journal can't be synced: %s", strerror(errno));
    for (size_t at = 0; at < journal_room;) {
        ssize_t count = pread(journal, bytes + at, journal_room - at, (off_t)at);
        if (count <= 0) fail("the journal can't be read: %s", strerror(errno));
        at += (size_t)count;
    }
    return bytes;
}

void journal_write(uint64_t place, const void *bytes, size_t count) {
    if (config.torn) { /* a trial: what a store may leave of a write, for a while */
        uint32_t any[TANK_RECORD_MOST / 4 + 1];
        for (size_t i = 0; i < G_N_ELEMENTS(any); i++) any[i] = g_random_int();
        write_all(journal, any, count, (off_t)place);
        g_usleep(2000);
    }
    write_all(journal, bytes, count, (off_t)place);
}

/* The mark is the gate after the last step whose line in the trace is whole. It needs to outlive
 * the process, but not the machine. */
void mark_keep(uint64_t gate) { write_all(mark, &gate, sizeof gate, 0); }

bool keep_has(uint64_t moment, uint64_t gate) {
    uint64_t marked = 0;
    if (!config.is_server) return lives.moment == moment;
    if (pread(mark, &marked, sizeof marked, 0) < 0) fail("no mark: %s", strerror(errno));
    return gate != marked;
}

uint64_t journal_gate(void) {
    g_autofree uint8_t *bytes = journal_read();
    uint64_t gate = 0;
    for (uint32_t length; gate + 5 <= journal_room && bytes[gate] == 1;) {
        memcpy(&length, bytes + gate + 1, sizeof length);
        gate += 5 + be32toh(length);
    }
    return gate;
}

/* A second process would use the same lives or the same journal. The file stays open, and the lock
 * with it. */
static void lock(void) {
    boot = g_strstrip(read_text("/proc/sys/kernel/random/boot_id"));
    if (flock(open_kept("lock", O_RDWR | O_CREAT), LOCK_EX | LOCK_NB))
        fail("another process runs this node");
}

void keep_create(void) {
    g_autofree char *path = path_of(config.is_server ? "journal" : "lives");
    lock();
    if (!access(path, F_OK)) fail("%s exists: this node was started before", path);
    keep_clock(0);
    lives.asks = 1;
    if (!config.is_server) return lives_keep();
    int file = open_kept("new", O_RDWR | O_CREAT | O_TRUNC);
    errno = posix_fallocate(file, 0, (off_t)config.journal_bytes);
    if (errno) fail("the journal can't be made: %s", strerror(errno));
    put_in_place("journal", file);
}

void keep_begin(void) {
    lock();
    if (config.is_server) {
        journal = open_kept("journal", O_RDWR | O_DSYNC);
        mark = open_kept("mark", O_RDWR | O_CREAT);
        off_t end = lseek(journal, 0, SEEK_END);
        if (end <= 0) fail("the journal is neither a file nor a device with bytes");
        journal_room = (uint64_t)end;
    } else read_lives();
    begin_clock();
}

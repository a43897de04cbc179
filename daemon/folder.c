/* folder.c: the files of `mount-server` as a folder, by FUSE.
 *
 * Page 0 of a file has its mode and, for each client, a row with what this client last said of the
 * size and the time; page 1 + N has the bytes from 4096 N on. A client changes only its own row, by
 * a patch, so clients that make a file longer at the same time lose nothing. A row has an order:
 * the greatest size among those of the highest order is the file's, and the same for the time. A
 * truncation or a time that is set begins a higher order. Pages that others write, too, are
 * patched. With a trace, pages are read and written whole, in two asks, so that tools/record can
 * follow; then two clients that write one page at once may lose bytes.
 *
 * Functions that may fail return 0 or a negative number of errno. Nothing is cached by the kernel:
 * other clients change files and names, too. */
#define FUSE_USE_VERSION 312
#include "tankd.h"
#include <fuse_lowlevel.h>
#include <ucontext.h>

enum {
    CALLS = 16,
    STACK = 256 * 1024,
    FIRST = 1, /* the first page with bytes */
    DEFAULT_MODE = 0644,
    RIGHTS = 07777,
    AGAIN = 20, /* milliseconds until a quiesced ask is made again */
    FILES = 4096,
    BLOCK = 128 * 1024, /* bytes that programs should read and write at once */
    SECOND = 1000000000,
};
#define UNUSED_FILE G_GNUC_UNUSED struct fuse_file_info *opened
#define SIZE_MOST ((UINT64_C(1048576) - FIRST) * TANK_PAGE) /* of a file, in bytes */

/* Calls. Each has a stack of its own. It leaves it while it waits, and goes on when it is ready;
 * who makes it ready needn't know for what it waits. After its first fault, a call makes no more
 * asks, and this fault is the reply. */
static struct call {
    ucontext_t context;
    struct fuse_buf buffer; /* what the kernel asks */
    struct event *timer;
    int fault; /* a number of errno, or 0 */
    bool is_used, is_ready, is_late;
} calls[CALLS], *running;

static ucontext_t loop_context;
static struct fuse_session *session;
static struct event *kernel; /* it asks; null when nothing is mounted */

static void leave(void) { swapcontext(&running->context, &loop_context); }

static void time_is_over(G_GNUC_UNUSED int file, G_GNUC_UNUSED short what, void *call) {
    struct call *it = call;
    it->is_late = it->is_ready = true;
}

/* Waits until *what is 0, for at most this many milliseconds; whether it is 0. */
static bool wait_for(const size_t *what, uint64_t milliseconds) {
    running->is_late = false;
    timer_set(running->timer, milliseconds);
    while (*what && !running->is_late) leave();
    event_del(running->timer);
    return !*what;
}

static void hear_kernel(UNUSED_OF_EVENT) {
    struct call *it = calls;
    while (it < calls + CALLS && it->is_used) it++;
    int got = it < calls + CALLS ? fuse_session_receive_buf(session, &it->buffer) : -EAGAIN;
    if (got > 0) it->is_used = it->is_ready = true;
    else if (got != -EAGAIN && got != -EINTR) {
        say(LEVEL_WARNING, "the folder was unmounted");
        event_free(kernel);
        kernel = NULL;
    } else if (it == calls + CALLS) event_del(kernel);
}

static void serve(void) {
    for (;; leave()) {
        running->fault = 0;
        fuse_session_process_buf(session, &running->buffer);
        running->is_used = false;
        if (kernel) event_add(kernel, NULL);
    }
}

bool folder_goes_on(void) {
    bool found = false;
    for (running = calls; running < calls + CALLS; running++) {
        if (!running->is_ready) continue;
        running->is_ready = false;
        found = true;
        swapcontext(&loop_context, &running->context);
    }
    return found;
}

struct ask {
    struct request request;
    struct call *call;
    size_t *waiting;            /* how many asks of the call have no answer */
    uint8_t *page;              /* where the page goes that is read */
    struct tank_entry *entries; /* where entries go, if they are wanted */
    size_t entry_count;
    struct tank_answer answer;
};

static void answered(struct request *request, const struct reply *reply) {
    struct ask *it = OWNER(struct ask, request, request);
    it->answer = reply ? reply->answer : (struct tank_answer){.answer = TANK_ANSWER_UNCERTAIN};
    if (it->answer.answer == TANK_ANSWER_READ) memcpy(it->page, reply->page, TANK_PAGE);
    if (it->answer.answer == TANK_ANSWER_LISTED && it->entries)
        must(tank_decode_entries(reply->frame, reply->size, it->entries, ENTRIES_MOST,
                                 &it->entry_count));
    if (!--*it->waiting) it->call->is_ready = true;
}

static int fault_of(const struct tank_answer *it) {
    static const int faults[TANK_ANSWERS_END] = {
        [TANK_ANSWER_QUIESCED] = EAGAIN,   [TANK_ANSWER_NO_FILE] = ENOENT,
        [TANK_ANSWER_NO_SPACE] = ENOSPC,   [TANK_ANSWER_DISK_FAULT] = EIO,
        [TANK_ANSWER_OPS_FULL] = EIO,      [TANK_ANSWER_UNCERTAIN] = EIO,
        [TANK_ANSWER_LOST] = EIO,          [TANK_ANSWER_DIRTY_FULL] = EIO,
        [TANK_ANSWER_NOT_HOLDER] = ESTALE, [TANK_ANSWER_TOO_MANY_LOCKS] = ENFILE};
    static const int causes[TANK_CAUSES_END] = {
        [TANK_CAUSE_NO_ENTRY] = ENOENT,       [TANK_CAUSE_EXISTS] = EEXIST,
        [TANK_CAUSE_NOT_DIRECTORY] = ENOTDIR, [TANK_CAUSE_IS_DIRECTORY] = EISDIR,
        [TANK_CAUSE_NOT_EMPTY] = ENOTEMPTY,   [TANK_CAUSE_CYCLE] = EINVAL,
        [TANK_CAUSE_BAD_NAME] = EINVAL,       [TANK_CAUSE_TOO_MANY] = ENOSPC};
    return it->answer == TANK_ANSWER_REFUSED ? causes[it->first] : faults[it->answer];
}

static struct ask ask_for(uint32_t ask, uint32_t ino, uint32_t page) {
    const struct tank_ask it = {
        .ask = ask, .server = (uint16_t)config.mount_server, .ino = ino, .page = page};
    return (struct ask){.request = {.ask = it, .is_patient = true, .answered = answered}};
}

/* Makes asks, and waits for their answers, for two leases at most. While the lease is in quiesce,
 * they are made again, for a lease at most. Whether they are answered without a fault. */
static bool make(struct ask *asks, size_t count) {
    const uint64_t end = clock_moment() + config.settings.lease * MILLISECOND;
    for (const size_t never = 1; !running->fault; wait_for(&never, AGAIN)) {
        size_t waiting = count;
        int fault = 0;
        for (struct ask *it = asks; it < asks + count; it++) {
            it->call = running;
            it->waiting = &waiting;
            asks_put(&it->request);
        }
        bool is_whole = wait_for(&waiting, 2 * config.settings.lease);
        for (struct ask *it = asks; it < asks + count; it++) {
            if (!is_whole) asks_forget(&it->request);
            else if (!fault) fault = fault_of(&it->answer);
        }
        if (is_whole && !fault) return true;
        bool is_over = !is_whole || clock_moment() > end;
        if (is_over || fault != EAGAIN) running->fault = is_over ? EIO : fault;
    }
    return false;
}

/* What is known here of files. A file of which only the kind is known may be forgotten. */
struct file {
    uint32_t opens;
    uint32_t hidden_in; /* the directory from which it goes when it is closed; 0 if it stays */
    enum { UNKNOWN, REGULAR, DIRECTORY } kind;
    bool is_lost, is_locked; /* something that was written; while a call changes it */
};

static GHashTable *files; /* by inode number */

static gboolean is_idle(G_GNUC_UNUSED void *ino, void *file, G_GNUC_UNUSED void *data) {
    const struct file *it = file;
    return !it->opens && !it->is_lost && !it->is_locked;
}

static struct file *file_of(uint32_t ino) {
    struct file *it = g_hash_table_lookup(files, GUINT_TO_POINTER(ino));
    if (it) return it;
    if (g_hash_table_size(files) >= FILES) g_hash_table_foreach_remove(files, is_idle, NULL);
    g_hash_table_insert(files, GUINT_TO_POINTER(ino), it = g_new0(struct file, 1));
    return it;
}

void folder_lost(uint16_t server, uint32_t ino) {
    if (session && server == config.mount_server) file_of(ino)->is_lost = true;
}

/* Each loss is reported once. */
static void report_loss(uint32_t ino) {
    if (file_of(ino)->is_lost && !running->fault) running->fault = EIO;
    file_of(ino)->is_lost = false;
}

static void lock(uint32_t ino) {
    while (file_of(ino)->is_locked) leave();
    file_of(ino)->is_locked = true;
}

static void unlock(uint32_t ino) {
    file_of(ino)->is_locked = false;
    for (struct call *it = calls; it < calls + CALLS; it++)
        it->is_ready |= it->is_used && it != running;
}

/* Asks for something with names; what is named by the answer, or 0. */
static uint32_t ask_name(uint32_t ask, uint32_t directory, const char *name, uint32_t other,
                         const char *new_name) {
    struct ask it = ask_for(ask, directory, 0);
    it.request.ask.other = other;
    it.request.bytes = name;
    it.request.length = strlen(name);
    it.request.other = new_name;
    it.request.other_length = strlen(new_name);
    bool is_long = MAX(it.request.length, it.request.other_length) > NAME_MOST;
    if (is_long && !running->fault) running->fault = ENAMETOOLONG;
    return make(&it, 1) ? (uint32_t)it.answer.first : 0;
}

static uint32_t look_for(uint32_t directory, const char *name) {
    uint32_t ino = ask_name(TANK_ASK_LOOKUP, directory, name, 0, "");
    if (running->fault == EINVAL) running->fault = ENOENT; /* no entry has a name that isn't one */
    return ino;
}

static void rename_entry(uint32_t old_directory, const char *old, uint32_t directory,
                         const char *name) {
    ask_name(TANK_ASK_RENAME, old_directory, old, directory, name);
}

/* A directory can be listed, and has no pages. */
static bool is_directory(uint32_t ino) {
    struct ask list = ask_for(TANK_ASK_LIST, ino, 0);
    if (file_of(ino)->kind == UNKNOWN && make(&list, 1)) file_of(ino)->kind = DIRECTORY;
    if (file_of(ino)->kind == UNKNOWN && running->fault == ENOTDIR) {
        running->fault = 0;
        file_of(ino)->kind = REGULAR;
    }
    return file_of(ino)->kind == DIRECTORY;
}

struct row {
    uint64_t size_order, size, time_order, time;
};

union header { /* each number has its highest byte first */
    uint8_t page[TANK_PAGE];
    struct {
        uint32_t mode, rest[15];
        struct row rows[CLIENTS_MOST];
    };
};

struct known { /* what a header says */
    uint32_t mode;
    struct row row; /* made of those of all clients */
};

static bool read_pages(uint32_t ino, uint32_t first, size_t count, uint8_t *bytes) {
    g_autofree struct ask *asks = g_new(struct ask, count);
    for (size_t i = 0; i < count; i++) {
        asks[i] = ask_for(TANK_ASK_READ, ino, first + (uint32_t)i);
        asks[i].page = bytes + i * TANK_PAGE;
    }
    return make(asks, count);
}

/* Writes bytes from a place of a page on. */
static void write_pages(uint32_t ino, uint32_t page, size_t at, const void *from, size_t size) {
    size_t count = (at + size + TANK_PAGE - 1) / TANK_PAGE;
    g_autofree struct ask *asks = g_new(struct ask, count);
    g_autofree uint8_t *whole = config.is_traced ? g_malloc(count * TANK_PAGE) : NULL;
    const uint8_t *bytes = from;
    if (whole && read_pages(ino, page, count, whole)) {
        memcpy(whole + at, from, size);
        bytes = whole;
        size = count * TANK_PAGE;
        at = 0;
    }
    for (size_t i = 0, part; i < count; i++, at = 0, bytes += part, size -= part) {
        part = MIN(size, TANK_PAGE - at);
        uint32_t ask = part == TANK_PAGE ? TANK_ASK_WRITE : TANK_ASK_PATCH;
        asks[i] = ask_for(ask, ino, page + (uint32_t)i);
        asks[i].request.ask.at = (uint16_t)at;
        asks[i].request.bytes = bytes;
        asks[i].request.length = part;
    }
    make(asks, count);
}

static uint64_t time_now(void) { return (uint64_t)g_get_real_time() * 1000; }

/* A number counts with its order, first. */
static void take_greater(uint64_t *order, uint64_t *number, uint64_t of, uint64_t other) {
    of = be64toh(of);
    other = be64toh(other);
    if (of < *order || (of == *order && other < *number)) return;
    *order = of;
    *number = other;
}

static struct known read_header(uint32_t ino) {
    union header header;
    struct known it = {0};
    if (!read_pages(ino, 0, 1, header.page)) return it;
    it.mode = be32toh(header.mode);
    for (const struct row *from = header.rows; from < header.rows + CLIENTS_MOST; from++) {
        take_greater(&it.row.size_order, &it.row.size, from->size_order, from->size);
        take_greater(&it.row.time_order, &it.row.time, from->time_order, from->time);
    }
    return it;
}

/* Changes this client's row: the file is at least, or exactly, as long; and its time is this one.
 */
static void change_row(uint32_t ino, uint64_t size, bool is_exact, uint64_t time, bool is_set) {
    const struct row it = read_header(ino).row;
    bool is_other = is_exact && size != it.size;
    const struct row own = {htobe64(it.size_order + is_other),
                            htobe64(is_other ? size : MAX(size, it.size)),
                            htobe64(it.time_order + is_set), htobe64(time)};
    size_t at = offsetof(union header, rows) + (config.number - 1u) * sizeof own;
    write_pages(ino, 0, at, &own, sizeof own);
}

static struct stat stat_of(uint32_t ino) {
    bool is_file = !is_directory(ino);
    const struct known known = is_file ? read_header(ino) : (struct known){0};
    const mode_t mode = known.mode ? known.mode & RIGHTS : DEFAULT_MODE;
    const struct timespec time = {(time_t)(known.row.time / SECOND),
                                  (long)(known.row.time % SECOND)};
    return (struct stat){.st_ino = ino,
                         .st_nlink = 1,
                         .st_uid = getuid(),
                         .st_gid = getgid(),
                         .st_mode = is_file ? S_IFREG | mode : S_IFDIR | 0755,
                         .st_size = (off_t)known.row.size,
                         .st_blksize = BLOCK,
                         .st_blocks = (blkcnt_t)((known.row.size + 511) / 512),
                         .st_mtim = time,
                         .st_ctim = time};
}

static void set_size(uint32_t ino, uint64_t size) {
    static const uint8_t zeros[TANK_PAGE];
    size_t rest = size % TANK_PAGE;
    uint32_t last = FIRST + (uint32_t)(size / TANK_PAGE);
    struct ask cut = ask_for(TANK_ASK_CUT, ino, last + (rest > 0));
    if (size > SIZE_MOST && !running->fault) running->fault = EFBIG;
    bool is_shorter = size < read_header(ino).row.size;
    if (is_shorter && make(&cut, 1) && rest) write_pages(ino, last, rest, zeros, TANK_PAGE - rest);
    change_row(ino, size, true, time_now(), false);
}

/* Sets those of mode, size and time that FUSE_SET_ATTR_* name. A directory has no page that could
 * keep them. */
static void set(uint32_t ino, int which, const struct stat *to) {
    const uint32_t mode = htobe32((to->st_mode & RIGHTS) | 1u << 31); /* so that no mode is 0 */
    const struct timespec *time = &to->st_mtim;
    uint64_t given = (uint64_t)time->tv_sec * SECOND + (uint64_t)time->tv_nsec;
    if (is_directory(ino)) return;
    lock(ino);
    if (which & FUSE_SET_ATTR_MODE) write_pages(ino, 0, 0, &mode, sizeof mode);
    if (which & FUSE_SET_ATTR_SIZE) set_size(ino, (uint64_t)to->st_size);
    if (which & FUSE_SET_ATTR_MTIME)
        change_row(ino, 0, false, which & FUSE_SET_ATTR_MTIME_NOW ? time_now() : given, true);
    unlock(ino);
}

static uint32_t make_entry(uint32_t directory, const char *name, mode_t mode) {
    const struct stat to = {.st_mode = mode};
    uint32_t ask = S_ISDIR(mode) ? TANK_ASK_MKDIR : TANK_ASK_CREATE;
    uint32_t ino = ask_name(ask, directory, name, 0, "");
    int which = FUSE_SET_ATTR_MTIME | FUSE_SET_ATTR_MTIME_NOW;
    if (running->fault) return 0;
    file_of(ino)->kind = S_ISDIR(mode) ? DIRECTORY : REGULAR;
    if ((mode & RIGHTS) != DEFAULT_MODE) which |= FUSE_SET_ATTR_MODE;
    set(ino, which, &to);
    return ino;
}

static char *hidden_name(uint32_t ino) { return g_strdup_printf(".tank-%u", ino); }

/* Removes a file that has its hidden name; if it is open here, when it is closed. */
static void remove_hidden(uint32_t directory, uint32_t ino) {
    g_autofree char *hidden = hidden_name(ino);
    struct file *it = file_of(ino);
    it->hidden_in = it->opens ? directory : 0;
    if (!it->opens) ask_name(TANK_ASK_REMOVE, directory, hidden, ino, "");
}

static void close_file(uint32_t ino) {
    struct file *it = file_of(ino);
    if (!--it->opens && it->hidden_in) remove_hidden(it->hidden_in, ino);
}

static void remove_name(uint32_t directory, const char *name, bool is_rmdir) {
    uint32_t ino = look_for(directory, name);
    bool is_folder = !running->fault && is_directory(ino);
    g_autofree char *hidden = hidden_name(ino);
    if (running->fault) return;
    if (is_folder != is_rmdir) running->fault = is_folder ? EISDIR : ENOTDIR;
    if (is_folder || !file_of(ino)->opens) {
        ask_name(TANK_ASK_REMOVE, directory, name, is_folder ? 0 : ino, "");
        return;
    }
    rename_entry(directory, name, directory, hidden);
    if (!running->fault) remove_hidden(directory, ino);
}

/* Renames onto an entry that exists. A file that has the new name is first renamed to `.tank-INO`,
 * and removed in the end; so for a moment, no entry has this name, but its bytes are there until
 * the new ones are. */
static void replace(uint32_t old_directory, const char *old, uint32_t directory, const char *name) {
    uint32_t ino = look_for(old_directory, old), target = look_for(directory, name);
    if (running->fault || ino == target) return;
    bool is_folder = is_directory(ino), of_target = is_directory(target);
    g_autofree char *hidden = hidden_name(target);
    if (is_folder != of_target && !running->fault) running->fault = of_target ? EISDIR : ENOTDIR;
    if (of_target) ask_name(TANK_ASK_REMOVE, directory, name, 0, "");
    else rename_entry(directory, name, directory, hidden);
    if (running->fault) return;
    rename_entry(old_directory, old, directory, name);
    if (of_target) return;
    int fault = running->fault;
    running->fault = 0;
    if (fault) rename_entry(directory, hidden, directory, name);
    else remove_hidden(directory, target);
    running->fault = fault;
}

/* What the kernel asks. Replies with the call's fault; whether there is one. */
static bool has_failed(fuse_req_t request) {
    if (running->fault) fuse_reply_err(request, running->fault);
    return running->fault;
}

static void reply(fuse_req_t request) {
    if (!has_failed(request)) fuse_reply_err(request, 0);
}

static void reply_entry(fuse_req_t request, uint32_t ino) {
    struct fuse_entry_param entry = {.ino = ino, .attr = stat_of(ino)};
    if (!has_failed(request)) fuse_reply_entry(request, &entry);
}

static void op_lookup(fuse_req_t request, fuse_ino_t directory, const char *name) {
    reply_entry(request, look_for(directory, name));
}

static void op_mknod(fuse_req_t request, fuse_ino_t directory, const char *name, mode_t mode,
                     dev_t device) {
    if (device || !(S_ISREG(mode) || S_ISDIR(mode))) running->fault = EPERM;
    reply_entry(request, make_entry(directory, name, mode));
}

static void op_mkdir(fuse_req_t request, fuse_ino_t directory, const char *name, mode_t mode) {
    op_mknod(request, directory, name, S_IFDIR | mode, 0);
}

/* Opens a file, as open(2) does with O_TRUNC, and says so to the kernel, with its entry if it was
 * looked for. */
static void open_file(fuse_req_t request, uint32_t ino, struct fuse_entry_param *entry,
                      struct fuse_file_info *opened) {
    const struct stat none = {0};
    if (opened->flags & O_TRUNC) set(ino, FUSE_SET_ATTR_SIZE, &none);
    if (entry) *entry = (struct fuse_entry_param){.ino = ino, .attr = stat_of(ino)};
    if (has_failed(request)) return;
    file_of(ino)->opens++;
    opened->direct_io = 1; /* so that no page is in the kernel's cache */
    if (entry ? fuse_reply_create(request, entry, opened) : fuse_reply_open(request, opened))
        close_file(ino);
}

static void op_create(fuse_req_t request, fuse_ino_t directory, const char *name, mode_t mode,
                      struct fuse_file_info *opened) {
    struct fuse_entry_param entry;
    uint32_t ino = make_entry(directory, name, S_IFREG | mode);
    if (running->fault == EEXIST && !(opened->flags & O_EXCL)) {
        running->fault = 0;
        ino = look_for(directory, name);
    }
    open_file(request, ino, &entry, opened);
}

static void op_open(fuse_req_t request, fuse_ino_t ino, struct fuse_file_info *opened) {
    open_file(request, ino, NULL, opened);
}

static void op_release(fuse_req_t request, fuse_ino_t ino, UNUSED_FILE) {
    close_file(ino);
    fuse_reply_err(request, 0);
}

static void op_unlink(fuse_req_t request, fuse_ino_t directory, const char *name) {
    remove_name(directory, name, false);
    reply(request);
}

static void op_rmdir(fuse_req_t request, fuse_ino_t directory, const char *name) {
    remove_name(directory, name, true);
    reply(request);
}

static void op_rename(fuse_req_t request, fuse_ino_t from, const char *old, fuse_ino_t to,
                      const char *name, unsigned flags) {
    if (flags & ~(unsigned)RENAME_NOREPLACE) running->fault = EINVAL;
    rename_entry(from, old, to, name);
    if (running->fault == EEXIST && !flags) {
        running->fault = 0;
        replace(from, old, to, name);
    }
    reply(request);
}

static void add_entry(fuse_req_t request, GString *list, const char *name, uint32_t ino,
                      bool is_directory) {
    const struct stat it = {.st_ino = ino, .st_mode = is_directory ? S_IFDIR : S_IFREG};
    size_t at = list->len, size = fuse_add_direntry(request, NULL, 0, name, NULL, 0);
    g_string_set_size(list, at + size);
    fuse_add_direntry(request, list->str + at, size, name, &it, (off_t)list->len);
}

/* The entries are read when a directory is opened. */
static void op_opendir(fuse_req_t request, fuse_ino_t ino, struct fuse_file_info *opened) {
    g_autofree struct tank_entry *entries = g_new(struct tank_entry, ENTRIES_MOST);
    struct ask it = ask_for(TANK_ASK_LIST, (uint32_t)ino, 0);
    GString *list = g_string_new(NULL);
    char name[NAME_MOST + 1]; /* those after this one come next */
    add_entry(request, list, ".", ino, true);
    add_entry(request, list, "..", ino, true);
    it.request.bytes = name;
    it.entries = entries;
    do {
        if (!make(&it, 1)) break;
        for (const struct tank_entry *entry = entries; entry < entries + it.entry_count; entry++) {
            g_strlcpy(name, (const char *)entry->name, entry->length + 1);
            it.request.length = entry->length;
            file_of(entry->ino)->kind = entry->directory ? DIRECTORY : REGULAR;
            add_entry(request, list, name, entry->ino, entry->directory);
        }
    } while (it.entry_count == ENTRIES_MOST);
    opened->fh = (uintptr_t)list;
    if (has_failed(request) || fuse_reply_open(request, opened)) g_string_free(list, true);
}

/* The kernel takes whole entries. */
static void op_readdir(fuse_req_t request, G_GNUC_UNUSED fuse_ino_t ino, size_t size, off_t offset,
                       struct fuse_file_info *opened) {
    const GString *list = (const GString *)(uintptr_t)opened->fh;
    fuse_reply_buf(request, list->str + offset, MIN(size, list->len - (size_t)offset));
}

static void op_releasedir(fuse_req_t request, G_GNUC_UNUSED fuse_ino_t ino,
                          struct fuse_file_info *opened) {
    g_string_free((GString *)(uintptr_t)opened->fh, true);
    fuse_reply_err(request, 0);
}

static void op_getattr(fuse_req_t request, fuse_ino_t ino, UNUSED_FILE) {
    const struct stat it = stat_of(ino);
    if (!has_failed(request)) fuse_reply_attr(request, &it, 0);
}

static void op_setattr(fuse_req_t request, fuse_ino_t ino, struct stat *to, int which,
                       struct fuse_file_info *opened) {
    bool is_other = (which & FUSE_SET_ATTR_UID && to->st_uid != getuid()) ||
                    (which & FUSE_SET_ATTR_GID && to->st_gid != getgid());
    if (is_other) running->fault = EPERM;
    set(ino, which, to);
    op_getattr(request, ino, opened);
}

static void op_read(fuse_req_t request, fuse_ino_t ino, size_t size, off_t offset, UNUSED_FILE) {
    uint64_t length = read_header(ino).row.size;
    size_t left = length - MIN((uint64_t)offset, length);
    size_t at = offset % TANK_PAGE, end = at + MIN(size, left);
    size_t pages = end > at ? (end + TANK_PAGE - 1) / TANK_PAGE : 0;
    g_autofree uint8_t *bytes = g_malloc(pages * TANK_PAGE + 1);
    read_pages(ino, FIRST + (uint32_t)(offset / TANK_PAGE), pages, bytes);
    if (!has_failed(request)) fuse_reply_buf(request, (const char *)bytes + at, end - at);
}

static void op_write(fuse_req_t request, fuse_ino_t ino, const char *bytes, size_t size, off_t from,
                     struct fuse_file_info *opened) {
    bool is_at_end = opened->flags & O_APPEND; /* the end that the kernel knows may be old */
    lock(ino);
    uint64_t at = is_at_end ? read_header(ino).row.size : (uint64_t)from;
    uint32_t page = FIRST + (uint32_t)(at / TANK_PAGE);
    if (at + size > SIZE_MOST && !running->fault) running->fault = EFBIG;
    if (size) write_pages(ino, page, at % TANK_PAGE, bytes, size);
    if (size) change_row(ino, at + size, false, time_now(), false);
    unlock(ino);
    if (!has_failed(request)) fuse_reply_write(request, size);
}

static void op_flush(fuse_req_t request, fuse_ino_t ino, UNUSED_FILE) {
    report_loss(ino);
    reply(request);
}

static void op_fsync(fuse_req_t request, fuse_ino_t ino, G_GNUC_UNUSED int which, UNUSED_FILE) {
    struct ask it = ask_for(TANK_ASK_SYNC, ino, 0);
    make(&it, 1);
    report_loss(ino);
    reply(request);
}

/* How many blocks are free isn't known to a client: all are reported as free. */
static void op_statfs(fuse_req_t request, G_GNUC_UNUSED fuse_ino_t ino) {
    struct statvfs it = {.f_bsize = TANK_PAGE, .f_frsize = TANK_PAGE, .f_namemax = NAME_MOST};
    for (uint16_t disk = 1; disk <= config.disks; disk++)
        if (server_of_disk(disk) == config.mount_server) it.f_blocks += config.blocks;
    it.f_bfree = it.f_bavail = it.f_blocks;
    it.f_files = it.f_ffree = it.f_favail = FILES;
    fuse_reply_statfs(request, &it);
}

static const struct fuse_lowlevel_ops operations = {
#define OP(name) .name = op_##name
    OP(lookup), OP(mkdir),  OP(mknod),   OP(create),     OP(open),    OP(release), OP(unlink),
    OP(rmdir),  OP(rename), OP(opendir), OP(readdir),    OP(getattr), OP(setattr), OP(read),
    OP(write),  OP(flush),  OP(fsync),   OP(releasedir), OP(statfs)};

void folder_begin(const char *path) {
    struct fuse_args words = FUSE_ARGS_INIT(0, NULL);
    fuse_opt_add_arg(&words, "tankd");
    fuse_opt_add_arg(&words, "-odefault_permissions,fsname=tank,subtype=tankd");
    files = g_hash_table_new_full(NULL, NULL, NULL, g_free);
    file_of(FUSE_ROOT_ID)->kind = DIRECTORY;
    for (struct call *it = calls; it < calls + CALLS; it++) {
        getcontext(&it->context);
        it->context.uc_stack.ss_sp = g_malloc0(STACK);
        it->context.uc_stack.ss_size = STACK;
        it->timer = evtimer_new(base, time_is_over, it);
        makecontext(&it->context, serve, 0);
    }
    session = fuse_session_new(&words, &operations, sizeof operations, NULL);
    fuse_opt_free_args(&words);
    if (!session || fuse_session_mount(session, path)) fail("%s: it can't be mounted", path);
    evutil_make_socket_nonblocking(fuse_session_fd(session));
    kernel = event_new(base, fuse_session_fd(session), EV_READ | EV_PERSIST, hear_kernel, NULL);
    event_add(kernel, NULL);
}

/* Calls that wait end with an error. */
void folder_end(void) {
    if (!kernel) return;
    event_free(kernel);
    kernel = NULL;
    fuse_session_unmount(session);
}

/* tankd.h: what the daemon's files offer each other. One thread, that of libevent's loop, runs
 * everything but the commands of the disks. */
#ifndef TANKD_H
#define TANKD_H
#include "../include/tank.h"
#include <endian.h>
#include <errno.h>
#include <event2/buffer.h>
#include <event2/bufferevent.h>
#include <event2/event.h>
#include <fcntl.h>
#include <glib.h>
#include <openssl/ssl.h>
#include <stdlib.h>
#include <string.h>
#include <sys/socket.h>
#include <unistd.h>

enum { CLIENTS_MOST = 16, SERVERS_MOST = 4, DISKS_MOST = 8, MILLISECOND = 1000000 };

/* config.c: the configuration, a file with a setting a line; tankd.conf is a sample that explains
 * them all. config_read ends the process with the line and the fault if there is one. */
struct address {
    struct sockaddr_storage place;
    socklen_t size; /* 0 if there is none */
    const char *words;
};

extern struct config {
    const char *name; /* of the node, such as s1 */
    bool is_server, is_traced;
    gboolean is_insecure;
    uint16_t node, number;         /* in the protocol, and among clients or servers */
    struct tank_settings settings; /* in milliseconds */
    uint64_t clients, servers, disks, blocks;
    const char *common; /* the settings, servers, disks and blocks: the same at each node, always */
    struct address server[SERVERS_MOST + 1]; /* by number, from 1 */
    char *disk[DISKS_MOST + 1];              /* the path of a file or device, and */
    uint64_t disk_at[DISKS_MOST + 1];        /* the byte at which the disk begins there */
    char *state, *run;                       /* folders */
    char *certificate, *key, *authority;     /* files, or all null */
    char *hook;                              /* a command of the shell, or null */
    struct address metrics;                  /* where they are served, too */
    uint64_t journal_bytes, workers, log;    /* `log` is a level */
    uint64_t hold, disk_time;                /* in milliseconds */
    uint64_t mount_server;                   /* the server whose files --mount shows */
    uint64_t trials, ahead, elsewhere, torn; /* the last three are for trials, and */
    uint64_t ops;                            /* how many different numbers asks have */
} config;

void config_read(const char *path);

/* Disk d belongs to server 1 + (d - 1) mod servers. */
static inline uint16_t server_of_disk(uint16_t disk) { return 1 + (disk - 1) % config.servers; }

/* main.c: the loop; lines of the log, on standard error; the end of the daemon after a fault, which
 * to the protocol is a crash; and the command `hook` of the configuration, run for a client */
extern struct event_base *base;
#define UNUSED_OF_EVENT G_GNUC_UNUSED int file, G_GNUC_UNUSED short what, G_GNUC_UNUSED void *data
void timer_set(struct event *, uint64_t milliseconds);
void loop_end(void);

enum level { LEVEL_ERROR, LEVEL_WARNING, LEVEL_NOTICE, LEVEL_DEBUG, LEVELS };
extern const char *const level_words[LEVELS]; /* as in the configuration */
void say(enum level, const char *format, ...) G_GNUC_PRINTF(2, 3);
#define fail(...) (say(LEVEL_ERROR, __VA_ARGS__), exit(1))
void must(uint32_t result); /* ends the process if a call of the library wasn't done */
void hook_run(const char *event, uint16_t client);

/* The struct of this type whose member is at this place. */
#define OWNER(type, member, place) ((type *)(void *)((char *)(place)-offsetof(type, member)))

/* keep.c: what outlives a crash of the node, in files of the folder `state`, which one process at a
 * time uses */
void keep_create(void); /* makes the node's files, which must not exist */
void keep_begin(void);

/* This moment, in nanoseconds since the machine's start; and what the node's clock reads at it, in
 * milliseconds, which never falls, for a step or for another thread. In a trial, the trace has the
 * moments of another machine, whose clock runs faster. */
uint64_t clock_moment(void);
uint64_t clock_for_step(uint64_t moment);
uint64_t clock_at(uint64_t moment);
uint64_t clock_told(uint64_t moment);

extern struct lives {                        /* of a client; all are 0 before its first start */
    uint64_t moment, life[SERVERS_MOST + 1]; /* as in the trace; by server from 1 */
    uint64_t asks;                           /* the first number that isn't reserved for an ask */
} lives;
void lives_keep(void);

uint8_t *journal_read(void);                                         /* the caller frees it */
void journal_write(uint64_t place, const void *bytes, size_t count); /* until the disk has them */
extern uint64_t journal_room;

uint64_t journal_gate(void); /* the last one, where the next record begins */

/* With a trace: whether the change of the step of this moment, in which an earlier process was
 * killed, outlived it; and that the line of a step is whole, with the journal's last gate. */
bool keep_has(uint64_t moment, uint64_t gate);
void mark_keep(uint64_t gate);

/* trace.c: a trace of what the node took and gave, for tools/record (docs/RUNS.md, "Traces"). The
 * line of a step is begun before the step, and ended before anything that the step gave leaves the
 * daemon. Without a trace, each of these does nothing. */
void trace_begin(const char *path);
void trace(const char *format, ...) G_GNUC_PRINTF(1, 2);
void trace_frames(const uint8_t *bytes, size_t size);
void trace_flush(void); /* gives what was traced to the system, so that it outlives the process */
void trace_start(bool is_again, uint64_t moment, uint64_t reading);
void trace_end(void); /* the node ends in order */

/* streams.c: stream sockets at the addresses of the configuration, over TCP with TLS */
struct stream {
    struct bufferevent *pipe; /* null after the end */
    SSL *tls;
    const struct kind *kind;
    bool is_up, is_last; /* the handshake is done; it ends when all is sent */
    uint16_t peer;       /* its node, or 0 */
    unsigned held;       /* pointers to it that asks have: it is freed when there are none */
};

struct kind {         /* of streams */
    bool is_of_nodes; /* over TCP, they need certificates */
    int most;         /* streams whose peer isn't known; a new one replaces the oldest */
    bool (*take)(struct stream *, struct evbuffer *in); /* what came; whether the stream goes on */
    void (*gone)(struct stream *);                      /* it has ended; or null */
};

struct address address_of_path(const char *path);
void stream_listen(const struct kind *, const struct address *);
void stream_listen_own(const struct kind *,
                       const char *name);   /* at NODE.NAME in the folder `run` */
int socket_connect(const struct address *); /* -1 if that failed */
struct stream *stream_connect(const struct kind *, const struct address *, uint16_t peer);
static inline struct evbuffer *stream_out(struct stream *it) {
    return bufferevent_get_output(it->pipe);
}
bool stream_is(const struct stream *, const char *node); /* the peer's certificate has this name */
void stream_refuse(struct stream *, const char *why);
void stream_drop(struct stream *);
void stream_flush(struct stream *);
void streams_flush(void);
bool tls_load(void); /* reads the certificates, for the connections that are made from then on */

/* links.c: the connections to other nodes */
void links_begin(void);
int links_up(void);
void link_send(uint16_t peer, const uint8_t *frame, size_t size); /* or the frame is lost */
void link_lose(uint16_t peer, bool is_lost); /* for trials: frames to it are lost from now on */
const char *word_of_node(uint16_t node);     /* such as s1, until the next call */
uint16_t node_of_word(const char *word);     /* 0 if it is none */

/* disks.c: the shared disks of a client, and the threads that do its commands */
void disks_begin(void);
void disks_submit(const uint8_t *frame, size_t size);

/* The client's lease at a server belongs to this life and ends at this reading. A command of an
 * earlier life, or one whose turn comes after its lease's end, isn't carried out, and fails. */
void disks_lease(uint16_t server, uint64_t life, uint64_t end);
bool disks_write(uint16_t server); /* a write was submitted that hasn't ended */

/* From this reading on, no command at all is carried out, and each fails: the client would fence
 * itself, and count as crashed before. */
void disks_limit(uint64_t reading);

/* Drops the commands that wait, and returns when none is being done. node_command_ended is called
 * for those that took effect, and no more for others. */
void disks_drop(void);
void disks_try(bool slows, uint64_t number); /* for trials: milliseconds each; or this many fail */

/* asks.c: the asks of applications and of the folder, on their way to the client and back */
enum { NAME_MOST = 64, ENTRIES_MOST = 256 }; /* bytes of a name, and entries of an answer */

struct reply {
    struct tank_answer answer;
    const uint8_t *page, *frame; /* the page that was read, and the whole answer */
    size_t size;
};

struct request {
    struct tank_ask ask;       /* without its number and the client's */
    const void *bytes, *other; /* of the page, the patch or the name; and of a new name */
    size_t length, other_length;
    bool is_patient; /* if too many pages are dirty, it waits for a sync of all files */
    /* Called once; with null if no answer comes, since the client crashed or ends. */
    void (*answered)(struct request *, const struct reply *);
};

void asks_begin(void);
void asks_put(struct request *);    /* it is given to the client when the client has room */
void asks_forget(struct request *); /* from now on, it isn't answered */
void asks_give(void);
void asks_answer(const uint8_t *frame, size_t size);
void asks_drop(void);       /* none is answered, and what wasn't synced is lost */
void asks_end(void);        /* asks for the sync of what was written, and takes no more requests */
bool asks_are_synced(void); /* after that */

/* apps.c: the socket for applications, and the program that uses it */
void apps_begin(void);
int apps_ask(const char *path);

/* folder.c: the files of a server as a folder */
void folder_begin(const char *path);
void folder_end(void);
bool folder_goes_on(void); /* what can go on does; whether there was anything */
void folder_lost(uint16_t server, uint32_t ino); /* something that was written to this file */

/* node.c: the node itself, a client or a server of libtank */
void node_begin(void);
void node_end(void); /* in order: a client syncs what its applications wrote; then the loop ends */
void node_close(void);
void node_hear(const uint8_t *frame, size_t size); /* of the node that `from` names */
void node_take(const uint8_t *frame, size_t size); /* takes a step */
void node_between(void); /* takes what waits: demands that were held back, and asks */

/* A disk command has ended, with the page that it read; `effect` is the moment at which it took
 * effect, or 0 if it took none. */
void node_command_ended(const struct tank_done *, const uint8_t *page, uint64_t effect);
void node_print(struct evbuffer *text); /* its metrics */

/* metrics.c: counts, and the socket on which they are read in the text format of Prometheus */
#define COUNTS(X) /* each count, its name after `tank_`, and what it counts */                     \
    X(STEPS, "steps_total", "Steps that the node has taken.")                                      \
    X(FRAMES_IN, "frames_received_total", "Frames that came from other nodes.")                    \
    X(FRAMES_OUT, "frames_sent_total", "Frames that were given to the network.")                   \
    X(FRAMES_LOST, "frames_lost_total", "Frames for a node that isn't connected or doesn't read.") \
    X(FRAMES_FALSE, "frames_false_total", "Frames whose sender isn't the connection's node.")      \
    X(FRAMES_BAD, "frames_bad_total", "Frames that spell no message for this node.")               \
    X(PEERS_REFUSED, "peers_refused_total", "Connections whose peer didn't prove to be a node.")   \
    X(CHANGES, "changes_total", "Changes that were kept in the journal.")                          \
    X(JOURNAL_FULL, "journal_full_total", "Requests that were dropped, as the journal is full.")   \
    X(SUSPECTED, "suspected_total", "How often a client was suspected.")                           \
    X(STOLEN, "stolen_total", "How often the locks of a client were stolen.")                      \
    X(ASKS, "asks_total", "Asks of applications.")                                                 \
    X(REFUSED, "asks_unserved_total", "Asks that weren't served: quiesced, uncertain, lost ..")    \
    X(HELD, "demands_held_total", "Demands that were held back for an ask.")                       \
    X(FENCED, "fenced_total", "How often this client fenced itself.")                              \
    X(DISK_READS, "disk_reads_total", "Ended disk commands that read.")                            \
    X(DISK_WRITES, "disk_writes_total", "Ended disk commands that write.")                         \
    X(DISK_FAILED, "disk_failed_total", "Disk commands that failed.")                              \
    X(DISK_OVER, "disk_lease_over_total", "Disk commands not done, as their lease was over.")      \
    X(DISK_LATE, "disk_late_total", "Writes that took effect after their lease.")
#define COUNT_NUMBER(number, name, text) COUNT_##number,
enum count { COUNTS(COUNT_NUMBER) COUNTS_END };
void count(enum count); /* any thread may count */
void metrics_begin(void);
void metric_head(struct evbuffer *, const char *name, const char *what);
void metric_value(struct evbuffer *, const char *name, uint16_t server, uint64_t value); /* or 0 */
void metric(struct evbuffer *, const char *name, const char *what, uint64_t value);      /* both */

#endif

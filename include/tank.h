/* tank.h: the nodes of the protocol inside another program.
 *
 * A client or a server is a state machine in the caller's memory. It has no thread, no clock and no
 * socket: the caller gives it one frame and a reading of a clock, and takes out the frames that
 * result. A step does exactly what `tank node` does with the same frame at the same reading, to the
 * byte. docs/PROTOCOL.md has the rules, and its chapter "Building on it" says what the program
 * around a node must do.
 *
 *     struct tank_client client = TANK_CLIENT_CLOSED;
 *     uint64_t lives[1] = {0};
 *     if (tank_client_open(&client, &settings, 1, lives, 1) != TANK_DONE) ...
 *     for (each frame that arrives, and each tick) {
 *         struct tank_client_stepped step;
 *         tank_client_step(&client, now, frame, length, &step);
 *         if (step.new_lives) ...keep the lives on disk...
 *         while (tank_client_take(&client, out, sizeof out, &count) == TANK_DONE && count > 0)
 *             ...send out[0 .. count)...
 *     }
 *     tank_client_close(&client);
 *
 * Frames. A frame is a length in four bytes, the most significant first, and the bytes of one
 * message ("Wire"). A call takes one whole frame. What is taken out is a sequence of whole frames,
 * in pieces as large as the caller's buffer. tank_frame_at says where the first one ends, and to
 * which node it goes. A client's node number is 1 to 16, a server's is 32768 plus its number, and
 * node 0 is the client's own surroundings. These receive its answers and its disk commands, which
 * tank_decode_answer and tank_decode_command show as structs. A tick, an application's ask and the
 * end of a disk command reach a node as frames, which tank_encode_tick, tank_encode_ask and
 * tank_encode_done make of structs. A frame that isn't for the node, or isn't an input for it, is
 * ignored: the result is TANK_DONE, no step is taken, and nothing results.
 *
 * Moments. A moment is a reading of the node's own clock in ticks, at most 2^62. It never falls,
 * from call to call and from one opening to the next. Timers move only in steps: give each node a
 * tick often ("Building on it" says how often).
 *
 * Results. Each call returns a number of TANK_RESULTS. All except TANK_DONE and TANK_STARVED leave
 * the node as it was, so that the call can be made again. tank_name and tank_text return a number's
 * name and text. If a call is refused, everything else that it returns is 0, unless stated
 * otherwise.
 *
 * Demands. A server that wants a lock back sends the frame TANK_KIND_DEMAND. If it reaches a client
 * right after the grant, the client gives the lock up before it has served the ask for which it
 * wanted it, and asks for it again. Clients that take turns with one file then make slow progress,
 * though nothing is lost. So hold a demand back while tank_client_owes returns 1 for its file, but
 * not for much longer than a round trip and a disk read.
 *
 * Memory. Nodes use malloc, realloc and free. If memory runs out, a call returns TANK_NO_MEMORY and
 * has done nothing; no byte that must be taken out is lost. If it runs out within a step, the node
 * is crashed, as by a crash of its machine, and the result is TANK_STARVED: nothing of the step
 * goes out. Then close the node, and open it again from what was kept.
 *
 * Handles. A handle is all zero before it is opened and after it is closed. Don't copy or move it
 * while it is open, and use it from one thread at a time. An open handle must be closed: nothing
 * else frees what it holds. A call that takes a handle by a const pointer leaves the node as it is,
 * but counts as a use of the handle all the same.
 *
 * Pointers. If one is null, the result is TANK_NULL, and nothing has happened. Only a pointer to no
 * items may be null. This header checks pointers before it calls the library; define TANK_UNCHECKED
 * to leave these checks out. Buffers don't overlap.
 */
#ifndef TANK_H
#define TANK_H
#include <stdbool.h>
#include <stddef.h>
#include <stdint.h>

#ifdef __cplusplus
extern "C" {
#endif

/* The version of this header: a hundred times the major number, and the minor number. A minor
 * version adds calls, structs and numbers. A major version changes existing ones, and is part of
 * the shared library's name, libtank.so.1. A program that was compiled with this header runs with
 * each library of the same major version whose minor version is not below this one's. */
#define TANK_VERSION 100

/* The library's version. */
uint32_t tank_version(void);

/* Number, name and text of each result. */
#define TANK_RESULTS(X)                                                                            \
    X(0, TANK_DONE, "done")                                                                        \
    X(1, TANK_BUSY, "the handle is open")                                                          \
    X(2, TANK_ABSENT, "the handle is not open")                                                    \
    X(3, TANK_NO_MEMORY, "out of memory; nothing has happened")                                    \
    X(4, TANK_CRASHED, "the node does not run")                                                    \
    X(5, TANK_STARVED, "memory ran out in the step, and the node is crashed")                      \
    X(6, TANK_UNTAKEN, "frames of an earlier step were not taken")                                 \
    X(7, TANK_TIME, "the moment is before an earlier one, or above 2^62")                          \
    X(8, TANK_FULL, "a counter of the node is at its end")                                         \
    X(9, TANK_UNKEPT, "a change was not kept in the journal")                                      \
    X(10, TANK_SHORT_ROOM, "the buffer is too short")                                              \
    X(11, TANK_JOURNAL_FULL, "the journal has too little room for a change")                       \
    X(12, TANK_UNKNOWN, "no ask and no result has this number")                                    \
    X(13, TANK_RANGE, "a field is out of its range, or a page or name has a wrong length")         \
    X(14, TANK_OTHER_KIND, "the frame is of another kind")                                         \
    X(15, TANK_NULL, "a pointer is null")                                                          \
    X(16, TANK_CUT, "the frame is cut")                                                            \
    X(17, TANK_EXTRA, "bytes follow the frame")                                                    \
    X(18, TANK_SHORT, "the message ends inside a field")                                           \
    X(19, TANK_LONG, "bytes follow the message")                                                   \
    X(20, TANK_KIND, "no such kind of message")                                                    \
    X(21, TANK_VALUE, "the field at this byte of the message is out of its range")                 \
    X(22, TANK_NO_VERSION, "no such version")                                                      \
    X(23, TANK_TOO_LONG, "a frame of this length is too long")                                     \
    X(32, TANK_SETTINGS_ORDER, "0 < renew < quiesce < flush < lease does not hold")                \
    X(33, TANK_SETTINGS_RATE, "den is 0, num is below den, or num is above 1048576")               \
    X(34, TANK_SETTINGS_LEASE, "the lease is above 2^40 ticks")                                    \
    X(35, TANK_SETTINGS_DEMAND, "0 < retry <= demand <= lease does not hold")                      \
    X(36, TANK_SETTINGS_GRAIN, "the grain is above the lease")                                     \
    X(37, TANK_NUMBER, "a client's number is from 1 to 16")                                        \
    X(38, TANK_SERVERS, "there are more than four servers")                                        \
    X(39, TANK_LIVES, "the lives are neither all 0 nor all from 1 to 2^62 - 2")                    \
    X(40, TANK_SHAPE, "the number of the server, of servers, disks or blocks is out of range")     \
    X(41, TANK_JOURNAL_SIZE, "a journal has from 1 to 2^32 - 1 bytes")                             \
    X(42, TANK_JOURNAL_DAMAGED, "no change that applies follows the open gate at this place")      \
    X(43, TANK_JOURNAL_FOREIGN, "the changes of the journal begin no epoch")                       \
    X(44, TANK_EPOCHS, "no epoch is left")

#define TANK_NUMBERED(number, name, text) name = number,
enum tank_result { TANK_RESULTS(TANK_NUMBERED) TANK_RESULTS_END };

/* The name of a result, such as "TANK_DONE"; "" if no result has this number. */
static inline const char *tank_name(uint32_t result) {
#define TANK_NAMED(number, name, text) case number: return #name;
    switch (result) { TANK_RESULTS(TANK_NAMED) }
#undef TANK_NAMED
    return "";
}

/* The text of a result; "" if no result has this number. */
static inline const char *tank_text(uint32_t result) {
#define TANK_SAID(number, name, text) case number: return text;
    switch (result) { TANK_RESULTS(TANK_SAID) }
#undef TANK_SAID
    return "";
}

/* The settings of the world, the same at each node ("Settings"). They are in ticks, except for the
 * rate bound num / den. */
struct tank_settings {
    uint64_t lease, renew, quiesce, flush, demand, retry, num, den, grain;
};

/* Number, name and text of each event. A step tells events beside its frames: what its server or
 * client did, or what became of it. */
#define TANK_EVENTS(X)                                                                             \
    X(1, TANK_EVENT_SUSPECTED, "a client left a demand unanswered, and is suspected")              \
    X(2, TANK_EVENT_STOLEN, "the locks of a client's session were stolen")                         \
    X(3, TANK_EVENT_CUT, "a file was cut")                                                         \
    X(4, TANK_EVENT_GRANTED, "a grant of a lock was sent")                                         \
    X(5, TANK_EVENT_WELCOMED, "a client's greeting was accepted")                                  \
    X(6, TANK_EVENT_LEASED, "a lease was begun or renewed")                                        \
    X(7, TANK_EVENT_LOST, "a lease was lost with its life")                                        \
    X(8, TANK_EVENT_WRITTEN, "an ask wrote to a page")

enum tank_event_number { TANK_EVENTS(TANK_NUMBERED) TANK_EVENTS_END };

/* An event. A field that isn't told is 0. A cut counts once its record is kept. */
struct tank_event {
    uint64_t life;   /* stolen, welcomed and lost: the life of the session or the lease */
    uint64_t moment; /* suspected: when the client's timer started; leased: when the lease ends */
    uint64_t grant;  /* granted: the number of the grant */
    uint32_t event;  /* a number of TANK_EVENTS */
    uint32_t ino;    /* cut, granted and written: the inode number of the file */
    uint32_t page;   /* cut: the first page that goes; written: the page */
    uint32_t mode;   /* granted: 1 shared, 2 exclusive */
    uint16_t client; /* suspected, stolen, granted and welcomed: the client's number */
    uint16_t server; /* cut, leased, lost and written: the server's number */
};

/* A client. */

struct tank_client {
    void *at; /* only for the library, like all of a handle */
    bool full;
};
#define TANK_CLIENT_CLOSED {0, 0}

/* Opens a client, which then runs. `lives` has one entry for each of its servers, `servers` in
 * number, at most 4; server 1 is the first. All are 0 if the client was never started. Otherwise
 * they are the lives that were kept last, and the client begins the lives after them.
 *
 * The lives must outlive the client. Keep those that tank_client_at returns after this call, before
 * any frame of the client is sent; and again after each step that reports new_lives, before any
 * frame of that step is sent.
 *
 * TANK_BUSY, TANK_SETTINGS_*, TANK_NUMBER, TANK_SERVERS, TANK_LIVES, TANK_NO_MEMORY, in this order:
 * the handle stays as it was. */
uint32_t tank_client_open(struct tank_client *client, const struct tank_settings *settings,
                          uint16_t id, const uint64_t *lives, size_t servers);

struct tank_client_stepped {
    uint64_t at;        /* TANK_VALUE: the message's byte; TANK_TOO_LONG: the length; otherwise 0 */
    uint32_t new_lives; /* 1 if a life at a server has changed in this step */
};

/* Takes a step at this moment for one frame of `length` bytes. All bytes of the previous step must
 * have been taken out.
 *
 * TANK_ABSENT, TANK_CRASHED, TANK_UNTAKEN, TANK_TIME, TANK_CUT to TANK_TOO_LONG, TANK_FULL, in this
 * order, and TANK_NO_MEMORY for a client that runs: no step was taken. TANK_STARVED: the client is
 * crashed, in the lives from before the step. */
uint32_t tank_client_step(struct tank_client *client, uint64_t now, const uint8_t *frame,
                          size_t length, struct tank_client_stepped *step);

/* Takes out the next bytes of the last step's frames, at most `room`. *count is their number; 0
 * means that all were taken. TANK_ABSENT, TANK_NO_MEMORY. */
uint32_t tank_client_take(struct tank_client *client, uint8_t *out, size_t room, size_t *count);

struct tank_association {
    uint64_t life;      /* 0 if the client has no such server */
    uint64_t lease_end; /* the moment from which the lease is over; 0 without a lease */
    uint32_t phase;     /* 1 valid, 2 renewal, 3 quiesce, 4 flush, 5 expired; 0 without a lease */
    uint32_t dirty;     /* 1 if the client has a dirty page of this server */
};

/* What the client has at a server, at this moment. This isn't a step. TANK_ABSENT: *association
 * stays as it was. */
uint32_t tank_client_at(const struct tank_client *client, uint16_t server, uint64_t now,
                        struct tank_association *association);

/* Numbers for metrics. Each is the length of a list of the client's state. */
struct tank_client_counted {
    uint64_t locks;        /* files with a lock */
    uint64_t waits;        /* files with a wait that the server has reported */
    uint64_t dirty, clean; /* pages */
    uint64_t commands;     /* disk commands that haven't ended */
    uint64_t pending;      /* asks that haven't been answered */
};

/* How much the client has of a server; zeros if it has no such server. This isn't a step.
 * TANK_ABSENT: *counted stays as it was. */
uint32_t tank_client_counts(const struct tank_client *client, uint16_t server,
                            struct tank_client_counted *counted);

/* *is_owed is 1 if an ask waits for this file of the server, and otherwise 0. An ask waits if the
 * file is neither demanded nor busy, and the ask needs a lock, or something else with the lock that
 * is held. A demand for the file would take the lock first ("Which demands to hold back"). This
 * isn't a step. TANK_ABSENT. */
uint32_t tank_client_owes(const struct tank_client *client, uint16_t server, uint32_t ino,
                          uint32_t *is_owed);

/* No reading of a clock. */
#define TANK_NEVER UINT64_MAX

/* *due is the first moment from `from` on at which a tick would do something, as long as the client
 * takes no other step; TANK_NEVER if no reading of a clock is such a moment. A tick before *due, at
 * `from` or later, leaves the client as it is, without frames. So with the present reading as
 * `from`, a client needs no tick before *due. A tick that comes after *due may find nothing to do.
 * Ask for it again after each step. A tick writes a page again whose write failed, so a program
 * leaves some time between two ticks. A client with dirty pages is still given a tick in the flush
 * phase before each lease end, due or not. This isn't a step. TANK_ABSENT, TANK_NO_MEMORY. */
uint32_t tank_client_due(const struct tank_client *client, uint64_t from, uint64_t *due);

/* Writes what the last step told to events[0 .. *count), in order. After the next step, or one that
 * ran out of memory, it is gone. This isn't a step. TANK_ABSENT, TANK_NO_MEMORY, TANK_SHORT_ROOM:
 * `events` stays as it was; at TANK_SHORT_ROOM *count is the number of events. */
uint32_t tank_client_events(const struct tank_client *client, struct tank_event *events,
                            size_t room, size_t *count);

/* Closes a client and frees what it holds. Its dirty pages and locks are gone, as after a crash. A
 * handle that isn't open stays as it is. */
void tank_client_close(struct tank_client *client);

/* A server.
 *
 * A server's epoch, names and extents outlive it in a journal: a file or device of a fixed number
 * of bytes, which the caller writes ("A metadata journal" has its layout). Each change is one
 * record:
 *
 *   1. write the record's bytes at gate + 1, and sync;
 *   2. write one byte 1 at gate, and sync;
 *   3. tank_server_kept.
 *
 * Only then can the frames of the step be taken out: until then the library returns none and takes
 * no step. Opening makes the first record, which begins the epoch. */

struct tank_server {
    void *at;
    bool full;
};
#define TANK_SERVER_CLOSED {0, 0}

/* Which server it is: its number, from 1; the number of servers, at most 4; the number of disks,
 * from the number of servers to 8; and the number of blocks of each disk, 1 to 4096. They must be
 * the same at each opening. */
struct tank_shape {
    uint16_t id, servers, disks;
    uint32_t blocks;
};

/* Opens a server on the bytes of its journal, `size` in number, at this moment. Zeros mean a server
 * that was never started: it runs in epoch 1, without grace. Otherwise it is the server that the
 * journal stands for, started in the next epoch, in grace. The bytes are read only in this call. A
 * record must be kept before the first step.
 *
 * TANK_BUSY, TANK_SETTINGS_*, TANK_SHAPE, TANK_TIME, TANK_JOURNAL_SIZE, TANK_JOURNAL_DAMAGED (its
 * place in *at), TANK_JOURNAL_FULL (less than TANK_RECORD_MOST bytes after its gate),
 * TANK_JOURNAL_FOREIGN, TANK_EPOCHS, in this order, and TANK_NO_MEMORY after TANK_JOURNAL_SIZE: the
 * handle stays as it was. What a crash may leave of a journal that was kept as described above is
 * never damaged. */
uint32_t tank_server_open(struct tank_server *server, const struct tank_settings *settings,
                          const struct tank_shape *shape, uint64_t now, const uint8_t *journal,
                          size_t size, uint64_t *at);

struct tank_server_stepped {
    uint64_t at;     /* as for a client */
    uint32_t record; /* 1 if a record must be kept */
};

/* Takes a step at this moment for one frame of `length` bytes.
 *
 * No step was taken at TANK_ABSENT, TANK_UNKEPT, TANK_CRASHED, TANK_UNTAKEN, TANK_TIME, TANK_CUT to
 * TANK_TOO_LONG, TANK_FULL and TANK_JOURNAL_FULL, in this order, nor at TANK_NO_MEMORY for a server
 * that runs. TANK_JOURNAL_FULL comes only for a request that asks for a change, if the journal has
 * less than TANK_RECORD_MOST bytes after its gate. At TANK_STARVED the server is crashed, and
 * nothing must be kept or taken out. */
uint32_t tank_server_step(struct tank_server *server, uint64_t now, const uint8_t *frame,
                          size_t length, struct tank_server_stepped *step);

struct tank_record {
    uint64_t gate; /* the place in the journal of the gate before the record */
    size_t size;   /* the number of bytes of the record; 0 if none must be kept */
};

/* The greatest number of bytes of a record. */
#define TANK_RECORD_MOST 526

/* Writes the record that must be kept to out[0 .. record->size). It may be requested again.
 * TANK_ABSENT, TANK_NO_MEMORY, TANK_SHORT_ROOM: `out` stays as it was; at TANK_SHORT_ROOM the
 * record's gate and size are returned. */
uint32_t tank_server_record(const struct tank_server *server, uint8_t *out, size_t room,
                            struct tank_record *record);

/* Says that the record and its gate were written and synced. If nothing must be kept, it changes
 * nothing. TANK_ABSENT. */
uint32_t tank_server_kept(struct tank_server *server);

/* As for a client. TANK_ABSENT, TANK_UNKEPT while a record must be kept, TANK_NO_MEMORY. */
uint32_t tank_server_take(struct tank_server *server, uint8_t *out, size_t room, size_t *count);

/* The epoch of a server; 0 if the handle isn't open. */
uint64_t tank_server_epoch(const struct tank_server *server);

/* Numbers for metrics. All but the last two are lengths of lists of the server's state. */
struct tank_server_counted {
    uint64_t sessions;     /* clients with a session in this epoch */
    uint64_t locks, waits; /* of all clients */
    uint64_t suspects;     /* clients that lose their locks when their time is over */
    uint64_t names;        /* entries of all directories */
    uint64_t mapped, free; /* pages with a block, and blocks without a page */
    uint64_t journal;      /* bytes of the records that are kept in the journal */
    uint64_t journal_size; /* bytes of the journal */
};

/* How much a server has. This isn't a step. TANK_ABSENT: *counted stays as it was. */
uint32_t tank_server_counts(const struct tank_server *server, struct tank_server_counted *counted);

/* *due is the earliest moment at which a tick would do something, as long as the server takes no
 * other step; TANK_NEVER if no reading of a clock is such a moment. Exactly before *due a tick
 * leaves the server as it is, without frames; so a server needs ticks only from then on. It is 0 if
 * a tick would do something at any moment. Ask for it again after each step. This isn't a step.
 * TANK_ABSENT, TANK_NO_MEMORY. */
uint32_t tank_server_due(const struct tank_server *server, uint64_t *due);

/* As for a client, while a record must be kept, too. */
uint32_t tank_server_events(const struct tank_server *server, struct tank_event *events,
                            size_t room, size_t *count);

/* Closes a server and frees what it holds, as a crash would. A handle that isn't open stays as it
 * is. */
void tank_server_close(struct tank_server *server);

/* Frames as structs.
 *
 * A struct's frame is the one spelling of the message that it means, and what is shown of a frame
 * is its message ("Wire"). These calls need no node. Fields and bytes that a kind doesn't need may
 * have any value. */

/* Number, name and text of each ask, answer and result of a disk command, and of each reason for
 * which a request is refused. These are the numbers of the wire; for the asks on names, 80 is added
 * to them. */
#define TANK_ASKS(X)                                                                               \
    X(1, TANK_ASK_WRITE, "write")                                                                  \
    X(2, TANK_ASK_READ, "read")                                                                    \
    X(3, TANK_ASK_SYNC, "sync")                                                                    \
    X(4, TANK_ASK_CUT, "cut")                                                                      \
    X(6, TANK_ASK_PATCH, "patch")                                                                  \
    X(81, TANK_ASK_LOOKUP, "lookup")                                                               \
    X(82, TANK_ASK_CREATE, "create")                                                               \
    X(83, TANK_ASK_MKDIR, "mkdir")                                                                 \
    X(84, TANK_ASK_REMOVE, "remove")                                                               \
    X(85, TANK_ASK_RENAME, "rename")                                                               \
    X(86, TANK_ASK_LIST, "list")

#define TANK_ANSWERS(X)                                                                            \
    X(0, TANK_ANSWER_WRITTEN, "written")                                                           \
    X(1, TANK_ANSWER_READ, "read")                                                                 \
    X(2, TANK_ANSWER_HARD, "hard")                                                                 \
    X(3, TANK_ANSWER_CUT, "cut")                                                                   \
    X(4, TANK_ANSWER_NAMED, "named")                                                               \
    X(5, TANK_ANSWER_LISTED, "listed")                                                             \
    X(6, TANK_ANSWER_REFUSED, "refused")                                                           \
    X(17, TANK_ANSWER_QUIESCED, "quiesced")                                                        \
    X(18, TANK_ANSWER_NO_FILE, "no file")                                                          \
    X(19, TANK_ANSWER_NO_SPACE, "no space")                                                        \
    X(20, TANK_ANSWER_DISK_FAULT, "disk fault")                                                    \
    X(21, TANK_ANSWER_OPS_FULL, "too many asks")                                                   \
    X(22, TANK_ANSWER_UNCERTAIN, "uncertain")                                                      \
    X(23, TANK_ANSWER_LOST, "lost")                                                                \
    X(24, TANK_ANSWER_DIRTY_FULL, "too many dirty pages")                                          \
    X(25, TANK_ANSWER_NOT_HOLDER, "not the holder")                                                \
    X(26, TANK_ANSWER_TOO_MANY_LOCKS, "too many locks")

/* Why an ask on names is refused: `first` of the answer TANK_ANSWER_REFUSED. */
#define TANK_CAUSES(X)                                                                             \
    X(1, TANK_CAUSE_NO_ENTRY, "no such entry")                                                     \
    X(2, TANK_CAUSE_EXISTS, "the entry exists")                                                    \
    X(3, TANK_CAUSE_NOT_DIRECTORY, "not a directory")                                              \
    X(4, TANK_CAUSE_IS_DIRECTORY, "a directory")                                                   \
    X(5, TANK_CAUSE_NOT_EMPTY, "the directory has entries")                                        \
    X(6, TANK_CAUSE_CYCLE, "a directory would end up below itself")                                \
    X(7, TANK_CAUSE_BAD_NAME, "not a name")                                                        \
    X(8, TANK_CAUSE_TOO_MANY, "too many inodes")

#define TANK_ENDS(X)                                                                               \
    X(0, TANK_END_FAILED, "failed")                                                                \
    X(1, TANK_END_WRITTEN, "written")                                                              \
    X(2, TANK_END_READ, "read")

#define TANK_COMMANDS(X)                                                                           \
    X(0, TANK_COMMAND_READ, "read")                                                                \
    X(1, TANK_COMMAND_WRITE, "write")

/* The kinds of messages. */
#define TANK_KINDS(X)                                                                              \
    X(1, TANK_KIND_HELLO, "hello")                                                                 \
    X(2, TANK_KIND_KEEPALIVE, "keepalive")                                                         \
    X(3, TANK_KIND_ACQUIRE, "acquire")                                                             \
    X(4, TANK_KIND_RELEASED, "released")                                                           \
    X(5, TANK_KIND_MAP, "map")                                                                     \
    X(6, TANK_KIND_ALLOCATE, "allocate")                                                           \
    X(7, TANK_KIND_CUT, "cut")                                                                     \
    X(8, TANK_KIND_NAME, "name")                                                                   \
    X(9, TANK_KIND_REASSERT, "reassert")                                                           \
    X(10, TANK_KIND_DEMANDSEEN, "demandseen")                                                      \
    X(32, TANK_KIND_WELCOME, "welcome")                                                            \
    X(33, TANK_KIND_ACK, "ack")                                                                    \
    X(34, TANK_KIND_NACK, "nack")                                                                  \
    X(35, TANK_KIND_GRANTED, "granted")                                                            \
    X(36, TANK_KIND_QUEUED, "queued")                                                              \
    X(37, TANK_KIND_DEMAND, "demand")                                                              \
    X(38, TANK_KIND_EXTENTS, "extents")                                                            \
    X(39, TANK_KIND_NAMED, "named")                                                                \
    X(40, TANK_KIND_REASSERTED, "reasserted")                                                      \
    X(64, TANK_KIND_TICK, "tick")                                                                  \
    X(65, TANK_KIND_APP, "app")                                                                    \
    X(66, TANK_KIND_APPDONE, "appdone")                                                            \
    X(67, TANK_KIND_SUBMIT, "submit")                                                              \
    X(68, TANK_KIND_DONE, "done")

enum tank_ask_number { TANK_ASKS(TANK_NUMBERED) TANK_ASKS_END };
enum tank_answer_number { TANK_ANSWERS(TANK_NUMBERED) TANK_ANSWERS_END };
enum tank_cause_number { TANK_CAUSES(TANK_NUMBERED) TANK_CAUSES_END };
enum tank_end_number { TANK_ENDS(TANK_NUMBERED) TANK_ENDS_END };
enum tank_command_number { TANK_COMMANDS(TANK_NUMBERED) TANK_COMMANDS_END };
enum tank_kind_number { TANK_KINDS(TANK_NUMBERED) TANK_KINDS_END };

/* The bytes of a page, and of the longest frame. */
#define TANK_PAGE 4096
#define TANK_FRAME_MOST 65540

/* The node that is this server. */
#define TANK_SERVER_NODE(number) (32768 + (number))

struct tank_frame {
    size_t size;      /* the bytes of the frame, with its length */
    uint16_t version; /* of its message, which isn't read */
    uint16_t kind;    /* a number of TANK_KINDS */
    uint16_t from, to;
};

/* Says which frame comes first in these bytes. TANK_CUT if they end before it does, TANK_TOO_LONG,
 * TANK_SHORT. */
uint32_t tank_frame_at(const uint8_t *bytes, size_t length, struct tank_frame *frame);

/* The frame is written to out[0 .. *count). TANK_SHORT_ROOM: *count is the room that it needs. If a
 * call is refused, `out` stays as it was. */

/* A tick for a node. TANK_RANGE, TANK_SHORT_ROOM, in this order, and TANK_NO_MEMORY. */
uint32_t tank_encode_tick(uint16_t node, uint8_t *out, size_t room, size_t *count);

struct tank_ask {
    uint64_t op;     /* the number under which its answer comes; a client uses it once */
    uint32_t ask;    /* a number of TANK_ASKS */
    uint32_t ino;    /* the inode number of the file, or of the directory */
    uint32_t page;   /* for a cut, the first page that goes */
    uint32_t other;  /* remove: the file's inode number, or 0 for a directory; rename: the inode
                      * number of the new directory */
    uint16_t server; /* the file's server */
    uint16_t at;     /* patch: the index of the first byte in its page */
    uint16_t client; /* the client to which it goes */
};

/* An ask. `bytes` are those of the page (write), of the patch, or of the name (list: the name after
 * which it begins, and none for the first). `other_bytes` are those of a renaming's new name.
 * TANK_UNKNOWN, TANK_RANGE, TANK_SHORT_ROOM, in this order, and TANK_NO_MEMORY. */
uint32_t tank_encode_ask(const struct tank_ask *ask, const uint8_t *bytes, size_t length,
                         const uint8_t *other_bytes, size_t other_length, uint8_t *out, size_t room,
                         size_t *count);

/* What is stored with a block: the page whose bytes it has, and the birth of its mapping. All 0 for
 * a block that was never written. */
struct tank_tag {
    uint64_t birth;
    uint32_t ino, page;
    uint16_t server;
};

struct tank_done {
    uint64_t number;     /* that of the command */
    struct tank_tag tag; /* TANK_END_READ: the tag that the block had */
    uint32_t result;     /* a number of TANK_ENDS */
    uint16_t client;     /* the client to which it goes */
};

/* The end of a disk command. TANK_END_READ: `page` is the page that was read. TANK_UNKNOWN,
 * TANK_RANGE, TANK_SHORT_ROOM, in this order, and TANK_NO_MEMORY. */
uint32_t tank_encode_done(const struct tank_done *done, const uint8_t *page, size_t length,
                          uint8_t *out, size_t room, size_t *count);

/* These take one whole frame. TANK_CUT to TANK_TOO_LONG, TANK_OTHER_KIND, TANK_SHORT_ROOM, in this
 * order, and TANK_NO_MEMORY: the buffer stays as it was. */

struct tank_answer {
    uint64_t op;     /* the number of the ask */
    uint64_t first;  /* named: the inode number; refused: a number of TANK_CAUSES; no space: the
                      * free blocks; disk fault: the command; uncertain: the old epoch; otherwise
                      * 0 */
    uint64_t second; /* no space: the blocks asked for; uncertain: the new epoch, or 0 */
    size_t page;     /* read: TANK_PAGE, the bytes of the page; otherwise 0 */
    size_t rows;     /* listed and lost: how many rows; otherwise 0 */
    uint32_t answer; /* a number of TANK_ANSWERS */
    uint16_t client; /* the client from which it comes */
};

/* Shows an answer. The page that was read is written to page[0 .. answer->page). */
uint32_t tank_decode_answer(const uint8_t *frame, size_t length, struct tank_answer *answer,
                            uint8_t *page, size_t room);

struct tank_entry {
    size_t length; /* the bytes of its name */
    uint32_t ino;
    uint32_t directory; /* 1 if it is a directory, and otherwise 0 */
    uint8_t name[64];   /* zeros follow the name */
};

/* Shows the entries of the answer TANK_ANSWER_LISTED, at most 256. TANK_SHORT_ROOM: *count is their
 * number. */
uint32_t tank_decode_entries(const uint8_t *frame, size_t length, struct tank_entry *entries,
                             size_t room, size_t *count);

struct tank_lost_page {
    uint64_t command; /* the disk command that should have written it, or 0 */
    uint32_t page;
};

/* Shows the pages of the answer TANK_ANSWER_LOST, at most 1,024, in the same way. */
uint32_t tank_decode_lost_pages(const uint8_t *frame, size_t length, struct tank_lost_page *pages,
                                size_t room, size_t *count);

struct tank_command {
    uint64_t number;
    struct tank_tag tag; /* write: the tag that is stored with the page */
    size_t page;         /* write: TANK_PAGE; otherwise 0 */
    uint32_t command;    /* a number of TANK_COMMANDS */
    uint32_t block;
    uint16_t disk;
    uint16_t client; /* the client from which it comes */
};

/* Shows a disk command. The page of a write is written to page[0 .. command->page). */
uint32_t tank_decode_command(const uint8_t *frame, size_t length, struct tank_command *command,
                             uint8_t *page, size_t room);

#undef TANK_NUMBERED

#ifndef TANK_UNCHECKED
#include "tank_checked.h"
#endif

#ifdef __cplusplus
}
#endif
#endif

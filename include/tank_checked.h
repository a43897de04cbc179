/* tank_checked.h: checks of pointers, for tank.h, which includes it.
 *
 * A call is made through one of these functions. It returns TANK_NULL if a pointer is null that
 * must not be. Otherwise it makes the library's call, with a pointer in place of one to no items.
 * `tools/checks/library --write` writes this file. */
#ifndef TANK_CHECKED_H
#define TANK_CHECKED_H

static inline uint32_t tank_client_open_checked(struct tank_client *client,
        const struct tank_settings *settings, uint16_t id, const uint64_t *lives, size_t servers) {
    if (!client || !settings || (!lives && servers)) return TANK_NULL;
    return tank_client_open(client, settings, id,
        lives ? lives : (const uint64_t *)(const void *)settings, servers);
}
#define tank_client_open tank_client_open_checked

static inline uint32_t tank_client_step_checked(struct tank_client *client, uint64_t now,
        const uint8_t *frame, size_t length, struct tank_client_stepped *step) {
    if (!client || !step || (!frame && length)) return TANK_NULL;
    return tank_client_step(client, now, frame ? frame : (const uint8_t *)(const void *)step,
        length, step);
}
#define tank_client_step tank_client_step_checked

static inline uint32_t tank_client_take_checked(struct tank_client *client, uint8_t *out,
        size_t room, size_t *count) {
    if (!client || !count || (!out && room)) return TANK_NULL;
    return tank_client_take(client, out ? out : (uint8_t *)(void *)count, room, count);
}
#define tank_client_take tank_client_take_checked

static inline uint32_t tank_client_at_checked(const struct tank_client *client, uint16_t server,
        uint64_t now, struct tank_association *association) {
    if (!client || !association) return TANK_NULL;
    return tank_client_at(client, server, now, association);
}
#define tank_client_at tank_client_at_checked

static inline uint32_t tank_client_counts_checked(const struct tank_client *client,
        uint16_t server, struct tank_client_counted *counted) {
    if (!client || !counted) return TANK_NULL;
    return tank_client_counts(client, server, counted);
}
#define tank_client_counts tank_client_counts_checked

static inline uint32_t tank_client_owes_checked(const struct tank_client *client, uint16_t server,
        uint32_t ino, uint32_t *is_owed) {
    if (!client || !is_owed) return TANK_NULL;
    return tank_client_owes(client, server, ino, is_owed);
}
#define tank_client_owes tank_client_owes_checked

static inline uint32_t tank_client_due_checked(const struct tank_client *client, uint64_t from,
        uint64_t *due) {
    if (!client || !due) return TANK_NULL;
    return tank_client_due(client, from, due);
}
#define tank_client_due tank_client_due_checked

static inline uint32_t tank_client_events_checked(const struct tank_client *client,
        struct tank_event *events, size_t room, size_t *count) {
    if (!client || !count || (!events && room)) return TANK_NULL;
    return tank_client_events(client, events ? events : (struct tank_event *)(void *)count, room,
        count);
}
#define tank_client_events tank_client_events_checked

static inline void tank_client_close_checked(struct tank_client *client) {
    if (!client) return;
    tank_client_close(client);
}
#define tank_client_close tank_client_close_checked

static inline uint32_t tank_server_open_checked(struct tank_server *server,
        const struct tank_settings *settings, const struct tank_shape *shape, uint64_t now,
        const uint8_t *journal, size_t size, uint64_t *at) {
    if (!server || !settings || !shape || !at || (!journal && size)) return TANK_NULL;
    return tank_server_open(server, settings, shape, now,
        journal ? journal : (const uint8_t *)(const void *)at, size, at);
}
#define tank_server_open tank_server_open_checked

static inline uint32_t tank_server_step_checked(struct tank_server *server, uint64_t now,
        const uint8_t *frame, size_t length, struct tank_server_stepped *step) {
    if (!server || !step || (!frame && length)) return TANK_NULL;
    return tank_server_step(server, now, frame ? frame : (const uint8_t *)(const void *)step,
        length, step);
}
#define tank_server_step tank_server_step_checked

static inline uint32_t tank_server_record_checked(const struct tank_server *server, uint8_t *out,
        size_t room, struct tank_record *record) {
    if (!server || !record || (!out && room)) return TANK_NULL;
    return tank_server_record(server, out ? out : (uint8_t *)(void *)record, room, record);
}
#define tank_server_record tank_server_record_checked

static inline uint32_t tank_server_kept_checked(struct tank_server *server) {
    if (!server) return TANK_NULL;
    return tank_server_kept(server);
}
#define tank_server_kept tank_server_kept_checked

static inline uint32_t tank_server_take_checked(struct tank_server *server, uint8_t *out,
        size_t room, size_t *count) {
    if (!server || !count || (!out && room)) return TANK_NULL;
    return tank_server_take(server, out ? out : (uint8_t *)(void *)count, room, count);
}
#define tank_server_take tank_server_take_checked

static inline uint64_t tank_server_epoch_checked(const struct tank_server *server) {
    if (!server) return 0;
    return tank_server_epoch(server);
}
#define tank_server_epoch tank_server_epoch_checked

static inline uint32_t tank_server_counts_checked(const struct tank_server *server,
        struct tank_server_counted *counted) {
    if (!server || !counted) return TANK_NULL;
    return tank_server_counts(server, counted);
}
#define tank_server_counts tank_server_counts_checked

static inline uint32_t tank_server_due_checked(const struct tank_server *server, uint64_t *due) {
    if (!server || !due) return TANK_NULL;
    return tank_server_due(server, due);
}
#define tank_server_due tank_server_due_checked

static inline uint32_t tank_server_events_checked(const struct tank_server *server,
        struct tank_event *events, size_t room, size_t *count) {
    if (!server || !count || (!events && room)) return TANK_NULL;
    return tank_server_events(server, events ? events : (struct tank_event *)(void *)count, room,
        count);
}
#define tank_server_events tank_server_events_checked

static inline void tank_server_close_checked(struct tank_server *server) {
    if (!server) return;
    tank_server_close(server);
}
#define tank_server_close tank_server_close_checked

static inline uint32_t tank_frame_at_checked(const uint8_t *bytes, size_t length,
        struct tank_frame *frame) {
    if (!frame || (!bytes && length)) return TANK_NULL;
    return tank_frame_at(bytes ? bytes : (const uint8_t *)(const void *)frame, length, frame);
}
#define tank_frame_at tank_frame_at_checked

static inline uint32_t tank_encode_tick_checked(uint16_t node, uint8_t *out, size_t room,
        size_t *count) {
    if (!count || (!out && room)) return TANK_NULL;
    return tank_encode_tick(node, out ? out : (uint8_t *)(void *)count, room, count);
}
#define tank_encode_tick tank_encode_tick_checked

static inline uint32_t tank_encode_ask_checked(const struct tank_ask *ask, const uint8_t *bytes,
        size_t length, const uint8_t *other_bytes, size_t other_length, uint8_t *out, size_t room,
        size_t *count) {
    if (!ask || !count || (!bytes && length) || (!other_bytes && other_length) ||
        (!out && room)) return TANK_NULL;
    return tank_encode_ask(ask, bytes ? bytes : (const uint8_t *)(const void *)count, length,
        other_bytes ? other_bytes : (const uint8_t *)(const void *)count, other_length,
        out ? out : (uint8_t *)(void *)count, room, count);
}
#define tank_encode_ask tank_encode_ask_checked

static inline uint32_t tank_encode_done_checked(const struct tank_done *done, const uint8_t *page,
        size_t length, uint8_t *out, size_t room, size_t *count) {
    if (!done || !count || (!page && length) || (!out && room)) return TANK_NULL;
    return tank_encode_done(done, page ? page : (const uint8_t *)(const void *)count, length,
        out ? out : (uint8_t *)(void *)count, room, count);
}
#define tank_encode_done tank_encode_done_checked

static inline uint32_t tank_decode_answer_checked(const uint8_t *frame, size_t length,
        struct tank_answer *answer, uint8_t *page, size_t room) {
    if (!answer || (!frame && length) || (!page && room)) return TANK_NULL;
    return tank_decode_answer(frame ? frame : (const uint8_t *)(const void *)answer, length,
        answer, page ? page : (uint8_t *)(void *)answer, room);
}
#define tank_decode_answer tank_decode_answer_checked

static inline uint32_t tank_decode_entries_checked(const uint8_t *frame, size_t length,
        struct tank_entry *entries, size_t room, size_t *count) {
    if (!count || (!frame && length) || (!entries && room)) return TANK_NULL;
    return tank_decode_entries(frame ? frame : (const uint8_t *)(const void *)count, length,
        entries ? entries : (struct tank_entry *)(void *)count, room, count);
}
#define tank_decode_entries tank_decode_entries_checked

static inline uint32_t tank_decode_lost_pages_checked(const uint8_t *frame, size_t length,
        struct tank_lost_page *pages, size_t room, size_t *count) {
    if (!count || (!frame && length) || (!pages && room)) return TANK_NULL;
    return tank_decode_lost_pages(frame ? frame : (const uint8_t *)(const void *)count, length,
        pages ? pages : (struct tank_lost_page *)(void *)count, room, count);
}
#define tank_decode_lost_pages tank_decode_lost_pages_checked

static inline uint32_t tank_decode_command_checked(const uint8_t *frame, size_t length,
        struct tank_command *command, uint8_t *page, size_t room) {
    if (!command || (!frame && length) || (!page && room)) return TANK_NULL;
    return tank_decode_command(frame ? frame : (const uint8_t *)(const void *)command, length,
        command, page ? page : (uint8_t *)(void *)command, room);
}
#define tank_decode_command tank_decode_command_checked

#endif

/* trace.c: a trace of what the node took and gave. */
#include "tankd.h"

enum {
    LENGTH = 4,      /* bytes of a frame's length */
    RUN = 16,        /* equal bytes from which a run is short */
    TAIL = 16 << 20, /* bytes at a trace's end, more than a line has */
};

static int file = -1;
static GString *text;

void trace_flush(void) {
    for (size_t at = 0; text && at < text->len;) {
        ssize_t written = write(file, text->str + at, text->len - at);
        if (written <= 0 && errno != EINTR) fail("the trace can't be written: %s", strerror(errno));
        if (written > 0) at += (size_t)written;
    }
    if (text) g_string_truncate(text, 0);
}

void trace(const char *format, ...) {
    va_list values;
    va_start(values, format);
    if (text) g_string_append_vprintf(text, format, values);
    va_end(values);
}

/* The message of a frame in hexadecimal digits; RUN or more equal bytes are (XX*COUNT). */
static void trace_message(const uint8_t *frame, size_t size) {
    static const char digits[] = "0123456789abcdef";
    for (size_t at = LENGTH, run; at < size; at += run) {
        for (run = 1; at + run < size && frame[at + run] == frame[at];) run++;
        const char two[] = {digits[frame[at] >> 4], digits[frame[at] & 15]};
        if (run >= RUN) trace("(%.2s*%zu)", two, run);
        for (size_t i = 0; run < RUN && i < run; i++) g_string_append_len(text, two, 2);
    }
}

void trace_frames(const uint8_t *bytes, size_t size) {
    struct tank_frame frame;
    for (size_t at = 0; text && at < size; at += frame.size) {
        if (tank_frame_at(bytes + at, size - at, &frame) != TANK_DONE) frame.size = size - at;
        trace(" ");
        trace_message(bytes + at, frame.size);
    }
}

/* The line of a start, without its end if the node was started before. */
void trace_start(bool is_again, uint64_t moment, uint64_t reading) {
    const struct tank_settings *it = &config.settings;
    trace("trace 1 %s %lu %lu %lu %lu %lu %lu %lu %lu %lu", config.name, it->lease, it->renew,
          it->quiesce, it->flush, it->demand, it->retry, it->num, it->den, it->grain);
    trace(" %lu %lu %lu %lu\n", config.clients, config.servers, config.disks, config.blocks);
    if (is_again) trace("start %lu %lu", clock_told(moment), reading);
    trace_flush();
}

/* Ends the line of a step in which an earlier process was killed. Then all lines are whole, and the
 * mark says so before this process begins one: it may be killed in its first one, too. */
static void mend(const char *path) {
    off_t end = lseek(file, 0, SEEK_END);
    size_t size = (size_t)MIN(end, TAIL);
    g_autofree char *tail = g_malloc0(size + 1);
    if (end < 0 || pread(file, tail, size, end - (off_t)size) != (ssize_t)size)
        fail("%s: %s", path, strerror(errno));
    const char *last = strrchr(tail, '\n'), *line = last ? last + 1 : tail,
               *moment = strchr(line, ' ');
    uint64_t gate = config.is_server ? journal_gate() : 0;
    bool is_made = moment && keep_has(strtoull(moment + 1, NULL, 10), gate);
    if (*line) trace(is_made ? " ?\n" : " -\n");
    trace_flush();
    if (config.is_server) mark_keep(gate);
}

void trace_begin(const char *path) {
    config.is_traced = true;
    text = g_string_new(NULL);
    file = open(path, O_RDWR | O_CREAT | O_APPEND | O_CLOEXEC, 0640);
    if (file < 0) fail("%s: %s", path, strerror(errno));
    mend(path);
}

void trace_end(void) {
    trace("end %lu\n", clock_told(clock_moment()));
    trace_flush();
    if (text && fsync(file)) say(LEVEL_WARNING, "the trace can't be synced: %s", strerror(errno));
}

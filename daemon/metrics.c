/* metrics.c: counts, and the sockets on which they are read. */
#include "tankd.h"
#include <stdatomic.h>

enum { REQUEST_MOST = 4096, READERS_MOST = 16 };

static _Atomic uint64_t counts[COUNTS_END];

void count(enum count it) { atomic_fetch_add_explicit(&counts[it], 1, memory_order_relaxed); }

void metric_head(struct evbuffer *text, const char *name, const char *what) {
    const char *kind = g_str_has_suffix(name, "_total") ? "counter" : "gauge";
    evbuffer_add_printf(text, "# HELP tank_%s %s\n# TYPE tank_%s %s\n", name, what, name, kind);
}

void metric_value(struct evbuffer *text, const char *name, uint16_t server, uint64_t value) {
    evbuffer_add_printf(text, "tank_%s{node=\"%s\"", name, config.name);
    if (server) evbuffer_add_printf(text, ",server=\"s%d\"", server);
    evbuffer_add_printf(text, "} %lu\n", value);
}

void metric(struct evbuffer *text, const char *name, const char *what, uint64_t value) {
    metric_head(text, name, what);
    metric_value(text, name, 0, value);
}

/* A request of HTTP, for anything, and its response. */
static bool take(struct stream *it, struct evbuffer *in) {
    struct evbuffer *out = stream_out(it);
    if (it->is_last) return true;
    if (evbuffer_search(in, "\r\n\r\n", 4, NULL).pos < 0)
        return evbuffer_get_length(in) <= REQUEST_MOST;
    evbuffer_add_printf(out, "HTTP/1.0 200 OK\r\nContent-Type: text/plain; version=0.0.4\r\n"
                             "Connection: close\r\n\r\n");
#define PRINTED(number, name, what) metric(out, name, what, counts[COUNT_##number]);
    COUNTS(PRINTED)
    metric(out, "links", "Nodes that are connected.", (uint64_t)links_up());
    node_print(out);
    return it->is_last = true;
}

void metrics_begin(void) {
    static const struct kind kind = {.take = take, .most = READERS_MOST};
    stream_listen_own(&kind, "metrics");
    if (config.metrics.size) stream_listen(&kind, &config.metrics);
}

/* streams.c: stream sockets that don't block, by libevent. Between nodes, those over TCP have
 * mutual TLS 1.3, by OpenSSL: each node has a certificate that the authority of the configuration
 * signed, and that names the node, as the DNS name "s1" for instance. */
#include "tankd.h"
#include <event2/bufferevent_ssl.h>
#include <event2/listener.h>
#include <netinet/tcp.h>
#include <openssl/err.h>
#include <openssl/x509v3.h>
#include <sys/stat.h>
#include <sys/un.h>

enum {
    OUT_MOST = 4 << 20,    /* while more bytes wait to be sent, nothing is read */
    HELD_MOST = 1024,      /* and while it has more asks under way */
    WAITING = 64,          /* connections that wait to be accepted */
    PATIENCE_MOST = 60000, /* milliseconds */
    HOST_FLAGS = X509_CHECK_FLAG_NO_WILDCARDS | X509_CHECK_FLAG_NEVER_CHECK_SUBJECT,
};

static GQueue streams = G_QUEUE_INIT; /* the newest first */
static SSL_CTX *context;

bool tls_load(void) {
    SSL_CTX *it = SSL_CTX_new(TLS_method());
    SSL_CTX_set_min_proto_version(it, TLS1_3_VERSION);
    SSL_CTX_set_mode(it, SSL_MODE_RELEASE_BUFFERS);
    SSL_CTX_set_verify(it, SSL_VERIFY_PEER | SSL_VERIFY_FAIL_IF_NO_PEER_CERT, NULL);
    SSL_CTX_set_session_cache_mode(it, SSL_SESS_CACHE_OFF);
    SSL_CTX_set_num_tickets(it, 0);
    bool is_loaded = SSL_CTX_use_certificate_chain_file(it, config.certificate) == 1 &&
                     SSL_CTX_use_PrivateKey_file(it, config.key, SSL_FILETYPE_PEM) == 1 &&
                     SSL_CTX_check_private_key(it) == 1 &&
                     SSL_CTX_load_verify_file(it, config.authority) == 1;
    if (!is_loaded)
        say(LEVEL_ERROR, "the certificate, its key or the authority can't be used: %s",
            ERR_reason_error_string(ERR_peek_last_error()));
    SSL_CTX_free(is_loaded ? context : it); /* connections that have it keep it */
    if (is_loaded) context = it;
    return is_loaded;
}

bool stream_is(const struct stream *it, const char *node) {
    X509 *found = it->tls ? SSL_get0_peer_certificate(it->tls) : NULL;
    return !it->tls || (found && X509_check_host(found, node, 0, HOST_FLAGS, NULL) == 1);
}

void stream_drop(struct stream *it) {
    if (!it->pipe) return;
    bufferevent_free(it->pipe);
    it->pipe = NULL;
    if (it->kind->gone) it->kind->gone(it);
}

void stream_refuse(struct stream *it, const char *why) {
    count(COUNT_PEERS_REFUSED);
    say(LEVEL_WARNING, "a connection%s%s is refused: %s", it->peer ? " to " : "",
        it->peer ? word_of_node(it->peer) : "", why);
    stream_drop(it);
}

static void hear(struct bufferevent *pipe, void *stream) {
    struct stream *it = stream;
    if (!it->kind->take(it, bufferevent_get_input(pipe))) stream_drop(it);
}

static void was_sent(struct bufferevent *pipe, void *stream) {
    struct stream *it = stream;
    if (it->is_last) stream_drop(it);
    else if (!it->tls) bufferevent_disable(pipe, EV_WRITE);
}

/* The handshake is done, or the stream has ended. */
static void happened(struct bufferevent *pipe, short what, void *stream) {
    struct stream *it = stream;
    unsigned long fault = bufferevent_get_openssl_error(pipe);
    long verdict = it->tls ? SSL_get_verify_result(it->tls) : X509_V_OK;
    if (what & BEV_EVENT_CONNECTED) it->is_up = true;
    else if (it->is_up) stream_drop(it);
    else if (verdict != X509_V_OK) stream_refuse(it, X509_verify_cert_error_string(verdict));
    else stream_refuse(it, fault ? ERR_reason_error_string(fault) : "the connection ended");
}

/* Gives what waits to the system at once, as far as it takes it; libevent gives it the rest. */
void stream_flush(struct stream *it) {
    struct evbuffer *out = bufferevent_get_output(it->pipe);
    short enabled = bufferevent_get_enabled(it->pipe);
    bool is_full = evbuffer_get_length(out) > OUT_MOST || it->held > HELD_MOST;
    if (is_full) bufferevent_disable(it->pipe, EV_READ);
    else if (!(enabled & EV_READ)) bufferevent_enable(it->pipe, EV_READ);
    if (!evbuffer_get_length(out) || enabled & EV_WRITE) return;
    evbuffer_unfreeze(out, true);
    evbuffer_write(out, bufferevent_getfd(it->pipe));
    evbuffer_freeze(out, true);
    if (evbuffer_get_length(out)) bufferevent_enable(it->pipe, EV_WRITE);
    else was_sent(it->pipe, it);
}

void streams_flush(void) {
    for (GList *at = streams.head, *next; at; at = next) {
        struct stream *it = at->data;
        next = at->next;
        if (it->pipe) stream_flush(it);
        else if (!it->held) g_queue_remove(&streams, it), g_free(it);
    }
}

/* A client expects the server of this name; a server's peer names itself later. */
static struct stream *open_stream(const struct kind *kind, int file, bool is_unix,
                                  const char *expected) {
    const int state = expected ? BUFFEREVENT_SSL_CONNECTING : BUFFEREVENT_SSL_ACCEPTING;
    bool is_tls = kind->is_of_nodes && !is_unix && !config.is_insecure;
    struct stream *it = g_new0(struct stream, 1);
    it->kind = kind;
    it->is_up = !is_tls;
    it->tls = is_tls ? SSL_new(context) : NULL;
    if (is_tls) SSL_set_hostflags(it->tls, HOST_FLAGS);
    if (expected && is_tls && SSL_set1_host(it->tls, expected) != 1) fail("out of memory");
    it->pipe =
        is_tls ? bufferevent_openssl_socket_new(base, file, it->tls, state, BEV_OPT_CLOSE_ON_FREE)
               : bufferevent_socket_new(base, file, BEV_OPT_CLOSE_ON_FREE);
    bufferevent_setcb(it->pipe, hear, was_sent, happened, it);
    bufferevent_enable(it->pipe, EV_READ);
    if (!is_tls) bufferevent_disable(it->pipe, EV_WRITE);
    g_queue_push_head(&streams, it);
    return it;
}

/* What isn't acknowledged within a lease is of no use, and a new connection is made sooner than an
 * old one tries again. */
static void set_up_tcp(int file) {
    const int one = 1, patience = (int)MIN(config.settings.lease, PATIENCE_MOST);
    setsockopt(file, IPPROTO_TCP, TCP_NODELAY, &one, sizeof one);
    setsockopt(file, IPPROTO_TCP, TCP_SYNCNT, &one, sizeof one);
    setsockopt(file, IPPROTO_TCP, TCP_USER_TIMEOUT, &patience, sizeof patience);
}

int socket_connect(const struct address *address) {
    int file = socket(address->place.ss_family, SOCK_STREAM | SOCK_NONBLOCK | SOCK_CLOEXEC, 0);
    const struct sockaddr *place = (const struct sockaddr *)&address->place;
    if (place->sa_family != AF_UNIX) set_up_tcp(file);
    if (file < 0 || !connect(file, place, address->size) || errno == EINPROGRESS) return file;
    close(file);
    return -1;
}

/* Null if that failed. */
struct stream *stream_connect(const struct kind *kind, const struct address *address,
                              uint16_t peer) {
    int file = socket_connect(address);
    if (file < 0) return NULL;
    bool is_unix = address->place.ss_family == AF_UNIX;
    struct stream *it = open_stream(kind, file, is_unix, word_of_node(peer));
    it->peer = peer;
    return it;
}

/* If there are as many streams whose peer isn't known as there may be, the oldest is dropped. */
static void accept_stream(G_GNUC_UNUSED struct evconnlistener *from, int file,
                          struct sockaddr *place, G_GNUC_UNUSED int size, void *kind) {
    struct stream *oldest = NULL;
    int found = 0;
    for (const GList *at = streams.head; at; at = at->next) {
        struct stream *it = at->data;
        if (it->pipe && it->kind == kind && !it->peer) oldest = it, found++;
    }
    if (found >= ((const struct kind *)kind)->most) stream_drop(oldest);
    if (place->sa_family != AF_UNIX) set_up_tcp(file);
    open_stream(kind, file, place->sa_family == AF_UNIX, NULL);
}

/* Listens in place of an earlier socket at this address. */
void stream_listen(const struct kind *kind, const struct address *address) {
    const struct sockaddr *place = (const struct sockaddr *)&address->place;
    const unsigned options = LEV_OPT_CLOSE_ON_EXEC | LEV_OPT_REUSEABLE;
    if (place->sa_family == AF_UNIX) unlink(((const struct sockaddr_un *)place)->sun_path);
    mode_t mask = umask(0007); /* a socket is for its owner and group */
    if (!evconnlistener_new_bind(base, accept_stream, (void *)kind, options, WAITING, place,
                                 (int)address->size))
        fail("%s: %s", address->words, strerror(errno));
    umask(mask);
}

struct address address_of_path(const char *path) {
    struct address it = {.size = sizeof(struct sockaddr_un), .words = path};
    struct sockaddr_un *place = (struct sockaddr_un *)&it.place;
    place->sun_family = AF_UNIX;
    if (g_strlcpy(place->sun_path, path, sizeof place->sun_path) >= sizeof place->sun_path)
        fail("%s: this is too long for a socket", path);
    return it;
}

void stream_listen_own(const struct kind *kind, const char *name) {
    g_autofree char *path = g_strdup_printf("%s/%s.%s", config.run, config.name, name);
    struct address own = address_of_path(path);
    stream_listen(kind, &own);
}

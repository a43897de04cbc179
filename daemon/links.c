/* links.c: the connections to other nodes. A client connects to each server, and a server accepts
 * clients; frames go both ways. A connection begins with sixteen bytes: "tank", the version 2 in
 * two bytes, the client's node in two bytes, the highest first, and the sum of what all nodes have
 * in common. */
#include "tankd.h"

enum {
    GREETING = 16,
    NAME = 8,               /* bytes of it before the sum */
    WAITING_MOST = 1 << 20, /* bytes that wait for a node that doesn't read */
    AGAIN = 300,            /* milliseconds until a connection is tried again */
    STRANGERS_MOST = 64,    /* connections whose peer hasn't named itself yet */
    PLACES = (CLIENTS_MOST > SERVERS_MOST ? CLIENTS_MOST : SERVERS_MOST) + 1,
};

static struct stream *links[PLACES]; /* by the number of the peer: of a client, or of a server */
static bool lost[PLACES];
static struct event *again;

static uint16_t place_of(uint16_t node) {
    return node > TANK_SERVER_NODE(0) ? node - TANK_SERVER_NODE(0) : node;
}

const char *word_of_node(uint16_t node) {
    static char word[8];
    g_snprintf(word, sizeof word, "%c%d", node > TANK_SERVER_NODE(0) ? 's' : 'c', place_of(node));
    return word;
}

uint16_t node_of_word(const char *word) {
    for (uint16_t number = 1; number < PLACES; number++) {
        if (!strcmp(word, word_of_node(number))) return number;
        if (!strcmp(word, word_of_node(TANK_SERVER_NODE(number)))) return TANK_SERVER_NODE(number);
    }
    return 0;
}

/* What the connection of a client begins with. A client whose lease is longer than its server
 * believes would break the promises, so the sum is a part of it: the first bytes of a SHA-256. */
static void write_greeting(uint16_t node, uint8_t at[GREETING]) {
    uint8_t sum[32];
    size_t size = sizeof sum;
    g_autoptr(GChecksum) it = g_checksum_new(G_CHECKSUM_SHA256);
    g_checksum_update(it, (const uint8_t *)config.common, -1);
    g_checksum_get_digest(it, sum, &size);
    memcpy(at, (const uint8_t[NAME]){'t', 'a', 'n', 'k', 0, 2, 0, (uint8_t)node}, NAME);
    memcpy(at + NAME, sum, GREETING - NAME);
}

/* The peer of a server's connection names itself; whether it is a client. A newer connection
 * replaces an older one. */
static bool greet(struct stream *it, const uint8_t *at) {
    uint16_t node = at[NAME - 1];
    uint8_t expected[GREETING];
    write_greeting(node, expected);
    const char *fault = NULL;
    if (memcmp(at, expected, NAME) || node < 1 || node > config.clients)
        fault = "it doesn't begin as a client's";
    else if (!stream_is(it, word_of_node(node))) fault = "its certificate doesn't name the client";
    else if (memcmp(at, expected, GREETING))
        fault = "the client has other settings, servers, disks or blocks";
    if (fault) {
        stream_refuse(it, fault);
        return false;
    }
    if (links[node]) stream_drop(links[node]);
    it->peer = node;
    links[node] = it;
    say(LEVEL_NOTICE, "%s is connected", word_of_node(node));
    return true;
}

/* Takes the whole frames that came. Those whose `from` isn't the peer are dropped, so each frame
 * that the node hears is one that this peer sent. */
static bool take(struct stream *it, struct evbuffer *in) {
    struct tank_frame frame;
    uint32_t result;
    const uint8_t *bytes = evbuffer_pullup(in, -1);
    size_t at = it->peer ? 0 : GREETING, length = evbuffer_get_length(in);
    if (length < at) return true;
    if (!it->peer && !greet(it, bytes)) return false;
    while ((result = tank_frame_at(bytes + at, length - at, &frame)) == TANK_DONE) {
        count(COUNT_FRAMES_IN);
        if (frame.from == it->peer) node_hear(bytes + at, frame.size);
        else count(COUNT_FRAMES_FALSE);
        at += frame.size;
    }
    evbuffer_drain(in, at);
    stream_flush(it); /* so that the peer goes on while this node does its other work */
    if (result != TANK_CUT) count(COUNT_FRAMES_BAD); /* what follows has no meaning */
    return result == TANK_CUT;
}

static void gone(struct stream *it) {
    if (links[place_of(it->peer)] == it) links[place_of(it->peer)] = NULL;
    if (!config.is_server) timer_set(again, AGAIN);
}

static const struct kind kind = {
    .is_of_nodes = true, .most = STRANGERS_MOST, .take = take, .gone = gone};

/* A client connects to each server to which it isn't connected. */
static void connect_links(UNUSED_OF_EVENT) {
    uint8_t greeting[GREETING];
    write_greeting(config.node, greeting);
    for (uint16_t number = 1; number <= config.servers; number++) {
        if (links[number]) continue;
        links[number] = stream_connect(&kind, &config.server[number], TANK_SERVER_NODE(number));
        if (links[number]) evbuffer_add(stream_out(links[number]), greeting, sizeof greeting);
        else timer_set(again, AGAIN);
    }
}

void links_begin(void) {
    again = evtimer_new(base, connect_links, NULL);
    if (config.is_server) stream_listen(&kind, &config.server[config.number]);
    else connect_links(0, 0, NULL);
}

int links_up(void) {
    int up = 0;
    for (int place = 1; place < PLACES; place++) up += links[place] && links[place]->is_up;
    return up;
}

void link_send(uint16_t peer, const uint8_t *frame, size_t size) {
    struct stream *it = place_of(peer) < PLACES ? links[place_of(peer)] : NULL;
    bool goes = it && it->peer == peer && !lost[place_of(peer)] &&
                evbuffer_get_length(stream_out(it)) <= WAITING_MOST;
    count(goes ? COUNT_FRAMES_OUT : COUNT_FRAMES_LOST);
    if (goes) evbuffer_add(stream_out(it), frame, size);
}

void link_lose(uint16_t peer, bool is_lost) { lost[place_of(peer)] = is_lost; }

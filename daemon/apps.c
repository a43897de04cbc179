/* apps.c: the socket for applications. A line `TAG ASK` is answered by a line `TAG ANSWER`; several
 * asks may be under way. The asks are those of schedules (docs/PROTOCOL.md, "Schedules"), and for
 * pages of any bytes `put FILE PAGE BASE64` and `get FILE PAGE`. A connection whose asks won't be
 * answered any more is closed.
 *
 * If the configuration allows trials, these words are answered by `done`: `drop NODE` and
 * `carry NODE` (frames to that node are lost, or carried again), `slow MS` (each disk command waits
 * for that long), and `fail N` (the next N disk commands fail). */
#include "tankd.h"
#include <stdio.h>

enum {
    LINE_MOST = 8192,
    TAG_MOST = 24,
    WORD_MOST = 100, /* bytes of a name; servers refuse more than 64 */
    PAGE_LAST = 1048575,
    BASE_64 = 4 * ((TANK_PAGE + 2) / 3), /* digits of a page */
};

struct app_ask {
    struct request request;
    struct stream *app;
    bool is_get; /* the answer is a page in base 64 */
    char tag[TAG_MOST + 1];
    uint8_t bytes[TANK_PAGE]; /* of the page, the patch or the name */
    char other[WORD_MOST];    /* a new name */
};

/* The verbs, and what the words after them are: f a file, n a name, N a new one, - the name after
 * which a list begins, B a page in base 64, or a number. */
static const struct {
    const char *verb, *words;
    uint32_t ask;
} verbs[] = {{"write", "fpw", TANK_ASK_WRITE},   {"read", "fp", TANK_ASK_READ},
             {"sync", "f", TANK_ASK_SYNC},       {"cut", "fp", TANK_ASK_CUT},
             {"patch", "fpalb", TANK_ASK_PATCH}, {"lookup", "fn", TANK_ASK_LOOKUP},
             {"create", "fn", TANK_ASK_CREATE},  {"mkdir", "fn", TANK_ASK_MKDIR},
             {"remove", "fno", TANK_ASK_REMOVE}, {"rename", "fndN", TANK_ASK_RENAME},
             {"list", "f-", TANK_ASK_LIST},      {"put", "fpB", TANK_ASK_WRITE},
             {"get", "fp", TANK_ASK_READ}};

/* These return the name of a word's fault, or null. */

static const char *read_number(const char *word, uint64_t least, uint64_t most, uint64_t *number) {
    size_t digits = strspn(word, "0123456789");
    bool is_long = digits > 19 || (*word == '0' && digits > 1);
    *number = is_long ? UINT64_MAX : strtoull(word, NULL, 10);
    if (!digits || word[digits]) return "Syntax";
    return *number < least || *number > most ? "Number" : NULL;
}

static const char *read_name(const char *word, void *bytes, size_t *length) {
    *length = strlen(word);
    for (const char *it = word; *it; it++)
        if (!g_ascii_isgraph(*it)) return "Syntax";
    if (!*length || *length > WORD_MOST) return "Syntax";
    memcpy(bytes, word, *length);
    return NULL;
}

/* A file or a directory, SERVER:INO. */
static const char *read_file(char *word, struct tank_ask *ask) {
    uint64_t server, ino = 0;
    char *second = word + strcspn(word, ":");
    if (*second) *second++ = 0;
    const char *fault = read_number(word, 1, UINT16_MAX, &server);
    if (fault || read_number(second, 1, UINT32_MAX, &ino)) fault = "Syntax";
    ask->server = (uint16_t)server;
    ask->ino = (uint32_t)ino;
    return fault;
}

static const char *read_page(char *word, struct app_ask *into) {
    if (strlen(word) == BASE_64) g_base64_decode_inplace(word, &into->request.length);
    memcpy(into->bytes, word, MIN(into->request.length, TANK_PAGE));
    return into->request.length == TANK_PAGE ? NULL : "Syntax";
}

/* A number: f a page, a where a patch begins, l its length, w and b the byte of a whole page or of
 * a patch, d a new directory, o a file that is removed, or 0. */
static const char *read_value(char kind, const char *word, struct app_ask *into) {
    static const char kinds[] = "palwbdo";
    struct tank_ask *ask = &into->request.ask;
    const uint32_t least[] = {0, 0, 1, 0, 0, 1, 0}, byte = UINT8_MAX,
                   most[] = {PAGE_LAST, TANK_PAGE - 1, TANK_PAGE - ask->at, byte,
                             byte,      UINT32_MAX,    UINT32_MAX};
    uint64_t number;
    ptrdiff_t place = strchr(kinds, kind) - kinds;
    const char *fault = read_number(word, least[place], most[place], &number);
    if (kind == 'p') ask->page = (uint32_t)number;
    if (kind == 'a') ask->at = (uint16_t)number;
    if (kind == 'l') into->request.length = fault ? 0 : number;
    if (kind == 'w') into->request.length = TANK_PAGE;
    if (kind == 'w' || kind == 'b') memset(into->bytes, (int)number, into->request.length);
    if (kind == 'd' || kind == 'o') ask->other = (uint32_t)number;
    return fault;
}

static const char *read_word(char kind, char *word, struct app_ask *into) {
    struct request *it = &into->request;
    bool is_first = kind == '-' && !strcmp(word, "-"); /* a list begins with the first name */
    if (kind == 'f') return read_file(word, &it->ask);
    if (kind == 'B') return read_page(word, into);
    if (kind == 'N') return read_name(word, into->other, &it->other_length);
    if (kind == 'n' || (kind == '-' && !is_first)) return read_name(word, into->bytes, &it->length);
    return is_first ? NULL : read_value(kind, word, into);
}

/* Fills an ask, but not its client. *column is that of the fault. */
static const char *read_ask(char *line, struct app_ask *into, int *column) {
    char *end = line + strlen(line), *rest = line, *word = strsep(&rest, " ");
    const char *fault = NULL;
    size_t place = 0;
    while (place < G_N_ELEMENTS(verbs) && strcmp(verbs[place].verb, word)) place++;
    *column = 1;
    if (place == G_N_ELEMENTS(verbs)) return "Syntax";
    into->is_get = *word == 'g';
    into->request.ask.ask = verbs[place].ask;
    into->request.bytes = into->bytes;
    into->request.other = into->other;
    for (const char *kind = verbs[place].words; *kind && !fault; kind++) {
        *column = (int)((rest ? rest : end) - line) + 1;
        fault = rest ? read_word(*kind, strsep(&rest, " "), into) : "Syntax";
    }
    if (fault || !rest) return fault;
    *column = (int)(rest - line) + 1;
    return "Syntax";
}

/* A page as runs: COUNTxBYTE, joined by commas. */
static void print_runs(struct evbuffer *text, const uint8_t *bytes, size_t size) {
    for (size_t at = 0, run; at < size; at += run) {
        for (run = 1; at + run < size && bytes[at + run] == bytes[at];) run++;
        evbuffer_add_printf(text, "%s%zux%d", at ? "," : "read ", run, bytes[at]);
    }
}

static void print_entries(struct evbuffer *text, const struct reply *reply) {
    static struct tank_entry entries[ENTRIES_MOST];
    size_t count = 0;
    tank_decode_entries(reply->frame, reply->size, entries, ENTRIES_MOST, &count);
    evbuffer_add_printf(text, "listed %zu", count);
    for (const struct tank_entry *it = entries; it < entries + count; it++)
        evbuffer_add_printf(text, " %u:%d:%.*s", it->ino, it->directory ? 2 : 1, (int)it->length,
                            (const char *)it->name);
}

static void print_lost(struct evbuffer *text, const struct reply *reply) {
    static struct tank_lost_page pages[1024];
    size_t count = 0;
    tank_decode_lost_pages(reply->frame, reply->size, pages, G_N_ELEMENTS(pages), &count);
    evbuffer_add_printf(text, "lost %zu", count);
    for (size_t i = 0; i < count; i++)
        evbuffer_add_printf(text, " %u:%lu", pages[i].page, pages[i].command);
}

static void print_answer(struct evbuffer *text, const struct reply *reply, bool is_get) {
    static const char *const formats[TANK_ANSWERS_END] = {
        [TANK_ANSWER_WRITTEN] = "written",
        [TANK_ANSWER_HARD] = "hard",
        [TANK_ANSWER_CUT] = "cut",
        [TANK_ANSWER_NAMED] = "named %lu",
        [TANK_ANSWER_REFUSED] = "refused %lu",
        [TANK_ANSWER_QUIESCED] = "quiesced",
        [TANK_ANSWER_NO_FILE] = "nofile",
        [TANK_ANSWER_NO_SPACE] = "nospace %lu %lu",
        [TANK_ANSWER_DISK_FAULT] = "diskfault %lu",
        [TANK_ANSWER_OPS_FULL] = "opsfull",
        [TANK_ANSWER_UNCERTAIN] = "uncertain %lu %lu",
        [TANK_ANSWER_DIRTY_FULL] = "dirtyfull",
        [TANK_ANSWER_NOT_HOLDER] = "notholder",
        [TANK_ANSWER_TOO_MANY_LOCKS] = "toomanylocks"};
    const struct tank_answer *it = &reply->answer;
    if (it->answer == TANK_ANSWER_LISTED) print_entries(text, reply);
    else if (it->answer == TANK_ANSWER_LOST) print_lost(text, reply);
    else if (it->answer == TANK_ANSWER_READ && is_get) {
        g_autofree char *page = g_base64_encode(reply->page, TANK_PAGE);
        evbuffer_add_printf(text, "got %s", page);
    } else if (it->answer == TANK_ANSWER_READ) print_runs(text, reply->page, TANK_PAGE);
    else evbuffer_add_printf(text, formats[it->answer], it->first, it->second);
}

static void answered(struct request *request, const struct reply *reply) {
    struct app_ask *it = OWNER(struct app_ask, request, request);
    it->app->held--;
    if (!reply) stream_drop(it->app); /* as if the client's machine had crashed */
    else if (it->app->pipe) {
        struct evbuffer *out = stream_out(it->app);
        evbuffer_add_printf(out, "%s ", it->tag);
        print_answer(out, reply, it->is_get);
        evbuffer_add(out, "\n", 1);
    }
    g_free(it);
}

/* Does what a trial's words say; whether they are such words. */
static bool try_trial(const char *text) {
    char verb[8], what[16];
    if (!config.trials || sscanf(text, "%7s %15s", verb, what) != 2) return false;
    bool drops = !strcmp(verb, "drop");
    if ((drops || !strcmp(verb, "carry")) && node_of_word(what))
        link_lose(node_of_word(what), drops);
    else if (config.is_server || (strcmp(verb, "slow") && strcmp(verb, "fail"))) return false;
    else disks_try(*verb == 's', strtoull(what, NULL, 10));
    return true;
}

static void ask(struct stream *app, const char *tag, char *text) {
    g_autofree struct app_ask *it = g_new(struct app_ask, 1);
    int column = 1;
    memset(it, 0, offsetof(struct app_ask, bytes));
    if (try_trial(text)) {
        evbuffer_add_printf(stream_out(app), "%s done\n", tag);
        return;
    }
    const char *fault = config.is_server ? "Syntax" : read_ask(text, it, &column);
    if (fault) { /* only a client can be asked */
        evbuffer_add_printf(stream_out(app), "%s notunderstood %s %d\n", tag, fault, column);
        return;
    }
    strcpy(it->tag, tag);
    it->request.answered = answered;
    it->app = app;
    app->held++;
    asks_put(&g_steal_pointer(&it)->request);
}

/* Takes the whole lines that came; whether the connection goes on. */
static bool take(struct stream *it, struct evbuffer *in) {
    while (it->pipe) {
        size_t length;
        g_autofree char *line = evbuffer_readln(in, &length, EVBUFFER_EOL_LF);
        if (!line) return evbuffer_get_length(in) <= LINE_MOST;
        size_t tag = strcspn(line, " ");
        if (tag > TAG_MOST || strlen(line) != length) return false;
        char *text = line[tag] ? line + tag + 1 : line + tag;
        line[tag] = 0;
        ask(it, line, text);
    }
    return false;
}

void apps_begin(void) {
    static const struct kind kind = {.take = take, .most = INT32_MAX};
    stream_listen_own(&kind, "app");
}

int apps_ask(const char *path) {
    const struct address place = address_of_path(path);
    int file = socket_connect(&place);
    if (file < 0 || fcntl(file, F_SETFL, 0)) fail("%s: %s", path, strerror(errno));
    FILE *asks = fdopen(file, "w"), *answers = fdopen(dup(file), "r");
    char *line = NULL;
    size_t room = 0;
    for (int tag = 1; getline(&line, &room, stdin) >= 0; tag++) {
        line[strcspn(line, "\n")] = 0;
        if (fprintf(asks, "%d %s\n", tag, line) < 0 || fflush(asks) ||
            getline(&line, &room, answers) < 0)
            fail("%s: the daemon doesn't answer", path);
        fputs(strchr(line, ' ') ? strchr(line, ' ') + 1 : line, stdout);
        fflush(stdout);
    }
    return 0;
}

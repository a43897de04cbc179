/* config.c: reads the configuration. `#` begins a comment. */
#include "tankd.h"
#include <netdb.h>

struct config config = {.clients = CLIENTS_MOST,
                        .journal_bytes = 64 << 20,
                        .workers = 4,
                        .log = LEVEL_NOTICE,
                        .hold = 20,
                        .disk_time = UINT64_MAX,
                        .ops = UINT32_MAX,
                        .mount_server = 1};

enum { WORDS_MOST = 5 };

static const char *from; /* the file, and what was read of it */
static int line;
static char *word[WORDS_MOST]; /* those of the line, the setting's name first */
static int words;

#define refuse(format, ...) fail("%s: line %d: " format, from, line, __VA_ARGS__)

/* A number of the line, in its range. */
static uint64_t number_at(int place, uint64_t least, uint64_t most) {
    uint64_t number;
    const char *text = place < words ? word[place] : "";
    if (!g_ascii_string_to_unsigned(text, 10, least, most, &number, NULL))
        refuse("word %d of \"%s\" must be a number from %lu to %lu", place, word[0], least, most);
    return number;
}

static void expect_words(int count, const char *what) {
    if (words - 1 != count) refuse("\"%s\" needs %s", word[0], what);
}

/* An address: `unix PATH` or `tcp HOST PORT`. A host is a number, so that no step waits for a name
 * to be looked up. */
static struct address address_at(int place) {
    const char *kind = place < words ? word[place] : "";
    if (!strcmp(kind, "unix") && words == place + 2)
        return address_of_path(g_strdup(word[place + 1]));
    if (strcmp(kind, "tcp") || words != place + 3)
        refuse("\"%s\" needs \"unix PATH\" or \"tcp HOST PORT\"", word[0]);
    const char *host = word[place + 1], *port = word[place + 2];
    struct addrinfo *found, hints = {.ai_socktype = SOCK_STREAM, .ai_flags = AI_NUMERICHOST};
    number_at(place + 2, 1, UINT16_MAX);
    if (getaddrinfo(host, port, &hints, &found)) refuse("\"%s\" isn't an address in numbers", host);
    struct address it = {.size = found->ai_addrlen, .words = g_strdup_printf("%s %s", host, port)};
    memcpy(&it.place, found->ai_addr, it.size);
    freeaddrinfo(found);
    return it;
}

static void read_log(void) {
    expect_words(1, "a level");
    uint64_t level = 0;
    while (level < LEVELS && strcmp(word[1], level_words[level])) level++;
    if (level == LEVELS)
        refuse("there is no level \"%s\", only error, warning, notice and debug", word[1]);
    config.log = level;
}

/* The number of a line for servers or disks, which come in order. */
static uint64_t next_number(uint64_t *count, uint64_t most) {
    uint64_t number = number_at(1, 1, most);
    if (number > *count + 1) refuse("%s %d must come first", word[0], (int)*count + 1);
    if (number <= *count) refuse("%s %d has a line already", word[0], (int)number);
    return *count = number;
}

static void read_server(void) {
    uint64_t number = next_number(&config.servers, SERVERS_MOST);
    config.server[number] = address_at(2);
}

static void read_disk(void) {
    uint64_t number = next_number(&config.disks, DISKS_MOST);
    if (words != 4) expect_words(2, "a number, a path, and maybe the first byte");
    config.disk[number] = g_strdup(word[2]);
    config.disk_at[number] = words == 4 ? number_at(3, 0, INT64_MAX / 2) : 0;
    if (config.disk_at[number] % TANK_PAGE)
        refuse("the first byte must be a multiple of %d", TANK_PAGE);
}

static void read_metrics(void) { config.metrics = address_at(1); }

/* A setting of numbers, if it has some; of one word; or with a function of its own. */
static struct setting {
    const char *name;
    enum { OPTIONAL, NEEDED, REPEATED, TRIAL } how; /* REPEATED is needed, too */
    void *place;
    int numbers; /* how many, each in this range */
    uint64_t least, most;
    void (*read)(void);
    int line; /* the line that had it */
} settings[] = {
#define NUMBER(name, how, field, least, most)                                                      \
    { name, how, &config.field, 1, least, most, NULL, 0 }
#define TIME(name) NUMBER(#name, NEEDED, settings.name, 0, UINT64_C(1) << 40)
#define TEXT(name, how)                                                                            \
    { #name, how, &config.name, 0, 0, 0, NULL, 0 }
#define OTHER(name, how)                                                                           \
    { #name, how, NULL, 0, 0, 0, read_##name, 0 }
    TIME(lease),
    TIME(renew),
    TIME(quiesce),
    TIME(flush),
    TIME(demand),
    TIME(retry),
    TIME(grain),
    {"rate", NEEDED, &config.settings.num, 2, 1, 1 << 20, NULL, 0}, /* and `den` */
    OTHER(server, REPEATED),
    OTHER(disk, REPEATED),
    OTHER(metrics, OPTIONAL),
    OTHER(log, OPTIONAL),
    TEXT(state, NEEDED),
    TEXT(run, NEEDED),
    TEXT(certificate, OPTIONAL),
    TEXT(key, OPTIONAL),
    TEXT(authority, OPTIONAL),
    TEXT(hook, OPTIONAL),
    NUMBER("blocks", NEEDED, blocks, 1, 4096),
    NUMBER("clients", OPTIONAL, clients, 1, CLIENTS_MOST),
    NUMBER("journal", OPTIONAL, journal_bytes, 4096, UINT32_MAX),
    NUMBER("workers", OPTIONAL, workers, 1, 64),
    NUMBER("hold", OPTIONAL, hold, 0, 60000),
    NUMBER("disk-time", OPTIONAL, disk_time, 0, 60000),
    NUMBER("mount-server", OPTIONAL, mount_server, 1, SERVERS_MOST),
    NUMBER("trials", OPTIONAL, trials, 0, 1),
    NUMBER("trial-ahead", TRIAL, ahead, 0, 1 << 20),
    NUMBER("trial-elsewhere", TRIAL, elsewhere, 0, 1),
    NUMBER("trial-torn", TRIAL, torn, 0, 1),
    NUMBER("trial-asks", TRIAL, ops, 17, UINT32_MAX)};

static struct setting *setting_of(const char *name) {
    for (struct setting *it = settings; it < settings + G_N_ELEMENTS(settings); it++)
        if (!strcmp(it->name, name)) return it;
    refuse("there is no setting \"%s\"", name);
}

static void read_setting(void) {
    struct setting *it = setting_of(word[0]);
    if (it->line && it->how != REPEATED) refuse("line %d has \"%s\" already", it->line, it->name);
    it->line = line;
    if (it->read) it->read();
    else if (it->numbers == 0) {
        expect_words(1, "one word");
        *(char **)it->place = g_strdup(word[1]);
    } else expect_words(it->numbers, it->numbers == 1 ? "one number" : "two numbers");
    for (int i = 0; i < it->numbers; i++)
        ((uint64_t *)it->place)[i] = number_at(1 + i, it->least, it->most);
}

/* The words of a hook are a command, which is left as it is. */
static void read_line(char *text) {
    text[strcspn(text, "#")] = 0;
    char *rest = g_strstrip(text);
    for (words = 0; *rest; rest = g_strchug(rest)) {
        if (words == WORDS_MOST) refuse("there are more than %d words", WORDS_MOST);
        word[words++] = rest;
        rest += words == 2 && !strcmp(word[0], "hook") ? strlen(rest) : strcspn(rest, " \t");
        if (*rest) *rest++ = 0;
    }
    if (words) read_setting();
}

/* Refuses settings that the library refuses, at the line of the setting that is concerned. */
static void check_settings(void) {
    struct tank_client client = TANK_CLIENT_CLOSED;
    const uint64_t no_lives[1] = {0};
    uint32_t result = tank_client_open(&client, &config.settings, 1, no_lives, 1);
    tank_client_close(&client);
    if (result < TANK_SETTINGS_ORDER || result > TANK_SETTINGS_GRAIN) return;
    static const char *const concerned[] = {"lease", "rate", "lease", "demand", "grain"};
    line = setting_of(concerned[result - TANK_SETTINGS_ORDER])->line;
    refuse("%s: %s", tank_name(result), tank_text(result));
}

static void check_whole(void) {
    for (struct setting *it = settings; it < settings + G_N_ELEMENTS(settings); it++) {
        line = it->line;
        if ((it->how == NEEDED || it->how == REPEATED) && !line)
            fail("%s: there is no line \"%s\"", from, it->name);
        if (it->how == TRIAL && line && !config.trials)
            refuse("this is only for trials (%s)", "\"trials 1\"");
    }
    if (config.mount_server > config.servers)
        fail("%s: there is no server for \"mount-server\"", from);
    if (config.disks < config.servers) fail("%s: there are fewer disks than servers", from);
    if (!config.certificate != !config.key || !config.key != !config.authority)
        fail("%s: \"certificate\", \"key\" and \"authority\" go together", from);
    check_settings();
}

static void note_whole(void) {
    const struct tank_settings *it = &config.settings;
    if (config.disk_time == UINT64_MAX) config.disk_time = (it->lease - it->flush) / 4;
    config.common =
        g_strdup_printf("%lu %lu %lu %lu %lu %lu %lu %lu %lu %lu %lu %lu", it->lease, it->renew,
                        it->quiesce, it->flush, it->demand, it->retry, it->num, it->den, it->grain,
                        config.servers, config.disks, config.blocks);
}

void config_read(const char *path) {
    g_autofree char *text = NULL;
    g_autoptr(GError) fault = NULL;
    if (!g_file_get_contents(path, &text, NULL, &fault)) fail("%s", fault->message);
    from = path;
    char *rest = text;
    for (line = 1; rest; line++) read_line(strsep(&rest, "\n"));
    check_whole();
    note_whole();
}

/* main.c: the command line, signals, the log, and the loop. */
#include "tankd.h"
#include <signal.h>
#include <stdio.h>
#include <systemd/sd-daemon.h>

static const char summary[] = "Runs a server or a client of the protocol. The file says where the "
                              "servers, the disks and the\n"
                              "node's own files are. `tankd ask` carries lines to a client's "
                              "socket NODE.app, and prints the\n"
                              "answers.";

static struct {
    char *config, *mount, *trace, **others;
    gboolean is_create, is_version;
} words;

static const GOptionEntry options[] = {
    {"config", 0, 0, G_OPTION_ARG_FILENAME, &words.config, "what is where", "FILE"},
    {"create", 0, 0, G_OPTION_ARG_NONE, &words.is_create,
     "make the server's journal or the client's lives, once, and end", NULL},
    {"insecure", 0, 0, G_OPTION_ARG_NONE, &config.is_insecure,
     "let nodes speak over TCP without certificates", NULL},
    {"mount", 0, 0, G_OPTION_ARG_FILENAME, &words.mount,
     "show the files of a server as a folder (a client, `mount-server`)", "FOLDER"},
    {"trace", 0, 0, G_OPTION_ARG_FILENAME, &words.trace,
     "write what the node took and gave, for tools/record", "FILE"},
    {"version", 0, 0, G_OPTION_ARG_NONE, &words.is_version, "print the version", NULL},
    {G_OPTION_REMAINING, 0, 0, G_OPTION_ARG_STRING_ARRAY, &words.others, NULL, NULL},
    {NULL, 0, 0, 0, NULL, NULL, NULL}};

const char *const level_words[LEVELS] = {"error", "warning", "notice", "debug"};

void say(enum level level, const char *format, ...) {
    static const char *const of_journal[LEVELS] = {SD_ERR, SD_WARNING, SD_NOTICE, SD_DEBUG};
    va_list values;
    if (level > config.log) return;
    va_start(values, format);
    g_autofree char *text = g_strdup_vprintf(format, values);
    va_end(values);
    fprintf(stderr, "%stankd: %s%s%s: %s\n", getenv("JOURNAL_STREAM") ? of_journal[level] : "",
            config.name ? config.name : "", config.name ? ": " : "", level_words[level], text);
}

void must(uint32_t result) {
    if (result != TANK_DONE) fail("%s: %s", tank_name(result), tank_text(result));
}

static void read_words(int count, char **word) {
    GOptionContext *context = g_option_context_new("server|client NUMBER, or: ask SOCKET");
    GError *fault = NULL;
    g_option_context_set_summary(context, summary);
    g_option_context_add_main_entries(context, options, NULL);
    bool is_read = g_option_context_parse(context, &count, &word, &fault);
    char **others = words.others;
    bool is_ask = is_read && others && g_strv_length(others) == 2 && !strcmp(others[0], "ask");
    config.is_server = is_read && others && !strcmp(others[0], "server");
    bool is_node = is_read && others && g_strv_length(others) == 2 && words.config &&
                   (config.is_server ? !words.mount : !strcmp(others[0], "client"));
    if (!is_ask && !is_node && !words.is_version) {
        fprintf(stderr, "%s%s", fault ? fault->message : "",
                fault ? "\n" : g_option_context_get_help(context, true, NULL));
        exit(2);
    }
    g_option_context_free(context);
}

/* Refuses what the command line and the configuration don't allow together. */
static void check_words(void) {
    uint64_t most = config.is_server ? config.servers : config.clients, number;
    if (!g_ascii_string_to_unsigned(words.others[1], 10, 1, most, &number, NULL))
        fail("%s: the number of a %s is from 1 to %d", words.config, words.others[0], (int)most);
    config.number = (uint16_t)number;
    config.node = config.is_server ? TANK_SERVER_NODE(number) : number;
    bool is_tcp = false;
    for (uint64_t server = 1; server <= config.servers; server++)
        is_tcp |= config.server[server].place.ss_family != AF_UNIX &&
                  (!config.is_server || server == number);
    if (is_tcp && !config.is_insecure && !config.certificate)
        fail("%s: TCP needs \"certificate\", \"key\" and \"authority\", or the option --insecure",
             words.config);
    if (is_tcp && !config.is_insecure && !tls_load()) exit(1);
    config.name = g_strdup(word_of_node(config.node));
}

struct event_base *base;
static bool is_over;

void hook_run(const char *event, uint16_t client) {
    char shell[] = "/bin/sh", option[] = "-c", *command[] = {shell, option, config.hook, NULL};
    g_autoptr(GError) fault = NULL;
    if (!config.hook) return;
    g_auto(GStrv) around = g_environ_setenv(g_get_environ(), "TANK_EVENT", event, true);
    around = g_environ_setenv(around, "TANK_NODE", config.name, true);
    around = g_environ_setenv(around, "TANK_CLIENT", word_of_node(client), true);
    if (!g_spawn_async(NULL, command, around, 0, NULL, NULL, NULL, &fault))
        say(LEVEL_ERROR, "the hook can't be run: %s", fault->message);
}

static void hear_signal(int number, G_GNUC_UNUSED short what, G_GNUC_UNUSED void *data) {
    static bool is_ending;
    if (number == SIGPIPE) return; /* the write failed, too */
    if (number == SIGHUP) {
        if (config.certificate && tls_load()) say(LEVEL_NOTICE, "the certificates were read again");
        return;
    }
    if (is_ending) fail("a second signal ends the daemon at once");
    is_ending = true;
    sd_notify(false, "STOPPING=1");
    folder_end();
    node_end();
}

void timer_set(struct event *timer, uint64_t milliseconds) {
    const struct timeval time = {(time_t)(milliseconds / 1000), milliseconds % 1000 * 1000};
    evtimer_add(timer, &time);
}

void loop_end(void) { is_over = true; }

/* After each round of the loop, whatever the node gave in it goes out together. */
static void run(void) {
    static const int signals[] = {SIGTERM, SIGINT, SIGHUP, SIGPIPE};
    base = event_base_new();
    for (size_t i = 0; i < G_N_ELEMENTS(signals); i++)
        evsignal_add(evsignal_new(base, signals[i], hear_signal, NULL), NULL);
    keep_begin();
    if (words.trace) trace_begin(words.trace);
    node_begin();
    links_begin();
    metrics_begin();
    if (words.mount) folder_begin(words.mount);
    apps_begin(); /* whoever finds this socket finds everything */
    sd_notify(false, "READY=1");
    while (!is_over) {
        event_base_loop(base, EVLOOP_ONCE);
        node_between();
        streams_flush();
    }
    node_close();
}

int main(int count, char **word) {
    read_words(count, word);
    if (words.is_version)
        return printf("tankd, with libtank %u.%u\n", tank_version() / 100, tank_version() % 100) <
               0;
    if (!strcmp(words.others[0], "ask")) return apps_ask(words.others[1]);
    config_read(words.config);
    check_words();
    if (words.is_create) keep_create();
    else run();
    return 0;
}

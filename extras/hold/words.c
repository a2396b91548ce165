/* The words of a call. */
#include "hold.h"

#include <ctype.h>
#include <stdarg.h>
#include <stdio.h>
#include <stdlib.h>
#include <string.h>
#include <unistd.h>

static const char USE[] = "parbegin-hold [OPTIONS] \"K R, ..\" -- COMMAND ..";
static const char HELP[] =
    "Run a command while it holds resources of a served bank, as flock(1) does with a file, and without deadlock\n"
    "\n"
    "Usage: parbegin-hold [OPTIONS] \"K R, ..\" -- COMMAND ..\n"
    "\n"
    "It does what `parbegin hold` does, without Python. Waits until the bank lends the amounts, runs the command, and gives\n"
    "back whatever comes. A hold within the command of another one is within its claim. The status is that of the command,\n"
    "128 and N of one that signal N ended.\n"
    "\n"
    "Options:\n"
    "      --socket <ADDRESS>  The socket of `parbegin serve`: PATH, HOST:PORT, or several with commas between\n"
    "                          [default: PARBEGIN_SOCKET]\n"
    "      --claim <AMOUNTS>   The most that the command will hold at once, with what holds within it get [default: the amounts]\n"
    "      --name <NAME>       The name of the job [default: of the command, the machine and the process]\n"
    "  -n, --nowait            End with status 1 if the amounts are not lent at once\n"
    "  -w, --timeout <SECONDS> End with status 1 if they are not lent in time\n"
    "  -E <STATUS>             The status in the place of this 1; also --conflict-exit-code\n"
    "      --lease <SECONDS>   How long the bank keeps what is lent if nothing is heard any more, 2 to 86400 [default: 10]\n"
    "  -v, --verbose           Say on standard error why it waits, as it does at a terminal\n"
    "  -h, --help              Print help\n"
    "\n"
    "For an address with tls: it starts `parbegin hold`.\n";
/* Each option with its first name. */
static const struct {
    const char *name, *first;
    bool has_value;
} OPTIONS[] = {
    {"--socket", "--socket", true},       {"--claim", "--claim", true},
    {"--name", "--name", true},           {"-w", "--timeout", true},
    {"--timeout", "--timeout", true},     {"--wait", "--timeout", true},
    {"-E", "-E", true},                   {"--conflict-exit-code", "-E", true},
    {"--lease", "--lease", true},         {"-n", "--nowait", false},
    {"--nowait", "--nowait", false},      {"--nonblock", "--nowait", false},
    {"--nb", "--nowait", false},          {"-v", "--verbose", false},
    {"--verbose", "--verbose", false},    {"-h", "--help", false},
    {"--help", "--help", false},
};
enum { OPTION_COUNT = sizeof OPTIONS / sizeof OPTIONS[0], MOST_RESOURCES = 64 };

static _Noreturn void refuse(const char *format, ...) __attribute__((format(printf, 1, 2)));

static _Noreturn void refuse(const char *format, ...) {
    va_list words;
    va_start(words, format);
    fputs("error: ", stderr);
    vfprintf(stderr, format, words);
    va_end(words);
    fprintf(stderr, "\n\nUsage: %s\n\nFor more information, try '--help'.\n", USE);
    exit(STATUS_WORDS);
}

/* Reads a number of a range. */
static int number_of(const char *name, const char *value, int least, int most) {
    size_t digits = strspn(value, "0123456789");
    int number = digits > 0 && digits < 10 && value[digits] == '\0' ? atoi(value) : -1;
    if (number < least || number > most) {
        refuse("invalid value '%s' for '%s': it is a number from %d to %d", value, name, least, most);
    }
    return number;
}

/* Reads seconds, which may have a fraction. */
static double seconds_of(const char *value) {
    size_t whole = strspn(value, "0123456789");
    size_t rest = value[whole] == '.' ? 1 + strspn(value + whole + 1, "0123456789") : 0;
    if (whole + rest < 1 || (whole == 0 && rest < 2) || value[whole + rest] != '\0' || whole + rest > 12) {
        refuse("invalid value '%s' for '--timeout': it is a number of seconds", value);
    }
    return atof(value);
}

/* Writes one amount with its resource to `spelled`, and returns what is after it. */
static const char *read_amount(const char *text, const char *at, char *amount, char *resource) {
    int end = 0;
    size_t part = strcspn(at, ",");
    char word[MOST_LINE];
    snprintf(word, sizeof word, "%.*s", (int)part, at);
    bool is_pair = sscanf(word, "%31s %255s %n", amount, resource, &end) == 2 && end > 0 && word[end] == '\0';
    if (!is_pair || strspn(amount, "0123456789") != strlen(amount)) {
        refuse("'%s' is not a list of amounts, as '1 tape, 2 disk'", text);
    }
    return at + part;
}

/* Reads `K R, ..` to one spelling of it. */
static void read_amounts(const char *text, char *spelled) {
    static char names[MOST_RESOURCES][256];
    char amount[32], resource[256];
    size_t size = 0;
    int count = 0;
    if (strlen(text) > MOST_LINE / 4) {
        refuse("'%s' is too long", text);
    }
    for (const char *at = text;; at++) {
        at = read_amount(text, at, amount, resource);
        for (int other = 0; other < count; other++) {
            if (strcmp(names[other], resource) == 0) {
                refuse("'%s' is not a list of amounts, as '1 tape, 2 disk'", text);
            }
        }
        if (count == MOST_RESOURCES) {
            refuse("'%s' is too long", text);
        }
        strcpy(names[count++], resource);
        size += (size_t)snprintf(spelled + size, MOST_LINE - size, "%s%s %s", size ? ", " : "", amount, resource);
        if (*at == '\0') {
            return;
        }
    }
}

/* Writes an address that is the same from every folder: several, with commas between. */
static void read_address(const char *text, char *address) {
    char folder[MOST_ADDRESS] = "";
    size_t size = 0;
    if (strlen(text) > MOST_LINE / 4 || getcwd(folder, sizeof folder) == NULL) {
        folder[0] = '\0';
    }
    address[0] = '\0';
    for (const char *at = text; *at != '\0' && size < MOST_LINE / 2;) {
        size_t length = strcspn(at, ",");
        bool is_path = memchr(at, '/', length) != NULL || memchr(at, ':', length) == NULL;
        const char *before = is_path && *at != '/' ? folder : "";
        if (length + strlen(before) + 2 > MOST_ADDRESS) {
            refuse("'%s' is too long for an address", text);
        }
        const char *comma = size > 0 ? "," : "", *slash = *before != '\0' ? "/" : "";
        size += (size_t)snprintf(address + size, MOST_LINE - size, "%s%s%s%.*s", comma, before, slash, (int)length, at);
        at += length + (at[length] == ',');
    }
}

/* Returns the option that a word names, with the value in the word itself if it has one there. */
static int option_of(const char *word, const char **value) {
    const char *sign = strncmp(word, "--", 2) == 0 ? strchr(word, '=') : NULL;
    size_t length = sign != NULL ? (size_t)(sign - word) : strlen(word);
    *value = sign != NULL ? sign + 1 : NULL;
    for (int at = 0; at < OPTION_COUNT; at++) {
        bool is_named = strlen(OPTIONS[at].name) == length && strncmp(word, OPTIONS[at].name, length) == 0;
        if (is_named && (sign == NULL || OPTIONS[at].has_value)) {
            return at;
        }
    }
    refuse("unexpected argument '%s' found", word);
}

/* Takes an option. */
static void take_option(struct options *options, const char *name, const char *value, const char **address) {
    if (strcmp(name, "--help") == 0) {
        exit(fputs(HELP, stdout) < 0 || fflush(stdout) != 0 ? 6 : 0);
    } else if (strcmp(name, "--nowait") == 0) {
        options->is_patient = false;
    } else if (strcmp(name, "--verbose") == 0) {
        options->is_verbose = true;
    } else if (strcmp(name, "--socket") == 0) {
        *address = value;
    } else if (strcmp(name, "--claim") == 0) {
        read_amounts(value, options->claim);
    } else if (strcmp(name, "--timeout") == 0) {
        options->timeout = seconds_of(value);
    } else if (strcmp(name, "-E") == 0) {
        options->conflict = number_of("-E", value, 0, 255);
    } else if (strcmp(name, "--lease") == 0) {
        options->lease = number_of("--lease", value, 2, 86400);
    } else if (strlen(value) >= sizeof options->name || strcspn(value, " \t\r\n,") != strlen(value) || *value == '\0') {
        refuse("'%s' is no name of 1 to 32 bytes", value);
    } else {
        strcpy(options->name, value);
    }
}

/* Refuses words without a command, or without amounts. */
static void refuse_missing(const struct options *options, int others) {
    if (others != 1) {
        refuse("there is one list of amounts before '--', as \"1 tape, 2 disk\", and here are %d", others);
    }
    if (*options->command == NULL) {
        refuse("there is no '--' with a command after it");
    }
    if (options->address[0] == '\0') {
        refuse("neither '--socket' nor PARBEGIN_SOCKET says where the bank is served");
    }
}

void read_words(int count, char **words, struct options *options) {
    const char *around = getenv("PARBEGIN_SOCKET"), *address = around != NULL ? around : "", *amounts = "", *value;
    int at = 1, others = 0;
    memset(options, 0, sizeof *options);
    options->is_patient = true;
    options->timeout = -1;
    options->conflict = 1;
    options->lease = 10;
    for (; at < count && strcmp(words[at], "--") != 0; at++) {
        if (words[at][0] != '-' || words[at][1] == '\0') {
            amounts = words[at];
            others++;
            continue;
        }
        const char *name = words[at];
        int option = option_of(name, &value);
        if (OPTIONS[option].has_value && value == NULL) {
            value = at + 1 < count ? words[++at] : NULL;
            if (value == NULL) {
                refuse("a value is required for '%s' but none was supplied", name);
            }
        }
        take_option(options, OPTIONS[option].first, value, &address);
    }
    options->command = words + (at < count ? at + 1 : count);
    read_address(address, options->address);
    refuse_missing(options, others);
    read_amounts(amounts, options->amounts);
    char outer[MOST_LINE];
    read_address(around != NULL ? around : "", outer);
    bool is_inside = options->claim[0] == '\0' && options->name[0] == '\0' && strcmp(outer, options->address) == 0;
    const char *job = is_inside ? getenv("PARBEGIN_JOB") : NULL;
    options->inside = job != NULL && *job != '\0' ? job : NULL;
}

/* `parbegin-hold`: obtains, runs a command, and gives back. */
#include "hold.h"

#include <ctype.h>
#include <errno.h>
#include <poll.h>
#include <signal.h>
#include <stdarg.h>
#include <stdio.h>
#include <stdlib.h>
#include <string.h>
#include <sys/prctl.h>
#include <sys/random.h>
#include <sys/signalfd.h>
#include <sys/utsname.h>
#include <sys/wait.h>
#include <unistd.h>

/* Seconds between two tries to join and to wish, two looks at why it waits, and to reach a server without patience. */
static const double JOIN = 0.3, WISH = 0.1, LOOK = 0.5, PATIENCE = 5.0;
/* When a command is ended since the bank cannot be reached: shares of the lease that are left. */
static const double BEAT_AT = 0.75, END_AT = 0.3, KILL_AT = 0.1;
static const int STOPS[] = {SIGTERM, SIGINT, SIGHUP, SIGQUIT};
enum { STOP_COUNT = sizeof STOPS / sizeof STOPS[0] };

void say(const char *format, ...) {
    va_list words;
    va_start(words, format);
    fputs("parbegin-hold: ", stderr);
    vfprintf(stderr, format, words);
    fputc('\n', stderr);
    va_end(words);
}

/* Shows why it waits, at a terminal or if that is wanted, if that is another reason than before; nothing clears the line. */
static void show(const struct options *options, const char *text) {
    static char last[2 * MOST_LINE];
    bool is_terminal = isatty(2) != 0;
    if (text == NULL) {
        if (last[0] != '\0' && is_terminal) {
            fputs("\r\033[K", stderr);
        }
    } else if ((options->is_verbose || is_terminal) && strcmp(text, last) != 0) {
        snprintf(last, sizeof last, "%s", text);
        fprintf(stderr, is_terminal ? "\r\033[K%s" : "%s\n", text);
    }
}

static bool starts(const char *text, const char *with) {
    return strncmp(text, with, strlen(with)) == 0;
}

/* Makes a name for a job: of the command, the machine and the process, and some drawn signs. */
static void make_name(char *name, const char *command) {
    struct utsname machine;
    unsigned drawn = 0;
    const char *slash = strrchr(command, '/');
    uname(&machine);
    if (getrandom(&drawn, sizeof drawn, 0) < 0) {
        drawn = (unsigned)(1e6 * now());
    }
    snprintf(name, MOST_NAME, "%.10s.%.8s.%07d.%04x", slash != NULL ? slash + 1 : command, machine.nodename,
        (int)getpid() % 10000000, drawn & 0xffffU);
    for (char *at = name; *at != '\0'; at++) {
        if (!isalnum((unsigned char)*at) && strchr("_.-", *at) == NULL) {
            *at = '_';
        }
    }
}

/* Writes why a wish waits, in words. */
static void tell_reason(const struct options *options, const char *job, const char *reason, char *told, size_t size) {
    char resource[MOST_LINE], cash[32];
    if (sscanf(reason, "wait cash %4095s %31s", resource, cash) == 2) {
        snprintf(told, size, "%s waits for %s: %s of %s left", job, options->amounts, cash, resource);
    } else if (starts(reason, "wait rest ")) {
        snprintf(told, size, "%s waits for %s: could not finish then: %s", job, options->amounts, reason + 10);
    } else {
        snprintf(told, size, "%s waits for %s: %s", job, options->amounts, reason);
    }
}

/* Waits a moment, and shows why. Returns whether there is time left, and nothing stopped it. */
static bool pause_for(struct client *client, const struct options *options, double end, double seconds, const char *why) {
    double until = now() + seconds;
    if (!options->is_patient || (end != 0 && now() >= end)) {
        return false;
    }
    show(options, why);
    until = end != 0 && end < until ? end : until;
    while (client->condition == WELL && now() < until) {
        client_step(client, until);
    }
    return client->condition == WELL;
}

/* Notes a refusal of the bank. Returns whether it is one. */
static bool is_refused(struct client *client, const char *answer) {
    char resource[MOST_LINE];
    if (sscanf(answer, "over claim %4095s", resource) == 1) {
        snprintf(client->fault, sizeof client->fault, "the claim of the job does not allow as much of %s", resource);
    } else if (starts(answer, "refused ")) {
        snprintf(client->fault, sizeof client->fault, "%s", answer);
    } else {
        return false;
    }
    client->condition = REFUSED;
    return true;
}

/* Shows why the wish of a job waits. */
static void show_reason(struct client *client, const struct options *options, double patience) {
    char told[2 * MOST_LINE];
    const char *reason = client_answer(client, client_begin(client, "why %s %s", client->job, options->amounts), patience);
    if (reason != NULL && !client->is_granted) {
        tell_reason(options, client->job, reason, told, sizeof told);
        show(options, told);
    }
}

/* Waits for the grant of a wish. Returns whether it came in time; if not, the wish is taken back. */
static bool wait_for_grant(struct client *client, const struct options *options, double end) {
    bool is_shown = options->is_verbose || isatty(2) != 0;
    while (!client->is_granted && client->condition == WELL) {
        if (client->has_left) {
            client->condition = REFUSED;
            snprintf(client->fault, sizeof client->fault, "%s has left, with all that it held", client->job);
            return false;
        }
        if (is_shown) {
            show_reason(client, options, end);
        } else if (client_left(client) < BEAT_AT * options->lease) {
            client_beat(client);
        }
        client->condition = client->condition == UNREACHABLE ? WELL : client->condition;
        if (end != 0 && now() >= end && !client->is_granted && client->condition == WELL) {
            /* (that is refused if the grant came at the last moment) */
            const char *answer = client_answer(client, client_begin(client, "drop %s", client->job), now() + PATIENCE);
            if (answer == NULL || starts(answer, "refused B13 ") || starts(answer, "refused S13 ")) {
                return answer != NULL;
            }
            /* (the job may have left) */
            is_refused(client, answer);
            return false;
        }
        double until = now() + (is_shown ? LOOK : options->lease / 4.0);
        until = end != 0 && end < until ? end : until;
        if (!client->is_granted && client->condition == WELL) {
            client_step(client, until);
        }
    }
    return client->is_granted && client->condition == WELL;
}

/* Joins. Returns whether the job is there, and says whether that was at the first try. */
static bool join(struct client *client, const struct options *options, double end, const char *line, struct request *first,
    bool *is_at_once) {
    const char *joined = client_answer(client, first, end);
    /* (its own name it may wait for, if an attempt before took it in vain) */
    while (joined != NULL && (starts(joined, "refused B9 ") || (starts(joined, "refused B7 ") && options->name[0] == '\0'))) {
        if (!pause_for(client, options, end, JOIN, "waits: there are as many jobs as there can be")) {
            return false;
        }
        joined = client_answer(client, client_begin(client, "%s", line), end);
        *is_at_once = false;
    }
    return joined != NULL && !is_refused(client, joined);
}

/* Asks or wishes, and again while another part of the job waits, since a job has one wish at most. Returns the answer. */
static const char *wish(struct client *client, const struct options *options, double end) {
    double patience = options->is_patient ? end : now() + PATIENCE;
    const char *verb = options->is_patient ? "want" : "ask", *said;
    do {
        said = client_answer(client, client_begin(client, "%s %s %s", verb, client->job, options->amounts), patience);
    } while (said != NULL && starts(said, "refused B12 ") &&
             pause_for(client, options, end, WISH, "waits: another part of the job waits"));
    return said;
}

/* Writes the line by which a hold joins: a job of its own, or the job within whose command it is. */
static void line_of_job(const struct client *client, const struct options *options, char *line) {
    const char *key = getenv("PARBEGIN_KEY"), *claim = options->claim[0] != '\0' ? options->claim : options->amounts;
    if (options->inside != NULL) {
        snprintf(line, MOST_LINE, "use %s %s", options->inside, key != NULL ? key : "");
    } else {
        snprintf(line, MOST_LINE, "job %s %s", client->job, claim);
    }
}

bool obtain(struct client *client, const struct options *options, char *fence, size_t size) {
    char line[MOST_LINE];
    bool is_at_once = true;
    double end = options->timeout < 0 ? 0 : now() + options->timeout, patience = options->is_patient ? end : now() + PATIENCE;
    line_of_job(client, options, line);
    struct request *first = client_begin(client, "%s", line);
    const char *verb = options->is_patient ? "want" : "ask";
    struct request *second = client_begin(client, "%s %s %s", verb, client->job, options->amounts);
    struct request *third = client_begin(client, "fence");
    if (!join(client, options, patience, line, first, &is_at_once)) {
        return false;
    }
    const char *said = client_answer(client, second, patience), *number = client_answer(client, third, patience);
    if (said != NULL && (!is_at_once || starts(said, "refused B12 "))) {
        number = NULL;
        said = wish(client, options, end);
    }
    if (said == NULL || starts(said, "refused B12 ") || is_refused(client, said)) {
        return false;
    }
    bool is_queued = starts(said, "queued");
    bool is_granted = starts(said, "granted") || (is_queued && wait_for_grant(client, options, end));
    if (is_granted && (is_queued || number == NULL)) {
        number = client_answer(client, client_begin(client, "fence"), 0);
    }
    snprintf(fence, size, "%s", number != NULL && starts(number, "fence ") ? number + 6 : "");
    return is_granted && client->condition == WELL;
}

/* Becomes the command, in a process that is killed if the other one is: it does not run on without what it held. */
static _Noreturn void become(const struct client *client, const struct options *options, const char *fence, pid_t parent) {
    sigset_t none;
    const char *key = getenv("PARBEGIN_KEY");
    prctl(PR_SET_PDEATHSIG, SIGKILL);
    sigemptyset(&none);
    sigprocmask(SIG_SETMASK, &none, NULL);
    setenv("PARBEGIN_FENCE", fence, 1);
    setenv("PARBEGIN_JOB", client->job, 1);
    setenv("PARBEGIN_KEY", options->inside != NULL && key != NULL ? key : client->key, 1);
    setenv("PARBEGIN_SOCKET", options->address, 1);
    if (getppid() == parent) {
        execvp(options->command[0], options->command);
        bool is_missing = errno == ENOENT;
        say("%s: %s", options->command[0], is_missing ? "there is no such command" : strerror(errno));
        _exit(is_missing ? STATUS_NOT_FOUND : STATUS_CANNOT_RUN);
    }
    _exit(STATUS_CANNOT_RUN);
}

/* Passes signals on to the command. Returns whether it has ended, with its status. */
static bool has_ended(const struct client *client, pid_t pid, int *status) {
    struct signalfd_siginfo came;
    while (read(client->signals, &came, sizeof came) == (ssize_t)sizeof came) {
        /* (what is typed at a terminal the command gets itself: then no process has sent it) */
        if (came.ssi_signo != SIGCHLD && came.ssi_code <= 0) {
            kill(pid, (int)came.ssi_signo);
        }
    }
    return waitpid(pid, status, WNOHANG) == pid;
}

/* Returns for how many seconds it is sure that what is held is held. */
static double sure_left(const struct client *client) {
    return client->has_left ? 0 : client_left(client);
}

int run_command(struct client *client, const struct options *options, const char *fence) {
    bool is_lost = false;
    int status = 0;
    pid_t parent = getpid(), pid = fork();
    if (pid < 0) {
        say("%s: %s", options->command[0], strerror(errno));
        return STATUS_CANNOT_RUN;
    }
    if (pid == 0) {
        become(client, options, fence, parent);
    }
    client->is_running = true;
    while (!has_ended(client, pid, &status)) {
        if (sure_left(client) < 0.85 * options->lease && client->condition == WELL) {
            client_beat(client);
        }
        if (sure_left(client) < END_AT * options->lease && !is_lost) {
            const char *why = client->has_left ? "the job has left" : "the bank cannot be reached";
            say("%s, and what %s holds is no longer sure: the command is ended", why, client->job);
            kill(pid, SIGTERM);
            is_lost = true;
        }
        if (sure_left(client) < KILL_AT * options->lease) {
            kill(pid, SIGKILL);
        }
        if (is_lost || client->condition != WELL) {
            poll(&(struct pollfd){.fd = client->signals, .events = POLLIN}, 1, 100);
        } else {
            client_step(client, now() + 0.25 * options->lease);
        }
    }
    if (is_lost) {
        return STATUS_LOST;
    }
    return WIFSIGNALED(status) ? 128 + WTERMSIG(status) : WEXITSTATUS(status);
}

/* Becomes `parbegin hold`, which knows TLS: the one beside this program, or that of the path. */
static void become_script(char **words) {
    char path[MOST_LINE];
    ssize_t size = readlink("/proc/self/exe", path, sizeof path - 16);
    char **given = words;
    size_t count = 0;
    while (words[count] != NULL) {
        count++;
    }
    given = calloc(count + 2, sizeof *given);
    if (given == NULL) {
        return;
    }
    memcpy(given + 1, words, count * sizeof *words);
    given[0] = "parbegin";
    given[1] = "hold";
    if (size > 0) {
        path[size] = '\0';
        strcpy(strrchr(path, '/') + 1, "parbegin");
        execv(path, given);
    }
    execvp("parbegin", given);
    free(given);
}

/* Has the signals that stop a hold, and the end of its command, come as what can be read. */
static int watch_signals(void) {
    sigset_t watched;
    sigemptyset(&watched);
    sigaddset(&watched, SIGCHLD);
    for (int at = 0; at < STOP_COUNT; at++) {
        sigaddset(&watched, STOPS[at]);
    }
    signal(SIGCHLD, SIG_DFL);
    sigprocmask(SIG_BLOCK, &watched, NULL);
    return signalfd(-1, &watched, SFD_CLOEXEC | SFD_NONBLOCK);
}

/* Returns the status of a hold that was granted nothing. */
static int status_of(const struct client *client, const struct options *options) {
    if (client->condition == WELL) {
        return options->conflict;
    }
    if (client->condition == STOPPED) {
        return 128 + client->stopped_by;
    }
    say("%s", client->fault);
    return client->condition == SESSION_LOST ? STATUS_LOST : STATUS_UNAVAILABLE;
}

int main(int count, char **words) {
    static struct options options;
    static struct client client;
    char fence[32], name[MOST_NAME];
    read_words(count, words, &options);
    if (strstr(options.address, "tls:") != NULL) {
        become_script(words);
        say("TLS wants `parbegin hold`, which is not there");
        return STATUS_UNAVAILABLE;
    }
    make_name(name, options.command[0]);
    client_init(&client, &options, watch_signals());
    client.job = options.inside != NULL ? options.inside : options.name[0] != '\0' ? options.name : name;
    bool is_granted = obtain(&client, &options, fence, sizeof fence);
    show(&options, NULL);
    int status = is_granted ? run_command(&client, &options, fence) : status_of(&client, &options);
    client_close(&client);
    return status;
}

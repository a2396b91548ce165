/* A session with a served bank. A request without an answer is sent again over the next connection, with its number: it is
   carried out once. */
#include "hold.h"

#include <arpa/inet.h>
#include <errno.h>
#include <netdb.h>
#include <netinet/tcp.h>
#include <poll.h>
#include <signal.h>
#include <stdarg.h>
#include <stdio.h>
#include <stdlib.h>
#include <string.h>
#include <sys/signalfd.h>
#include <sys/socket.h>
#include <sys/time.h>
#include <sys/un.h>
#include <time.h>
#include <unistd.h>

/* Seconds in which a server has to answer before the connection is given up, at most, and as a share of the lease; seconds
   between two tries to connect. */
static const double SILENCE = 5.0, OF_LEASE = 0.2, PAUSE = 0.1;

double now(void) {
    struct timespec it;
    clock_gettime(CLOCK_BOOTTIME, &it);
    return (double)it.tv_sec + 1e-9 * (double)it.tv_nsec;
}

void client_init(struct client *client, const struct options *options, int signals) {
    memset(client, 0, sizeof *client);
    client->socket = -1;
    client->signals = signals;
    client->lease = options->lease;
    client->token = getenv("PARBEGIN_TOKEN");
    client->confirmed = now();
    for (const char *at = options->address; *at != '\0' && client->server_count < MOST_SERVERS;) {
        size_t length = strcspn(at, ",");
        snprintf(client->servers[client->server_count++], MOST_ADDRESS, "%.*s", (int)length, at);
        at += length + (at[length] == ',');
    }
}

/* Returns whether a connection is there after it was tried, and closes the socket if not. */
static bool is_connected(int it, const struct sockaddr *where, socklen_t size) {
    struct timeval patience = {.tv_sec = (long)SILENCE, .tv_usec = 0};
    if (it < 0) {
        return false;
    }
    setsockopt(it, SOL_SOCKET, SO_SNDTIMEO, &patience, sizeof patience);
    if (connect(it, where, size) == 0) {
        return true;
    }
    int fault = errno;
    close(it);
    errno = fault;
    return false;
}

static int connect_unix(const char *path) {
    struct sockaddr_un where = {.sun_family = AF_UNIX};
    if (strlen(path) >= sizeof where.sun_path) {
        errno = ENAMETOOLONG;
        return -1;
    }
    strcpy(where.sun_path, path);
    int it = socket(AF_UNIX, SOCK_STREAM | SOCK_CLOEXEC, 0);
    return is_connected(it, (struct sockaddr *)&where, sizeof where) ? it : -1;
}

static int connect_network(const char *address) {
    char host[MOST_ADDRESS];
    const char *colon = strrchr(address, ':');
    size_t start = address[0] == '[', length = (size_t)(colon - address);
    snprintf(host, sizeof host, "%.*s", (int)(length - 2 * start), address + start);
    struct addrinfo wanted = {.ai_socktype = SOCK_STREAM}, *found = NULL;
    if (getaddrinfo(host, colon + 1, &wanted, &found) != 0) {
        errno = EADDRNOTAVAIL;
        return -1;
    }
    int it = -1;
    for (struct addrinfo *next = found; next != NULL && it < 0; next = next->ai_next) {
        int tried = socket(next->ai_family, next->ai_socktype | SOCK_CLOEXEC, next->ai_protocol);
        it = is_connected(tried, next->ai_addr, next->ai_addrlen) ? tried : -1;
    }
    freeaddrinfo(found);
    int yes = 1;
    if (it >= 0) {
        setsockopt(it, IPPROTO_TCP, TCP_NODELAY, &yes, sizeof yes);
    }
    return it;
}

/* Sends a text, if there is a connection. One that fails is found by the next read. */
static void send_text(const struct client *client, const char *text) {
    for (size_t size = strlen(text); client->socket >= 0 && size > 0;) {
        ssize_t sent = send(client->socket, text, size, MSG_NOSIGNAL);
        if (sent <= 0) {
            shutdown(client->socket, SHUT_RDWR);
            return;
        }
        text += sent;
        size -= (size_t)sent;
    }
}

/* Lets go of the connection, and takes the server that `leads`, or the next one after a pause if that is not known. */
static void drop_server(struct client *client, const char *leads) {
    if (client->socket >= 0) {
        close(client->socket);
    }
    client->socket = -1;
    client->unread_size = 0;
    if (client->silent_since == 0) {
        client->silent_since = now();
    }
    char first[MOST_ADDRESS];
    snprintf(first, sizeof first, "%s", client->servers[0]);
    int last = client->server_count - 1;
    if (*leads != '\0' && strcmp(leads, first) != 0) {
        int at = 0;
        while (at < last && strcmp(client->servers[at], leads) != 0) {
            at++;
        }
        memmove(client->servers[1], client->servers[0], (size_t)at * MOST_ADDRESS);
        snprintf(client->servers[0], MOST_ADDRESS, "%s", leads);
        return;
    }
    memmove(client->servers[0], client->servers[1], (size_t)last * MOST_ADDRESS);
    memcpy(client->servers[last], first, MOST_ADDRESS);
    client->next_try = now() + PAUSE;
}

/* Connects once, begins a session or goes on with it, and sends all that has no answer. */
static void greet(struct client *client) {
    const char *address = client->servers[0];
    bool is_unix = strchr(address, '/') != NULL || strchr(address, ':') == NULL;
    client->socket = is_unix ? connect_unix(address) : connect_network(address);
    if (client->socket < 0) {
        snprintf(client->fault, sizeof client->fault, "no server answers at %s: %s", address, strerror(errno));
        drop_server(client, "");
        return;
    }
    client->asked = now();
    client->greetings = 1;
    char text[(MOST_REQUESTS + 1) * (MOST_LINE + 32)];
    size_t at = 0;
    if (client->token != NULL && *client->token != '\0') {
        client->greetings = 2;
        at += (size_t)snprintf(text, MOST_LINE, "auth %s\n", client->token);
    }
    if (client->sid[0] != '\0') {
        at += (size_t)snprintf(text + at, MOST_LINE, "attach %s %s %lu\n", client->sid, client->key, client->noticed);
    } else {
        at += (size_t)snprintf(text + at, MOST_LINE, "session %d\n", client->lease);
    }
    for (int number = 0; number < MOST_REQUESTS; number++) {
        struct request *request = &client->requests[number];
        if (request->number != 0 && !request->is_done) {
            request->sent = client->asked;
            at += (size_t)snprintf(text + at, sizeof text - at, "%lu %s\n", request->number, request->line);
        }
    }
    send_text(client, text);
}

/* Takes a refusal: of a server that does not answer, of a session that has ended, or one that does not pass. */
static void take_refusal(struct client *client, const char *line, bool has_session) {
    if (strncmp(line, "refused S2", 10) == 0) {
        const char *leads = strstr(line, ", but ");
        snprintf(client->fault, sizeof client->fault, "no server answers at %s: it does not lead", client->servers[0]);
        drop_server(client, leads != NULL ? leads + 6 : "");
    } else if (strncmp(line, "refused S5", 10) == 0 && has_session) {
        client->condition = SESSION_LOST;
        snprintf(client->fault, sizeof client->fault, "the session has ended");
    } else {
        client->condition = REFUSED;
        snprintf(client->fault, sizeof client->fault, "%s", line);
    }
}

/* Takes a line of an answer to the greeting. */
static void take_greeting(struct client *client, const char *line) {
    if (strcmp(line, "ready") != 0) {
        snprintf(client->greeting, sizeof client->greeting, "%s", line);
        return;
    }
    char first[MOST_LINE];
    snprintf(first, sizeof first, "%s", client->greeting);
    client->greeting[0] = '\0';
    client->greetings--;
    if (strncmp(first, "refused ", 8) == 0) {
        take_refusal(client, first, client->sid[0] != '\0');
        return;
    }
    sscanf(first, "session %31s %63s", client->sid, client->key);
    if (client->greetings == 0) {
        client->confirmed = client->asked;
        client->silent_since = 0;
        client->is_told = false;
    }
}

/* Takes a notice: `N granted J ..` or `N left J`. */
static void take_notice(struct client *client, const char *line) {
    char verb[16], job[MOST_LINE];
    unsigned long number;
    if (sscanf(line, "%lu %15s %4095s", &number, verb, job) != 3 || number <= client->noticed) {
        return;
    }
    client->noticed = number;
    if (client->job != NULL && strcmp(job, client->job) == 0) {
        client->is_granted = client->is_granted || strcmp(verb, "granted") == 0;
        client->has_left = client->has_left || strcmp(verb, "left") == 0;
    }
}

/* Takes a line of an answer to a request. */
static void take_answer(struct client *client, unsigned long number, const char *line) {
    struct request *request = NULL;
    for (int at = 0; at < MOST_REQUESTS; at++) {
        if (client->requests[at].number == number && !client->requests[at].is_done) {
            request = &client->requests[at];
        }
    }
    if (request == NULL) {
        return;
    }
    if (strcmp(line, "ready") != 0) {
        if (request->answer[0] == '\0') {
            snprintf(request->answer, sizeof request->answer, "%s", line);
        }
        return;
    }
    bool is_use = strncmp(request->line, "use ", 4) == 0;
    if (strncmp(request->answer, "refused S2", 10) == 0 || (strncmp(request->answer, "refused S5", 10) == 0 && !is_use)) {
        char line_of_it[MOST_LINE];
        snprintf(line_of_it, sizeof line_of_it, "%s", request->answer);
        request->answer[0] = '\0';
        take_refusal(client, line_of_it, true);
        return;
    }
    request->is_done = true;
    client->confirmed = request->sent > client->confirmed ? request->sent : client->confirmed;
}

static void take_line(struct client *client, const char *line) {
    char *rest;
    if (strncmp(line, "notice ", 7) == 0) {
        take_notice(client, line + 7);
    } else if (client->greetings > 0) {
        take_greeting(client, line);
    } else {
        unsigned long number = strtoul(line, &rest, 10);
        if (*rest == ' ') {
            take_answer(client, number, rest + 1);
        }
    }
}

/* Reads what has come, and takes its lines. */
static void read_lines(struct client *client) {
    size_t room = sizeof client->unread - 1 - client->unread_size;
    ssize_t got = recv(client->socket, client->unread + client->unread_size, room, 0);
    if (got <= 0) {
        snprintf(client->fault, sizeof client->fault, "no server answers at %s: it has gone", client->servers[0]);
        drop_server(client, "");
        return;
    }
    client->unread_size += (size_t)got;
    client->unread[client->unread_size] = '\0';
    char *at = client->unread, *end;
    while (client->socket >= 0 && client->condition == WELL && (end = strchr(at, '\n')) != NULL) {
        *end = '\0';
        take_line(client, at);
        at = end + 1;
    }
    if (client->socket >= 0) {
        client->unread_size -= (size_t)(at - client->unread);
        memmove(client->unread, at, client->unread_size);
    }
}

/* Returns the seconds in which a server has to answer. */
static double patience_of(const struct client *client) {
    return OF_LEASE * client->lease < SILENCE ? OF_LEASE * client->lease : SILENCE;
}

/* Returns when what was sent first has waited too long for an answer; 0 if nothing waits. */
static double silence_ends(const struct client *client) {
    double first = client->greetings > 0 ? client->asked : 0;
    for (int at = 0; at < MOST_REQUESTS; at++) {
        const struct request *it = &client->requests[at];
        if (it->number != 0 && !it->is_done && (first == 0 || it->sent < first)) {
            first = it->sent;
        }
    }
    return first == 0 ? 0 : first + patience_of(client);
}

/* Returns the earlier one of two times, of which 0 is none. */
static double earlier(double one, double other) {
    return one == 0 || (other != 0 && other < one) ? other : one;
}

/* Takes a signal, if one has come while the client waits for a grant: it stops that. */
static void take_signal(struct client *client) {
    struct signalfd_siginfo came;
    if (client->is_running || client->condition != WELL || read(client->signals, &came, sizeof came) != (ssize_t)sizeof came) {
        return;
    }
    if (came.ssi_signo != SIGCHLD) {
        client->condition = STOPPED;
        client->stopped_by = (int)came.ssi_signo;
    }
}

void client_step(struct client *client, double end) {
    if (client->socket < 0 && now() >= client->next_try) {
        greet(client);
    }
    if (client->socket < 0 && !client->is_told && now() - client->silent_since > patience_of(client)) {
        client->is_told = true;
        say("%s; waits for one", client->fault);
    }
    double until = earlier(end, client->socket < 0 ? client->next_try : silence_ends(client));
    double left = until == 0 ? -1 : until - now();
    struct pollfd awaited[2] = {{.fd = client->signals, .events = POLLIN}, {.fd = client->socket, .events = POLLIN}};
    poll(awaited, 2, until == 0 ? -1 : left <= 0 ? 0 : (int)(1000 * left) + 1);
    if (awaited[0].revents != 0) {
        take_signal(client);
    }
    if (client->socket >= 0 && awaited[1].revents != 0) {
        read_lines(client);
    } else if (client->socket >= 0 && silence_ends(client) != 0 && now() > silence_ends(client)) {
        snprintf(client->fault, sizeof client->fault, "no server answers at %s: it is silent", client->servers[0]);
        drop_server(client, "");
    }
}

struct request *client_begin(struct client *client, const char *format, ...) {
    struct request *request = NULL;
    for (int at = 0; at < MOST_REQUESTS && request == NULL; at++) {
        bool is_free = client->requests[at].number == 0 || client->requests[at].is_done;
        request = is_free ? &client->requests[at] : NULL;
    }
    if (request == NULL) {
        say("too many requests are without an answer");
        exit(STATUS_UNAVAILABLE);
    }
    *request = (struct request){.number = ++client->number, .sent = now()};
    va_list words;
    va_start(words, format);
    vsnprintf(request->line, sizeof request->line, format, words);
    va_end(words);
    if (client->socket >= 0) {
        char text[MOST_LINE + 32];
        snprintf(text, sizeof text, "%lu %s\n", request->number, request->line);
        send_text(client, text);
    }
    return request;
}

const char *client_answer(struct client *client, struct request *request, double end) {
    while (!request->is_done && client->condition == WELL) {
        if (end != 0 && now() > end && client->socket < 0) {
            client->condition = UNREACHABLE;
            return NULL;
        }
        /* (a server that is there is given its time) */
        client_step(client, client->socket < 0 ? end : 0);
    }
    return client->condition == WELL ? request->answer : NULL;
}

void client_beat(struct client *client) {
    for (int at = 0; at < MOST_REQUESTS; at++) {
        if (client->requests[at].number != 0 && !client->requests[at].is_done) {
            return;
        }
    }
    client_begin(client, "beat");
}

double client_left(const struct client *client) {
    return client->condition == SESSION_LOST ? 0 : client->confirmed + client->lease - now();
}

void client_close(struct client *client) {
    if (client->sid[0] != '\0' && client->condition != SESSION_LOST) {
        client->condition = WELL;
        client->signals = -1;
        client_answer(client, client_begin(client, "end"), now() + patience_of(client));
    }
    if (client->socket >= 0) {
        close(client->socket);
    }
}

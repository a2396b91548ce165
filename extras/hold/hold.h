/* `parbegin-hold`: runs a command while it holds resources of a served bank. docs/SERVING.md says what it does. */
#ifndef PARBEGIN_HOLD_H
#define PARBEGIN_HOLD_H

#include <stdbool.h>
#include <stddef.h>

enum status { STATUS_WORDS = 2, STATUS_UNAVAILABLE = 69, STATUS_LOST = 75, STATUS_CANNOT_RUN = 126, STATUS_NOT_FOUND = 127 };

/* The most bytes of a line, of an address, and of names; the most servers, and requests without an answer. */
enum { MOST_LINE = 4096, MOST_ADDRESS = 256, MOST_NAME = 33, MOST_SERVERS = 16, MOST_REQUESTS = 8 };

/* What the words of a call say. */
struct options {
    char amounts[MOST_LINE];
    /* empty if none was given */
    char claim[MOST_LINE];
    char name[MOST_NAME];
    char address[MOST_LINE];
    /* the job within whose command this one is, if it is at the same server */
    const char *inside;
    bool is_patient, is_verbose;
    /* negative if there is no end */
    double timeout;
    int conflict, lease;
    char **command;
};

/* Reads the words of a call. It ends the process if they are refused, or ask for help. */
void read_words(int count, char **words, struct options *options);

/* A request: its line, and the first line of its answer once that has come. */
struct request {
    unsigned long number;
    bool is_done;
    double sent;
    char line[MOST_LINE];
    char answer[MOST_LINE];
};

/* How it stands with a client. */
enum condition { WELL, STOPPED, UNREACHABLE, REFUSED, SESSION_LOST };

/* A session with a served bank, over one connection at a time. */
struct client {
    char servers[MOST_SERVERS][MOST_ADDRESS];
    int server_count;
    int socket, signals;
    int lease;
    const char *token;
    char sid[32], key[64];
    unsigned long number, noticed;
    struct request requests[MOST_REQUESTS];
    /* the answers without numbers that are awaited, and the first line of the one that comes */
    int greetings;
    char greeting[MOST_LINE];
    char unread[2 * MOST_LINE];
    size_t unread_size;
    /* when it may connect again, when the servers became silent (0 if they are not), and whether that was told */
    double next_try, silent_since;
    bool is_told;
    /* the lease lasts surely from here on: from before the last request that was answered */
    double confirmed, asked;
    const char *job;
    bool is_granted, has_left;
    /* whether the command runs: then signals are passed on to it, and do not stop the client */
    bool is_running;
    enum condition condition;
    int stopped_by;
    char fault[MOST_LINE + 64];
};

/* Returns seconds by a clock that goes on while the machine is suspended, as leases do. */
double now(void);

/* Writes a line to standard error. */
void say(const char *format, ...) __attribute__((format(printf, 1, 2)));

/* Begins with a client of the servers of an address. */
void client_init(struct client *client, const struct options *options, int signals);

/* Sends a request, and returns it. */
struct request *client_begin(struct client *client, const char *format, ...) __attribute__((format(printf, 2, 3)));

/* Waits for the answer to a request, and returns its first line; for a server that can be reached until some time, 0 for ever.
   Returns nothing if it is not well with the client: it was stopped, no server answers, it is refused, or the session has ended. */
const char *client_answer(struct client *client, struct request *request, double end);

/* Waits until something comes, at most until some time: connects, or takes the lines that have come. */
void client_step(struct client *client, double end);

/* Keeps the lease, without waiting. */
void client_beat(struct client *client);

/* Returns for how many seconds the lease surely lasts. */
double client_left(const struct client *client);

/* Ends the session, if a server can be reached soon. */
void client_close(struct client *client);

/* Waits for the grant of a job, and writes its fence. Returns whether it was granted. */
bool obtain(struct client *client, const struct options *options, char *fence, size_t size);

/* Runs the command, and returns the status. */
int run_command(struct client *client, const struct options *options, const char *fence);

#endif

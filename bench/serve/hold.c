// Holds connections that only wait, and says a line once all do. It ends when it is killed.
//
//     hold PORT silent COUNT   connections on which nothing is said; one that the server ends is dialed again
//     hold PORT polls COUNT    connections of the hub that poll, each with a poll that the server holds
#include "client.h"
#include <sys/epoll.h>
#include <sys/resource.h>

static int port, poller;
static bool are_polls;
static struct wait {
    int fd;
    char token[64];
} *waits;

// Asks, and reads the whole response, of which the body is answered, as a text.
static const char *answer(int fd, const char *method, const char *target, const char *token, const char *body) {
    static char bytes[1 << 16];
    size_t length = 0, start = 0;
    char head[HEAD_ROOM];
    int count = snprintf(head, sizeof head, "%s %s%s HTTP/1.1\r\nHost: a\r\nContent-Length: %zu\r\n\r\n%s", method, target, token, strlen(body), body);
    write_all(fd, head, count);
    do {
        ssize_t read = recv(fd, bytes + length, sizeof bytes - 1 - length, 0);
        if (read <= 0) fail("%s %s has no answer", method, target);
        length += read;
        bytes[length] = 0;
        start = head_end(bytes, length, "200");
    } while (!start || length - start < (size_t)number_of(bytes, start, "Content-Length: "));
    return bytes + start;
}

static void ask_poll(struct wait *wait) {
    char head[HEAD_ROOM];
    write_all(wait->fd, head, snprintf(head, sizeof head, "GET /hub?id=%s HTTP/1.1\r\nHost: a\r\n\r\n", wait->token));
}

static void begin_polls(struct wait *wait) {
    const char *name = "\"connectionToken\":\"";
    const char *found = strstr(answer(wait->fd, "POST", "/hub/negotiate?negotiateVersion=1", "", ""), name);
    if (!found) fail("a negotiate has no token");
    found += strlen(name);
    snprintf(wait->token, sizeof wait->token, "%.*s", (int)strcspn(found, "\""), found);
    answer(wait->fd, "GET", "/hub?id=", wait->token, "");
    answer(wait->fd, "POST", "/hub?id=", wait->token, "{\"protocol\":\"json\",\"version\":1}\x1e");
    if (strcmp(answer(wait->fd, "GET", "/hub?id=", wait->token, ""), "{}\x1e") != 0) fail("the handshake of a poll isn't answered");
    ask_poll(wait);
}

static void begin(struct wait *wait) {
    struct epoll_event event = {.events = EPOLLIN, .data.ptr = wait};
    wait->fd = dial(port, wait - waits);
    if (are_polls) begin_polls(wait);
    epoll_ctl(poller, EPOLL_CTL_ADD, wait->fd, &event);
}

// What comes is a Ping, of which a poll that was held tells, or the end of a silent one.
static void go_on(struct wait *wait) {
    char bytes[HEAD_ROOM];
    ssize_t count = recv(wait->fd, bytes, sizeof bytes, 0);
    if (are_polls && count > 0 && says(bytes, count, "{\"type\":6}")) {
        ask_poll(wait);
    } else if (are_polls) {
        fail("a poll was answered %.*s", count > 0 ? (int)count : 0, bytes);
    } else {
        close(wait->fd);
        begin(wait);
    }
}

int main(int count, char **word) {
    if (count != 4) fail("hold PORT silent|polls COUNT");
    struct rlimit limit;
    getrlimit(RLIMIT_NOFILE, &limit);
    limit.rlim_cur = limit.rlim_max;
    setrlimit(RLIMIT_NOFILE, &limit);
    port = atoi(word[1]);
    are_polls = strcmp(word[2], "polls") == 0;
    int number = atoi(word[3]);
    waits = calloc(number, sizeof *waits);
    poller = epoll_create1(EPOLL_CLOEXEC);
    for (int i = 0; i < number; i++) begin(&waits[i]);
    printf("{\"phase\":\"warm\",\"opened\":%d}\n", number);
    fflush(stdout);
    struct epoll_event event;
    while (epoll_wait(poller, &event, 1, -1) >= 0 || errno == EINTR) go_on(event.data.ptr);
    return 0;
}

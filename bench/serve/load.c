// Loads a hub server with many connections over WebSockets, and tells what it does as one JSON object a line.
//
//     load PORT echo CONNECTIONS SECONDS [IDLE] each keeps one Echo of 100 bytes in flight, beside others that are idle
//     load PORT echoes CONNECTIONS COUNT [IDLE] the same until so many are answered
//     load PORT fed CONNECTIONS BYTES           one after the other has one Echo of so many bytes
//     load PORT broadcast MEMBERS SECONDS [P]   P members (one) post to a room, and again once all its members were told
//     load PORT hold CONNECTIONS SECONDS        all are open and ping each 15 seconds
//     load PORT stream ITEMS [kept|slow]        one Count; with `kept` over a connection that may be resumed, which acknowledges; with `slow`
//                                               it reads a megabyte a second
//
// It is one loop over `epoll`. Of what comes on a link it keeps only a frame that isn't whole yet.
#include "client.h"
#include <fcntl.h>
#include <sys/epoll.h>
#include <sys/resource.h>

enum stage { UPGRADING, SHAKING, OPEN, GONE };

struct link {
    int fd;
    enum stage stage;
    char *held;
    size_t held_length;
    uint64_t asked_at;
    uint64_t pinged_at;
    long id;
};

// What a mode does at an open link: when it has just opened, and at each message that comes.
struct mode {
    void (*opened)(struct link *link);
    void (*heard)(struct link *link, const char *text, size_t length);
};

// Of one read, and before it the front of a frame that the link kept.
enum { READ_ROOM = 1 << 18, HELD_ROOM = 1 << 18, SLOW_ROOM = 1 << 14 };
// So many links are opened side by side, which is less than the least backlog of the servers.
enum { OPENING = 64 };
enum { ECHO_BYTES = 100, ECHO_ROOM = 32000 };
static const uint64_t SECOND = 1000000, KEEP_ALIVE = 15 * SECOND;

static int poller, port, links_asked, links_open, links_gone;
static struct link *links;
static struct mode mode;
static const char *token;
static int version = 1;
static bool is_slow;
static uint64_t began_at;
static char room[HELD_ROOM + READ_ROOM];

// As many open files as the system allows this program.
static void open_many_files(void) {
    struct rlimit limit;
    getrlimit(RLIMIT_NOFILE, &limit);
    limit.rlim_cur = limit.rlim_max;
    setrlimit(RLIMIT_NOFILE, &limit);
}

static void add_link(void) {
    struct link *link = &links[links_asked];
    link->fd = dial(port, links_asked++);
    link->stage = UPGRADING;
    ask_upgrade(link->fd, token);
    fcntl(link->fd, F_SETFL, fcntl(link->fd, F_GETFL) | O_NONBLOCK);
    struct epoll_event event = {.events = EPOLLIN, .data.ptr = link};
    epoll_ctl(poller, EPOLL_CTL_ADD, link->fd, &event);
}

static void lose_link(struct link *link) {
    if (link->stage != OPEN) fail("a link was lost before it was open");
    close(link->fd);
    link->stage = GONE;
    links_open--;
    links_gone++;
}

static void hear_message(struct link *link, const char *text, size_t length) {
    if (link->stage == OPEN) {
        mode.heard(link, text, length);
        return;
    }
    if (length != 2 || memcmp(text, "{}", 2) != 0) fail("the handshake was answered %.*s", (int)length, text);
    link->stage = OPEN;
    link->pinged_at = now_us();
    links_open++;
    mode.opened(link);
}

static void hear_payload(struct link *link, const char *bytes, size_t length) {
    while (length > 0 && link->stage != GONE) {
        const char *end = memchr(bytes, SEPARATOR, length);
        if (!end) fail("a message of the server ends in the middle of a frame");
        hear_message(link, bytes, end - bytes);
        length -= end + 1 - bytes;
        bytes = end + 1;
    }
}

static void hear_frame(struct link *link, const struct frame *frame) {
    if (frame->opcode == PING) say(link->fd, PONG, frame->payload, frame->length);
    else if (frame->opcode == CLOSE) lose_link(link);
    else if (frame->opcode != PONG) hear_payload(link, frame->payload, frame->length);
}

// The number of bytes that were heard, from the front.
static size_t hear_bytes(struct link *link, const char *bytes, size_t length) {
    size_t at = 0;
    if (link->stage == UPGRADING) {
        at = head_end(bytes, length, "101");
        if (at == 0) return 0;
        link->stage = SHAKING;
        say_message(link->fd, "{\"protocol\":\"json\",\"version\":%d}", version);
    }
    struct frame frame;
    for (size_t size; link->stage != GONE && (size = frame_in(bytes + at, length - at, &frame)) > 0; at += size) hear_frame(link, &frame);
    return at;
}

static void hear_link(struct link *link) {
    if (link->held) memcpy(room, link->held, link->held_length);
    ssize_t count = recv(link->fd, room + link->held_length, is_slow ? SLOW_ROOM : READ_ROOM, 0);
    if (count < 0 && errno == EAGAIN) return;
    // A byte a microsecond is a megabyte a second.
    if (is_slow && count > 0) usleep(count);
    if (count <= 0) {
        lose_link(link);
        return;
    }
    size_t length = link->held_length + count, taken = hear_bytes(link, room, length);
    free(link->held);
    link->held = NULL;
    link->held_length = length - taken;
    if (link->held_length == 0) return;
    if (link->held_length > HELD_ROOM) fail("a frame of the server is too long");
    link->held = malloc(link->held_length);
    memcpy(link->held, room + taken, link->held_length);
}

// A server closes a link on which it hears nothing for 30 seconds.
static void keep_alive(void) {
    static uint64_t looked_at;
    uint64_t now = now_us();
    if (now - looked_at < SECOND / 10) return;
    looked_at = now;
    for (int i = 0; i < links_asked; i++) {
        if (links[i].stage != OPEN || now - links[i].pinged_at < KEEP_ALIVE) continue;
        say_message(links[i].fd, "{\"type\":6}");
        links[i].pinged_at = now;
    }
}

static void hear_all(void) {
    struct epoll_event events[256];
    int count = epoll_wait(poller, events, 256, 100);
    for (int i = 0; i < count; i++) hear_link(events[i].data.ptr);
    keep_alive();
}

static void open_links(int count) {
    links = calloc(count, sizeof *links);
    poller = epoll_create1(EPOLL_CLOEXEC);
    while (links_open + links_gone < count) {
        while (links_asked < count && links_asked - links_open - links_gone < OPENING) add_link();
        hear_all();
    }
}

// From here on the server is measured: who started this program looks at the server's memory and processor time now.
static void tell_warm(void) {
    printf("{\"phase\":\"warm\",\"opened\":%d,\"opens_per_second\":%.0f}\n", links_open, (double)links_open * SECOND / (now_us() - began_at));
    fflush(stdout);
}

static void ignore_opening(struct link *link) {
    (void)link;
}


// --- echo

// Latencies are counted by microseconds, up to a second.
enum { LATENCIES = 1000000 };
static uint32_t latencies[LATENCIES];
static uint64_t echoes, counts_from;
static char words[ECHO_ROOM + 1];
static long asks_left = -1;

static void ask_echo(struct link *link) {
    if (asks_left == 0) return;
    if (asks_left > 0) asks_left--;
    link->asked_at = now_us();
    say_message(link->fd, "{\"type\":1,\"invocationId\":\"%ld\",\"target\":\"Echo\",\"arguments\":[\"%s\"]}", ++link->id, words);
}

static void hear_echo(struct link *link, const char *text, size_t length) {
    long type = type_of(text, length);
    if (type == 6) return;
    if (type != 3 || number_of(text, length, "\"invocationId\":\"") != link->id || !says(text, length, words))
        fail("an Echo was answered %.*s", (int)length, text);
    uint64_t now = now_us();
    if (link->asked_at >= counts_from) {
        uint64_t latency = now - link->asked_at;
        latencies[latency < LATENCIES ? latency : LATENCIES - 1]++;
        echoes++;
    }
    ask_echo(link);
}

// The least number of microseconds within which this share of the echoes was answered.
static int latency_of(double share) {
    uint64_t sum = 0;
    for (int at = 0; at < LATENCIES; at++) {
        sum += latencies[at];
        if (sum > 0 && sum >= share * echoes) return at;
    }
    return LATENCIES;
}

static void hear_until(uint64_t end) {
    while (now_us() < end && links_gone == 0) hear_all();
    if (links_gone > 0) fail("a link was lost");
}

static void run_echo(int count, int seconds, int idle) {
    memset(words, 'e', ECHO_BYTES);
    mode = (struct mode){ignore_opening, hear_echo};
    open_links(count + idle);
    for (int i = 0; i < count; i++) ask_echo(&links[i]);
    // The first second is for the server to get warm.
    counts_from = now_us() + SECOND;
    hear_until(counts_from);
    tell_warm();
    hear_until(counts_from + seconds * SECOND);
    printf("{\"phase\":\"done\",\"count\":%lu,\"rate\":%.0f,", echoes, echoes / (double)seconds);
    printf("\"median_us\":%d,\"p99_us\":%d}\n", latency_of(0.5), latency_of(0.99));
}

static void run_echoes(int count, long calls, int idle) {
    memset(words, 'e', ECHO_BYTES);
    mode = (struct mode){ignore_opening, hear_echo};
    open_links(count + idle);
    tell_warm();
    asks_left = calls;
    for (int i = 0; i < count; i++) ask_echo(&links[i]);
    while (echoes < (uint64_t)calls && links_gone == 0) hear_all();
    if (links_gone > 0) fail("a link was lost");
    printf("{\"phase\":\"done\",\"count\":%lu}\n", echoes);
}

static void run_fed(int count, int bytes) {
    if (bytes > ECHO_ROOM) fail("an echo has at most %d bytes", ECHO_ROOM);
    memset(words, 'e', bytes);
    mode = (struct mode){ignore_opening, hear_echo};
    open_links(count);
    for (int i = 0; i < count; i++) {
        asks_left = 1;
        ask_echo(&links[i]);
        while (echoes <= (uint64_t)i && links_gone == 0) hear_all();
    }
    hear_until(now_us() + SECOND);
    tell_warm();
    printf("{\"phase\":\"done\",\"count\":%lu}\n", echoes);
}

// --- broadcast

static int joined, told;
static long rounds;

static void ask_join(struct link *link) {
    say_message(link->fd, "{\"type\":1,\"invocationId\":\"j\",\"target\":\"Join\",\"arguments\":[\"room\"]}");
}

static void hear_posted(struct link *link, const char *text, size_t length) {
    (void)link;
    if (says(text, length, "\"invocationId\":\"j\"")) {
        joined++;
    } else if (says(text, length, "\"Posted\"")) {
        if (number_of(text, length, ",\"text ") != rounds) fail("round %ld was told %.*s", rounds, (int)length, text);
        told++;
    }
}

static void run_broadcast(int count, int seconds, int posters) {
    uint64_t began, now, most = 0;
    mode = (struct mode){ask_join, hear_posted};
    open_links(count);
    while (joined < count) hear_all();
    tell_warm();
    for (began = now = now_us(); now < began + seconds * SECOND; rounds++) {
        told = 0;
        for (int i = 0; i < posters; i++) say_message(links[i].fd, "{\"type\":1,\"target\":\"Post\",\"arguments\":[\"room\",\"text %ld\"]}", rounds);
        while (told < count * posters && links_gone == 0) hear_all();
        if (links_gone > 0) fail("a member was lost");
        uint64_t then = now;
        now = now_us();
        most = now - then > most ? now - then : most;
    }
    long deliveries = rounds * count * posters;
    printf("{\"phase\":\"done\",\"count\":%ld,\"rate\":%.0f,", deliveries, (double)deliveries * SECOND / (now - began));
    printf("\"round_us\":%.0f,\"most_us\":%lu}\n", (double)(now - began) / rounds, most);
}

// --- hold

static long pings;

static void hear_ping(struct link *link, const char *text, size_t length) {
    (void)link;
    if (type_of(text, length) != 6) fail("an idle link was told %.*s", (int)length, text);
    pings++;
}

static void run_hold(int count, int seconds) {
    mode = (struct mode){ignore_opening, hear_ping};
    open_links(count);
    uint64_t end = now_us() + seconds * SECOND;
    tell_warm();
    while (now_us() < end) hear_all();
    printf("{\"phase\":\"done\",\"count\":%d,\"stayed\":%d,\"pings\":%ld}\n", count, links_open, pings);
}

// --- stream

// A kept connection acknowledges after so many items, well before the 1,024 that a server may hold.
enum { ACKNOWLEDGE_AFTER = 256 };
static long items, items_asked;
static bool has_ended;

static void hear_item(struct link *link, const char *text, size_t length) {
    long type = type_of(text, length);
    if (type == 2 && number_of(text, length, "\"item\":") == items + 1) items++;
    else if (type == 3 && !says(text, length, "\"error\"") && items == items_asked) has_ended = true;
    else if (type != 6 && type != 8) fail("after %ld items a stream had %.*s", items, (int)length, text);
    if (token && type == 2 && items % ACKNOWLEDGE_AFTER == 0) say_message(link->fd, "{\"type\":8,\"sequenceId\":%ld}", items);
}

static void run_stream(long count, bool is_kept) {
    static char negotiated[256];
    if (is_kept) {
        negotiate(port, negotiated, sizeof negotiated);
        token = negotiated;
        version = 2;
    }
    items_asked = count;
    mode = (struct mode){ignore_opening, hear_item};
    open_links(1);
    tell_warm();
    // So that who measures has looked before it begins.
    usleep(SECOND / 10);
    uint64_t began = now_us();
    say_message(links[0].fd, "{\"type\":4,\"invocationId\":\"s\",\"target\":\"Count\",\"arguments\":[%ld]}", count);
    while (!has_ended && links_gone == 0) hear_all();
    if (links_gone > 0) fail("the link was lost after %ld items", items);
    printf("{\"phase\":\"done\",\"count\":%ld,\"rate\":%.0f}\n", count, (double)count * SECOND / (now_us() - began));
}

int main(int count, char **word) {
    if (count < 4) fail("load PORT echo|echoes|fed|broadcast|hold|stream COUNT [SECONDS|BYTES|kept|slow]");
    open_many_files();
    began_at = now_us();
    port = atoi(word[1]);
    is_slow = count > 4 && strcmp(word[4], "slow") == 0;
    const char *name = word[2], *last = count > 4 ? word[4] : "";
    long number = atol(word[3]);
    if (strcmp(name, "echo") == 0) run_echo(number, atoi(last), count > 5 ? atoi(word[5]) : 0);
    else if (strcmp(name, "echoes") == 0) run_echoes(number, atol(last), count > 5 ? atoi(word[5]) : 0);
    else if (strcmp(name, "fed") == 0) run_fed(number, atoi(last));
    else if (strcmp(name, "broadcast") == 0) run_broadcast(number, atoi(last), count > 5 ? atoi(word[5]) : 1);
    else if (strcmp(name, "hold") == 0) run_hold(number, atoi(last));
    else if (strcmp(name, "stream") == 0) run_stream(number, strcmp(last, "kept") == 0);
    else fail("no mode is called %s", name);
    return 0;
}

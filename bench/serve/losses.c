// A client with stateful reconnect that loses its link every few frames, and checks that each of its calls is answered once and in order.
//
//     losses PORT CALLS SEED
//
// It keeps a few Echos in flight over one connection. After a drawn number of new answers, which may be none, it drops its link in one
// of several ways, takes a new one with the same token, and says Sequence and what it keeps. It tells, as one JSON object a line, when a
// tenth of the calls was answered, and the end.
#include "client.h"

// Calls in flight; so the frames that are kept are fewer than the limit of either side.
enum { WINDOW = 16, KEPT = 1024 };
// A link is dropped after fewer new answers than this. What is said again doesn't count: else the server would hold ever more of it.
enum { ANSWERS_OF_A_LINK = 12 };
enum { ROOM = 1 << 18, CALL_ROOM = 256 };

// How a link goes: its bytes are cut off, its writing ends, the last frame is half written, or the next link comes while this one is up.
enum way { RESET, ENDED, HALF, TAKEN_OVER, WAYS };

static int port, fd = -1;
static char token[256], in[ROOM];
static size_t in_length;
static uint64_t draw_state;
// Numbers of messages: those sent, those that the server told it has, those of the server that were processed, and the number of the next.
static long calls, sent, acked, processed, acknowledged, next_number;
static bool has_number;
static long links, doubles, answers_left;

static unsigned draw(unsigned bound) {
    draw_state = draw_state * 6364136223846793005u + 1442695040888963407u;
    return (draw_state >> 33) % bound;
}

// The call of a number, which is what the client keeps: it can be said again from its number alone.
static int call_of(long number, char *out) {
    const char *form = "{\"type\":1,\"invocationId\":\"%ld\",\"target\":\"Echo\",\"arguments\":[\"word %ld\"]}%c";
    return snprintf(out, CALL_ROOM, form, number, number, SEPARATOR);
}

static void say_call(long number) {
    char text[CALL_ROOM];
    say(fd, TEXT, text, call_of(number, text));
}

static void say_half_a_call(long number) {
    char text[CALL_ROOM];
    unsigned char frame[FRAME_ROOM];
    size_t length = frame_of(TEXT, text, call_of(number, text), frame);
    write_all(fd, frame, length / 2);
}

// More bytes of this link, for which it waits. False if the server has ended it.
static bool read_more(void) {
    if (in_length == ROOM) fail("a frame of the server is too long");
    ssize_t count = recv(fd, in + in_length, ROOM - in_length, 0);
    if (count <= 0) return false;
    in_length += count;
    return true;
}

static void drop_in(size_t count) {
    in_length -= count;
    memmove(in, in + count, in_length);
}

static void upgrade(void) {
    size_t end;
    fd = dial(port, 0);
    in_length = 0;
    ask_upgrade(fd, token);
    while ((end = head_end(in, in_length, "101")) == 0)
        if (!read_more()) fail("the server ended link %ld before it was upgraded", links);
    drop_in(end);
    links++;
    answers_left = draw(ANSWERS_OF_A_LINK);
}

static void open_first(void) {
    struct frame frame;
    size_t size;
    negotiate(port, token, sizeof token);
    upgrade();
    say_message(fd, "{\"protocol\":\"json\",\"version\":2}");
    while ((size = frame_in(in, in_length, &frame)) == 0)
        if (!read_more()) fail("the server ended the handshake");
    if (frame.length != 3 || memcmp(frame.payload, "{}", 2) != 0) fail("the handshake was answered %.*s", (int)frame.length, frame.payload);
    drop_in(size);
    // A handshake counts as a Sequence of 1.
    next_number = 1;
    has_number = true;
}

// What was processed is acknowledged before anything else is said: what stands last on a link that is soon lost is often not read.
static void acknowledge(void) {
    if (acknowledged == processed) return;
    acknowledged = processed;
    say_message(fd, "{\"type\":8,\"sequenceId\":%ld}", processed);
}

static void open_again(void) {
    upgrade();
    has_number = false;
    acknowledged = -1;
    say_message(fd, "{\"type\":9,\"sequenceId\":%ld}", acked + 1);
    acknowledge();
    for (long number = acked + 1; number <= sent; number++) say_call(number);
}

static void shut(int it) {
    shutdown(it, SHUT_WR);
    close(it);
}

// Drops this link and takes the next one.
static void lose(void) {
    struct linger at_once = {.l_onoff = 1};
    int old = fd;
    enum way way = draw(WAYS);
    if (way == HALF && sent < calls && sent - acked < KEPT) say_half_a_call(++sent);
    if (way == RESET) setsockopt(old, SOL_SOCKET, SO_LINGER, &at_once, sizeof at_once);
    if (way != TAKEN_OVER) shut(old);
    open_again();
    if (way == TAKEN_OVER) shut(old);
}

// A completion of the next number, which is the answer of the call with the same number.
static void take_answer(const char *text, size_t length) {
    if (!has_number) return;
    long number = next_number++;
    if (number <= processed) {
        doubles++;
        return;
    }
    char result[64];
    snprintf(result, sizeof result, "\"result\":\"word %ld\"", number);
    if (number != processed + 1 || number > sent || number_of(text, length, "\"invocationId\":\"") != number || !says(text, length, result))
        fail("message %ld of link %ld, where %ld were processed, is %.*s", number, links, processed, (int)length, text);
    processed = number;
    answers_left--;
    if (processed == calls / 10) {
        puts("{\"phase\":\"tenth\"}");
        fflush(stdout);
    }
}

static void hear_message(const char *text, size_t length) {
    long number = number_of(text, length, "\"sequenceId\":");
    switch (type_of(text, length)) {
    case 3:
        take_answer(text, length);
        break;
    case 6:
        break;
    case 8:
        if (number > sent) fail("%ld messages were sent, and %ld are acknowledged", sent, number);
        acked = number > acked ? number : acked;
        break;
    case 9:
        if (number > processed + 1) fail("%ld messages were processed, and the next is said to be %ld", processed, number);
        next_number = number;
        has_number = true;
        break;
    default:
        fail("link %ld had %.*s", links, (int)length, text);
    }
}

static void hear_payload(const char *bytes, size_t length) {
    while (length > 0) {
        const char *end = memchr(bytes, SEPARATOR, length);
        if (!end) fail("a message of the server ends in the middle of a frame");
        hear_message(bytes, end - bytes);
        length -= end + 1 - bytes;
        bytes = end + 1;
    }
}

static void hear_link(void) {
    struct frame frame;
    size_t at = 0;
    for (size_t size; (size = frame_in(in + at, in_length - at, &frame)) > 0; at += size) {
        if (frame.opcode == PING) say(fd, PONG, frame.payload, frame.length);
        else if (frame.opcode == CLOSE) fail("the server closed link %ld", links);
        else if (frame.opcode != PONG) hear_payload(frame.payload, frame.length);
    }
    drop_in(at);
}

static void call_more(void) {
    acknowledge();
    for (; sent < calls && sent - processed < WINDOW && sent - acked < KEPT; sent++) say_call(sent + 1);
}

int main(int count, char **word) {
    if (count != 4) fail("losses PORT CALLS SEED");
    port = atoi(word[1]);
    calls = atol(word[2]);
    draw_state = atol(word[3]);
    open_first();
    uint64_t began = now_us();
    while (processed < calls) {
        call_more();
        if (!read_more()) fail("the server ended link %ld", links);
        hear_link();
        if (answers_left <= 0 && processed < calls) lose();
    }
    printf("{\"phase\":\"done\",\"calls\":%ld,\"links\":%ld,\"doubles\":%ld,\"seconds\":%.1f}\n", processed, links, doubles, (now_us() - began) / 1e6);
    return 0;
}

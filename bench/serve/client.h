// What the programs in C beside it share: the client's side of HTTP, WebSocket and the hub protocol in JSON, over sockets of 127.0.0.1.
// A fault of the other side ends the program with a word: these are measurements, and one that went wrong tells nothing.
#ifndef CLIENT_H
#define CLIENT_H

#define _GNU_SOURCE
#include <arpa/inet.h>
#include <errno.h>
#include <netinet/in.h>
#include <netinet/tcp.h>
#include <stdarg.h>
#include <stdbool.h>
#include <stdint.h>
#include <stdio.h>
#include <stdlib.h>
#include <string.h>
#include <sys/socket.h>
#include <time.h>
#include <unistd.h>

enum { SEPARATOR = 0x1e, TEXT = 1, CLOSE = 8, PING = 9, PONG = 10 };
// A frame that this client writes, and a head of HTTP, are shorter.
enum { FRAME_ROOM = 40000, HEAD_ROOM = 4096 };
// Of each loopback address at most so many ports are used, which is less than the system has for one.
enum { LINKS_OF_AN_ADDRESS = 5000 };

static _Noreturn void fail(const char *format, ...) {
    va_list words;
    va_start(words, format);
    vfprintf(stderr, format, words);
    va_end(words);
    fputc('\n', stderr);
    exit(1);
}

// Microseconds of a clock that never falls.
static uint64_t now_us(void) {
    struct timespec now;
    clock_gettime(CLOCK_MONOTONIC, &now);
    return (uint64_t)now.tv_sec * 1000000 + now.tv_nsec / 1000;
}

// So many bytes that nobody has read the system holds of a socket that is dialed, if it isn't to choose.
static int unread_room;

// A connected socket, which waits. The link's number chooses the address from which it comes.
static int dial(int port, int number) {
    int fd = socket(AF_INET, SOCK_STREAM | SOCK_CLOEXEC, 0), one = 1;
    struct sockaddr_in from = {.sin_family = AF_INET}, to = {.sin_family = AF_INET, .sin_port = htons(port)};
    from.sin_addr.s_addr = htonl(INADDR_LOOPBACK + 1 + number / LINKS_OF_AN_ADDRESS);
    to.sin_addr.s_addr = htonl(INADDR_LOOPBACK);
    if (fd < 0) fail("no socket: %s", strerror(errno));
    setsockopt(fd, IPPROTO_TCP, TCP_NODELAY, &one, sizeof one);
    if (unread_room) setsockopt(fd, SOL_SOCKET, SO_RCVBUF, &unread_room, sizeof unread_room);
    setsockopt(fd, IPPROTO_IP, IP_BIND_ADDRESS_NO_PORT, &one, sizeof one);
    if (bind(fd, (struct sockaddr *)&from, sizeof from) < 0) fail("no address: %s", strerror(errno));
    if (connect(fd, (struct sockaddr *)&to, sizeof to) < 0) fail("no connection: %s", strerror(errno));
    return fd;
}

// All of it, at once. What is written here is short, so a socket without room for it has a server that doesn't read.
static void write_all(int fd, const void *bytes, size_t length) {
    ssize_t count = send(fd, bytes, length, MSG_NOSIGNAL);
    if (count != (ssize_t)length) fail("a socket took %zd bytes of %zu: %s", count, length, strerror(errno));
}

// The masked frame of a payload, of which the length is answered.
static size_t frame_of(int opcode, const char *payload, size_t length, unsigned char *out) {
    static uint32_t draw = 1;
    size_t at = 2;
    if (length + 8 > FRAME_ROOM) fail("a frame is longer than this client writes");
    out[0] = 0x80 | opcode;
    out[1] = 0x80 | (length < 126 ? length : 126);
    if (length >= 126) {
        out[at++] = length >> 8;
        out[at++] = length & 255;
    }
    draw = draw * 1664525 + 1013904223;
    unsigned char *key = out + at;
    memcpy(key, &draw, 4);
    at += 4;
    for (size_t i = 0; i < length; i++) out[at + i] = payload[i] ^ key[i & 3];
    return at + length;
}

static void say(int fd, int opcode, const char *payload, size_t length) {
    unsigned char frame[FRAME_ROOM];
    write_all(fd, frame, frame_of(opcode, payload, length, frame));
}

// A message of the hub protocol, to which the separator is added.
static void say_message(int fd, const char *format, ...) {
    char text[FRAME_ROOM];
    va_list words;
    va_start(words, format);
    int length = vsnprintf(text, sizeof text - 16, format, words);
    va_end(words);
    text[length] = SEPARATOR;
    say(fd, TEXT, text, length + 1);
}

// The head that asks for a WebSocket, of which the length is answered.
static int upgrade_of(const char *token, char *out) {
    return snprintf(out, HEAD_ROOM,
        "GET /hub%s%s HTTP/1.1\r\nHost: 127.0.0.1\r\nUpgrade: websocket\r\nConnection: Upgrade\r\n"
        "Sec-WebSocket-Key: dGhlIHNhbXBsZSBub25jZQ==\r\nSec-WebSocket-Version: 13\r\n\r\n",
        token ? "?id=" : "", token ? token : "");
}

static void ask_upgrade(int fd, const char *token) {
    char head[HEAD_ROOM];
    write_all(fd, head, upgrade_of(token, head));
}

// The place after the head of a response whose status is the one given, or 0 if it isn't there yet.
static size_t head_end(const char *bytes, size_t length, const char *status) {
    const char *end = memmem(bytes, length, "\r\n\r\n", 4);
    if (!end) return 0;
    if (length < 12 || memcmp(bytes + 9, status, 3) != 0) fail("the server answered %.*s", (int)(end - bytes), bytes);
    return end + 4 - bytes;
}

// A frame of the server, of which `payload` is lent.
struct frame {
    int opcode;
    const char *payload;
    size_t length;
};

// The length of the whole frame that stands at the front, or 0 if it isn't there yet.
static size_t frame_in(const char *bytes, size_t length, struct frame *frame) {
    const unsigned char *head = (const unsigned char *)bytes;
    size_t at = 2;
    if (length < 2) return 0;
    frame->opcode = head[0] & 15;
    frame->length = head[1];
    if (!(head[0] & 0x80) || head[1] & 0x80) fail("a server's frame is masked or a fragment");
    if (frame->length >= 126) {
        at = frame->length == 126 ? 4 : 10;
        if (length < at) return 0;
        frame->length = 0;
        for (size_t i = 2; i < at; i++) frame->length = frame->length << 8 | head[i];
    }
    frame->payload = bytes + at;
    return length - at < frame->length ? 0 : at + frame->length;
}

// Whether the text says so. Its own words hold no quotes, so what looks like a property is one.
static bool says(const char *text, size_t length, const char *words) {
    return memmem(text, length, words, strlen(words)) != NULL;
}

// The number after a property's name, or -1.
static long number_of(const char *text, size_t length, const char *name) {
    const char *found = memmem(text, length, name, strlen(name));
    return found ? strtol(found + strlen(name), NULL, 10) : -1;
}

static long type_of(const char *text, size_t length) {
    return number_of(text, length, "\"type\":");
}

// The token of a connection that may be resumed, over a socket of its own.
static void negotiate(int port, char *token, size_t room) {
    char bytes[HEAD_ROOM], head[HEAD_ROOM];
    size_t length = 0, body = 0;
    int fd = dial(port, 0);
    int asked = snprintf(head, sizeof head,
        "POST /hub/negotiate?negotiateVersion=1&useStatefulReconnect=true HTTP/1.1\r\nHost: 127.0.0.1\r\nContent-Length: 0\r\n\r\n");
    write_all(fd, head, asked);
    // The body is one object, whose end is its last byte.
    while (!body || bytes[length - 1] != '}') {
        ssize_t count = recv(fd, bytes + length, sizeof bytes - length, 0);
        if (count <= 0) fail("the negotiate has no answer");
        length += count;
        body = head_end(bytes, length, "200");
    }
    const char *name = "\"connectionToken\":\"", *found = memmem(bytes + body, length - body, name, strlen(name));
    if (!found || !says(bytes + body, length - body, "\"useStatefulReconnect\":true")) fail("the negotiate grants no reconnect");
    found += strlen(name);
    snprintf(token, room, "%.*s", (int)strcspn(found, "\""), found);
    close(fd);
}

#endif

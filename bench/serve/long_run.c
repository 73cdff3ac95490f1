// Does what many users of rooms do in hours, compressed in time, and checks all that they are told. It tells what it did as one JSON object a
// line, and waits for a line of its input after each.
//
//     long_run PORT USERS HOURS SEED
//
// Each fifty users have a room. Time goes in rounds of 15 seconds: in each one everybody pings, and in each twentieth of its own a user posts. The
// next round begins as soon as everybody was answered and told each post of its room, but for those that are slow or whose link is cut. A post
// tells who says it, and its number there; the order of a room's posts is what its first listener was told, and has to be everybody's.
//
// Of fifty users twenty resume: their links are cut at any byte, and they come back with their token. One is slow: it reads a few bytes a round and
// doesn't post, as its calls would wait until it reads. Each leaves now and then, and a new one takes its place. Pests are hostile connections
// beside all that. The server is to end each of them, if it doesn't leave by itself. First the server is given more texts than it keeps.
#include "client.h"
#include <fcntl.h>
#include <sys/epoll.h>
#include <sys/resource.h>

enum { ROUNDS_OF_AN_HOUR = 240, ROUNDS_OF_A_POST = 20, MEMBERS = 50 };
// So many links are opened side by side, which is less than the backlog of the server.
enum { OPENING = 64 };
enum { READ_ROOM = 1 << 18, HELD_ROOM = 1 << 18, TEXT_ROOM = 512, FILLER = 180 };
// For so many rounds a cut link is gone at most: what is posted meanwhile is within the 100,000 bytes that a server keeps.
enum { ROUNDS_AWAY = 60 };
// One of so many that resume is cut in a round; of so many users one leaves, one of so many pests comes.
enum { CUT = 100, LEAVES = 8000, PEST = 500 };
// A slow user reads fewer bytes in a round, of which some 400 come, and its system holds some thousands for it.
enum { TRICKLE = 512, SLOW_ROOM = 4096 };
// A server keeps so many texts. To be filled it is given so many in a message, and is waited for after so many messages.
enum { TEXTS_KEPT = 65536, FILLED_AT_ONCE = 100, FILLED_UNHEARD = 50 };
// A frame of the hub has so many bytes at most, without its separator.
enum { LONGEST = 32768 };
static const uint64_t SECOND = 1000000;
// A token lives for 30 seconds without a link, and a pest has as long to say something: so the server is rid of both within a REST, or twice their time
// where others need the processors.
static const uint64_t REST = 45 * SECOND, PEST_TIME = 60 * SECOND, AWAY_TIME = 5 * SECOND, PING_TIME = 5 * SECOND, STALL = 60 * SECOND;

enum stage { AWAY, UPGRADING, SHAKING, JOINING, OPEN };

struct user {
    int fd, old_fd, room, trickle;
    enum stage stage;
    bool can_resume, is_slow;
    // Whether its connection lives, on a link or not.
    bool is_begun;
    char token[64];
    // The front of a frame that isn't whole yet.
    char *held;
    size_t held_length;
    // Numbers of messages: those sent, those that the server told it has, those of the server that were processed, those that it was told are, and
    // the number of the next, which isn't known before a Sequence.
    long sent, acked, processed, acknowledged, next;
    // Its posts, those of its earlier connections, those that were seen in its room, and how many of its room it was told.
    long posts, earlier_posts, seen_posts, told;
    bool is_asking;
    uint64_t asked_at, cut_at, pinged_at;
    long back_round;
    // It is cut when it has read so many bytes more.
    size_t cut_after;
};

// The posts of a room in their order.
struct post {
    int user;
    long number;
};

struct room {
    struct post *posts;
    long seen, posted;
    // Of its members those that are open, and not slow.
    int listeners;
};

struct pest {
    int fd, kind;
    bool leaves;
    uint64_t ends_at;
};

static int poller, port, users_count, pests_most;
static struct user *users;
static struct room *rooms;
static struct pest *pests;
static long rounds, round_now, dials;
static uint64_t draw_state;
// What a round waits for: messages to listeners, answers, and links that are being opened.
static long behind, asking, opening;
static long deliveries, pings, answers, cuts, doubles, leavings, slow_ends, pests_ended, pests_left, pests_live;
static uint64_t slowest_answer;
static char bytes_in[HELD_ROOM + READ_ROOM], filler[FILLER + 1];

static unsigned draw(unsigned bound) {
    draw_state = draw_state * 6364136223846793005u + 1442695040888963407u;
    return (draw_state >> 33) % bound;
}

static int number_of_user(const struct user *user) {
    return user - users;
}

// The letters after the numbers of a post, from the numbers alone.
static int letters_of(int user, long number) {
    return (user * 31 + number * 97) % FILLER;
}

// What a user's connection says as its message of this number: a Join, and then posts.
static int message_of(const struct user *user, long number, char *out) {
    const char *join = "{\"type\":1,\"invocationId\":\"0\",\"target\":\"Join\",\"arguments\":[\"room %d\"]}%c";
    const char *post = "{\"type\":1,\"invocationId\":\"%ld\",\"target\":\"Post\",\"arguments\":[\"room %d\",\"%d %ld %.*s\"]}%c";
    if (number == 1) return snprintf(out, TEXT_ROOM, join, user->room, SEPARATOR);
    int who = number_of_user(user);
    long nth = user->earlier_posts + number - 1;
    return snprintf(out, TEXT_ROOM, post, nth, user->room, who, nth, letters_of(who, nth), filler, SEPARATOR);
}

static void say_number(const struct user *user, long number) {
    char text[TEXT_ROOM];
    say(user->fd, TEXT, text, message_of(user, number, text));
}

// --- links

static void drop(int fd, bool at_once) {
    struct linger reset = {.l_onoff = 1};
    if (at_once) setsockopt(fd, SOL_SOCKET, SO_LINGER, &reset, sizeof reset);
    close(fd);
}

static void watch(int fd, uint64_t what) {
    struct epoll_event event = {.events = EPOLLIN, .data.u64 = what};
    fcntl(fd, F_SETFL, fcntl(fd, F_GETFL) | O_NONBLOCK);
    epoll_ctl(poller, EPOLL_CTL_ADD, fd, &event);
}

static int dialed(void) {
    return dial(port, dials++ % 100000);
}

static void link_up(struct user *user) {
    unread_room = user->is_slow ? SLOW_ROOM : 0;
    user->fd = dialed();
    unread_room = 0;
    user->stage = UPGRADING;
    opening++;
    ask_upgrade(user->fd, user->can_resume ? user->token : NULL);
    watch(user->fd, number_of_user(user));
}

// From here on a round waits until the user was told all.
static void listen_on(struct user *user) {
    user->stage = OPEN;
    opening--;
    if (user->is_slow) {
        epoll_ctl(poller, EPOLL_CTL_DEL, user->fd, NULL);
        return;
    }
    rooms[user->room].listeners++;
    behind += rooms[user->room].posted - user->told;
}

static void link_down(struct user *user) {
    if (user->stage == OPEN && !user->is_slow) {
        rooms[user->room].listeners--;
        behind -= rooms[user->room].posted - user->told;
    }
    free(user->held);
    user->held = NULL;
    user->held_length = user->cut_after = 0;
    user->stage = AWAY;
}

// A new connection of a user, in whose room nothing is under way.
static void begin(struct user *user) {
    if (user->can_resume) negotiate(port, user->token, sizeof user->token);
    user->is_begun = true;
    user->sent = user->next = 1;
    user->acked = user->processed = user->acknowledged = 0;
    user->earlier_posts = user->posts;
    user->told = rooms[user->room].posted;
    user->cut_at = 0;
    user->trickle = draw(TRICKLE);
    link_up(user);
}

static void acknowledge(struct user *user) {
    if (user->acknowledged != user->processed) say_message(user->fd, "{\"type\":8,\"sequenceId\":%ld}", user->processed);
    user->acknowledged = user->processed;
}

static void go_on(struct user *user) {
    if (user->old_fd >= 0) drop(user->old_fd, draw(2));
    user->old_fd = -1;
    user->acknowledged = -1;
    say_message(user->fd, "{\"type\":9,\"sequenceId\":%ld}", user->acked + 1);
    acknowledge(user);
    for (long number = user->acked + 1; number <= user->sent; number++) say_number(user, number);
    listen_on(user);
}

// Cuts a link: by a reset, in order, or by the next one. Who waits for an answer is back at once, as all wait for its post.
static void cut(struct user *user) {
    bool is_taken_over = draw(3) == 0;
    link_down(user);
    cuts++;
    user->next = 0;
    user->back_round = is_taken_over || user->is_asking ? 0 : round_now + draw(ROUNDS_AWAY);
    user->cut_at = now_us();
    if (is_taken_over) {
        epoll_ctl(poller, EPOLL_CTL_DEL, user->fd, NULL);
        user->old_fd = user->fd;
    } else {
        drop(user->fd, draw(2));
    }
    if (user->back_round <= round_now) link_up(user);
}

// A user who was slow is gone, or one leaves: in order, or as a cut cable does.
static void end(struct user *user) {
    link_down(user);
    drop(user->fd, draw(2));
    user->is_begun = false;
}

static void leave(struct user *user) {
    if (draw(2)) say_message(user->fd, "{\"type\":7}");
    end(user);
    leavings++;
}

// --- what is heard

// Whether a message of the server is new. Each has a number, over all links.
static bool is_new(struct user *user) {
    if (!user->can_resume) return true;
    if (user->next == 0) return false;
    long number = user->next++;
    if (number <= user->processed) {
        doubles++;
        return false;
    }
    if (number != ++user->processed) fail("user %d was told message %ld, where %ld is next", number_of_user(user), number, user->processed);
    return true;
}

// What a user was told of its room is, in order, what others were told.
static void hear_post(struct user *user, int who, long number) {
    struct room *room = &rooms[user->room];
    int listener = number_of_user(user);
    if (user->told == room->seen) {
        if (who / MEMBERS != user->room || number != ++users[who].seen_posts) fail("user %d was told post %ld of %d too early or again", listener, number, who);
        room->posts[room->seen].user = who;
        room->posts[room->seen++].number = number;
    }
    struct post *wanted = &room->posts[user->told++];
    if (wanted->user != who || wanted->number != number)
        fail("user %d was told post %ld of %d, and others post %ld of %d", listener, number, who, wanted->number, wanted->user);
    deliveries++;
    if (!user->is_slow) behind--;
}

// Its arguments are the room, who posted, of which the server knows more than this client, and the text.
static void hear_posted(struct user *user, const char *text, size_t length) {
    char room[TEXT_ROOM], whole[TEXT_ROOM], *end;
    snprintf(room, sizeof room, "\"arguments\":[\"room %d\",\"", user->room);
    const char *said = memmem(text, length, room, strlen(room));
    if (said) said = memmem(said + strlen(room), text + length - said - strlen(room), "\",\"", 3);
    if (!said || !says(text, length, "\"target\":\"Posted\"")) fail("user %d was told %.*s", number_of_user(user), (int)length, text);
    long who = strtol(said + 3, &end, 10), number = strtol(end, &end, 10);
    int count = snprintf(whole, sizeof whole, "\",\"%ld %ld %.*s\"]", who, number, letters_of(who, number), filler);
    if (who < 0 || who >= users_count || text + length - said < count || memcmp(said, whole, count) != 0)
        fail("user %d was told %.*s", number_of_user(user), (int)length, text);
    hear_post(user, who, number);
}

static void hear_answer(struct user *user, const char *text, size_t length) {
    long id = number_of(text, length, "\"invocationId\":\"");
    if (says(text, length, "\"error\"")) fail("user %d was answered %.*s", number_of_user(user), (int)length, text);
    if (user->stage == JOINING && id == 0) {
        listen_on(user);
    } else if (user->is_asking && id == user->posts) {
        uint64_t took = now_us() - user->asked_at;
        slowest_answer = took > slowest_answer ? took : slowest_answer;
        user->is_asking = false;
        asking--;
        answers++;
    } else {
        fail("user %d, who made %ld posts, was answered %.*s", number_of_user(user), user->posts, (int)length, text);
    }
}

static void hear_message(struct user *user, const char *text, size_t length) {
    long number = number_of(text, length, "\"sequenceId\":");
    switch (type_of(text, length)) {
    case 1:
        if (is_new(user)) hear_posted(user, text, length);
        return;
    case 3:
        if (is_new(user)) hear_answer(user, text, length);
        return;
    case 6:
        return;
    case 7:
        if (user->is_slow && says(text, length, "\"Too slow.\"")) return;
        break;
    case 8:
        if (number <= user->sent) {
            user->acked = number > user->acked ? number : user->acked;
            return;
        }
        break;
    case 9:
        if (number >= 1 && number <= user->processed + 1) {
            user->next = number;
            return;
        }
    }
    fail("user %d was told %.*s", number_of_user(user), (int)length, text);
}

// A ping as long as a frame may be. The server reserves room for that frame, of which short ones touch the first page, and only touched ones are
// resident; where a connection comes in place of another, they may have been touched by that one. With a long one each has all of it from the start.
static void say_longest(const struct user *user) {
    const char *front = "{\"type\":6,\"padding\":\"", *back = "\"}\x1e";
    char text[LONGEST + 1];
    memset(text, 'x', sizeof text);
    memcpy(text, front, strlen(front));
    memcpy(text + sizeof text - strlen(back), back, strlen(back));
    say(user->fd, TEXT, text, sizeof text);
}

static void hear_shaken(struct user *user, const char *text, size_t length) {
    if (length != 2 || memcmp(text, "{}", 2) != 0) fail("the handshake was answered %.*s", (int)length, text);
    user->stage = JOINING;
    say_longest(user);
    say_number(user, 1);
}

static void hear_payload(struct user *user, const char *bytes, size_t length) {
    while (length > 0) {
        const char *end = memchr(bytes, SEPARATOR, length);
        if (!end) fail("a message of the server ends in the middle of a frame");
        if (user->stage == SHAKING) hear_shaken(user, bytes, end - bytes);
        else hear_message(user, bytes, end - bytes);
        length -= end + 1 - bytes;
        bytes = end + 1;
    }
}

static size_t hear_upgraded(struct user *user, const char *bytes, size_t length) {
    if (length > 12 && memcmp(bytes + 9, "101", 3) != 0)
        fail("in round %ld user %d, cut for %.1f s, was answered %.12s", round_now, number_of_user(user), user->cut_at ? (now_us() - user->cut_at) / 1e6 : 0, bytes);
    size_t at = head_end(bytes, length, "101");
    if (at == 0) return 0;
    if (user->next == 0) {
        go_on(user);
    } else {
        user->stage = SHAKING;
        say_message(user->fd, "{\"protocol\":\"json\",\"version\":%d}", user->can_resume ? 2 : 1);
    }
    return at;
}

// The number of bytes that were heard, from the front.
static size_t hear_bytes(struct user *user, const char *bytes, size_t length) {
    struct frame frame;
    size_t at = 0;
    if (user->stage == UPGRADING && (at = hear_upgraded(user, bytes, length)) == 0) return 0;
    for (size_t size; (size = frame_in(bytes + at, length - at, &frame)) > 0; at += size) {
        if (frame.opcode == CLOSE && !user->is_slow)
            fail("in round %ld the server closed the link of user %d, who pinged %.1f s ago", round_now, number_of_user(user), (now_us() - user->pinged_at) / 1e6);
        if (frame.opcode == TEXT) hear_payload(user, frame.payload, frame.length);
    }
    return at;
}

// Reads at most so many bytes. False if there are none.
static bool hear_user(struct user *user, size_t most) {
    if (user->held) memcpy(bytes_in, user->held, user->held_length);
    ssize_t count = recv(user->fd, bytes_in + user->held_length, most, 0);
    if (count < 0 && errno == EAGAIN) return false;
    if (count <= 0) {
        if (!user->is_slow || user->stage != OPEN) fail("the server ended the link of user %d", number_of_user(user));
        slow_ends++;
        end(user);
        return false;
    }
    size_t length = user->held_length + count, taken = hear_bytes(user, bytes_in, length);
    free(user->held);
    user->held = NULL;
    user->held_length = length - taken;
    if (user->held_length == 0) return true;
    if (user->held_length > HELD_ROOM) fail("a frame of the server is too long");
    user->held = malloc(user->held_length);
    memcpy(user->held, bytes_in + taken, user->held_length);
    return true;
}

// --- pests

enum { PEST_ROOM = 1 << 16, NEGOTIATES = 200 };
// The first four are ended only after a silence.
enum pest_kind { SILENT, HALF_A_HEAD, SILENT_SOCKET, FLOOD, GARBAGE, GARBAGE_IN_FRAMES, GARBAGE_IN_A_MESSAGE, LONG_HEAD, LONG_BODY, LONG_MESSAGE, LONG_FRAME, KINDS };

static size_t garbage(char *out, size_t most) {
    size_t length = 1 + draw(most);
    for (size_t i = 0; i < length; i++) out[i] = draw(256);
    return length;
}

static size_t shaken_of(char *out) {
    const char *shake = "{\"protocol\":\"json\",\"version\":1}\x1e";
    size_t length = upgrade_of(NULL, out);
    return length + frame_of(TEXT, shake, strlen(shake), (unsigned char *)out + length);
}

static size_t flood_of(char *out) {
    const char *one = "POST /hub/negotiate?negotiateVersion=1&useStatefulReconnect=true HTTP/1.1\r\nHost: a\r\nContent-Length: 0\r\n\r\n";
    for (int i = 0; i < NEGOTIATES; i++) memcpy(out + i * strlen(one), one, strlen(one));
    return NEGOTIATES * strlen(one);
}

// A frame that promises a tebibyte, or a message of the hub that goes on beyond its limit of 32,768 bytes.
static size_t long_of(enum pest_kind kind, char *out) {
    static char letters[3500];
    size_t length = shaken_of(out);
    if (kind == LONG_MESSAGE) {
        memcpy(out + length, "\x81\xff\0\0\1\0\0\0\0\0mask", 14);
        return length + 14;
    }
    memset(letters, 'x', sizeof letters);
    for (int i = 0; i < 10; i++) length += frame_of(TEXT, letters, sizeof letters, (unsigned char *)out + length);
    return length;
}

static size_t pest_text(enum pest_kind kind, char *out) {
    char noise[2000];
    switch (kind) {
    case HALF_A_HEAD:
        return 1 + draw(upgrade_of(NULL, out) - 1);
    case GARBAGE:
        return garbage(out, 20000);
    case GARBAGE_IN_FRAMES: {
        size_t length = shaken_of(out);
        return length + garbage(out + length, 2000);
    }
    case GARBAGE_IN_A_MESSAGE: {
        size_t length = shaken_of(out), count = garbage(noise, sizeof noise - 1);
        noise[count] = SEPARATOR;
        return length + frame_of(TEXT, noise, count + 1, (unsigned char *)out + length);
    }
    case SILENT_SOCKET:
        return upgrade_of(NULL, out);
    case FLOOD:
        return flood_of(out);
    case LONG_HEAD:
        memset(out, 'x', 20000);
        return memcpy(out, "GET /hub HTTP/1.1\r\nHost: a\r\nA: ", 31) ? 20000 : 0;
    case LONG_BODY:
        return sprintf(out, "POST /hub?id=a HTTP/1.1\r\nHost: a\r\nContent-Length: 2000000\r\n\r\n");
    case LONG_MESSAGE:
    case LONG_FRAME:
        return long_of(kind, out);
    default:
        return 0;
    }
}

// Half of them leave by themselves, and read nothing; the others wait until the server ends them. Of those that would wait long few do.
static void add_pest(struct pest *pest) {
    static char text[PEST_ROOM];
    size_t length = pest_text(pest->kind = draw(KINDS), text);
    pest->fd = dialed();
    pest->leaves = draw(2) || (pest->kind <= FLOOD && draw(8));
    pest->ends_at = now_us() + (pest->leaves ? draw(SECOND) : PEST_TIME);
    pests_live++;
    fcntl(pest->fd, F_SETFL, fcntl(pest->fd, F_GETFL) | O_NONBLOCK);
    send(pest->fd, text, length, MSG_NOSIGNAL);
    if (!pest->leaves) watch(pest->fd, users_count + (pest - pests));
}

static void end_pest(struct pest *pest) {
    drop(pest->fd, true);
    pest->fd = -1;
    pests_live--;
    pests_left += pest->leaves;
    pests_ended += !pest->leaves;
}

static void hear_pest(struct pest *pest) {
    ssize_t count = recv(pest->fd, bytes_in, READ_ROOM, 0);
    if (count == 0 || (count < 0 && errno != EAGAIN)) end_pest(pest);
}

static void look_at_pest(struct pest *pest, uint64_t now) {
    if (pest->fd < 0 || now < pest->ends_at) return;
    if (!pest->leaves) fail("the server doesn't end a hostile connection of kind %d", pest->kind);
    end_pest(pest);
}

// --- rounds

static void ping(struct user *user) {
    unsigned char frame[FRAME_ROOM];
    pings++;
    user->pinged_at = now_us();
    if (user->can_resume) acknowledge(user);
    // A slow one may have been closed by now, of which it reads later.
    send(user->fd, frame, frame_of(TEXT, "{\"type\":6}\x1e", 11, frame), MSG_NOSIGNAL);
}

// Whose moment has come, also where a round takes long.
static void look_at_moments(void) {
    static uint64_t looked_at;
    uint64_t now = now_us();
    if (now - looked_at < SECOND / 20) return;
    looked_at = now;
    for (struct pest *pest = pests; pest < pests + pests_most; pest++) look_at_pest(pest, now);
    for (struct user *user = users; user < users + users_count; user++) {
        if (user->stage == AWAY && user->is_begun && now - user->cut_at > AWAY_TIME) link_up(user);
        if (user->stage == OPEN && now - user->pinged_at > PING_TIME) ping(user);
    }
}

static void hear_all(void) {
    struct epoll_event events[256];
    int count = epoll_wait(poller, events, 256, 20);
    for (int i = 0; i < count; i++) {
        uint64_t what = events[i].data.u64;
        if (what >= (uint64_t)users_count) {
            if (pests[what - users_count].fd >= 0) hear_pest(&pests[what - users_count]);
            continue;
        }
        struct user *user = &users[what];
        if (user->stage == AWAY) continue;
        size_t most = user->cut_after;
        hear_user(user, most ? most : READ_ROOM);
        if (most && user->stage == OPEN) cut(user);
    }
    look_at_moments();
}

static void settle(void) {
    uint64_t began = now_us();
    while (behind > 0 || asking > 0 || opening > 0) {
        hear_all();
        if (now_us() - began > STALL) fail("in round %ld %ld messages, %ld answers and %ld links don't come", round_now, behind, asking, opening);
    }
}

static void post(struct user *user) {
    struct room *room = &rooms[user->room];
    unsigned char frame[FRAME_ROOM];
    char text[TEXT_ROOM];
    user->posts++;
    user->is_asking = true;
    user->asked_at = now_us();
    asking++;
    room->posted++;
    behind += room->listeners;
    size_t length = frame_of(TEXT, text, message_of(user, ++user->sent, text), frame);
    bool is_cut = user->cut_after > 0 && draw(2);
    write_all(user->fd, frame, is_cut ? draw(length) : length);
    if (is_cut) cut(user);
}

static void come(bool all) {
    for (struct user *user = users; user < users + users_count; user++) {
        if (user->stage != AWAY) continue;
        while (opening >= OPENING) hear_all();
        if (!user->is_begun) begin(user);
        else if (all || user->back_round <= round_now) link_up(user);
    }
    settle();
}

static void trouble(void) {
    for (struct user *user = users; user < users + users_count; user++)
        if (user->stage == OPEN && user->can_resume && draw(CUT) == 0) user->cut_after = 1 + draw(2000);
    for (struct pest *pest = pests; pest < pests + pests_most; pest++)
        if (pest->fd < 0 && draw(pests_most) < (unsigned)(users_count / PEST + 1)) add_pest(pest);
}

static void post_what_is_due(void) {
    for (struct user *user = users; user < users + users_count; user++) {
        long due = (round_now + 1 + number_of_user(user) % ROUNDS_OF_A_POST) / ROUNDS_OF_A_POST, most = rounds / ROUNDS_OF_A_POST;
        if (user->stage == OPEN && !user->is_slow && user->posts < due && user->posts < most) post(user);
    }
    settle();
}

static void play_round(void) {
    for (struct user *user = users; user < users + users_count; user++)
        if (user->stage == OPEN && !user->is_slow && draw(LEAVES) == 0) leave(user);
    come(false);
    for (struct user *user = users; user < users + users_count; user++) {
        if (user->stage == OPEN) ping(user);
        if (user->stage == OPEN && user->is_slow && user->trickle) hear_user(user, user->trickle);
    }
    trouble();
    post_what_is_due();
}

// Whether the slow ones, which read all that is there, have been told all, or their connection has ended.
static bool have_caught_up(void) {
    bool all = true;
    for (struct user *user = users; user < users + users_count; user++) {
        if (!user->is_slow || user->stage != OPEN) continue;
        while (user->told < rooms[user->room].posted && hear_user(user, READ_ROOM)) {}
        all = all && (user->stage != OPEN || user->told == rooms[user->room].posted);
    }
    return all;
}

static void look_at_all(void) {
    for (struct user *user = users; user < users + users_count; user++) {
        struct room *room = &rooms[user->room];
        if (user->stage != OPEN || user->is_asking || user->told != room->posted || room->seen != room->posted || user->seen_posts != user->posts)
            fail("user %d was told %ld posts of %ld, and of its own %ld of %ld", number_of_user(user), user->told, room->posted, user->seen_posts, user->posts);
    }
}

static void tell(const char *phase, uint64_t began) {
    printf("{\"phase\":\"%s\",\"seconds\":%.1f,\"rounds\":%ld,\"posts\":%ld,\"deliveries\":%ld,", phase, (now_us() - began) / 1e6, round_now, answers, deliveries);
    printf("\"pings\":%ld,\"cuts\":%ld,\"doubles\":%ld,\"leavings\":%ld,\"slow_ends\":%ld,", pings, cuts, doubles, leavings, slow_ends);
    printf("\"pests_ended\":%ld,\"pests_left\":%ld,\"slowest_answer_us\":%lu}\n", pests_ended, pests_left, slowest_answer);
    fflush(stdout);
    getchar();
}

// All are there, were told all, and say no more than pings, until what has gone is forgotten.
static void rest(void) {
    uint64_t began = now_us();
    come(true);
    while (!have_caught_up()) {
        hear_all();
        if (now_us() - began > STALL) fail("slow users aren't told what waits");
    }
    come(true);
    for (began = now_us(); now_us() < began + REST || pests_live > 0;) hear_all();
    have_caught_up();
    look_at_all();
}

// As many bytes as come until these words are there, or the end of a head.
static void wait_for(int fd, const char *words) {
    static char told[HELD_ROOM];
    size_t length = 0;
    while (!(words ? says(told, length, words) : head_end(told, length, "101") > 0)) {
        ssize_t count = recv(fd, told + length, sizeof told - length, 0);
        if (count <= 0) fail("the server ended the link that fills it");
        length += count;
    }
}

// Posts in the rooms of the users in one message, the last of which is to be answered if that is waited for.
static void say_posts(int fd, long number, bool is_answered) {
    const char *post = "{\"type\":1,%s\"target\":\"Post\",\"arguments\":[\"room %ld\",\"%d %ld %.*s\"]}%c", *id = "\"invocationId\":\"f\",";
    char text[FRAME_ROOM];
    size_t length = 0;
    for (int i = 1; i <= FILLED_AT_ONCE; i++) {
        bool is_last = is_answered && i == FILLED_AT_ONCE;
        long room = (i + number) % (users_count / MEMBERS + 1);
        length += sprintf(text + length, post, is_last ? id : "", room, i, number, letters_of(i, number), filler, SEPARATOR);
    }
    say(fd, TEXT, text, length);
}

// Three times as many texts as a server keeps, before anybody is in a room. They are in as many rooms and as long as those that come later, so that
// it holds as much as ever, and in pieces as scattered.
static void fill(void) {
    int fd = dialed();
    ask_upgrade(fd, NULL);
    wait_for(fd, NULL);
    say_message(fd, "{\"protocol\":\"json\",\"version\":1}");
    for (long number = 1; number <= 3 * TEXTS_KEPT / FILLED_AT_ONCE; number++) {
        bool is_answered = number % FILLED_UNHEARD == 0;
        say_posts(fd, number, is_answered);
        if (is_answered) wait_for(fd, "\"invocationId\":\"f\"");
    }
    close(fd);
}

static void set_up(long hours) {
    struct rlimit limit;
    getrlimit(RLIMIT_NOFILE, &limit);
    limit.rlim_cur = limit.rlim_max;
    setrlimit(RLIMIT_NOFILE, &limit);
    memset(filler, 'x', FILLER);
    poller = epoll_create1(EPOLL_CLOEXEC);
    rounds = hours * ROUNDS_OF_AN_HOUR;
    pests_most = users_count / 10 + 1;
    users = calloc(users_count, sizeof *users);
    pests = calloc(pests_most, sizeof *pests);
    rooms = calloc(users_count / MEMBERS + 1, sizeof *rooms);
    for (int i = 0; i < pests_most; i++) pests[i].fd = -1;
    for (int i = 0; i < users_count; i++) {
        users[i].room = i / MEMBERS;
        users[i].old_fd = -1;
        users[i].can_resume = i % MEMBERS < MEMBERS * 2 / 5;
        users[i].is_slow = i % MEMBERS == MEMBERS - 1;
    }
    for (int i = 0; i <= users_count / MEMBERS; i++) rooms[i].posts = calloc(MEMBERS * (rounds / ROUNDS_OF_A_POST + 1), sizeof *rooms[i].posts);
}

int main(int count, char **word) {
    if (count != 5) fail("long_run PORT USERS HOURS SEED");
    port = atoi(word[1]);
    users_count = atoi(word[2]);
    draw_state = atol(word[4]);
    set_up(atol(word[3]));
    fill();
    uint64_t began = now_us();
    come(true);
    tell("open", began);
    for (; round_now < rounds / 10; round_now++) play_round();
    rest();
    tell("tenth", began);
    for (; round_now < rounds; round_now++) play_round();
    // What was due of those that were away.
    while (answers < rounds / ROUNDS_OF_A_POST * (users_count - users_count / MEMBERS)) {
        come(true);
        post_what_is_due();
    }
    rest();
    tell("end", began);
    for (int i = 0; i < users_count; i++) leave(&users[i]);
    tell("left", began);
    return 0;
}

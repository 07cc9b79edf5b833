// A client of a server over loopback that takes the object of the root's one file away from another clerk, time and again. It greets as clerk B, and in each round it
// wants to write the file, is granted it, waits until it's recalled, and gives it back. Prints the median of the seconds from a want to its grant, over the rounds in
// which another clerk had to give the object back first.
// Usage: recall PORT ROUNDS
#include <arpa/inet.h>
#include <netinet/tcp.h>
#include <stdint.h>
#include <stdio.h>
#include <stdlib.h>
#include <string.h>
#include <sys/socket.h>
#include <sys/time.h>
#include <time.h>
#include <unistd.h>

enum { HELLO = 8, WANT = 2, BACK = 3, OPENED = 65, GRANT = 66, RECALL = 67 };
enum { FREE = 0, READ = 1, WRITE = 2 };
enum { ROOT = 1, LONGEST = 1 << 20, FEWEST = 20 };
// Where a message has its object, the number of its token, and an Opened its session.
enum { OBJECT = 17, NUMBER = 21, SESSION = 13 };

static int server;
static unsigned char body[LONGEST];
static size_t length;
// The session and the epoch.
static unsigned char session[16];

static void fail(const char *what) {
    perror(what);
    exit(1);
}

static void put(const void *bytes, size_t count) {
    if (write(server, bytes, count) != (ssize_t)count) fail("write");
}

static int get(unsigned char *bytes, size_t count) {
    for (size_t have = 0; have < count;) {
        ssize_t more = read(server, bytes + have, count - have);
        if (more <= 0) return 0;
        have += (size_t)more;
    }
    return 1;
}

static uint64_t number_at(const unsigned char *bytes, int count) {
    uint64_t number = 0;
    for (int i = 0; i < count; i++) number = number << 8 | bytes[i];
    return number;
}

static void number_to(unsigned char *bytes, int count, uint64_t number) {
    for (int i = count; i-- > 0; number >>= 8) bytes[i] = (unsigned char)number;
}

// The next message of this kind on the object, or of this kind where it's 0. False where none came in time.
static int await(int kind, uint32_t object) {
    for (;;) {
        unsigned char head[4];
        if (!get(head, 4)) return 0;
        length = number_at(head, 4);
        if (length > LONGEST || !get(body, length)) return 0;
        if (body[0] == kind && (object == 0 || number_at(body + OBJECT, 4) == object)) return 1;
    }
}

static void connect_to(int port) {
    struct sockaddr_in at = {.sin_family = AF_INET, .sin_port = htons((uint16_t)port), .sin_addr = {htonl(INADDR_LOOPBACK)}};
    struct timeval longest = {.tv_sec = 5};
    int on = 1;
    server = socket(AF_INET, SOCK_STREAM, 0);
    if (server < 0 || connect(server, (struct sockaddr *)&at, sizeof at) != 0) fail("connect");
    if (setsockopt(server, IPPROTO_TCP, TCP_NODELAY, &on, sizeof on) != 0) fail("setsockopt");
    if (setsockopt(server, SOL_SOCKET, SO_RCVTIMEO, &longest, sizeof longest) != 0) fail("setsockopt");
}

// Opens a session of clerk B, boot 1.
static void greet(void) {
    unsigned char hello[18] = {0, 0, 0, 14, HELLO, 1};
    number_to(hello + 6, 8, 1);
    put(hello, sizeof hello);
    if (!await(OPENED, 0)) fail("no session");
    memcpy(session, body + SESSION, sizeof session);
}

static void want(uint32_t object, int hold, uint64_t last) {
    unsigned char bytes[34] = {0, 0, 0, 30, WANT};
    memcpy(bytes + 5, session, sizeof session);
    number_to(bytes + 21, 4, object);
    bytes[25] = (unsigned char)hold;
    number_to(bytes + 26, 8, last);
    put(bytes, sizeof bytes);
}

static void give_back(uint32_t object, uint64_t number) {
    unsigned char bytes[34] = {0, 0, 0, 30, BACK};
    memcpy(bytes + 5, session, sizeof session);
    number_to(bytes + 21, 4, object);
    number_to(bytes + 25, 8, number);
    bytes[33] = FREE;
    put(bytes, sizeof bytes);
}

// The root's one file, whose id ends its image.
static uint32_t file_in_root(void) {
    want(ROOT, READ, 0);
    if (!await(GRANT, ROOT)) fail("no root");
    return (uint32_t)number_at(body + length - 4, 4);
}

static double now(void) {
    struct timespec time;
    clock_gettime(CLOCK_MONOTONIC, &time);
    return (double)time.tv_sec + (double)time.tv_nsec / 1e9;
}

static int by_value(const void *left, const void *right) {
    double a = *(const double *)left, b = *(const double *)right;
    return (a > b) - (a < b);
}

int main(int count, char **words) {
    if (count != 3) {
        fprintf(stderr, "usage: recall PORT ROUNDS\n");
        return 2;
    }
    int rounds = atoi(words[2]), seen = 0;
    double *times = calloc((size_t)rounds, sizeof *times);
    if (times == NULL) fail("calloc");
    connect_to(atoi(words[1]));
    greet();
    uint32_t file = file_in_root();
    uint64_t last = 0;
    for (int round = 0; round <= rounds; round++) {
        double start = now();
        want(file, WRITE, last);
        if (!await(GRANT, file)) fail("no grant");
        if (round > 0) times[seen++] = now() - start;
        last = number_at(body + NUMBER, 8);
        if (!await(RECALL, file)) break;
        give_back(file, number_at(body + NUMBER, 8));
    }
    if (seen < FEWEST) {
        fprintf(stderr, "recall: only %d rounds\n", seen);
        return 1;
    }
    qsort(times, (size_t)seen, sizeof *times, by_value);
    printf("%.9f\n", times[seen / 2]);
    return 0;
}

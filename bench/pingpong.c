// Round trips of 64 bytes over loopback between two processes, by blocking sockets. Where a file is named, the answering side writes 64 bytes to it and syncs it, twice
// in each round. Prints the seconds of a round.
// Usage: pingpong ROUNDS [FILE]
#include <arpa/inet.h>
#include <fcntl.h>
#include <netinet/tcp.h>
#include <stdio.h>
#include <stdlib.h>
#include <string.h>
#include <sys/socket.h>
#include <sys/wait.h>
#include <time.h>
#include <unistd.h>

enum { SIZE = 64 };

static void fail(const char *what) {
    perror(what);
    exit(1);
}

static void undelayed(int fd) {
    int on = 1;
    if (setsockopt(fd, IPPROTO_TCP, TCP_NODELAY, &on, sizeof on) != 0) fail("setsockopt");
}

static void get(int fd, char *bytes) {
    for (size_t have = 0; have < SIZE;) {
        ssize_t count = read(fd, bytes + have, SIZE - have);
        if (count <= 0) fail("read");
        have += (size_t)count;
    }
}

static void put(int fd, const char *bytes) {
    if (write(fd, bytes, SIZE) != SIZE) fail("write");
}

static void write_and_sync(int file, const char *bytes, long at) {
    if (pwrite(file, bytes, SIZE, at * SIZE) != SIZE) fail("pwrite");
    if (fdatasync(file) != 0) fail("fdatasync");
}

static void answer(int door, long rounds, const char *path) {
    char bytes[SIZE];
    int fd = accept(door, NULL, NULL);
    if (fd < 0) fail("accept");
    undelayed(fd);
    int file = -1;
    if (path != NULL && (file = open(path, O_RDWR | O_CREAT | O_TRUNC, 0600)) < 0) fail("open");
    for (long round = 0; round < rounds; round++) {
        get(fd, bytes);
        if (file >= 0) {
            write_and_sync(file, bytes, 2 * round);
            write_and_sync(file, bytes, 2 * round + 1);
        }
        put(fd, bytes);
    }
    exit(0);
}

static double now(void) {
    struct timespec time;
    clock_gettime(CLOCK_MONOTONIC, &time);
    return (double)time.tv_sec + (double)time.tv_nsec / 1e9;
}

int main(int count, char **words) {
    if (count < 2) {
        fprintf(stderr, "usage: pingpong ROUNDS [FILE]\n");
        return 2;
    }
    long rounds = atol(words[1]);
    struct sockaddr_in at = {.sin_family = AF_INET, .sin_addr = {htonl(INADDR_LOOPBACK)}};
    socklen_t length = sizeof at;
    int door = socket(AF_INET, SOCK_STREAM, 0);
    if (door < 0 || bind(door, (struct sockaddr *)&at, length) != 0 || listen(door, 1) != 0) fail("listen");
    if (getsockname(door, (struct sockaddr *)&at, &length) != 0) fail("getsockname");
    if (fork() == 0) answer(door, rounds, count > 2 ? words[2] : NULL);
    int fd = socket(AF_INET, SOCK_STREAM, 0);
    if (fd < 0 || connect(fd, (struct sockaddr *)&at, length) != 0) fail("connect");
    undelayed(fd);
    char bytes[SIZE];
    memset(bytes, 7, SIZE);
    double start = now();
    for (long round = 0; round < rounds; round++) {
        put(fd, bytes);
        get(fd, bytes);
    }
    printf("%.9f\n", (now() - start) / (double)rounds);
    wait(NULL);
    return 0;
}

// The bytes of a match over loopback without a match: what the sockets alone cost.
//
// usage: bare PLAYERS FRAMES LAG
//
// Each player is a process. It sends the packet of an empty play for each frame, as far as the lag allows, and a report
// for each frame of which it has the plays of all. The server, one loop over all links, sends each play on to everybody.
// All packets have the lengths of the real ones. Prints the seconds of the whole exchange.
#include <arpa/inet.h>
#include <netinet/in.h>
#include <netinet/tcp.h>
#include <poll.h>
#include <stdio.h>
#include <stdlib.h>
#include <string.h>
#include <sys/socket.h>
#include <sys/wait.h>
#include <time.h>
#include <unistd.h>

enum { UP_PLAY = 8, REPORT = 15, DOWN_PLAY = 9, MOST = 16, ROOM = 1 << 16 };

static void fail(const char *what) {
    perror(what);
    exit(1);
}

static void put_all(int link, const unsigned char *bytes, size_t count) {
    while (count > 0) {
        ssize_t put = send(link, bytes, count, MSG_NOSIGNAL);
        if (put <= 0) fail("send");
        bytes += put;
        count -= (size_t)put;
    }
}

// Each packet is sent at once, as the program does it.
static void hurry(int link) {
    int yes = 1;
    if (setsockopt(link, IPPROTO_TCP, TCP_NODELAY, &yes, sizeof yes) < 0) fail("setsockopt");
}

static double seconds_now(void) {
    struct timespec now;
    clock_gettime(CLOCK_MONOTONIC, &now);
    return (double)now.tv_sec + 1e-9 * (double)now.tv_nsec;
}

static void play(const struct sockaddr_in *at, int players, long frames, long lag) {
    int link = socket(AF_INET, SOCK_STREAM, 0);
    if (link < 0 || connect(link, (const struct sockaddr *)at, sizeof *at) < 0) fail("connect");
    hurry(link);
    unsigned char packet[REPORT] = {0}, taken[ROOM];
    long sent = 0, ticked = 0, bytes = 0;
    while (ticked < frames) {
        while (sent < frames && sent < ticked + lag) {
            put_all(link, packet, UP_PLAY);
            sent++;
        }
        ssize_t got = recv(link, taken, sizeof taken, 0);
        if (got <= 0) fail("recv");
        bytes += got;
        while (ticked < bytes / DOWN_PLAY / players && ticked < frames) {
            put_all(link, packet, REPORT);
            ticked++;
        }
    }
    close(link);
    exit(0);
}

// The plays that a player's bytes hold: plays and reports come in the player's order, a report only after plays, so the
// count of plays is read off the packets' lengths, which stand in the bytes of the first of them.
struct stream {
    int link, open;
    long plays;
    size_t held;
    unsigned char bytes[ROOM];
};

int main(int count, char **words) {
    if (count != 4) return fprintf(stderr, "usage: bare PLAYERS FRAMES LAG\n"), 2;
    int players = atoi(words[1]);
    long frames = atol(words[2]), lag = atol(words[3]);
    if (players < 1 || players > MOST) return 2;
    int door = socket(AF_INET, SOCK_STREAM, 0);
    struct sockaddr_in at = {.sin_family = AF_INET, .sin_addr.s_addr = htonl(INADDR_LOOPBACK)};
    socklen_t size = sizeof at;
    if (door < 0 || bind(door, (struct sockaddr *)&at, size) < 0 || listen(door, MOST) < 0) fail("listen");
    if (getsockname(door, (struct sockaddr *)&at, &size) < 0) fail("getsockname");
    double begun = seconds_now();
    for (int i = 0; i < players; i++) {
        pid_t child = fork();
        if (child < 0) fail("fork");
        if (child == 0) play(&at, players, frames, lag);
    }
    static struct stream streams[MOST];
    struct pollfd polled[MOST];
    for (int i = 0; i < players; i++) {
        streams[i].link = accept(door, NULL, NULL);
        if (streams[i].link < 0) fail("accept");
        hurry(streams[i].link);
        streams[i].open = 1;
    }
    unsigned char down[DOWN_PLAY] = {0};
    int open = players;
    // A player sends `lag` plays, then by turns a report for each frame that is whole and a play: which of the two a
    // packet is, this exchange needs not know, so the plays of a link are counted by its bytes: the first `lag` packets
    // are plays, then reports and plays alternate, and at the end reports alone.
    while (open > 0) {
        for (int i = 0; i < players; i++) polled[i] = (struct pollfd){streams[i].open ? streams[i].link : -1, POLLIN, 0};
        if (poll(polled, (nfds_t)players, -1) < 0) fail("poll");
        for (int i = 0; i < players; i++) {
            if (!polled[i].revents) continue;
            struct stream *stream = &streams[i];
            ssize_t got = recv(stream->link, stream->bytes, sizeof stream->bytes, 0);
            if (got <= 0) {
                stream->open = 0;
                open--;
                continue;
            }
            stream->held += (size_t)got;
            // So many plays are certainly whole.
            long first = lag < frames ? lag : frames;
            long plays;
            if (stream->held <= (size_t)(first * UP_PLAY)) {
                plays = (long)stream->held / UP_PLAY;
            } else {
                long pairs = ((long)stream->held - first * UP_PLAY) / (REPORT + UP_PLAY);
                plays = first + pairs;
            }
            if (plays > frames) plays = frames;
            for (; stream->plays < plays; stream->plays++)
                for (int j = 0; j < players; j++)
                    if (streams[j].open) put_all(streams[j].link, down, DOWN_PLAY);
        }
    }
    while (wait(NULL) > 0) {
    }
    printf("%.3f\n", seconds_now() - begun);
    return 0;
}

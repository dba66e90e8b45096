/* Opens connections to a server of Ice, one after the other: connections PORT COUNT CALLS

   On each it reads the validate message, makes so many calls of `ice_ping` on the object `counter`, reads each reply, and
   sends a close message. So many addresses of this machine are taken in turn that no port lacks. It prints a line with
   the number so far ten times, and waits for a line of standard input after each. */
#include <arpa/inet.h>
#include <netinet/in.h>
#include <netinet/tcp.h>
#include <stdio.h>
#include <stdlib.h>
#include <string.h>
#include <sys/socket.h>
#include <unistd.h>

enum { HEADER = 14, REPLY = 25, ADDRESSES = 200 };
static const unsigned char ping[] = "IceP\1\0\1\0\0\0\x2d\0\0\0\1\0\0\0\7counter\0\0\x8"
                                    "ice_ping\1\0\6\0\0\0\1\1";
static const unsigned char closing[] = "IceP\1\0\1\0\4\0\xe\0\0\0";

static void fail(const char *what) {
    perror(what);
    exit(1);
}

static void take(int link, unsigned char *into, int count) {
    for (int at = 0; at < count;) {
        ssize_t came = read(link, into + at, count - at);
        if (came <= 0) fail("read");
        at += came;
    }
}

static int opened(int port, int number) {
    struct sockaddr_in here = {.sin_family = AF_INET}, there = here;
    int link = socket(AF_INET, SOCK_STREAM, 0), on = 1;
    here.sin_addr.s_addr = htonl(INADDR_LOOPBACK + 1 + number % ADDRESSES);
    there.sin_addr.s_addr = htonl(INADDR_LOOPBACK);
    there.sin_port = htons(port);
    if (link < 0) fail("socket");
    setsockopt(link, IPPROTO_IP, IP_BIND_ADDRESS_NO_PORT, &on, sizeof on);
    setsockopt(link, IPPROTO_TCP, TCP_NODELAY, &on, sizeof on);
    if (bind(link, (struct sockaddr *)&here, sizeof here) < 0) fail("bind");
    if (connect(link, (struct sockaddr *)&there, sizeof there) < 0) fail("connect");
    return link;
}

int main(int count, char **words) {
    if (count != 4) return 2;
    int port = atoi(words[1]), all = atoi(words[2]), calls = atoi(words[3]);
    unsigned char came[REPLY];
    for (int at = 0; at < all; ++at) {
        int link = opened(port, at);
        take(link, came, HEADER);
        for (int call = 0; call < calls; ++call) {
            if (write(link, ping, sizeof ping - 1) != sizeof ping - 1) fail("write");
            take(link, came, REPLY);
        }
        if (write(link, closing, sizeof closing - 1) < 0) fail("write");
        close(link);
        if ((at + 1) % (all < 10 ? 1 : all / 10) == 0) {
            printf("%d\n", at + 1);
            fflush(stdout);
            if (getchar() == EOF) return 0;
        }
    }
    return 0;
}

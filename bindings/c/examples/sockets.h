/* Sockets, for the examples. */
#ifndef SOCKETS_H
#define SOCKETS_H

#include "teivorm.h"
#include <arpa/inet.h>
#include <netinet/tcp.h>
#include <stdio.h>
#include <stdlib.h>
#include <sys/socket.h>
#include <unistd.h>

/* Ends the program if a call did not succeed. */
static inline void must(const char *what, uint32_t result)
{
    if (result == TEIVORM_DONE) return;
    fprintf(stderr, "%s: result %u\n", what, result);
    exit(1);
}

/* Returns a socket that listens at the port of this machine. */
static inline int listen_at(int port)
{
    struct sockaddr_in at = { .sin_family = AF_INET, .sin_port = htons((uint16_t)port), .sin_addr = { htonl(INADDR_LOOPBACK) } };
    int one = 1, fd = socket(AF_INET, SOCK_STREAM, 0);
    setsockopt(fd, SOL_SOCKET, SO_REUSEADDR, &one, sizeof one);
    if (bind(fd, (struct sockaddr *)&at, sizeof at) != 0 || listen(fd, 100) != 0) { perror("listen"); exit(1); }
    return fd;
}

/* Returns a socket of a connection with the port: `how` is "connect" or "listen". */
static inline int open_socket(const char *how, int port)
{
    struct sockaddr_in at = { .sin_family = AF_INET, .sin_port = htons((uint16_t)port), .sin_addr = { htonl(INADDR_LOOPBACK) } };
    int one = 1, fd;
    if (how[0] == 'l') {
        int listener = listen_at(port);
        fd = accept(listener, NULL, NULL);
        close(listener);
    } else {
        fd = socket(AF_INET, SOCK_STREAM, 0);
        if (connect(fd, (struct sockaddr *)&at, sizeof at) != 0) { perror("connect"); exit(1); }
    }
    setsockopt(fd, IPPROTO_TCP, TCP_NODELAY, &one, sizeof one);
    return fd;
}

/* Writes all of these bytes; returns whether the socket took them. */
static inline bool send_all(int fd, const uint8_t *bytes, size_t len)
{
    while (len > 0) {
        ssize_t count = send(fd, bytes, len, MSG_NOSIGNAL);
        if (count <= 0) return false;
        bytes += count;
        len -= (size_t)count;
    }
    return true;
}

#endif

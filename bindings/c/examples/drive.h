/* The loop that moves bytes between a socket and a connection, for the examples. */
#ifndef DRIVE_H
#define DRIVE_H

#include "sockets.h"

enum { CREDIT = 100 };

/* An AMQP message of one data section (part 3, 3.2.6). */
static const uint8_t hello[] = { 0, 0x53, 0x75, 0xa0, 5, 'h', 'e', 'l', 'l', 'o' };

typedef void act_fn(teivorm_conn *conn, const teivorm_event *event, void *more);

/* Begins the session: the end that connects does so when the connection is open, the other end after the peer. */
static inline void begin_in_turn(teivorm_conn *conn, const teivorm_event *event, bool connects)
{
    uint32_t result = TEIVORM_DONE;
    if (connects ? event->phase == TEIVORM_RUNNING && event->frame == TEIVORM_FRAME_NONE : event->frame == TEIVORM_FRAME_BEGIN)
        result = teivorm_begin(conn, NULL);
    if (result != TEIVORM_REFUSED + TEIVORM_REFUSAL_ALREADY_BEGUN) must("begin", result);
}

/* Accepts a message that was taken, and renews the link's credit when half of it is used: the message is the `number`th one. */
static inline void accept_message(teivorm_conn *conn, const teivorm_event *message, uint32_t number)
{
    if (!message->settled) must("accept", teivorm_accept(conn, message->id));
    if (number % (CREDIT / 2) == 0) must("grant", teivorm_grant(conn, message->link, CREDIT, false, false, NULL));
}

/* Returns how many of our messages on the link the peer has accepted since the last call. */
static inline uint32_t newly_accepted(teivorm_conn *conn, uint32_t link)
{
    uint32_t count = 0;
    teivorm_event outcome;
    while (teivorm_learn(conn, link, &outcome) == TEIVORM_DONE) count += outcome.state == TEIVORM_ACCEPTED;
    return count;
}

/* Feeds all bytes, and calls `act` after each frame. */
static inline void feed_all(teivorm_conn *conn, const uint8_t *bytes, size_t len, act_fn *act, void *more)
{
    size_t used;
    teivorm_event event;
    for (size_t at = 0; at < len && teivorm_phase(conn) != TEIVORM_CLOSED; at += used) {
        uint32_t result = teivorm_feed(conn, bytes + at, len - at, &used, &event);
        if (result != TEIVORM_DONE) fprintf(stderr, "feed: result %u\n", result);
        else act(conn, &event, more);
    }
    teivorm_forget(conn);
}

/* Writes all bytes that wait; returns whether the socket took them. */
static inline bool write_out(teivorm_conn *conn, int fd)
{
    uint8_t room[65536];
    size_t len;
    while ((len = teivorm_write(conn, room, sizeof room)) > 0)
        if (!send_all(fd, room, len)) return false;
    return true;
}

/* Writes, reads and acts, until the connection is closed. */
static inline void run(teivorm_conn *conn, int fd, act_fn *act, void *more)
{
    uint8_t bytes[65536];
    while (write_out(conn, fd) && teivorm_phase(conn) != TEIVORM_CLOSED) {
        ssize_t len = read(fd, bytes, sizeof bytes);
        if (len <= 0) break;
        feed_all(conn, bytes, (size_t)len, act, more);
    }
    teivorm_lost(conn);
    close(fd);
}

#endif

/* epoll PORT CONNECTIONS COUNT: serves so many connections on one thread. It takes all messages of a peer that sends, and gives COUNT messages to a peer that
 * receives. */
#include "drive.h"
#include <errno.h>
#include <sys/epoll.h>

struct peer {
    teivorm_conn conn;
    int fd;
    teivorm_link_status status; /* of the peer's link */
    uint32_t link, given, accepted;
};

static uint32_t count;

/* Sends the peer as many messages as it allows. */
static void give(struct peer *peer)
{
    while (peer->given < count) {
        uint32_t result = teivorm_start(&peer->conn, peer->link, &peer->given, sizeof peer->given, hello, sizeof hello, false, false, NULL);
        if (teivorm_would_block(result)) return;
        must("start", result);
        peer->given++;
    }
}

static void take(struct peer *peer)
{
    teivorm_event message;
    while (teivorm_take(&peer->conn, peer->link, &message) == TEIVORM_DONE) accept_message(&peer->conn, &message, ++peer->accepted);
}

static void act(teivorm_conn *conn, const teivorm_event *event, void *more)
{
    struct peer *peer = more;
    begin_in_turn(conn, event, false);
    if (event->kind == TEIVORM_OFFERED) {
        peer->link = event->link;
        must("answer", teivorm_answer(conn, peer->link, "q", "q", NULL, NULL));
        must("link", teivorm_link(conn, peer->link, &peer->status));
        if (peer->status.role == TEIVORM_RECEIVER) must("grant", teivorm_grant(conn, peer->link, CREDIT, false, false, NULL));
    }
    if (peer->status.role == TEIVORM_SENDER && (event->kind == TEIVORM_OFFERED || event->frame == TEIVORM_FRAME_FLOW)) give(peer);
    if (event->kind == TEIVORM_READY) take(peer);
    if (event->frame == TEIVORM_FRAME_DISPOSITION) peer->accepted += newly_accepted(conn, peer->link);
}

/* Reads and writes what the socket has and takes, and acts. Returns whether the connection goes on. */
static bool serve(int epoll, struct peer *peer)
{
    struct epoll_event wanted = { .events = EPOLLIN, .data.ptr = peer };
    uint8_t bytes[65536];
    const uint8_t *unit;
    size_t unit_len;
    ssize_t len = recv(peer->fd, bytes, sizeof bytes, MSG_DONTWAIT);
    if (len == 0 || (len < 0 && errno != EAGAIN)) return false;
    if (len > 0) feed_all(&peer->conn, bytes, (size_t)len, act, peer);
    while ((unit_len = teivorm_unit(&peer->conn, &unit)) > 0) {
        len = send(peer->fd, unit, unit_len, MSG_DONTWAIT | MSG_NOSIGNAL);
        if (len < 0 && errno != EAGAIN) return false;
        if (len < 0) { wanted.events |= EPOLLOUT; break; }
        must("wrote", teivorm_wrote(&peer->conn, (size_t)len));
    }
    epoll_ctl(epoll, EPOLL_CTL_MOD, peer->fd, &wanted);
    return unit_len > 0 || teivorm_phase(&peer->conn) != TEIVORM_CLOSED;
}

static void let_in(int epoll, int fd)
{
    struct peer *peer = calloc(1, sizeof *peer);
    struct epoll_event wanted = { .events = EPOLLIN, .data.ptr = peer };
    if (fd < 0 || peer == NULL) exit(1);
    peer->fd = fd;
    must("new", teivorm_new(&peer->conn, "c-server", NULL, NULL));
    epoll_ctl(epoll, EPOLL_CTL_ADD, fd, &wanted);
}

int main(int argc, char **argv)
{
    if (argc != 4) return 2;
    int epoll = epoll_create1(0), listener = listen_at(atoi(argv[1])), left = atoi(argv[2]), total = 0;
    struct epoll_event ready = { .events = EPOLLIN };
    count = (uint32_t)strtoul(argv[3], NULL, 10);
    epoll_ctl(epoll, EPOLL_CTL_ADD, listener, &ready);
    while (left > 0 && epoll_wait(epoll, &ready, 1, -1) == 1) {
        struct peer *peer = ready.data.ptr;
        if (peer == NULL) let_in(epoll, accept(listener, NULL, NULL));
        if (peer == NULL || serve(epoll, peer)) continue;
        total += (int)peer->accepted;
        left--;
        teivorm_free(&peer->conn);
        close(peer->fd);
        free(peer);
    }
    printf("accepted %d\n", total);
    close(listener);
    return close(epoll);
}

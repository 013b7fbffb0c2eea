/* Messages over TCP by Qpid Proton's C library, for `live/yardstick`: two processes, each with one thread.
 *
 *   proton tcp COUNT SIZE CREDIT SETTLED                 one connection: Proton's engine over sockets and poll
 *   proton pro COUNT SIZE CREDIT SETTLED [CONNECTIONS]   Proton's own event loop, the proactor; COUNT over each connection
 *   proton hold PORT                                     a proactor that listens and answers, until it is killed
 *
 * Each end opens a connection and a session, and one link. The sender sends while it has credit; the receiver accepts and settles each delivery, and
 * grants anew where half of its credit is used. One line tells messages a second, from the first connection to the end of the last one, and the
 * processor time of both processes.
 */
#include <errno.h>
#include <fcntl.h>
#include <netinet/in.h>
#include <netinet/tcp.h>
#include <poll.h>
#include <proton/condition.h>
#include <proton/connection.h>
#include <proton/connection_driver.h>
#include <proton/delivery.h>
#include <proton/event.h>
#include <proton/link.h>
#include <proton/listener.h>
#include <proton/netaddr.h>
#include <proton/proactor.h>
#include <proton/session.h>
#include <proton/terminus.h>
#include <proton/transport.h>
#include <stdbool.h>
#include <stdint.h>
#include <stdio.h>
#include <stdlib.h>
#include <string.h>
#include <sys/resource.h>
#include <sys/socket.h>
#include <sys/time.h>
#include <sys/wait.h>
#include <unistd.h>

#define FRAME 65536

static void die(const char *why) { fprintf(stderr, "proton: %s (%s)\n", why, strerror(errno)); exit(1); }
static double now(void) { struct timeval t; gettimeofday(&t, NULL); return t.tv_sec + t.tv_usec * 1e-6; }
static double used(const struct rusage *u) {
  return u->ru_utime.tv_sec + u->ru_utime.tv_usec * 1e-6 + u->ru_stime.tv_sec + u->ru_stime.tv_usec * 1e-6;
}

/* What both ends of each connection do. */
static struct { bool sends, settled; long count; size_t size; int credit; char *message; size_t length; char *room; } work;

/* One end of one connection. */
typedef struct { pn_connection_driver_t driver; long sent, learnt, taken; bool closing; } end_t;

static long taken_by_all, learnt_by_all;

static void prepare(bool sends, long count, size_t size, int credit, bool settled) {
  work.sends = sends; work.settled = settled; work.count = count; work.size = size; work.credit = credit;
  work.message = malloc(size + 16); work.room = malloc(size + 16);
  if (!work.message || !work.room) die("no memory");
  char *m = work.message; size_t h = 3;
  memcpy(m, "\0\x53\x75", 3);
  if (size < 256) { m[h++] = (char)0xa0; m[h++] = (char)size; }
  else { m[h++] = (char)0xb0; for (int s = 24; s >= 0; s -= 8) m[h++] = (char)(size >> s); }
  memset(m + h, 'x', size);
  work.length = h + size;
}

static void start(pn_connection_t *c) {
  pn_connection_set_container(c, "sender"); pn_connection_open(c);
  pn_session_t *s = pn_session(c); pn_session_open(s);
  pn_link_t *l = pn_sender(s, "messages");
  pn_terminus_set_address(pn_link_target(l), "messages");
  pn_link_set_snd_settle_mode(l, work.settled ? PN_SND_SETTLED : PN_SND_UNSETTLED);
  pn_link_open(l);
}

static void answer_attach(pn_link_t *l) {
  pn_terminus_copy(pn_link_target(l), pn_link_remote_target(l));
  pn_link_set_snd_settle_mode(l, pn_link_remote_snd_settle_mode(l));
  pn_link_open(l); pn_link_flow(l, work.credit);
}

static void send_messages(end_t *e, pn_link_t *l) {
  while (e->sent < work.count && pn_link_credit(l) > 0) {
    uint32_t tag = (uint32_t)e->sent;
    pn_delivery_t *d = pn_delivery(l, pn_dtag((const char *)&tag, sizeof tag));
    pn_link_send(l, work.message, work.length); pn_link_advance(l);
    if (work.settled) pn_delivery_settle(d);
    e->sent++;
  }
}

static void take(end_t *e, pn_delivery_t *d) {
  pn_link_t *l = pn_delivery_link(d);
  size_t n = pn_delivery_pending(d);
  if (n != work.length || pn_link_recv(l, work.room, n) != (ssize_t)n) die("a message is not as it was sent");
  pn_link_advance(l);
  if (!pn_delivery_settled(d)) pn_delivery_update(d, PN_ACCEPTED);
  pn_delivery_settle(d);
  e->taken++; taken_by_all++;
  int c = pn_link_credit(l);
  if (c <= work.credit / 2) pn_link_flow(l, work.credit - c);
}

static void learn(end_t *e, pn_delivery_t *d) {
  if (!pn_delivery_settled(d)) return;
  if (pn_delivery_remote_state(d) != PN_ACCEPTED) die("a message was not accepted");
  pn_delivery_settle(d); e->learnt++; learnt_by_all++;
}

static void handle(end_t *e, pn_event_t *ev) {
  pn_connection_t *c = pn_event_connection(ev);
  switch (pn_event_type(ev)) {
  case PN_CONNECTION_REMOTE_OPEN: if (!work.sends) { pn_connection_set_container(c, "receiver"); pn_connection_open(c); } break;
  case PN_SESSION_REMOTE_OPEN: if (!work.sends) pn_session_open(pn_event_session(ev)); break;
  case PN_LINK_REMOTE_OPEN: if (!work.sends) answer_attach(pn_event_link(ev)); break;
  case PN_LINK_FLOW: if (work.sends) send_messages(e, pn_event_link(ev)); break;
  case PN_DELIVERY: {
    pn_delivery_t *d = pn_event_delivery(ev);
    if (work.sends) learn(e, d);
    else if (pn_delivery_readable(d) && !pn_delivery_partial(d)) take(e, d);
    break; }
  case PN_CONNECTION_REMOTE_CLOSE: pn_connection_close(c); break;
  case PN_TRANSPORT_ERROR: die(pn_condition_get_description(pn_transport_condition(pn_event_transport(ev))));
  default: break;
  }
  if (c && work.sends && !e->closing && (work.settled ? e->sent : e->learnt) == work.count) { pn_connection_close(c); e->closing = true; }
}

/* ---- the engine over sockets and poll ---- */

static void events(end_t *e) { pn_event_t *ev; while ((ev = pn_connection_driver_next_event(&e->driver))) handle(e, ev); }

static void run_engine(int fd) {
  int one = 1; end_t e; memset(&e, 0, sizeof e);
  setsockopt(fd, IPPROTO_TCP, TCP_NODELAY, &one, sizeof one);
  fcntl(fd, F_SETFL, fcntl(fd, F_GETFL) | O_NONBLOCK);
  pn_transport_t *t = pn_transport();
  if (!work.sends) pn_transport_set_server(t);
  pn_transport_set_max_frame(t, FRAME);
  if (pn_connection_driver_init(&e.driver, NULL, t)) die("no driver");
  if (work.sends) start(e.driver.connection);
  while (!pn_connection_driver_finished(&e.driver)) {
    events(&e);
    pn_bytes_t w = pn_connection_driver_write_buffer(&e.driver);
    pn_rwbytes_t r = pn_connection_driver_read_buffer(&e.driver);
    struct pollfd p = {fd, (short)((r.size ? POLLIN : 0) | (w.size ? POLLOUT : 0)), 0};
    if (!p.events) break;
    if (poll(&p, 1, 20000) <= 0) die("nothing comes");
    if (p.revents & POLLOUT) {
      ssize_t n = send(fd, w.start, w.size, MSG_NOSIGNAL);
      if (n > 0) pn_connection_driver_write_done(&e.driver, n); else if (errno != EAGAIN) pn_connection_driver_write_close(&e.driver);
    }
    if (p.revents & (POLLIN | POLLHUP)) {
      ssize_t n = recv(fd, r.start, r.size, 0);
      if (n > 0) pn_connection_driver_read_done(&e.driver, n);
      else if (n == 0) pn_connection_driver_read_close(&e.driver);
      else if (errno != EAGAIN) pn_connection_driver_close(&e.driver);
    }
  }
  events(&e);
  close(fd);
}

static void tell(const char *kind, long connections, double took, const struct rusage *other) {
  struct rusage u; getrusage(RUSAGE_SELF, &u);
  long all = work.count * connections;
  if (!work.settled && learnt_by_all != all) die("not all was learnt");
  printf("%s connections %ld count %ld size %zu credit %d settled %d a-second %.0f processor-ns %.0f\n", kind, connections, work.count, work.size,
         work.credit, work.settled, all / took, (used(&u) + used(other)) / all * 1e9);
}

static void tcp(long count, size_t size, int credit, bool settled) {
  struct sockaddr_in a = {0}; socklen_t n = sizeof a;
  int at = socket(AF_INET, SOCK_STREAM, 0);
  a.sin_family = AF_INET; a.sin_addr.s_addr = htonl(INADDR_LOOPBACK);
  if (bind(at, (void *)&a, sizeof a) || listen(at, 1)) die("cannot listen");
  getsockname(at, (void *)&a, &n);
  double begun = now();
  pid_t pid = fork();
  if (!pid) {
    prepare(false, count, size, credit, settled);
    run_engine(accept(at, NULL, NULL));
    _exit(taken_by_all != count);
  }
  close(at);
  prepare(true, count, size, credit, settled);
  int fd = socket(AF_INET, SOCK_STREAM, 0);
  if (connect(fd, (void *)&a, sizeof a)) die("cannot connect");
  run_engine(fd);
  int status; struct rusage other;
  wait4(pid, &status, 0, &other);
  if (status) die("the receiver did not take all");
  tell("tcp", 1, now() - begun, &other);
}

/* ---- the proactor ---- */

static end_t *end_of(pn_connection_t *c) {
  if (!pn_connection_get_context(c)) pn_connection_set_context(c, calloc(1, sizeof(end_t)));
  return pn_connection_get_context(c);
}

static pn_transport_t *transport(bool accepts) {
  pn_transport_t *t = pn_transport();
  if (accepts) pn_transport_set_server(t);
  pn_transport_set_max_frame(t, FRAME);
  return t;
}

/* Until so many connections have ended. */
static void run_proactor(pn_proactor_t *p, long connections, int told) {
  pn_listener_t *listener = NULL;
  for (;;) {
    pn_event_batch_t *b = pn_proactor_wait(p); pn_event_t *ev;
    while ((ev = pn_event_batch_next(b))) {
      pn_connection_t *c = pn_event_connection(ev);
      switch (pn_event_type(ev)) {
      case PN_LISTENER_OPEN: {
        char port[16]; listener = pn_event_listener(ev);
        pn_netaddr_host_port(pn_listener_addr(listener), NULL, 0, port, sizeof port);
        int k = atoi(port);
        if (told >= 0 && write(told, &k, sizeof k) != sizeof k) die("pipe");
        break; }
      case PN_LISTENER_ACCEPT: pn_listener_accept2(pn_event_listener(ev), NULL, transport(true)); break;
      case PN_CONNECTION_INIT: if (work.sends) start(c); break;
      case PN_TRANSPORT_CLOSED:
        free(pn_connection_get_context(c)); pn_connection_set_context(c, NULL);
        if (--connections == 0 && listener) pn_listener_close(listener);
        break;
      case PN_PROACTOR_INACTIVE: pn_proactor_done(p, b); return;
      default: if (c) handle(end_of(c), ev);
      }
    }
    pn_proactor_done(p, b);
  }
}

static void pro(long count, size_t size, int credit, bool settled, long connections) {
  int pipes[2], port, status; struct rusage other;
  char number[16], address[64];
  if (pipe(pipes)) die("pipe");
  double begun = now();
  pid_t pid = fork();
  if (!pid) {
    prepare(false, count, size, credit, settled);
    pn_proactor_t *p = pn_proactor();
    pn_proactor_addr(address, sizeof address, "127.0.0.1", "0");
    pn_proactor_listen(p, pn_listener(), address, 4096);
    run_proactor(p, connections, pipes[1]);
    _exit(taken_by_all != count * connections);
  }
  prepare(true, count, size, credit, settled);
  if (read(pipes[0], &port, sizeof port) != sizeof port) die("no port");
  pn_proactor_t *p = pn_proactor();
  snprintf(number, sizeof number, "%d", port);
  pn_proactor_addr(address, sizeof address, "127.0.0.1", number);
  for (long i = 0; i < connections; i++) pn_proactor_connect2(p, NULL, transport(false), address);
  run_proactor(p, connections, -1);
  wait4(pid, &status, 0, &other);
  if (status) die("the receiver did not take all");
  tell("pro", connections, now() - begun, &other);
}

static void hold(const char *port) {
  char address[64];
  prepare(false, 1, 16, 100, false);
  pn_proactor_t *p = pn_proactor();
  pn_proactor_addr(address, sizeof address, "127.0.0.1", port);
  pn_proactor_listen(p, pn_listener(), address, 4096);
  run_proactor(p, -1, -1);
}

int main(int argc, char **argv) {
  if (argc == 3 && !strcmp(argv[1], "hold")) { hold(argv[2]); return 0; }
  if (argc < 6) { fprintf(stderr, "proton: see the head of proton.c\n"); return 2; }
  long count = atol(argv[2]); size_t size = strtoul(argv[3], NULL, 10); int credit = atoi(argv[4]); bool settled = atoi(argv[5]);
  if (!strcmp(argv[1], "tcp")) tcp(count, size, credit, settled);
  else pro(count, size, credit, settled, argc > 6 ? atol(argv[6]) : 1);
  return 0;
}

/* threads send|receive PORT COUNT: connects, and sends or receives so many messages on four threads, which share a connection under a lock. One thread more
 * writes to the socket, and the first thread reads. */
#include "drive.h"
#include <pthread.h>

enum { WORKERS = 4 };

static pthread_mutex_t lock = PTHREAD_MUTEX_INITIALIZER;
static pthread_cond_t changed = PTHREAD_COND_INITIALIZER;
/* All of these under the lock. */
static teivorm_conn conn = TEIVORM_NONE;
static bool sends, is_attached;
static uint32_t link_number, count, begun, done;

/* Sends a message; returns whether the peer allowed it. */
static bool send_one(void)
{
    uint32_t result = teivorm_start(&conn, link_number, &begun, sizeof begun, hello, sizeof hello, false, false, NULL);
    if (teivorm_would_block(result)) return false;
    must("start", result);
    begun++;
    return true;
}

/* Takes a message, and accepts it after the program has worked on it without the lock; returns whether there was one. */
static bool receive_one(void)
{
    teivorm_event message;
    uint8_t room[1024];
    if (teivorm_take(&conn, link_number, &message) != TEIVORM_DONE) return false;
    begun++;
    size_t len = teivorm_payload(&conn, 0, room, sizeof room);
    pthread_mutex_unlock(&lock);
    if (len < 3 || memcmp(room, "\0\x53", 2) != 0) exit(1);
    pthread_mutex_lock(&lock);
    accept_message(&conn, &message, ++done);
    if (done == count) must("close", teivorm_close(&conn, NULL, NULL));
    return true;
}

static void *work(void *unused)
{
    pthread_mutex_lock(&lock);
    while (begun < count && teivorm_phase(&conn) != TEIVORM_CLOSED)
        if (is_attached && (sends ? send_one() : receive_one())) pthread_cond_broadcast(&changed);
        else pthread_cond_wait(&changed, &lock);
    pthread_mutex_unlock(&lock);
    return unused;
}

static void *write_bytes(void *socket)
{
    uint8_t room[65536];
    size_t len;
    do {
        pthread_mutex_lock(&lock);
        while ((len = teivorm_write(&conn, room, sizeof room)) == 0 && teivorm_phase(&conn) != TEIVORM_CLOSED) pthread_cond_wait(&changed, &lock);
        pthread_mutex_unlock(&lock);
    } while (len > 0 && send_all(*(int *)socket, room, len));
    return NULL;
}

static void act(teivorm_conn *c, const teivorm_event *event, void *unused)
{
    (void)unused;
    begin_in_turn(c, event, true);
    if (event->frame == TEIVORM_FRAME_BEGIN)
        must("attach", teivorm_attach(c, "threads", sends ? TEIVORM_SENDER : TEIVORM_RECEIVER, "q", "q", NULL, NULL));
    if (event->kind == TEIVORM_ATTACHED) is_attached = true, link_number = event->link;
    if (event->kind == TEIVORM_ATTACHED && !sends) must("grant", teivorm_grant(c, link_number, CREDIT, false, false, NULL));
    if (event->frame == TEIVORM_FRAME_DISPOSITION) done += newly_accepted(c, link_number);
    if (sends && done == count && event->phase == TEIVORM_RUNNING) must("close", teivorm_close(c, NULL, NULL));
}

int main(int argc, char **argv)
{
    if (argc != 4) return 2;
    pthread_t threads[WORKERS + 1];
    uint8_t bytes[65536];
    ssize_t len;
    int fd = open_socket("connect", atoi(argv[2]));
    sends = argv[1][0] == 's';
    count = (uint32_t)atol(argv[3]);
    must("new", teivorm_new(&conn, "c-threads", "localhost", NULL));
    for (int i = 0; i <= WORKERS; i++) pthread_create(&threads[i], NULL, i < WORKERS ? work : write_bytes, &fd);
    do {
        len = read(fd, bytes, sizeof bytes);
        pthread_mutex_lock(&lock);
        if (len > 0) feed_all(&conn, bytes, (size_t)len, act, NULL);
        else teivorm_lost(&conn);
        pthread_cond_broadcast(&changed);
        pthread_mutex_unlock(&lock);
    } while (len > 0);
    for (int i = 0; i <= WORKERS; i++) pthread_join(threads[i], NULL);
    printf("%s %u\n", sends ? "sent" : "received", done);
    teivorm_free(&conn);
    close(fd);
    return done == count ? 0 : 1;
}

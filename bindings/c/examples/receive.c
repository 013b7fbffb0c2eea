/* receive connect|listen PORT COUNT: takes and accepts so many messages, from the address `q` if it connects, and closes. */
#include "drive.h"

struct receiver {
    bool connects;
    uint32_t link, count, taken;
    uint64_t bytes;
    uint8_t *room;
    size_t room_len;
};

/* Copies the message that was taken, and accepts it. */
static void receive(teivorm_conn *conn, const teivorm_event *message, struct receiver *r)
{
    if (message->payload_len > r->room_len) {
        free(r->room);
        r->room_len = message->payload_len;
        r->room = malloc(r->room_len);
        if (r->room == NULL) exit(1);
    }
    r->bytes += teivorm_payload(conn, 0, r->room, r->room_len < message->payload_len ? r->room_len : message->payload_len);
    accept_message(conn, message, ++r->taken);
}

static void act(teivorm_conn *conn, const teivorm_event *event, void *more)
{
    struct receiver *r = more;
    teivorm_event taken;
    begin_in_turn(conn, event, r->connects);
    if (r->connects && event->frame == TEIVORM_FRAME_BEGIN) must("attach", teivorm_attach(conn, "receiver", TEIVORM_RECEIVER, "q", "", NULL, NULL));
    if (event->kind == TEIVORM_OFFERED) must("answer", teivorm_answer(conn, event->link, "", "q", NULL, NULL));
    if (event->kind == TEIVORM_OFFERED || event->kind == TEIVORM_ATTACHED)
        must("grant", teivorm_grant(conn, event->link, CREDIT, false, false, NULL));
    if (event->kind == TEIVORM_READY)
        while (teivorm_take(conn, event->link, &taken) == TEIVORM_DONE) receive(conn, &taken, r);
    if (r->connects && r->taken == r->count && teivorm_phase(conn) == TEIVORM_RUNNING) must("close", teivorm_close(conn, NULL, NULL));
}

int main(int argc, char **argv)
{
    if (argc != 4) return 2;
    struct receiver r = { .connects = argv[1][0] == 'c', .count = (uint32_t)strtoul(argv[3], NULL, 10) };
    teivorm_conn conn = TEIVORM_NONE;
    must("new", teivorm_new(&conn, "c-receiver", "localhost", NULL));
    run(&conn, open_socket(argv[1], atoi(argv[2])), act, &r);
    printf("taken %u bytes %llu\n", r.taken, (unsigned long long)r.bytes);
    teivorm_free(&conn);
    free(r.room);
    return r.taken == r.count ? 0 : 1;
}

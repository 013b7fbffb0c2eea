/* send connect|listen PORT COUNT SIZE: sends messages of so many bytes to the address `q`, waits until the peer accepted each, and closes. */
#include "drive.h"

struct sender {
    bool connects;
    uint32_t link, count, sent, accepted;
    uint8_t *message; /* `len` bytes, of which `at` were sent of the message that is unfinished */
    size_t len, at;
};

/* Returns an AMQP message of one data section (part 3, 3.2.6). */
static uint8_t *message_of(size_t size)
{
    uint8_t head[8] = { 0, 0x53, 0x75, 0xb0, (uint8_t)(size >> 24), (uint8_t)(size >> 16), (uint8_t)(size >> 8), (uint8_t)size };
    uint8_t *message = malloc(size + sizeof head);
    if (message == NULL) exit(1);
    memcpy(message, head, sizeof head);
    memset(message + sizeof head, 'x', size);
    return message;
}

/* Sends a message, or a part of it if it does not fit in a frame of the peer. Returns whether the peer allows it now. */
static bool send_part(teivorm_conn *conn, struct sender *s)
{
    size_t left = s->len - s->at, room = teivorm_peer_max_frame(conn) - 100, len = left < room ? left : room;
    uint32_t result = s->at == 0 ? teivorm_start(conn, s->link, &s->sent, sizeof s->sent, s->message, len, false, len < left, NULL)
                                 : teivorm_carry(conn, s->link, s->message + s->at, len, len < left, NULL);
    if (teivorm_would_block(result)) return false;
    must("send", result);
    s->at += len;
    if (s->at == s->len) {
        s->at = 0;
        s->sent++;
    }
    return true;
}

static void act(teivorm_conn *conn, const teivorm_event *event, void *more)
{
    struct sender *s = more;
    begin_in_turn(conn, event, s->connects);
    if (s->connects && event->frame == TEIVORM_FRAME_BEGIN) must("attach", teivorm_attach(conn, "sender", TEIVORM_SENDER, "", "q", NULL, NULL));
    if (event->kind == TEIVORM_OFFERED) must("answer", teivorm_answer(conn, event->link, "q", "", NULL, NULL));
    if (event->kind == TEIVORM_OFFERED || event->kind == TEIVORM_ATTACHED) s->link = event->link;
    if (event->frame == TEIVORM_FRAME_FLOW || event->kind == TEIVORM_OFFERED)
        while (s->sent < s->count && send_part(conn, s)) {}
    if (event->frame == TEIVORM_FRAME_DISPOSITION) s->accepted += newly_accepted(conn, s->link);
    if (s->accepted == s->count && event->phase == TEIVORM_RUNNING) must("close", teivorm_close(conn, NULL, NULL));
}

int main(int argc, char **argv)
{
    if (argc != 5) return 2;
    size_t size = strtoul(argv[4], NULL, 10);
    struct sender s = { .connects = argv[1][0] == 'c', .count = (uint32_t)strtoul(argv[3], NULL, 10), .message = message_of(size), .len = size + 8 };
    teivorm_conn conn = TEIVORM_NONE;
    must("new", teivorm_new(&conn, "c-sender", "localhost", NULL));
    run(&conn, open_socket(argv[1], atoi(argv[2])), act, &s);
    printf("sent %u accepted %u\n", s.sent, s.accepted);
    teivorm_free(&conn);
    free(s.message);
    return s.accepted == s.count ? 0 : 1;
}

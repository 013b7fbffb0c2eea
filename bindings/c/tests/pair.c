/* pair COUNT SIZE: two connections in one process; one sends COUNT messages of SIZE bytes, the other takes and accepts them. */
#include "teivorm.h"
#include <stdio.h>
#include <stdlib.h>

struct run {
    uint32_t count, sent, taken, learned;
    size_t size;
    uint8_t *body, *room;
    bool is_attached;
};

static void must(const char *what, uint32_t result)
{
    if (result == TEIVORM_DONE) return;
    fprintf(stderr, "%s: result %u\n", what, result);
    exit(1);
}

/* What the end that takes does. */
static void take(teivorm_conn *conn, const teivorm_event *event, struct run *r)
{
    teivorm_event message;
    if (event->frame == TEIVORM_FRAME_BEGIN) must("begin", teivorm_begin(conn, NULL));
    if (event->kind == TEIVORM_OFFERED) {
        must("answer", teivorm_answer(conn, event->link, "", "q", NULL, NULL));
        must("grant", teivorm_grant(conn, event->link, 100, false, false, NULL));
    }
    if (event->kind != TEIVORM_READY) return;
    must("take", teivorm_take(conn, event->link, &message));
    if (message.payload_len != r->size || teivorm_payload(conn, 0, r->room, r->size) != r->size || memcmp(r->room, r->body, r->size) != 0) exit(1);
    must("accept", teivorm_accept(conn, message.id));
    if (++r->taken % 50 == 0) must("grant", teivorm_grant(conn, event->link, 100, false, false, NULL));
}

/* What the end that sends does. */
static void give(teivorm_conn *conn, const teivorm_event *event, struct run *r)
{
    if (event->frame == TEIVORM_FRAME_BEGIN) must("attach", teivorm_attach(conn, "l", TEIVORM_SENDER, "", "q", NULL, NULL));
    if (event->kind == TEIVORM_ATTACHED) r->is_attached = true;
}

static void pass(teivorm_conn *from, teivorm_conn *to, struct run *r, void (*act)(teivorm_conn *, const teivorm_event *, struct run *))
{
    static uint8_t room[65536];
    size_t len, used;
    teivorm_event event;
    while ((len = teivorm_write(from, room, sizeof room)) > 0)
        for (size_t at = 0; at < len; at += used) {
            must("feed", teivorm_feed(to, room + at, len - at, &used, &event));
            act(to, &event, r);
        }
}

int main(int argc, char **argv)
{
    if (argc != 3) return 2;
    struct run r = { .count = (uint32_t)atol(argv[1]), .size = (size_t)atol(argv[2]) };
    teivorm_conn a = TEIVORM_NONE, b = TEIVORM_NONE;
    const teivorm_settings settings = { .max_frame = 1 << 20 };
    r.body = malloc(r.size + 1);
    r.room = malloc(r.size + 1);
    if (r.body == NULL || r.room == NULL) return 1;
    memset(r.body, 'x', r.size);
    must("new", teivorm_new(&a, "a", "localhost", &settings));
    must("new", teivorm_new(&b, "b", NULL, &settings));
    while (r.learned < r.count) {
        pass(&a, &b, &r, take);
        pass(&b, &a, &r, give);
        teivorm_begin(&a, NULL);
        while (r.is_attached && teivorm_learn(&a, 0, NULL) == TEIVORM_DONE) r.learned++;
        while (r.is_attached && r.sent < r.count) {
            uint32_t result = teivorm_start(&a, 0, &r.sent, sizeof r.sent, r.body, r.size, false, false, NULL);
            if (teivorm_would_block(result)) break;
            must("start", result);
            r.sent++;
        }
        teivorm_forget(&a);
        teivorm_forget(&b);
    }
    printf("sent %u taken %u learned %u\n", r.sent, r.taken, r.learned);
    teivorm_free(&a);
    teivorm_free(&b);
    free(r.body);
    free(r.room);
    return 0;
}

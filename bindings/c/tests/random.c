/* random SEED CALLS: calls of every kind with arguments of every kind, on two connections that pass each other bytes, which are sometimes spoilt, while
 * allocations fail at times. Every argument is a block of its own of just the length that is passed, so the address sanitizer sees what is outside. */
#include "teivorm.h"
#include <stdio.h>
#include <stdlib.h>

static uint64_t state;

static uint32_t any(uint32_t below)
{
    state = state * 6364136223846793005u + 1442695040888963407u;
    return (uint32_t)((state >> 33) % below);
}

/* In place of heap.c: one allocation of `refuses` fails. */
struct block {
    bool ok;
    void *at;
};
struct block rattle_alloc(size_t size, size_t align);
struct block rattle_realloc(void *at, size_t kept, size_t size, size_t align);
void rattle_dealloc(void *at);

static uint32_t refuses;
static char no_block;

static bool fails(void)
{
    return refuses != 0 && any(refuses) == 0;
}

static struct block block_at(void *at)
{
    return (struct block){ at != NULL, at != NULL ? at : &no_block };
}

struct block rattle_alloc(size_t size, size_t align)
{
    return block_at(fails() ? NULL : malloc(size != 0 ? size : align));
}

struct block rattle_realloc(void *at, size_t kept, size_t size, size_t align)
{
    (void)kept;
    return block_at(fails() ? NULL : realloc(at, size != 0 ? size : align));
}

void rattle_dealloc(void *at)
{
    free(at);
}

/* A block of so many random bytes; NULL now and then if it has none. */
static uint8_t *bytes(size_t len)
{
    if (len == 0 && any(2) == 0) return NULL;
    uint8_t *at = malloc(len != 0 ? len : 1);
    if (at == NULL) exit(2);
    for (size_t i = 0; i < len; i++) at[i] = (uint8_t)any(256);
    return at;
}

static size_t length(void)
{
    static const size_t lengths[] = { 0, 1, 2, 8, 31, 32, 33, 100, 600, 5000 };
    return lengths[any(10)];
}

/* Random text as a C string, or a condition that the standard has. */
static char *text(void)
{
    size_t len = any(4) != 0 ? any(4) : any(300);
    char *at = (char *)bytes(len + 1);
    for (size_t i = 0; i < len; i++) at[i] = (char)(any(20) == 0 ? 128 + any(128) : 1 + any(126));
    at[len] = '\0';
    return at;
}

static unsigned long long counts[6];

static uint32_t count(uint32_t result)
{
    counts[result == 0 ? 0 : result < 256 ? 1 : result / 256 + 1]++;
    return result;
}

static void check(bool is_right, const char *what)
{
    if (is_right) return;
    fprintf(stderr, "wrong: %s\n", what);
    abort();
}

/* Copies bytes that a connection lends, as many as fit. */
static size_t borrow(teivorm_conn *from, uint8_t *room, size_t room_len)
{
    const uint8_t *at;
    size_t len = teivorm_unit(from, &at);
    if (len > room_len) len = room_len;
    if (len > 0) memcpy(room, at, len);
    count(teivorm_wrote(from, len));
    return len;
}

/* Reads what is lent of the message that was taken last. */
static void look(teivorm_conn *conn)
{
    const uint8_t *at;
    uint64_t from = any(2) ? 0 : any(6000), sum = 0;
    for (size_t len; (len = teivorm_payload_at(conn, from, &at)) > 0; from += len)
        for (size_t i = 0; i < len; i++) sum += at[i];
    check(sum <= from * 255, "payload_at");
}

/* Passes bytes from one connection to the other, in random pieces. One of 4000 passes spoils a bit. */
static void pass(teivorm_conn *from, teivorm_conn *to)
{
    size_t room_len = 1 + any(2000), at = 0, used;
    uint8_t *room = bytes(room_len);
    teivorm_event event;
    size_t len = any(2) ? teivorm_write(from, room, room_len) : borrow(from, room, room_len);
    check(len <= room_len, "write");
    if (len > 0 && any(4000) == 0) room[any((uint32_t)len)] ^= (uint8_t)(1u << any(8));
    while (at < len) {
        size_t piece = 1 + any((uint32_t)(len - at));
        uint8_t *part = malloc(piece);
        if (part == NULL) exit(2);
        memcpy(part, room + at, piece);
        uint32_t result = count(teivorm_feed(to, part, piece, &used, any(10) != 0 ? &event : NULL));
        free(part);
        check(used <= piece, "feed");
        if (result == (uint32_t)TEIVORM_FAULT + TEIVORM_FAULT_NO_MEMORY) {
            refuses = 0; /* nothing has changed: the same bytes again, now that there is memory */
            continue;
        }
        if (result != TEIVORM_DONE) break;
        at += used;
    }
    free(room);
}

static void restart(teivorm_conn *conn)
{
    const teivorm_settings settings = { any(3) ? 0 : any(70000), any(3) ? 0 : any(70), any(3) ? 0 : any(3000), any(2) ? 0 : 4294967290u, any(2) };
    char *name = text(), *host = text();
    if (any(9) != 0) count(teivorm_new(conn, "ab", any(2) ? "h" : NULL, any(9) ? &settings : NULL));
    else count(teivorm_new(conn, name, host, &settings));
    free(name);
    free(host);
}

static void attach(teivorm_conn *conn, bool is_first, uint32_t link)
{
    const teivorm_link_settings settings = { (uint8_t)any(4), (uint8_t)any(3), any(2) ? 0 : any(4294967295u), any(2) ? 0 : any(10000) };
    char *name = text(), *address = text();
    if (any(4) == 0) count(teivorm_answer(conn, link, address, "q", any(2) ? &settings : NULL, NULL));
    else if (any(9) != 0) count(teivorm_attach(conn, "l", !is_first, NULL, any(2) ? "q" : "", any(9) ? NULL : &settings, NULL));
    else count(teivorm_attach(conn, name, any(3), address, name, &settings, NULL));
    free(name);
    free(address);
}

static void dispose(teivorm_conn *conn)
{
    const teivorm_outcome outcome = { any(8), any(2) ? 0 : any(100), any(1000), any(2) != 0, any(2) != 0 };
    char *condition = any(2) ? NULL : text(), *description = any(2) ? NULL : text();
    count(teivorm_dispose(conn, any(3), any(200), any(200), any(2), any(9) ? &outcome : NULL, condition, description, NULL));
    free(condition);
    free(description);
}

static void end(teivorm_conn *conn, uint32_t link, uint32_t how)
{
    char *condition = any(2) ? NULL : text(), *description = any(2) ? NULL : text();
    if (how == 0) count(teivorm_close(conn, condition, description));
    else if (how == 1) count(teivorm_end(conn, condition, description, NULL));
    else count(teivorm_detach(conn, link, condition, description, NULL));
    free(condition);
    free(description);
}

static void read_all(teivorm_conn *conn, uint32_t link, uint8_t *room, size_t room_len)
{
    teivorm_conn_status status;
    teivorm_link_status link_status;
    check(teivorm_phase(conn) <= 5, "phase");
    check(teivorm_status(conn, any(9) ? &status : NULL) <= 2, "status");
    check(teivorm_link(conn, link, any(9) ? &link_status : NULL) <= 2, "link");
    if (teivorm_text(conn, any(13), link, (char *)room, room_len) > 0 && room_len > 0) check(memchr(room, 0, room_len) != NULL, "text");
}

/* What is done after a connection was lost, also when none was. */
static void come_back(teivorm_conn *conn, teivorm_conn *other, uint32_t link, const uint8_t *tag, size_t tag_len)
{
    teivorm_event event;
    switch (any(5)) {
    case 0: if (any(50) == 0) count(teivorm_suspend(conn, link, &event)); break;
    case 1: count(teivorm_rejoin(conn, any(9) ? other : conn, any(3), any(3), any(2) ? "q" : NULL, any(2) ? "q" : NULL, NULL, &event)); break;
    case 2: count(teivorm_resume(conn, link, tag, tag_len, any(2), &event)); break;
    case 3:
        if (count(teivorm_waiting(conn, link, any(3), &event)) != TEIVORM_DONE) break;
        check(event.tag_len <= 32, "waiting");
        count(teivorm_resume(conn, link, event.tag, event.tag_len, any(2), NULL));
        break;
    default: count(teivorm_left(conn, &event)); break;
    }
}

static void call(teivorm_conn *conn, teivorm_conn *other, bool is_first)
{
    teivorm_event event;
    size_t len = length(), tag_len = length(), used;
    uint8_t *some = bytes(len), *tag = bytes(tag_len);
    uint32_t link = any(8) ? 0 : any(2) ? 1 : any(4000000000u), result;
    switch (any(34)) {
    case 0: if (teivorm_phase(conn) == TEIVORM_NO_PHASE || teivorm_phase(conn) == TEIVORM_CLOSED || any(3000) == 0) restart(conn); break;
    case 1: if (any(3000) == 0) teivorm_free(conn); break;
    case 2: if (any(2000) == 0) { count(teivorm_feed(conn, some, len, &used, &event)); check(used <= len, "feed"); } break;
    case 3: if (any(3000) == 0) count(teivorm_lost(conn)); break;
    case 4: if (any(500) == 0) end(conn, link, any(3)); break;
    case 5: count(teivorm_forget(conn)); break;
    case 6: count(teivorm_begin(conn, &event)); break;
    case 7: attach(conn, is_first, link); break;
    case 8: case 9: case 10: count(teivorm_start(conn, link, tag, tag_len > 32 && any(9) ? 4 : tag_len, some, len, any(2), any(6) == 0, &event)); break;
    case 11: count(teivorm_carry(conn, link, some, len, any(3) == 0, NULL)); break;
    case 12: count(teivorm_grant(conn, link, any(2) ? 100 : any(4294967295u), any(9) == 0, any(9) == 0, &event)); break;
    case 13: dispose(conn); break;
    case 14: count(teivorm_learn(conn, link, &event)); break;
    case 15: case 16:
        result = count(teivorm_take(conn, link, &event));
        check(result != 0 || (event.kind == TEIVORM_TAKEN && event.tag_len <= 32), "take");
        break;
    case 17: check(teivorm_payload(conn, any(2) ? 0 : any(6000), some, len) <= len, "payload"); break;
    case 18: read_all(conn, link, some, len); break;
    case 19: count(teivorm_abort(conn, link, NULL)); break;
    case 20: count(teivorm_offer(conn, link, any(100), NULL)); break;
    case 21: count(teivorm_drained(conn, link, NULL)); break;
    case 22: look(conn); break;
    case 23: come_back(conn, other, link, tag, tag_len > 32 ? 4 : tag_len); break;
    case 24: count(any(2) ? teivorm_refresh(conn, any(2), NULL) : teivorm_beat(conn, NULL)); break;
    default: pass(conn, other); break;
    }
    free(some);
    free(tag);
}

int main(int argc, char **argv)
{
    if (argc != 3) return 2;
    teivorm_conn conns[2] = { TEIVORM_NONE, TEIVORM_NONE };
    long calls = atol(argv[2]);
    state = (uint64_t)atoll(argv[1]);
    for (long i = 0; i < calls; i++) {
        uint32_t one = any(2);
        refuses = any(3) ? 0 : 2 + any(200);
        call(any(1000) == 0 ? NULL : &conns[one], &conns[1 - one], one == 0);
    }
    for (int i = 0; i < 3; i++) teivorm_free(&conns[i % 2]);
    printf("done %llu, bad or none %llu, refused %llu, faults %llu, not started %llu, not closed %llu\n", counts[0], counts[1], counts[2], counts[3], counts[4],
           counts[5]);
    return 0;
}

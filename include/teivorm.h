/* teivorm.h: one end of an AMQP 1.0 connection, as a library without input and output.
 *
 * The program owns the socket. It feeds the bytes that it reads to a connection, and writes the bytes that the connection makes. Nothing blocks, starts a
 * thread, calls back, or keeps global state. One connection has one session and any number of links. SASL and TLS are the program's own layers.
 *
 *     teivorm_conn c = TEIVORM_NONE;
 *     teivorm_settings settings = {0};
 *     teivorm_new(&c, "my-id", "broker.example", &settings);
 *     for (;;) {
 *         while ((n = teivorm_write(&c, room, sizeof room)) > 0) send_all(fd, room, n);
 *         if (teivorm_phase(&c) == TEIVORM_CLOSED) break;
 *         if ((n = read(fd, bytes, sizeof bytes)) <= 0) { teivorm_lost(&c); break; }
 *         for (at = 0; at < n && teivorm_phase(&c) != TEIVORM_CLOSED; at += used) {
 *             if (teivorm_feed(&c, bytes + at, n - at, &used, &event) != TEIVORM_DONE) break;
 *             act(&c, &event);      // begin, attach, start, grant, take, dispose, learn, close
 *         }
 *         teivorm_forget(&c);
 *     }
 *     teivorm_free(&c);
 *
 * Results. Each function that can fail returns a uint32_t: TEIVORM_DONE, or why nothing was done. A call that is not done has changed nothing, except a
 * feed that reports a fault: it has closed the connection (unless the fault is TEIVORM_FAULT_NO_MEMORY). `teivorm_would_block` says which refusals pass
 * when the peer's next frames arrive.
 *
 * Ownership. The program owns each array and struct that it passes; the library keeps no pointer to them after the call. The library owns the
 * connection behind a teivorm_conn until teivorm_free. Two functions lend bytes of the library's: teivorm_unit and teivorm_payload_at.
 *
 * The program promises, and nothing checks:
 *   - a pointer is valid for its length during the call, and what a call writes overlaps nothing else that is passed. NULL is safe: for a connection it
 *     counts as none, for an event as not wanted, for bytes as none if the length is 0;
 *   - a teivorm_conn is all zero at first, is written by these functions alone, and is used at one address only: a copy of it must not be used as well;
 *   - at most one thread at a time uses a connection. It may move between threads, and different connections are independent. Signal handlers use none;
 *   - malloc, realloc and free (or what replaces them, see heap.c) align to 16 bytes.
 *
 * Sections named below are those of part 2 of the OASIS AMQP 1.0 standard. Lengths are in bytes. Texts are C strings in UTF-8; NULL counts as the empty
 * one. A `teivorm_event *` may be NULL; what it points to has a meaning only if the call returned TEIVORM_DONE.
 */
#ifndef TEIVORM_H
#define TEIVORM_H

#include <stdbool.h>
#include <stddef.h>
#include <stdint.h>
#include <string.h>

#ifdef __cplusplus
extern "C" {
#define TEIVORM_ASSERT static_assert
#else
#define TEIVORM_ASSERT _Static_assert
#endif

/* ---- Types ---- */

/* A connection; all zero if there is none. The members belong to the library. */
typedef struct {
    void *at_;
    bool live_;
} teivorm_conn;
#define TEIVORM_NONE { NULL, false }

/* Settings of a connection. A field that is 0 stands for the default. */
typedef struct {
    uint32_t max_frame;     /* longest frame that we accept, at least 512; default 65536 */
    uint32_t window;        /* transfers that the peer may send before we renew the window, at most 2^31-1; default 2048 */
    uint32_t journal_limit; /* steps that the connection can make in its life, at most 2^30; default 2^30 */
    uint32_t first_id;      /* id of our first transfer and first delivery; default 0 */
    uint32_t idle_time_out; /* idle time-out that we announce, in milliseconds; default none */
} teivorm_settings;

/* Settings of a link, in the standard's numbers: 0 is a value, so start from TEIVORM_LINK_DEFAULTS. */
typedef struct {
    uint8_t snd;          /* sender's settle mode: 0 unsettled, 1 settled, 2 mixed (2.8.2) */
    uint8_t rcv;          /* receiver's settle mode: 0 first, 1 second (2.8.3) */
    uint32_t count;       /* a sender's initial delivery-count */
    uint64_t max_message; /* longest message that we accept, 0 for no limit */
} teivorm_link_settings;
#define TEIVORM_LINK_DEFAULTS { 2, 0, 0, 0 }

/* The state that teivorm_dispose gives to deliveries (part 3, 3.4). */
typedef struct {
    uint32_t state;          /* enum teivorm_state, but not TEIVORM_OTHER */
    uint32_t section_number; /* of TEIVORM_RECEIVED */
    uint64_t section_offset; /* of TEIVORM_RECEIVED */
    bool delivery_failed;    /* of TEIVORM_MODIFIED */
    bool undeliverable_here; /* of TEIVORM_MODIFIED */
} teivorm_outcome;

enum teivorm_role { TEIVORM_SENDER = 0, TEIVORM_RECEIVER = 1 };

enum teivorm_conn_phase {
    TEIVORM_NO_PHASE = 0,     /* there is no connection */
    TEIVORM_AWAIT_HEADER = 1, /* the peer's protocol header has not arrived */
    TEIVORM_AWAIT_OPEN = 2,   /* the peer's open has not arrived */
    TEIVORM_RUNNING = 3,      /* the only phase in which the session and its links can be used */
    TEIVORM_CLOSING = 4,      /* our close is on its way */
    TEIVORM_CLOSED = 5        /* the end: what still waits may be written, nothing more is read */
};

enum teivorm_state {
    TEIVORM_NO_STATE = 0,
    TEIVORM_RECEIVED = 1,
    TEIVORM_ACCEPTED = 2,
    TEIVORM_REJECTED = 3,
    TEIVORM_RELEASED = 4,
    TEIVORM_MODIFIED = 5,
    TEIVORM_OTHER = 6 /* a state that part 3 of the standard does not define */
};

/* What a step did, and which fields of the event it fills. */
enum teivorm_kind {
    TEIVORM_NOTHING = 0,
    TEIVORM_LINK = 1,      /* our attach was sent: link */
    TEIVORM_OFFERED = 2,   /* the peer offers a link, which teivorm_answer answers: link */
    TEIVORM_ATTACHED = 3,  /* the peer answered our attach: link */
    TEIVORM_GONE = 4,      /* the link is detached at both ends: link */
    TEIVORM_DELIVERY = 5,  /* a delivery was begun: id */
    TEIVORM_READY = 6,     /* a whole message waits for teivorm_take: link, id */
    TEIVORM_TAKEN = 7,     /* a message was taken: link, id, tag, tag_len, payload_len, format, settled, second */
    TEIVORM_LEARNED = 8,   /* what became of a message that we sent: link, id, tag, tag_len, state, settled */
    TEIVORM_SUSPENDED = 9, /* we put a link aside */
    TEIVORM_PARTED = 10,   /* the peer put a link aside, and it is gone: link */
    TEIVORM_RESUMED = 11,  /* a delivery was resumed: id (UINT32_MAX if nothing was sent), verdict, state */
    TEIVORM_WAITING = 12   /* a delivery waits to be resumed: link, tag, tag_len, verdict */
};

/* What the peer has of a delivery that waits to be resumed (2.6.13). */
enum teivorm_verdict {
    TEIVORM_UNCLEAR = 0, /* not known yet: it cannot be resumed */
    TEIVORM_ABSENT = 1,  /* it never arrived, or is settled: resuming sends nothing, and it can be sent anew if it may come twice */
    TEIVORM_PARTIAL = 2, /* a part arrived: resuming aborts it, and it can be sent anew */
    TEIVORM_HELD = 3,    /* it arrived */
    TEIVORM_DECIDED = 4  /* it arrived, and has an outcome */
};

/* The frame of the peer that a feed has processed. An open and a close are seen by the phase: TEIVORM_RUNNING, TEIVORM_CLOSED. */
enum teivorm_frame {
    TEIVORM_FRAME_NONE = 0,
    TEIVORM_FRAME_BEGIN = 2,
    TEIVORM_FRAME_ATTACH = 3,
    TEIVORM_FRAME_FLOW = 4,        /* credit or window changed: teivorm_start may succeed now */
    TEIVORM_FRAME_TRANSFER = 5,
    TEIVORM_FRAME_DISPOSITION = 6, /* teivorm_learn may have something now */
    TEIVORM_FRAME_DETACH = 7,
    TEIVORM_FRAME_END = 8          /* the session has ended, and with it all links */
};
#define TEIVORM_NO_HANDLE UINT32_MAX

/* What a call did. `kind` says which fields are set; the others are 0. */
typedef struct {
    uint32_t kind;        /* enum teivorm_kind */
    uint32_t link;        /* number of the link */
    uint32_t id;          /* delivery id */
    uint32_t state;       /* enum teivorm_state */
    uint32_t violation;   /* feed: number of the peer's violation that this feed answered; 0 if none */
    uint32_t frame;       /* feed: enum teivorm_frame */
    uint32_t phase;       /* enum teivorm_conn_phase, after the call */
    uint32_t handle;      /* feed, flow: the peer's handle of the link, or TEIVORM_NO_HANDLE if the flow is the session's */
    uint32_t format;      /* message-format (2.8.11) */
    uint32_t verdict;     /* enum teivorm_verdict */
    uint32_t tag_len;     /* length of `tag` */
    uint64_t payload_len; /* length of the message */
    uint8_t tag[32];
    bool settled;
    bool second;          /* the receiver settles second (2.8.3) */
    bool stepped;         /* the call was a step: one less of journal_limit is left */
} teivorm_event;

/* How a connection stands. */
typedef struct {
    uint32_t phase;              /* enum teivorm_conn_phase */
    uint32_t steps_left;         /* how many more steps the connection can make */
    uint32_t next_in;            /* id of the next transfer from the peer, if it has begun */
    uint32_t incoming;           /* transfers that the peer may still send (2.5.6) */
    uint32_t next_out;           /* id of our next transfer */
    uint32_t remote_in;          /* transfers that the peer still accepts */
    uint32_t next_delivery;      /* id of our next delivery */
    uint32_t peer_max_frame;     /* longest frame that the peer accepts; 0 before its open */
    uint32_t peer_idle_time_out; /* in milliseconds; 0 for none */
    uint64_t units;              /* frames that wait to be written */
    uint64_t octets;             /* their length */
    uint64_t unwritten;          /* length of the rest of the frame that is being written */
    uint64_t sent_unsettled;     /* unsettled deliveries that we sent */
    uint64_t received_unsettled; /* unsettled deliveries that we received */
    bool begun;                  /* the peer has begun its session */
} teivorm_conn_status;

/* How a link stands (2.6). */
typedef struct {
    uint32_t role;             /* enum teivorm_role: of our end */
    uint32_t phase;            /* 1 our attach was sent, 2 the peer offers it, 3 attached, 4 our detach was sent */
    uint32_t count;            /* delivery-count */
    uint32_t credit;           /* messages that may still be sent, by us or by the peer */
    uint32_t peer_handle;      /* as `handle` of an event; TEIVORM_NO_HANDLE before the peer's attach */
    uint64_t ready;            /* messages that wait for teivorm_take */
    uint64_t peer_max_message; /* longest message that the peer accepts; 0 for no limit */
    uint64_t max_message;      /* longest message that we accept; 0 for no limit */
    uint8_t snd;               /* settle modes, as in teivorm_link_settings */
    uint8_t rcv;
    bool drain;                /* sender: the peer drains the link; receiver: a drain of ours is not finished */
    bool mid;                  /* a message is unfinished */
} teivorm_link_status;

TEIVORM_ASSERT(sizeof(teivorm_conn) == 16, "teivorm_conn: not the layout of the library");
TEIVORM_ASSERT(sizeof(teivorm_settings) == 20, "teivorm_settings: not the layout of the library");
TEIVORM_ASSERT(sizeof(teivorm_link_settings) == 16, "teivorm_link_settings: not the layout of the library");
TEIVORM_ASSERT(sizeof(teivorm_outcome) == 24, "teivorm_outcome: not the layout of the library");
TEIVORM_ASSERT(sizeof(teivorm_event) == 96, "teivorm_event: not the layout of the library");
TEIVORM_ASSERT(sizeof(teivorm_conn_status) == 88, "teivorm_conn_status: not the layout of the library");
TEIVORM_ASSERT(sizeof(teivorm_link_status) == 56, "teivorm_link_status: not the layout of the library");

/* ---- Results ---- */

/* TEIVORM_REFUSED, _FAULT, _NOT_STARTED and _NOT_CLOSED stand for themselves plus a number of the enums below. */
enum teivorm_result {
    TEIVORM_DONE = 0,
    TEIVORM_NO_CONNECTION = 1, /* the teivorm_conn is empty */
    TEIVORM_BAD_ARGUMENT = 2,  /* NULL with a length, text that is not UTF-8, a tag longer than 32 bytes, a number out of its range */
    TEIVORM_NO_MEMORY = 3,
    TEIVORM_REFUSED = 256,     /* + enum teivorm_refusal: the session does not allow it now */
    TEIVORM_FAULT = 512,       /* + enum teivorm_fault: teivorm_feed */
    TEIVORM_NOT_STARTED = 768, /* + 1: a setting is out of its limits; + 2: out of memory: teivorm_new */
    TEIVORM_NOT_CLOSED = 1024  /* + 1: the connection is not running; + 2: the error cannot be written; + 3: frame too big; + 4: out of memory */
};

enum teivorm_refusal {
    TEIVORM_REFUSAL_NOT_RUNNING = 1,       /* the connection is not running */
    TEIVORM_REFUSAL_JOURNAL_FULL = 2,      /* journal_limit steps were made */
    TEIVORM_REFUSAL_ALREADY_BEGUN = 3,
    TEIVORM_REFUSAL_NOT_MAPPED = 4,        /* the session has not begun at both ends, or has ended */
    TEIVORM_REFUSAL_NO_LINK = 5,
    TEIVORM_REFUSAL_NOT_ATTACHED = 6,
    TEIVORM_REFUSAL_WRONG_ROLE = 7,
    TEIVORM_REFUSAL_NAME_IN_USE = 8,
    TEIVORM_REFUSAL_HANDLE_LIMIT = 9,      /* the peer allows no more links */
    TEIVORM_REFUSAL_IN_DELIVERY = 10,      /* a message is unfinished on the link */
    TEIVORM_REFUSAL_NOT_IN_DELIVERY = 11,  /* no message is unfinished on the link */
    TEIVORM_REFUSAL_TAG_HELD = 12,         /* an unsettled delivery of the link has this tag */
    TEIVORM_REFUSAL_SETTLE_MODE = 13,
    TEIVORM_REFUSAL_NO_CREDIT = 14,
    TEIVORM_REFUSAL_NO_WINDOW = 15,
    TEIVORM_REFUSAL_MESSAGE_TOO_LONG = 16,
    TEIVORM_REFUSAL_BAD_CREDIT = 17,       /* more than 2^31-1 */
    TEIVORM_REFUSAL_CREDIT_RECEDES = 18,   /* less than the credit that the peer has now */
    TEIVORM_REFUSAL_DRAINING = 19,
    TEIVORM_REFUSAL_NOT_DRAINING = 20,
    TEIVORM_REFUSAL_BAD_RANGE = 21,        /* the ids run backwards */
    TEIVORM_REFUSAL_NOTHING_HELD = 22,     /* no unsettled delivery has such an id */
    TEIVORM_REFUSAL_MUST_NOT_SETTLE = 23,  /* the sender settles first on this link */
    TEIVORM_REFUSAL_OUTCOME_FIXED = 24,    /* the delivery has another outcome already */
    TEIVORM_REFUSAL_NOTHING = 25,          /* nothing to take or to learn */
    TEIVORM_REFUSAL_NOT_WRITABLE = 26,     /* no frame can say this, for example a mode that does not exist */
    TEIVORM_REFUSAL_FRAME_TOO_BIG = 27,    /* longer than the peer's frames: send it in parts */
    TEIVORM_REFUSAL_NO_MEMORY = 28,
    TEIVORM_REFUSAL_NOT_WAITING = 29,      /* no delivery with this tag waits to be resumed */
    TEIVORM_REFUSAL_UNCLEAR = 30,          /* it is not known yet what the peer has of the delivery */
    TEIVORM_REFUSAL_TAG_TWICE = 31
};

enum teivorm_fault {
    TEIVORM_FAULT_BAD_HEADER = 1,   /* the peer does not speak AMQP 1.0 (or wants SASL first) */
    TEIVORM_FAULT_FRAMING = 2,      /* the bytes are no frame */
    TEIVORM_FAULT_OUT_OF_PLACE = 3, /* a frame that is not allowed now */
    TEIVORM_FAULT_BAD_CHANNEL = 4,
    TEIVORM_FAULT_JOURNAL_FULL = 5,
    TEIVORM_FAULT_CLOSED = 6,       /* the connection had closed before */
    TEIVORM_FAULT_NO_MEMORY = 7     /* nothing has changed: feed the same bytes again */
};

/* Returns whether a refusal can pass without another call of ours: the peer's next frames may bring the open, the begin, the attach, credit, window, or
 * something to take or to learn. Try again after a feed. */
static inline bool teivorm_would_block(uint32_t result)
{
    switch (result - (uint32_t)TEIVORM_REFUSED) {
    case TEIVORM_REFUSAL_NOT_RUNNING:
    case TEIVORM_REFUSAL_NOT_MAPPED:
    case TEIVORM_REFUSAL_NOT_ATTACHED:
    case TEIVORM_REFUSAL_NO_CREDIT:
    case TEIVORM_REFUSAL_NO_WINDOW:
    case TEIVORM_REFUSAL_NOTHING:
    case TEIVORM_REFUSAL_UNCLEAR:
        return true;
    default:
        return false;
    }
}

/* ---- The library's functions, as it exports them ----
 *
 * These take no NULL. Programs call the functions below, of the same names without `raw_`, which test for NULL and take C strings. `bindings/c/check-header`
 * compares this list with the library's sources.
 */

uint32_t teivorm_raw_new(teivorm_conn *conn, const uint8_t *name, size_t name_len, const uint8_t *host, size_t host_len, const teivorm_settings *settings);
void teivorm_raw_free(teivorm_conn *conn);
uint32_t teivorm_raw_feed(teivorm_conn *conn, const uint8_t *bytes, size_t len, size_t *used, teivorm_event *event);
size_t teivorm_raw_write(teivorm_conn *conn, uint8_t *room, size_t room_len);
size_t teivorm_raw_unit(teivorm_conn *conn, const uint8_t **at);
uint32_t teivorm_raw_wrote(teivorm_conn *conn, size_t count);
uint32_t teivorm_raw_lost(teivorm_conn *conn);
uint32_t teivorm_raw_close(teivorm_conn *conn, const uint8_t *condition, size_t condition_len, const uint8_t *description, size_t description_len);
uint32_t teivorm_raw_forget(teivorm_conn *conn);
uint32_t teivorm_raw_phase(teivorm_conn *conn);
uint32_t teivorm_raw_begin(teivorm_conn *conn, teivorm_event *event);
uint32_t teivorm_raw_attach(teivorm_conn *conn, const uint8_t *name, size_t name_len, uint32_t role, const uint8_t *source, size_t source_len,
                            const uint8_t *target, size_t target_len, const teivorm_link_settings *settings, teivorm_event *event);
uint32_t teivorm_raw_start(teivorm_conn *conn, uint32_t link, const uint8_t *tag, size_t tag_len, const uint8_t *payload, size_t payload_len, bool settled,
                           bool more, teivorm_event *event);
uint32_t teivorm_raw_carry(teivorm_conn *conn, uint32_t link, const uint8_t *payload, size_t payload_len, bool more, teivorm_event *event);
uint32_t teivorm_raw_abort(teivorm_conn *conn, uint32_t link, teivorm_event *event);
uint32_t teivorm_raw_learn(teivorm_conn *conn, uint32_t link, teivorm_event *event);
uint32_t teivorm_raw_offer(teivorm_conn *conn, uint32_t link, uint32_t available, teivorm_event *event);
uint32_t teivorm_raw_drained(teivorm_conn *conn, uint32_t link, teivorm_event *event);
uint32_t teivorm_raw_grant(teivorm_conn *conn, uint32_t link, uint32_t credit, bool drain, bool echo, teivorm_event *event);
uint32_t teivorm_raw_take(teivorm_conn *conn, uint32_t link, teivorm_event *event);
size_t teivorm_raw_payload(teivorm_conn *conn, uint64_t from, uint8_t *room, size_t room_len);
size_t teivorm_raw_payload_at(teivorm_conn *conn, uint64_t from, const uint8_t **at);
uint32_t teivorm_raw_dispose(teivorm_conn *conn, uint32_t role, uint32_t first, uint32_t last, bool settled, const teivorm_outcome *outcome,
                             const uint8_t *condition, size_t condition_len, const uint8_t *description, size_t description_len, teivorm_event *event);
uint32_t teivorm_raw_detach(teivorm_conn *conn, uint32_t link, const uint8_t *condition, size_t condition_len, const uint8_t *description,
                            size_t description_len, teivorm_event *event);
uint32_t teivorm_raw_end(teivorm_conn *conn, const uint8_t *condition, size_t condition_len, const uint8_t *description, size_t description_len,
                         teivorm_event *event);
uint32_t teivorm_raw_suspend(teivorm_conn *conn, uint32_t link, teivorm_event *event);
uint32_t teivorm_raw_rejoin(teivorm_conn *conn, teivorm_conn *lost, uint32_t role, uint32_t place, const uint8_t *source, size_t source_len,
                            const uint8_t *target, size_t target_len, const teivorm_link_settings *settings, teivorm_event *event);
uint32_t teivorm_raw_waiting(teivorm_conn *conn, uint32_t link, uint32_t place, teivorm_event *event);
uint32_t teivorm_raw_resume(teivorm_conn *conn, uint32_t link, const uint8_t *tag, size_t tag_len, bool settled, teivorm_event *event);
uint32_t teivorm_raw_left(teivorm_conn *conn, teivorm_event *event);
uint32_t teivorm_raw_refresh(teivorm_conn *conn, bool echo, teivorm_event *event);
uint32_t teivorm_raw_beat(teivorm_conn *conn, teivorm_event *event);
uint32_t teivorm_raw_status(teivorm_conn *conn, teivorm_conn_status *status);
uint32_t teivorm_raw_link(teivorm_conn *conn, uint32_t link, teivorm_link_status *status);
size_t teivorm_raw_text(teivorm_conn *conn, uint32_t what, uint32_t link, uint8_t *room, size_t room_len);

/* ---- Helpers of the functions below ---- */

static inline const uint8_t *teivorm_bytes_(const void *at)
{
    return at != NULL ? (const uint8_t *)at : (const uint8_t *)"";
}

static inline size_t teivorm_len_(const char *text)
{
    return text != NULL ? strlen(text) : 0;
}

/* ---- A connection, and its bytes ---- */

/* Starts a connection with this container id, and with the host that we want of the peer (empty: none; 2.7.1). What `conn` held before is freed. It makes the
 * protocol header and the open by itself. If the result is not TEIVORM_DONE, `conn` is as before. */
static inline uint32_t teivorm_new(teivorm_conn *conn, const char *container_id, const char *host, const teivorm_settings *settings)
{
    const teivorm_settings defaults = { 0, 0, 0, 0, 0 };
    if (conn == NULL) return TEIVORM_NO_CONNECTION;
    return teivorm_raw_new(conn, teivorm_bytes_(container_id), teivorm_len_(container_id), teivorm_bytes_(host), teivorm_len_(host),
                           settings != NULL ? settings : &defaults);
}

/* Frees the connection, if there is one; `conn` is empty then, and may be used again. */
static inline void teivorm_free(teivorm_conn *conn)
{
    if (conn != NULL) teivorm_raw_free(conn);
}

/* Returns the phase: enum teivorm_conn_phase. */
static inline uint32_t teivorm_phase(teivorm_conn *conn)
{
    return conn != NULL ? teivorm_raw_phase(conn) : (uint32_t)TEIVORM_NO_PHASE;
}

/* Processes bytes that were read from the peer, at most to the end of one frame: `used` says how many, and `event` what they did. Feed the rest again, until
 * all are used. Where reads cut the bytes makes no difference. After a fault the connection is closed, and a last close frame may wait to be written. */
static inline uint32_t teivorm_feed(teivorm_conn *conn, const void *bytes, size_t len, size_t *used, teivorm_event *event)
{
    size_t count = 0;
    uint32_t result;
    teivorm_event unused;
    if (used != NULL) *used = 0;
    if (conn == NULL) return TEIVORM_NO_CONNECTION;
    if (bytes == NULL && len != 0) return TEIVORM_BAD_ARGUMENT;
    result = teivorm_raw_feed(conn, teivorm_bytes_(bytes), len, &count, event != NULL ? event : &unused);
    if (used != NULL) *used = count;
    return result;
}

/* Copies bytes that go to the peer next into `room`, as many as fit, and returns how many: 0 if none wait. The program writes all of them, in this order. */
static inline size_t teivorm_write(teivorm_conn *conn, void *room, size_t room_len)
{
    size_t len = 0, count = 1;
    if (conn == NULL || room == NULL) return 0;
    while (len < room_len && count != 0) {
        count = teivorm_raw_write(conn, (uint8_t *)room + len, room_len - len);
        len += count;
    }
    return len;
}

/* Lends bytes that go to the peer next, without a copy: `at` is set to them, and the result says how many they are, 0 if none wait. They are one frame, or the
 * rest of one, or a part of a long one. They stay valid until the next call with this connection, which is teivorm_wrote. */
static inline size_t teivorm_unit(teivorm_conn *conn, const uint8_t **at)
{
    return conn != NULL && at != NULL ? teivorm_raw_unit(conn, at) : 0;
}

/* Says how many of the bytes that teivorm_unit lent were written. The next ones follow them. */
static inline uint32_t teivorm_wrote(teivorm_conn *conn, size_t count)
{
    return conn != NULL ? teivorm_raw_wrote(conn, count) : (uint32_t)TEIVORM_NO_CONNECTION;
}

/* Says that no more bytes will come, since the socket failed or ended. The phase is closed then. */
static inline uint32_t teivorm_lost(teivorm_conn *conn)
{
    return conn != NULL ? teivorm_raw_lost(conn) : (uint32_t)TEIVORM_NO_CONNECTION;
}

/* Closes the connection, with an error if `condition` is not empty (2.8.14). The phase is closing until the peer's close arrives. */
static inline uint32_t teivorm_close(teivorm_conn *conn, const char *condition, const char *description)
{
    if (conn == NULL) return TEIVORM_NO_CONNECTION;
    return teivorm_raw_close(conn, teivorm_bytes_(condition), teivorm_len_(condition), teivorm_bytes_(description), teivorm_len_(description));
}

/* Frees the memory of the steps so far. Call it after each read: otherwise each message stays in memory. It affects no other function but the texts
 * TEIVORM_TEXT_CONDITION and TEIVORM_TEXT_DESCRIPTION, TEIVORM_TEXT_LINK_CONDITION and those behind it, which are of steps. */
static inline uint32_t teivorm_forget(teivorm_conn *conn)
{
    return conn != NULL ? teivorm_raw_forget(conn) : (uint32_t)TEIVORM_NO_CONNECTION;
}

/* Makes an empty frame, so that the peer's idle time-out does not expire (2.4.5). The program keeps the time. */
static inline uint32_t teivorm_beat(teivorm_conn *conn, teivorm_event *event)
{
    teivorm_event unused;
    return conn != NULL ? teivorm_raw_beat(conn, event != NULL ? event : &unused) : (uint32_t)TEIVORM_NO_CONNECTION;
}

/* ---- The session and its links ---- */

/* Begins the session, or answers the peer's begin (2.5.1). The end that listens should wait for the peer's begin
 * (TEIVORM_FRAME_BEGIN): some peers take an earlier one for a second session. */
static inline uint32_t teivorm_begin(teivorm_conn *conn, teivorm_event *event)
{
    teivorm_event unused;
    return conn != NULL ? teivorm_raw_begin(conn, event != NULL ? event : &unused) : (uint32_t)TEIVORM_NO_CONNECTION;
}

/* Ends the session and all links, with an error if `condition` is not empty (2.5.2). */
static inline uint32_t teivorm_end(teivorm_conn *conn, const char *condition, const char *description, teivorm_event *event)
{
    teivorm_event unused;
    if (conn == NULL) return TEIVORM_NO_CONNECTION;
    return teivorm_raw_end(conn, teivorm_bytes_(condition), teivorm_len_(condition), teivorm_bytes_(description), teivorm_len_(description),
                           event != NULL ? event : &unused);
}

/* Attaches a link on which we have this role (enum teivorm_role), or answers the peer's attach of that name (2.6.3). An empty address is no source or no
 * target. `settings` may be NULL for the defaults. The event says the link's number. */
static inline uint32_t teivorm_attach(teivorm_conn *conn, const char *name, uint32_t role, const char *source, const char *target,
                                      const teivorm_link_settings *settings, teivorm_event *event)
{
    const teivorm_link_settings defaults = TEIVORM_LINK_DEFAULTS;
    teivorm_event unused;
    if (conn == NULL) return TEIVORM_NO_CONNECTION;
    return teivorm_raw_attach(conn, teivorm_bytes_(name), teivorm_len_(name), role, teivorm_bytes_(source), teivorm_len_(source), teivorm_bytes_(target),
                              teivorm_len_(target), settings != NULL ? settings : &defaults, event != NULL ? event : &unused);
}

/* Detaches a link for good, with an error if `condition` is not empty (2.6.6). Its unsettled deliveries are dropped. */
static inline uint32_t teivorm_detach(teivorm_conn *conn, uint32_t link, const char *condition, const char *description, teivorm_event *event)
{
    teivorm_event unused;
    if (conn == NULL) return TEIVORM_NO_CONNECTION;
    return teivorm_raw_detach(conn, link, teivorm_bytes_(condition), teivorm_len_(condition), teivorm_bytes_(description), teivorm_len_(description),
                              event != NULL ? event : &unused);
}

/* Puts a link aside: it is detached, but not for good (2.6.4). */
static inline uint32_t teivorm_suspend(teivorm_conn *conn, uint32_t link, teivorm_event *event)
{
    teivorm_event unused;
    return conn != NULL ? teivorm_raw_suspend(conn, link, event != NULL ? event : &unused) : (uint32_t)TEIVORM_NO_CONNECTION;
}

/* ---- After a connection that was lost (2.6.13) ----
 *
 * Keep the lost connection, and start another one. Once its session has begun, bring each link back by teivorm_rejoin, and when the peer has answered
 * (TEIVORM_ATTACHED) resume what waits on it; teivorm_waiting reports it. Then free the lost connection.
 */

/* Attaches a link of the connection `lost` on this one: that at this place, from 0, of the links on which we had this role, in the order in which they were
 * made. TEIVORM_BAD_ARGUMENT if there is none. The addresses and settings are as in teivorm_attach. */
static inline uint32_t teivorm_rejoin(teivorm_conn *conn, teivorm_conn *lost, uint32_t role, uint32_t place, const char *source, const char *target,
                                      const teivorm_link_settings *settings, teivorm_event *event)
{
    const teivorm_link_settings defaults = TEIVORM_LINK_DEFAULTS;
    teivorm_event unused;
    if (conn == NULL || lost == NULL) return TEIVORM_NO_CONNECTION;
    if (conn == lost) return TEIVORM_BAD_ARGUMENT;
    return teivorm_raw_rejoin(conn, lost, role, place, teivorm_bytes_(source), teivorm_len_(source), teivorm_bytes_(target), teivorm_len_(target),
                              settings != NULL ? settings : &defaults, event != NULL ? event : &unused);
}

/* Reports the delivery at this place, from 0, of those that wait on the link (TEIVORM_WAITING); TEIVORM_BAD_ARGUMENT if there is none. */
static inline uint32_t teivorm_waiting(teivorm_conn *conn, uint32_t link, uint32_t place, teivorm_event *event)
{
    teivorm_event unused;
    return conn != NULL ? teivorm_raw_waiting(conn, link, place, event != NULL ? event : &unused) : (uint32_t)TEIVORM_NO_CONNECTION;
}

/* Resumes the delivery with this tag that waits on the link (TEIVORM_RESUMED); `settled` ends it if the peer has an outcome. */
static inline uint32_t teivorm_resume(teivorm_conn *conn, uint32_t link, const void *tag, size_t tag_len, bool settled, teivorm_event *event)
{
    teivorm_event unused;
    if (conn == NULL) return TEIVORM_NO_CONNECTION;
    if (tag == NULL && tag_len != 0) return TEIVORM_BAD_ARGUMENT;
    return teivorm_raw_resume(conn, link, teivorm_bytes_(tag), tag_len, settled, event != NULL ? event : &unused);
}

/* Takes the next of what links left when they ended: a message that was not taken (TEIVORM_TAKEN, with its bytes as behind teivorm_take), or an outcome that
 * was not learned (TEIVORM_LEARNED). The kind is TEIVORM_NOTHING if nothing is left. */
static inline uint32_t teivorm_left(teivorm_conn *conn, teivorm_event *event)
{
    teivorm_event unused;
    return conn != NULL ? teivorm_raw_left(conn, event != NULL ? event : &unused) : (uint32_t)TEIVORM_NO_CONNECTION;
}

/* ---- The session's window ---- */

/* Sends the peer our session window anew; with `echo` it is asked for a flow in return (2.5.6). */
static inline uint32_t teivorm_refresh(teivorm_conn *conn, bool echo, teivorm_event *event)
{
    teivorm_event unused;
    return conn != NULL ? teivorm_raw_refresh(conn, echo, event != NULL ? event : &unused) : (uint32_t)TEIVORM_NO_CONNECTION;
}

/* ---- Sending ---- */

/* Sends a message, or its first part if `more` is true (2.6.14). `tag` names the delivery, in at most 32 bytes, and differs from the tags of the link's
 * unsettled deliveries. `payload` is an encoded AMQP message (part 3, 3.2); it is copied. A part is at most teivorm_peer_max_frame less 100 bytes long. With
 * `settled` the peer reports no outcome. The event says the delivery's id. */
static inline uint32_t teivorm_start(teivorm_conn *conn, uint32_t link, const void *tag, size_t tag_len, const void *payload, size_t payload_len, bool settled,
                                     bool more, teivorm_event *event)
{
    teivorm_event unused;
    if (conn == NULL) return TEIVORM_NO_CONNECTION;
    if ((tag == NULL && tag_len != 0) || (payload == NULL && payload_len != 0)) return TEIVORM_BAD_ARGUMENT;
    return teivorm_raw_start(conn, link, teivorm_bytes_(tag), tag_len, teivorm_bytes_(payload), payload_len, settled, more,
                             event != NULL ? event : &unused);
}

/* Sends the next part of the message that is unfinished on the link, the last one if `more` is false. */
static inline uint32_t teivorm_carry(teivorm_conn *conn, uint32_t link, const void *payload, size_t payload_len, bool more, teivorm_event *event)
{
    teivorm_event unused;
    if (conn == NULL) return TEIVORM_NO_CONNECTION;
    if (payload == NULL && payload_len != 0) return TEIVORM_BAD_ARGUMENT;
    return teivorm_raw_carry(conn, link, teivorm_bytes_(payload), payload_len, more, event != NULL ? event : &unused);
}

/* Gives up the message that is unfinished on the link (2.7.5). */
static inline uint32_t teivorm_abort(teivorm_conn *conn, uint32_t link, teivorm_event *event)
{
    teivorm_event unused;
    return conn != NULL ? teivorm_raw_abort(conn, link, event != NULL ? event : &unused) : (uint32_t)TEIVORM_NO_CONNECTION;
}

/* Returns the next outcome of a message that we sent on the link, in the event (TEIVORM_LEARNED). */
static inline uint32_t teivorm_learn(teivorm_conn *conn, uint32_t link, teivorm_event *event)
{
    teivorm_event unused;
    return conn != NULL ? teivorm_raw_learn(conn, link, event != NULL ? event : &unused) : (uint32_t)TEIVORM_NO_CONNECTION;
}

/* Announces how many messages we have for the link (2.6.7). */
static inline uint32_t teivorm_offer(teivorm_conn *conn, uint32_t link, uint32_t available, teivorm_event *event)
{
    teivorm_event unused;
    return conn != NULL ? teivorm_raw_offer(conn, link, available, event != NULL ? event : &unused) : (uint32_t)TEIVORM_NO_CONNECTION;
}

/* Gives up the credit that is left, as the peer wants when it drains the link (2.6.7). */
static inline uint32_t teivorm_drained(teivorm_conn *conn, uint32_t link, teivorm_event *event)
{
    teivorm_event unused;
    return conn != NULL ? teivorm_raw_drained(conn, link, event != NULL ? event : &unused) : (uint32_t)TEIVORM_NO_CONNECTION;
}

/* ---- Receiving ---- */

/* Sets the link's credit: how many more messages the peer may send, no fewer than it may send now (2.6.7). With `drain` the peer uses the credit up or gives
 * it up, with `echo` it answers with a flow. */
static inline uint32_t teivorm_grant(teivorm_conn *conn, uint32_t link, uint32_t credit, bool drain, bool echo, teivorm_event *event)
{
    teivorm_event unused;
    return conn != NULL ? teivorm_raw_grant(conn, link, credit, drain, echo, event != NULL ? event : &unused) : (uint32_t)TEIVORM_NO_CONNECTION;
}

/* Takes the first whole message of the link, which the event describes (TEIVORM_TAKEN). Its bytes are read by teivorm_payload and
 * teivorm_payload_at, until the next message is taken. */
static inline uint32_t teivorm_take(teivorm_conn *conn, uint32_t link, teivorm_event *event)
{
    teivorm_event unused;
    return conn != NULL ? teivorm_raw_take(conn, link, event != NULL ? event : &unused) : (uint32_t)TEIVORM_NO_CONNECTION;
}

/* Copies bytes of the message that was taken last, from the offset `from` on, as many as fit, and returns how many. */
static inline size_t teivorm_payload(teivorm_conn *conn, uint64_t from, void *room, size_t room_len)
{
    size_t len = 0, count = 1;
    if (conn == NULL || room == NULL) return 0;
    while (len < room_len && count != 0) {
        count = teivorm_raw_payload(conn, from + len, (uint8_t *)room + len, room_len - len);
        len += count;
    }
    return len;
}

/* Lends bytes of the message that was taken last, from the offset `from` on, without a copy: `at` is set to them, and the result says how many they are: fewer
 * than are left if the message came in several pieces, 0 at its end. They stay valid until the next message is taken, or the connection is freed. */
static inline size_t teivorm_payload_at(teivorm_conn *conn, uint64_t from, const uint8_t **at)
{
    return conn != NULL && at != NULL ? teivorm_raw_payload_at(conn, from, at) : 0;
}

/* Gives a state to the unsettled deliveries `first` to `last`, of links on which we have this role, and settles them if `settled` is true (2.7.6). A rejection
 * may have an error: `condition` and `description`. */
static inline uint32_t teivorm_dispose(teivorm_conn *conn, uint32_t role, uint32_t first, uint32_t last, bool settled, const teivorm_outcome *outcome,
                                       const char *condition, const char *description, teivorm_event *event)
{
    const teivorm_outcome none = { TEIVORM_NO_STATE, 0, 0, false, false };
    teivorm_event unused;
    if (conn == NULL) return TEIVORM_NO_CONNECTION;
    return teivorm_raw_dispose(conn, role, first, last, settled, outcome != NULL ? outcome : &none, teivorm_bytes_(condition), teivorm_len_(condition),
                               teivorm_bytes_(description), teivorm_len_(description), event != NULL ? event : &unused);
}

/* Accepts and settles one message that we received. */
static inline uint32_t teivorm_accept(teivorm_conn *conn, uint32_t id)
{
    const teivorm_outcome accepted = { TEIVORM_ACCEPTED, 0, 0, false, false };
    return teivorm_dispose(conn, TEIVORM_RECEIVER, id, id, true, &accepted, NULL, NULL, NULL);
}

/* ---- Reading ---- */

/* Reports how the connection stands. */
static inline uint32_t teivorm_status(teivorm_conn *conn, teivorm_conn_status *status)
{
    if (conn == NULL) return TEIVORM_NO_CONNECTION;
    return status != NULL ? teivorm_raw_status(conn, status) : (uint32_t)TEIVORM_BAD_ARGUMENT;
}

/* Reports how a link stands; TEIVORM_BAD_ARGUMENT if there is no link of this number. */
static inline uint32_t teivorm_link(teivorm_conn *conn, uint32_t link, teivorm_link_status *status)
{
    if (conn == NULL) return TEIVORM_NO_CONNECTION;
    return status != NULL ? teivorm_raw_link(conn, link, status) : (uint32_t)TEIVORM_BAD_ARGUMENT;
}

/* Returns the longest frame that the peer accepts; 0 before its open arrived. */
static inline uint32_t teivorm_peer_max_frame(teivorm_conn *conn)
{
    teivorm_conn_status status;
    return teivorm_status(conn, &status) == TEIVORM_DONE ? status.peer_max_frame : 0;
}

enum teivorm_text_kind {
    TEIVORM_TEXT_LINK_NAME = 0,         /* of `link` */
    TEIVORM_TEXT_PEER_CONTAINER_ID = 1,
    TEIVORM_TEXT_PEER_HOST = 2,         /* the host that the peer wants of us */
    TEIVORM_TEXT_CONDITION = 3,         /* error of the detach or the end that was the newest step */
    TEIVORM_TEXT_DESCRIPTION = 4,
    TEIVORM_TEXT_CLOSE_CONDITION = 5,   /* error of the peer's close */
    TEIVORM_TEXT_CLOSE_DESCRIPTION = 6,
    TEIVORM_TEXT_LINK_CONDITION = 7,    /* error with which the peer detached `link` */
    TEIVORM_TEXT_LINK_DESCRIPTION = 8,
    TEIVORM_TEXT_REJECT_CONDITION = 9,  /* error of the rejection that teivorm_learn returned, if that was the newest step */
    TEIVORM_TEXT_REJECT_DESCRIPTION = 10
};

/* Copies a text (enum teivorm_text_kind) with a final zero, cut if it does not fit, and returns its whole length; 0 if there is none. */
static inline size_t teivorm_text(teivorm_conn *conn, uint32_t what, uint32_t link, char *room, size_t room_len)
{
    size_t len;
    uint8_t nothing;
    if (conn == NULL) return 0;
    if (room == NULL || room_len == 0) return teivorm_raw_text(conn, what, link, &nothing, 0);
    len = teivorm_raw_text(conn, what, link, (uint8_t *)room, room_len - 1);
    room[len < room_len ? len : room_len - 1] = '\0';
    return len;
}

/* Answers a link that the peer offers (TEIVORM_OFFERED) with an attach of the same name, of at most 1024 bytes, and the role that is ours then. */
static inline uint32_t teivorm_answer(teivorm_conn *conn, uint32_t link, const char *source, const char *target, const teivorm_link_settings *settings,
                                      teivorm_event *event)
{
    const teivorm_link_settings defaults = TEIVORM_LINK_DEFAULTS;
    teivorm_link_status status;
    teivorm_event unused;
    uint8_t name[1024];
    size_t len;
    uint32_t result = teivorm_link(conn, link, &status);
    if (result != TEIVORM_DONE) return result;
    len = teivorm_raw_text(conn, TEIVORM_TEXT_LINK_NAME, link, name, sizeof name);
    if (len > sizeof name) return TEIVORM_BAD_ARGUMENT;
    return teivorm_raw_attach(conn, name, len, status.role, teivorm_bytes_(source), teivorm_len_(source), teivorm_bytes_(target), teivorm_len_(target),
                              settings != NULL ? settings : &defaults, event != NULL ? event : &unused);
}

#ifdef __cplusplus
}
#endif
#endif

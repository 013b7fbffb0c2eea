"""A model of one AMQP 1.0 session (part 2, 2.5 to 2.7), as docs/protocol.md has its rules. It knows none of the definitions of crates/.

It has no journal, and neither suspends nor resumes links. `Session.do` does an operation, `Session.hear` hears a frame; each returns what the step gives,
the ids of the deliveries that it ends and how many frames it sends, or raises `Refused` or `Violated` with its number and has then changed nothing.
"""
from dataclasses import dataclass, field, replace

from frames import Frame, write_frame

MOST = 2147483647
HALF = 1 << 31
SENDER, RECEIVER = "sender", "receiver"
OUTCOMES = ("accepted", "rejected", "released", "modified")


class Refused(Exception):
    pass


class Violated(Exception):
    pass


def wrapped(number):
    return number % (1 << 32)


def refuse(rows):
    for is_so, number in rows:
        if is_so:
            raise Refused(number)


def violate(rows):
    for is_so, number in rows:
        if is_so:
            raise Violated(number)


@dataclass
class Reply:
    """What a step gives, as a kind with its values; the deliveries that it ends, by our role and id; how many frames it sends."""

    given: tuple = ("none",)
    ended: list = field(default_factory=list)
    frames: int = 0


@dataclass
class End:
    """What the attach of one end says."""

    handle: int
    snd: int
    rcv: int
    max_message: int


@dataclass
class Item:
    """An unsettled delivery: the last state that we gave it, and the peer; whether the peer's outcome was kept to be learnt."""

    id: int
    link: int
    tag: bytes
    second: bool
    local: tuple | None = None
    remote: tuple | None = None
    told: bool = False


@dataclass
class Delivery:
    """A delivery that is received."""

    id: int
    tag: bytes
    format: int
    second: bool
    settled: bool = False
    # It was held before on another attach of its link, so it is not given to the application.
    resumed: bool = False
    payload: bytes = b""


@dataclass
class Link:
    number: int
    name: bytes
    role: str
    ours: End | None = None
    theirs: End | None = None
    left: bool = False
    count: int = 0
    credit: int = 0
    drain: bool = False
    # What we send and is unfinished: its id, and how many octets went.
    sending: tuple | None = None
    receiving: Delivery | None = None
    ready: list = field(default_factory=list)
    told: list = field(default_factory=list)
    # The first delivery-count of the sender.
    first_count: int = 0

    @property
    def attached(self):
        return self.ours is not None and self.theirs is not None and not self.left

    @property
    def snd(self):
        end = self.ours if self.role == SENDER else self.theirs
        return 2 if end is None else end.snd

    @property
    def rcv(self):
        end = self.theirs if self.role == SENDER else self.ours
        return 0 if end is None else end.rcv

    @property
    def phase(self):
        if self.left:
            return "leaving"
        if self.ours is None:
            return "offered"
        return "asked" if self.theirs is None else "attached"

    @property
    def has_open_drain(self):
        return self.drain and self.credit > 0

    def begin_delivery(self):
        self.count = wrapped(self.count + 1)
        self.credit -= 1

    def set_count(self, count):
        """The count of the sender's attach: what passed before is counted from it."""
        self.count = wrapped(count + self.count - self.first_count)
        self.first_count = count


def is_inside(id, first, last):
    length = wrapped(last - first)
    return wrapped(id - first) <= length < HALF


def is_too_long(most, size):
    return 0 < most < size


class Session:
    def __init__(self, first_id, window):
        self.first_id, self.window = first_id, window
        self.begin_sent = self.begin_heard = self.end_sent = self.end_heard = False
        self.max_frame, self.handle_max = 512, 4294967295
        self.transfers = self.deliveries = self.made = 0
        self.next_incoming = None
        self.incoming, self.remote_incoming, self.remote_outgoing = window, 0, 0
        # The id of the peer's next delivery; none before its first.
        self.expected = None
        self.links, self.sent, self.received = [], [], []

    # What is shown

    @property
    def is_over(self):
        return self.end_sent or self.end_heard

    @property
    def takes_frames(self):
        return self.begin_heard and not self.is_over

    @property
    def is_mapped(self):
        return self.begin_sent and self.takes_frames

    @property
    def next_outgoing(self):
        return wrapped(self.first_id + self.transfers)

    @property
    def next_delivery(self):
        return wrapped(self.first_id + self.deliveries)

    def held(self, role):
        return self.sent if role == SENDER else self.received

    def link(self, number):
        return next((l for l in self.links if l.number == number), None)

    def by_peer_handle(self, handle):
        return next((l for l in self.links if l.theirs is not None and l.theirs.handle == handle), None)

    def named(self, role, name, test):
        return next((l for l in self.links if l.role == role and l.name == name and test(l)), None)

    def free_handle(self):
        used = {l.ours.handle for l in self.links if l.ours is not None}
        return next(h for h in range(len(used) + 1) if h not in used)

    # Parts of steps

    def end_deliveries(self, test_sent, test_received):
        """Ends the unsettled deliveries that pass these tests, and returns them: first those that we sent."""
        ended = [(SENDER, i.id) for i in self.sent if test_sent(i)] + [(RECEIVER, i.id) for i in self.received if test_received(i)]
        self.sent = [i for i in self.sent if not test_sent(i)]
        self.received = [i for i in self.received if not test_received(i)]
        return ended

    def end_link(self, link):
        link.sending = link.receiving = None
        return self.end_deliveries(lambda i: i.link == link.number, lambda i: i.link == link.number)

    def send(self, name, body, payload=b""):
        """Refuses a frame that cannot be written, or is longer than the peer takes."""
        refuse([(len(write_frame(Frame(0, name, body, payload))) > self.max_frame, 27)])

    def flow_body(self, **more):
        return {"next_incoming_id": self.next_incoming, "incoming_window": self.window, "next_outgoing_id": self.next_outgoing, "outgoing_window": MOST, **more}

    def attached(self, number, role=None):
        link = self.link(number)
        refuse([(not self.is_mapped, 4), (link is None, 5)])
        refuse([(not link.attached, 6), (role is not None and link.role != role, 7)])
        return link

    def send_transfer(self):
        self.transfers += 1
        self.remote_incoming -= 1

    # Operations

    def do(self, name, *values):
        return getattr(self, "do_" + name)(*values)

    def do_opened(self, max_frame):
        self.max_frame = max(512, max_frame)
        return Reply()

    def do_begin(self):
        refuse([(self.begin_sent or self.is_over, 3)])
        self.begin_sent, self.incoming = True, self.window
        return Reply(frames=1)

    def do_attach(self, role, name, snd, rcv, count, max_message):
        handle = self.free_handle()
        refuse([(not self.is_mapped, 4), (self.named(role, name, lambda l: l.ours is not None) is not None, 8), (handle > self.handle_max, 9)])
        refuse([(snd > 2 or rcv > 1, 26)])
        body = {"name": name, "handle": handle, "role": role == RECEIVER, "snd_settle_mode": snd, "rcv_settle_mode": rcv}
        body |= {"initial_delivery_count": count if role == SENDER else None, "max_message_size": max_message or None}
        self.send("Attach", body)
        link = self.named(role, name, lambda l: l.ours is None) or self.make_link(role, name)
        link.ours = End(handle, snd, rcv, max_message)
        if role == SENDER:
            link.set_count(count)
        return Reply(("link", link.number), frames=1)

    def make_link(self, role, name):
        link = Link(self.made, name, role)
        self.made += 1
        self.links.append(link)
        return link

    def do_start(self, number, tag, format, settled, more, payload):
        link = self.attached(number, SENDER)
        is_held = any(i.link == number and i.tag == tag for i in self.sent)
        forbidden = link.snd == 1 and not settled or link.snd == 0 and settled
        refuse([(link.sending is not None, 10), (is_held, 12), (forbidden, 13), (link.credit == 0, 14), (self.remote_incoming == 0, 15)])
        refuse([(is_too_long(link.theirs.max_message, len(payload)), 16)])
        id = self.next_delivery
        body = {"handle": link.ours.handle, "delivery_id": id, "delivery_tag": tag, "message_format": format, "settled": settled or None, "more": more or None}
        self.send("Transfer", body, payload)
        self.send_transfer()
        self.deliveries += 1
        link.begin_delivery()
        link.sending = (id, len(payload)) if more else None
        if not settled:
            self.sent.append(Item(id, number, tag, link.rcv == 1))
        return Reply(("delivery", id), frames=1)

    def do_carry(self, number, more, payload):
        link = self.attached(number, SENDER)
        refuse([(link.sending is None, 11), (self.remote_incoming == 0, 15)])
        id, size = link.sending
        refuse([(is_too_long(link.theirs.max_message, size + len(payload)), 16)])
        self.send("Transfer", {"handle": link.ours.handle, "more": more or None}, payload)
        self.send_transfer()
        link.sending = (id, size + len(payload)) if more else None
        return Reply(frames=1)

    def do_abort(self, number):
        link = self.attached(number, SENDER)
        refuse([(link.sending is None, 11), (self.remote_incoming == 0, 15)])
        id = link.sending[0]
        self.send_transfer()
        link.sending = None
        return Reply(ended=self.end_deliveries(lambda i: i.id == id, lambda i: False), frames=1)

    def do_grant(self, number, credit, drain, echo):
        link = self.attached(number, RECEIVER)
        refuse([(credit > MOST, 17), (credit < link.credit, 18), (link.has_open_drain, 19)])
        link.credit, link.drain = credit, drain
        self.incoming = self.window
        return Reply(frames=1)

    def do_offer(self, number, available):
        self.attached(number, SENDER)
        self.incoming = self.window
        return Reply(frames=1)

    def do_drained(self, number):
        link = self.attached(number, SENDER)
        refuse([(not link.drain, 20)])
        link.count = wrapped(link.count + link.credit)
        link.credit, link.drain = 0, False
        self.incoming = self.window
        return Reply(frames=1)

    def do_refresh(self, echo):
        refuse([(not self.is_mapped, 4)])
        self.incoming = self.window
        return Reply(frames=1)

    def do_dispose(self, role, first, last, settled, state):
        covered = [i for i in self.held(role) if is_inside(i.id, first, last)]
        waits = role == RECEIVER and any(i.second for i in covered)
        is_fixed = state is not None and any(i.local is not None and i.local[0] in OUTCOMES and i.local != state for i in covered)
        refuse([(not self.is_mapped, 4), (wrapped(last - first) >= HALF, 21), (not covered, 22), (settled and waits, 23), (is_fixed, 24)])
        body = {"role": role == RECEIVER, "first": first, "last": last, "settled": settled or None, "state": state}
        self.send("Disposition", body)
        for item in covered:
            item.local = state or item.local
        ids = {i.id for i in covered} if settled else set()
        ended = self.end_deliveries(lambda i: role == SENDER and i.id in ids, lambda i: role == RECEIVER and i.id in ids)
        return Reply(ended=ended, frames=1)

    def do_take(self, number):
        link = self.link(number)
        refuse([(link is None, 5)])
        refuse([(link.role != RECEIVER, 7), (not link.ready, 25)])
        return Reply(("taken", number, link.ready.pop(0)))

    def do_learn(self, number):
        link = self.link(number)
        refuse([(link is None, 5)])
        refuse([(link.role != SENDER, 7), (not link.told, 25)])
        return Reply(("learned", number, *link.told.pop(0)))

    def do_detach(self, number):
        link = self.attached(number)
        link.left = True
        return Reply(ended=self.end_link(link), frames=1)

    def do_end(self):
        refuse([(not self.is_mapped, 4)])
        self.end_sent, self.links = True, []
        return Reply(ended=self.end_deliveries(lambda i: True, lambda i: True), frames=1)

    def do_beat(self):
        return Reply(frames=1)

    # Frames that are heard

    def hear(self, frame):
        if self.end_sent and not self.end_heard and frame.kind != "End":
            return Reply()
        violate([(frame.kind is None, 2)])
        return getattr(self, "hear_" + frame.kind.lower())(frame)

    def hear_begin(self, b):
        violate([(self.begin_heard or self.is_over, 2)])
        self.begin_heard = True
        self.handle_max = 4294967295 if b.handle_max is None else b.handle_max
        self.set_windows(b, None)
        return Reply()

    def set_windows(self, b, lag):
        """The peer's windows. Its incoming one counts from the transfer that it awaits: `lag` of ours were sent since; all of them if that is not known."""
        lag = self.transfers if lag is None else lag
        self.next_incoming = b.next_outgoing_id
        self.remote_incoming = max(0, b.incoming_window - lag)
        self.remote_outgoing = b.outgoing_window

    def hear_attach(self, b):
        role = SENDER if b.role else RECEIVER
        violate([(not self.takes_frames, 2), (self.by_peer_handle(b.handle) is not None, 4)])
        violate([(self.named(role, b.name, lambda l: l.theirs is not None) is not None, 5), (role == RECEIVER and b.initial_delivery_count is None, 8)])
        link = self.named(role, b.name, lambda l: l.theirs is None)
        given = ("attached", link.number) if link else ("offered", self.made)
        link = link or self.make_link(role, b.name)
        link.theirs = End(b.handle, 2 if b.snd_settle_mode is None else b.snd_settle_mode, b.rcv_settle_mode or 0, b.max_message_size or 0)
        if role == RECEIVER:
            link.set_count(b.initial_delivery_count)
        return Reply(given)

    def hear_flow(self, b):
        violate([(not self.takes_frames, 2)])
        link = None if b.handle is None else self.by_peer_handle(b.handle)
        lag = wrapped(self.next_outgoing - (self.first_id if b.next_incoming_id is None else b.next_incoming_id)) if self.begin_sent else None
        violate([(b.handle is not None and link is None, 3), (lag is not None and lag > self.transfers, 6)])
        violate([(link is not None and link.attached and self.counts_ahead(link, b), 6)])
        self.set_windows(b, lag)
        if link is not None and not link.left:
            self.hear_link_flow(link, b)
        if b.echo and self.begin_sent:
            self.incoming = self.window
            return Reply(frames=1)
        return Reply()

    @staticmethod
    def counts_ahead(link, b):
        if link.role == SENDER:
            return wrapped(link.count - (link.first_count if b.delivery_count is None else b.delivery_count)) >= HALF
        return b.delivery_count is not None and link.credit < wrapped(b.delivery_count - link.count) < HALF

    @staticmethod
    def hear_link_flow(link, b):
        if link.role == SENDER:
            behind = wrapped(link.count - (link.first_count if b.delivery_count is None else b.delivery_count)) if link.ours is not None else 0
            if b.link_credit is not None:
                link.credit = max(0, b.link_credit - behind)
            link.drain = bool(b.drain)
        elif link.ours is not None and b.delivery_count is not None:
            past = wrapped(b.delivery_count - link.count)
            if past <= link.credit:
                link.count, link.credit = b.delivery_count, link.credit - past

    def hear_transfer(self, b):
        violate([(not self.takes_frames, 2)])
        link = self.by_peer_handle(b.handle)
        violate([(link is None or link.ours is None or link.role != RECEIVER, 3), (self.incoming == 0, 7)])
        if link.left:
            uses_id = b.delivery_id is not None and b.delivery_id == self.expected
        else:
            self.judge_transfer(link, b)
            uses_id = link.receiving is None
        if uses_id:
            self.expected = wrapped(b.delivery_id + 1)
        self.next_incoming = wrapped(self.next_incoming + 1)
        self.incoming -= 1
        self.remote_outgoing = max(0, self.remote_outgoing - 1)
        return Reply() if link.left else self.take_transfer(link, b)

    def judge_transfer(self, link, b):
        first = link.receiving
        if first is None:
            is_held = any(i.link == link.number and i.tag == b.delivery_tag for i in self.received)
            violate([(b.delivery_id is None or b.delivery_tag is None, 8), (self.expected not in (None, b.delivery_id), 9), (is_held, 10)])
        else:
            violate([(b.delivery_id not in (None, first.id), 9)])
        settled = bool(b.settled) or (first is not None and first.settled)
        breaks_snd = not b.aborted and (not b.more and not settled and link.snd == 1 or settled and link.snd == 0)
        breaks_rcv = b.rcv_settle_mode == 1 and link.rcv == 0
        size = len(b.payload) + (len(first.payload) if first is not None else 0)
        violate([(breaks_snd or breaks_rcv, 11), (first is None and link.credit == 0, 12)])
        violate([(not b.aborted and is_too_long(link.ours.max_message, size), 13)])

    def take_transfer(self, link, b):
        delivery, over = link.receiving, bool(b.settled or b.aborted)
        if delivery is None:
            link.begin_delivery()
            second = link.rcv == 1 if b.rcv_settle_mode is None else b.rcv_settle_mode == 1
            delivery = Delivery(b.delivery_id, b.delivery_tag, b.message_format or 0, second, resumed=bool(b.resume))
            ended = []
            # One that resumes a delivery which does not wait is not held.
            if not over and not b.resume:
                self.received.append(Item(delivery.id, link.number, delivery.tag, second, remote=b.state))
        else:
            for item in self.received:
                if item.id == delivery.id:
                    item.remote = b.state or item.remote
            ended = self.end_deliveries(lambda i: False, lambda i: over and i.id == delivery.id)
        if not b.aborted and not delivery.resumed:
            delivery.payload += b.payload
        delivery.settled = delivery.settled or bool(b.settled)
        link.receiving = delivery if b.more and not b.aborted else None
        if b.aborted or b.more or delivery.resumed:
            return Reply(ended=ended)
        link.ready.append(delivery)
        return Reply(("ready", link.number, delivery.id), ended)

    def hear_disposition(self, b):
        last = b.first if b.last is None else b.last
        violate([(not self.takes_frames, 2), (wrapped(last - b.first) >= HALF, 14)])
        role = SENDER if b.role else RECEIVER
        covered = [i for i in self.held(role) if is_inside(i.id, b.first, last)]
        for item in covered:
            item.remote = b.state or item.remote
            if role == SENDER and not item.told and (b.settled or b.state is not None and b.state[0] in OUTCOMES):
                item.told = True
                link = self.link(item.link)
                if link is not None:
                    link.told.append((replace(item), bool(b.settled)))
        ids = {i.id for i in covered} if b.settled else set()
        return Reply(ended=self.end_deliveries(lambda i: role == SENDER and i.id in ids, lambda i: role == RECEIVER and i.id in ids))

    def hear_detach(self, b):
        violate([(not self.takes_frames, 2)])
        link = self.by_peer_handle(b.handle)
        violate([(link is None, 3)])
        answers = link.attached
        aside = self.put_aside(link) if answers and not b.closed else None
        given = ("gone", link.number) if aside is None else ("parted", link.number, link.name, link.role, aside)
        self.links.remove(link)
        return Reply(given, self.end_link(link), int(answers))

    def put_aside(self, link):
        """The deliveries that go with a link that is put aside: those that are finished and, if we receive, were taken."""
        open_ids = {link.sending[0]} if link.sending else set()
        open_ids |= {link.receiving.id} if link.receiving else set()
        open_ids |= {d.id for d in link.ready}
        return [(i.tag, i.local) for i in self.held(link.role) if i.link == link.number and i.id not in open_ids]

    def hear_end(self, b):
        is_answer = self.end_sent and not self.end_heard
        violate([(not is_answer and not self.takes_frames, 2)])
        answers = self.is_mapped
        self.end_heard, self.links = True, []
        return Reply(ended=self.end_deliveries(lambda i: True, lambda i: True), frames=int(answers))

"""Sessions by dice, as lines of the command `script`: mostly steps that are due, and some that are not."""
from frames import Frame, write_frame
from model import RECEIVER, SENDER, Refused, Session, Violated

NAMES = ("q", "z", "é")
EDGES = (0, 1, 2147483646, 2147483647, 2147483648, 4294967293, 4294967294, 4294967295)
STATES = (None, ("accepted",), ("released",), ("received", 0, 3))


class Dice:
    """One session, with the model that follows it, so that what is rolled fits its state."""

    def __init__(self, rng):
        self.rng = rng
        self.first_id = rng.choice((*EDGES, rng.randrange(1 << 32)))
        self.window = rng.choice((1, 2, 3, 2048, 2048, 2147483647))
        self.session = Session(self.first_id, self.window)
        self.lines = []
        # The peer's next handle, delivery id and tag.
        self.handle, self.delivery, self.tag = 0, rng.choice(EDGES), 0

    def few(self):
        return self.rng.choice((0, 1, 1, 2, 3, 5, 100, *EDGES))

    def flag(self):
        return self.rng.random() < 0.3

    def octets(self):
        return b"x" * self.rng.choice((0, 1, 3, 20))

    def a_link(self, role=None, test=lambda link: True):
        """The number of a link that passes, or one of none."""
        numbers = [l.number for l in self.session.links if role in (None, l.role) and test(l)]
        return self.rng.choice(numbers) if numbers and self.rng.random() < 0.95 else self.rng.choice((0, 1, 7))

    def say(self, name, *values):
        words = [v.hex() or "-" if isinstance(v, bytes) else str(int(v)) if isinstance(v, bool) else "-" if v is None else str(v) for v in values]
        self.lines.append([name, *words])
        try:
            self.session.do(name, *[v.encode() if name == "attach" and v in NAMES else v for v in values])
        except Refused:
            pass

    def hear(self, kind, payload=b"", **body):
        frame = Frame(0, kind, body, payload)
        self.lines.append(["hear", write_frame(frame).hex()])
        full = {name: body.get(name) for name in Frame.names(kind)}
        try:
            self.session.hear(Frame(0, kind, full, payload))
        except Violated:
            pass

    # What is done

    def begin(self):
        self.say("begin")
        self.hear("Begin", next_outgoing_id=self.few(), incoming_window=self.few(), outgoing_window=self.few(), handle_max=self.rng.choice((None, None, 1)))

    def attach(self):
        role, name = self.rng.choice((SENDER, RECEIVER)), self.rng.choice(NAMES)
        if self.rng.random() < 0.8:
            self.say("attach", role, name, self.rng.choice((0, 1, 2, 2, 2)), self.rng.choice((0, 0, 1)), self.few(), self.rng.choice((0, 0, 4, 300)))
        if self.rng.random() < 0.8:
            count = self.few() if role == RECEIVER or self.flag() else None
            modes = {"snd_settle_mode": self.rng.choice((None, 0, 1, 2)), "rcv_settle_mode": self.rng.choice((None, 0, 1))}
            self.hear("Attach", name=name.encode(), handle=self.handle, role=role == SENDER, initial_delivery_count=count, **modes)
            self.handle += 1

    def grant(self):
        self.say("grant", self.a_link(RECEIVER), self.few(), self.flag(), self.flag())

    def be_granted(self):
        link = self.session.link(self.a_link(SENDER))
        body = {"next_outgoing_id": self.session.next_incoming or 0, "incoming_window": self.few(), "outgoing_window": self.few(), "echo": self.flag()}
        body["next_incoming_id"] = self.rng.choice((self.session.next_outgoing, self.session.first_id, None))
        if link is not None and link.theirs is not None:
            body |= {"handle": link.theirs.handle, "delivery_count": link.count, "link_credit": self.few(), "drain": self.flag()}
        self.hear("Flow", **body)

    def start(self):
        number = self.a_link(SENDER, lambda link: link.sending is None)
        self.tag += self.rng.random() < 0.9
        self.say("start", number, bytes([self.tag % 256]), self.rng.choice((0, 1)), self.flag(), self.flag(), self.octets())

    def go_on(self):
        number = self.a_link(SENDER, lambda link: link.sending is not None)
        if self.flag():
            self.say("abort", number)
        else:
            self.say("carry", number, self.flag(), self.octets())

    def transfer(self):
        link = self.session.link(self.a_link(RECEIVER))
        begins = link is None or link.receiving is None
        body = {"handle": link.theirs.handle if link is not None and link.theirs is not None else 9}
        if begins or self.flag():
            body |= {"delivery_id": self.delivery if begins else link.receiving.id, "delivery_tag": bytes([self.tag % 256]), "message_format": 0}
        body |= {"settled": self.flag() or None, "more": self.flag() or None, "aborted": self.rng.random() < 0.1 or None}
        before = self.session.expected
        self.hear("Transfer", self.octets(), **body)
        self.tag += 1
        if self.session.expected != before:
            self.delivery = self.session.expected

    def dispose(self):
        role = self.rng.choice((SENDER, RECEIVER))
        held = self.session.held(role)
        first = self.rng.choice(held).id if held else self.few()
        last = held[-1].id if held and self.flag() else first
        state = self.rng.choice(STATES[:3])
        if self.flag():
            self.hear("Disposition", role=role == SENDER, first=first, last=self.rng.choice((last, None)), settled=self.flag(), state=self.rng.choice(STATES))
        else:
            self.lines.append(["dispose", role, str(first), str(last), "1" if self.flag() else "0", "-" if state is None else state[0]])
            try:
                self.session.do("dispose", role, first, last, self.lines[-1][4] == "1", state)
            except Refused:
                pass

    def receive(self):
        self.say("take", self.a_link(RECEIVER, lambda link: link.ready))
        self.say("learn", self.a_link(SENDER, lambda link: link.told))

    def small(self):
        what = self.rng.choice(("beat", "refresh", "offer", "drained", "opened"))
        values = {"refresh": (self.flag(),), "offer": (self.a_link(SENDER), self.few()), "drained": (self.a_link(SENDER, lambda link: link.drain),)}
        self.say(what, *values.get(what, (65536,) if what == "opened" else ()))

    def leave(self):
        number = self.a_link(test=lambda link: link.attached)
        link = self.session.link(number)
        if self.flag() or link is None or link.theirs is None:
            self.say("detach", number)
        else:
            self.hear("Detach", handle=link.theirs.handle, closed=self.rng.choice((True, True, False, None)))

    def end(self):
        if self.flag():
            self.say("end")
        if self.flag():
            self.hear("End")

    def look(self):
        self.lines += [["windows"], *(["link", str(n)] for n in range(self.session.made)), ["held", SENDER], ["held", RECEIVER]]


def rolled(rng, count):
    """The first id, the window and the lines of a session of some `count` steps."""
    dice = Dice(rng)
    dice.begin()
    weights = {"attach": 4, "grant": 4, "be_granted": 5, "start": 6, "go_on": 3, "transfer": 8, "dispose": 5, "receive": 4, "small": 2, "leave": 1}
    for _ in range(count):
        getattr(dice, rng.choices(list(weights), weights.values())[0])()
        if rng.random() < 0.1:
            dice.look()
    dice.end()
    dice.look()
    return dice.first_id, dice.window, dice.lines

"""Sessions at size, for faults/run: none reports that memory ran out, and none keeps what it no longer needs.

Each case is a command line with its standard input, and how the last line that it prints has to begin.
"""
import collections
import socket
import subprocess

# The peer's begin, with windows that no case uses up.
BEGUN = "begin\nhear 0000001c02000000 005311c00f04 600000 43 7000100000 707fffffff\n"

Case = collections.namedtuple("Case", "name words lines last")


def composite(code, *fields):
    """A performative or state: a described list with a wide head."""
    body = b"".join(fields)
    return bytes([0, 0x53, code, 0xD0]) + (len(body) + 4).to_bytes(4, "big") + len(fields).to_bytes(4, "big") + body


def uint(number):
    return b"\x70" + number.to_bytes(4, "big")


def text(octets, code):
    """A string (0xb1), symbol (0xb3) or binary (0xb0) with a wide head."""
    return bytes([code]) + len(octets).to_bytes(4, "big") + octets


def pairs(count):
    """A map with this many pairs of a symbol and a uint."""
    body = b"".join(text(b"x-%d" % it, 0xB3) + uint(it) for it in range(count))
    return b"\xd1" + (len(body) + 4).to_bytes(4, "big") + (2 * count).to_bytes(4, "big") + body


NULL, TRUE, FALSE = b"\x40", b"\x41", b"\x42"


def heard(performative, payload=b""):
    body = performative + payload
    return "hear " + (bytes([0, 0, 0, 0, 2, 0, 0, 0]) + body).hex().replace("00000000", f"{len(body) + 8:08x}", 1)


def attach(name, handle, is_sender, *rest):
    """The peer's attach; a sender tells its initial delivery-count."""
    more = [NULL, NULL, NULL, NULL, NULL, NULL, uint(0)] if is_sender else []
    return heard(composite(0x12, text(name, 0xB1), uint(handle), FALSE if is_sender else TRUE, *more, *rest))


def flow(*link):
    """The peer's flow, for the session or with the fields of a link."""
    return heard(composite(0x13, uint(0), uint(1 << 20), uint(0), uint((1 << 31) - 1), *link))


def granted(credit):
    return flow(uint(0), uint(0), uint(credit))


def disposition(is_receiver, first, last, state):
    return heard(composite(0x15, TRUE if is_receiver else FALSE, uint(first), uint(last), TRUE, state))


def transfer(delivery, payload=b"x", handle=0, more=FALSE):
    tag = b"\xa0\x04" + delivery.to_bytes(4, "big")
    return heard(composite(0x14, uint(handle), uint(delivery), tag, uint(0), FALSE, more), payload)


def gone(why=NULL):
    """The peer's detach for good of its handle 0."""
    return heard(composite(0x16, uint(0), TRUE, why))


def sending(count, payload="78"):
    """A link on which we send, with this many deliveries begun, each with its own tag."""
    yield "attach sender q 2 0 0 0"
    yield attach(b"q", 0, False)
    yield granted(count)
    for it in range(count):
        yield f"start 0 {it:08x} 0 0 0 {payload}"


def receiving(count):
    yield "attach receiver q 2 0 0 0"
    yield attach(b"q", 0, True)
    yield f"grant 0 {count} 0 0"
    for it in range(count):
        yield transfer(it)


def in_parts(count):
    """A message of this many transfers that are as long as frames may be."""
    yield from receiving(0)
    yield "grant 0 1 0 0"
    for it in range(1, count + 1):
        yield transfer(0, b"y" * 65480, more=TRUE if it < count else FALSE)
    yield "take 0"


def error(description, info=NULL):
    return composite(0x1D, text(b"amqp:internal-error", 0xB3), text(description, 0xB1), info)


def learnt(state):
    """A delivery whose outcome has something that is not small, which is learnt; and two that one disposition gives it."""
    yield from sending(3)
    yield disposition(True, 0, 0, state)
    yield disposition(True, 1, 2, state)
    yield from ["learn 0"] * 3


def script(*lines, longest=65536):
    """A session with a peer that takes frames of this length."""
    return f"opened {longest}\n{BEGUN}" + "".join(it + "\n" for it in lines)


def coming_and_going(count, is_new):
    """Links that come and go, by new names or by one name."""
    for it in range(count):
        name = b"q" * 200 + b"%06d" % (it if is_new else 0)
        yield f"attach sender {name.decode()} 2 0 0 0"
        yield attach(name, 0, False)
        yield f"detach {it:06}"
        yield GONE


GONE = gone()
ACCEPTED = composite(0x24)
MODIFIED = composite(0x27, TRUE, FALSE, pairs(17))
REJECTED = composite(0x25, error(b"no room" * 200, pairs(17)))

SIZES = (
    Case("a message of 70 MiB is heard and taken", "script", script(*in_parts(1120)), "ok given=taken:0:00000000:7979"),
    Case("a message of 17 MiB is sent", "script", script(*sending(1, "79" * (17 << 20)), longest=(1 << 32) - 1), "ok given=delivery:0"),
    Case("1,100 sent deliveries are settled at once", "script", script(*sending(1100), disposition(True, 0, 1099, ACCEPTED), "held sender"), "held -"),
    Case("1,100 received deliveries are settled at once", "script", script(*receiving(1100), *["take 0"] * 1100, "dispose receiver 0 1099 1 accepted", "held receiver"), "held -"),
    Case("a link leaves 1,100 sent deliveries, then frames are heard", "script", script(*sending(1100), "detach 0", GONE, flow()), "ok given=none"),
    Case("a link leaves 1,100 received deliveries, then frames are heard", "script", script(*receiving(1100), "detach 0", GONE, flow()), "ok given=none"),
    Case("a session ends with 1,100 deliveries", "script", script(*sending(1100), "end"), "ok given=none ended=s0,s1,"),
    Case("a session ends with 1,100 deliveries to take", "script", script(*receiving(1100), "end"), "ok given=none ended=r0,r1,"),
    Case("a link is suspended with 1,100 deliveries", "script", script(*sending(1100), "suspend 0"), "ok given=suspended:00000000:-,"),
    Case("a link's name of 2,000 octets", "script", script(attach(b"n" * 2000, 0, True)), "ok given=offered:0"),
    Case("a description of 2,000 octets", "script", script("attach sender q 2 0 0 0", attach(b"q", 0, False), gone(error(b"d" * 2000))), "ok given=gone:0"),
    Case("an attach with properties of 17 pairs", "script", script(attach(b"q", 0, True, NULL, NULL, NULL, pairs(17))), "ok given=offered:0"),
    Case("modified, with 17 annotations, is learnt", "script", script(*learnt(MODIFIED)), "ok given=learned:2:modified:1"),
    Case("rejected, with a long description and info, is learnt", "script", script(*learnt(REJECTED)), "ok given=learned:2:rejected:1"),
)

# Pairs of cases, of which the second may hold at most this many bytes more at once, and ask for at most this many more in all.
Steady = collections.namedtuple("Steady", "name first second held asked")


def bench(count, size, more):
    return Case("", f"bench session --count {count} --size {size} --credit 10 --keep 10 {more}", "", "session ")


def links(is_new):
    return Case("", "script --keep 5", script(*coming_and_going(2000, is_new)), "ok given=gone:1999")


STEADY = (
    Steady("a name is not kept when its link is gone", links(False), links(True), 65536, 65536),
    Steady("a message takes at most 1,600 bytes", bench(2000, 16, "--range 1"), bench(12000, 16, "--range 1"), 65536, 10000 * 1600),
    Steady("a settled message takes at most 1,000 bytes", bench(2000, 16, "--settled 1"), bench(12000, 16, "--settled 1"), 65536, 10000 * 1000),
    Steady("a payload of 70,000 bytes is not copied", bench(2000, 70000, "--range 1"), bench(12000, 70000, "--range 1"), 65536, 10000 * 4000),
)


def large_properties(program):
    """What is wrong if the peer's open has a map of 70,000 octets, or None."""
    fields = [text(b"peer", 0xB1), NULL, uint(1 << 20), NULL, NULL, NULL, NULL, NULL, NULL]
    value = text(b"key", 0xB3) + text(b"v" * 70000, 0xB1)
    body = composite(0x10, *fields, b"\xd1" + (len(value) + 4).to_bytes(4, "big") + uint(2)[1:] + value)
    begun = b"\x00\x53\x11"
    with socket.create_server(("127.0.0.1", 0)) as server:
        words = [program, "receive", "--port", str(server.getsockname()[1]), "--max-frame", "200000", "--timeout", "5"]
        ours = subprocess.Popen(words, stdin=subprocess.DEVNULL, stdout=subprocess.PIPE, stderr=subprocess.PIPE, text=True)
        server.settimeout(10)
        peer, _ = server.accept()
        with peer:
            peer.settimeout(10)
            peer.sendall(b"AMQP\x00\x01\x00\x00" + (len(body) + 8).to_bytes(4, "big") + b"\x02\x00\x00\x00" + body)
            said = b""
            while begun not in said:
                more = peer.recv(65536)
                if not more:
                    return f"no session begins: {ours.communicate()[1].strip()[-200:]}"
                said += more
        ours.communicate()
    return None

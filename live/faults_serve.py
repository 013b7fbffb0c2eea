"""What `serve` answers: requests that it does not do, outcomes, and peers that fail. Tried with Qpid Proton, its examples and octets by hand; for live/run."""
import os
import re
import socket
import subprocess
import tempfile
import time

from proton import Delivery, Message, Terminus
from proton.handlers import MessagingHandler
from proton.reactor import Container, Copy, Selector
from proton.utils import BlockingConnection, LinkDetached

EXAMPLES = "/usr/share/proton/examples/python"
# Runs one of Proton's examples without a SASL layer.
WRAPPED = """
import runpy, sys
import proton.reactor
begin = proton.reactor.Container.__init__
def without_sasl(self, *args, **kwargs):
    begin(self, *args, **kwargs)
    self.sasl_enabled = False
proton.reactor.Container.__init__ = without_sasl
sys.argv = sys.argv[1:]
runpy.run_path(sys.argv[0], run_name="__main__")
"""


class Wrong(Exception):
    """A case that did not hold."""


def hold(is_so, text):
    if not is_so:
        raise Wrong(text)


class Served:
    """A `serve` at a port, and what it writes on standard error."""

    def __init__(self, program, port, *more):
        self.port = port
        self.errors = tempfile.TemporaryFile()
        self.process = subprocess.Popen(
            [program, "serve", "--host", "127.0.0.1", "--port", str(port), *more], stdout=subprocess.PIPE, stderr=self.errors, text=True
        )
        line = self.process.stdout.readline()
        hold(line.startswith("listens "), f"it does not listen: {line!r} {self.lines()}")

    def lines(self):
        self.errors.seek(0)
        return self.errors.read().decode().splitlines()

    def await_line(self, wanted, limit=10.0):
        """The first line with this text, which is to come soon."""
        until = time.monotonic() + limit
        while time.monotonic() < until:
            for line in self.lines():
                if wanted in line:
                    return line
            time.sleep(0.02)
        raise Wrong(f"no line with {wanted!r}: {self.lines()}")

    def connect(self):
        return BlockingConnection(f"127.0.0.1:{self.port}", timeout=10, sasl_enabled=False)

    def __enter__(self):
        return self

    def __exit__(self, *_):
        self.process.kill()
        self.process.communicate()
        self.errors.close()


def case(*more):
    """A case: a function of a `serve` with these options, which raises what is wrong."""

    def over(function):
        def run_one(program, port):
            try:
                with Served(program, port, *more) as served:
                    function(served, program)
                return ""
            except Exception as error:  # each is a case that failed
                return f"{type(error).__name__}: {error}"

        return run_one

    return over


# What `serve` does not do


@case()
def run_dynamic(served, _program):
    connection = served.connect()
    receiver = connection.create_receiver(None, dynamic=True)
    address = receiver.link.remote_source.address
    hold(address and receiver.link.remote_source.dynamic, f"no address was made up: {address!r}")
    other = connection.create_receiver(None, dynamic=True, name="other")
    hold(other.link.remote_source.address != address, "two links have one address")
    sender = connection.create_sender(address)
    sender.send(Message(body="there"))
    hold(receiver.receive(timeout=10).body == "there", "the message is another one")
    receiver.accept()
    sender.close()
    receiver.close()
    time.sleep(0.2)
    try:
        connection.create_sender(address, name="late")
    except LinkDetached as error:
        hold("amqp:not-found" in str(error), f"a late link: {error}")
    else:
        raise Wrong("the address is there after its link")
    connection.close()


class Coordinated(MessagingHandler):
    """Attaches a link to a coordinator, and keeps why it was detached."""

    def __init__(self, port):
        super().__init__()
        self.port, self.condition = port, None

    def on_start(self, event):
        self.connection = event.container.connect(f"127.0.0.1:{self.port}", sasl_enabled=False, reconnect=False)

    def on_connection_opened(self, event):
        session = self.connection.session()
        session.open()
        link = session.sender("transactions")
        link.target.type = Terminus.COORDINATOR
        link.open()

    def on_link_error(self, event):
        self.condition = event.link.remote_condition.name
        self.connection.close()

    def on_link_closed(self, event):
        self.connection.close()


@case()
def run_coordinator(served, _program):
    handler = Coordinated(served.port)
    Container(handler).run()
    hold(handler.condition == "amqp:not-implemented", f"the coordinator was answered with {handler.condition}")


@case()
def run_filter(served, _program):
    connection = served.connect()
    receiver = connection.create_receiver("filtered", options=Selector("colour = 'green'"))
    remote = receiver.link.remote_source
    remote.filter.rewind()
    hold(remote.filter.next() is None, "the filter is in the answer")
    remote.capabilities.rewind()
    hold(remote.capabilities.next() is None, "capabilities are in the answer")
    hold(remote.address == "filtered", f"the address is {remote.address!r}")
    connection.close()


@case()
def run_copies(served, _program):
    connection = served.connect()
    sender = connection.create_sender("shown")
    for number in range(3):
        sender.send(Message(body=number))
    browser = connection.create_receiver("shown", name="browser", options=Copy())
    hold(browser.link.remote_source.distribution_mode == Terminus.DIST_MODE_COPY, "the mode is not in the answer")
    for number in range(3):
        hold(browser.receive(timeout=10).body == number, "a copy is another message")
        browser.accept()
    taker = connection.create_receiver("shown", name="taker")
    for number in range(3):
        hold(taker.receive(timeout=10).body == number, "a message is gone")
        taker.accept()
    connection.close()


@case()
def run_anonymous(served, _program):
    connection = served.connect()
    sender = connection.create_sender(None)
    sender.send(Message(address="one", body=1))
    sender.send(Message(address="two", body=2))
    for address, body in (("two", 2), ("one", 1)):
        receiver = connection.create_receiver(address, name=address)
        hold(receiver.receive(timeout=10).body == body, "the message is another one")
        receiver.accept()
    delivery = sender.link.send(Message(body="nowhere"))
    connection.wait(lambda: delivery.settled)
    hold(delivery.remote_state == Delivery.REJECTED, f"a message without an address: {delivery.remote_state}")
    connection.close()


# Outcomes and links that end


def settle_as(receiver, delivery, failed, undeliverable):
    delivery.local.failed = failed
    delivery.local.undeliverable = undeliverable
    delivery.update(Delivery.MODIFIED)
    delivery.settle()


@case()
def run_modified(served, _program):
    connection = served.connect()
    connection.create_sender("modified").send(Message(body="again", durable=True))
    receiver = connection.create_receiver("modified", name="first", credit=1)
    for count in range(3):
        message = receiver.receive(timeout=10)
        hold(message.delivery_count == count, f"the delivery-count is {message.delivery_count}, and not {count}")
        hold(message.durable and message.body == "again", "the message is another one")
        delivery = receiver.fetcher.unsettled.popleft()
        if count < 2:
            settle_as(receiver, delivery, True, False)
            receiver.flow(1)
    settle_as(receiver, delivery, False, True)
    receiver.flow(1)
    try:
        receiver.receive(timeout=1)
    except Exception as error:
        hold("imed out" in str(error), f"{error}")
    else:
        raise Wrong("the message came to the same link again")
    other = connection.create_receiver("modified", name="second")
    hold(other.receive(timeout=10).delivery_count == 2, "the delivery-count is another one")
    other.accept()
    connection.close()


@case()
def run_released(served, _program):
    connection = served.connect()
    sender = connection.create_sender("released")
    for number in range(2):
        sender.send(Message(body=number))
    receiver = connection.create_receiver("released", credit=1)
    for place, number in enumerate((0, 0, 1)):
        message = receiver.receive(timeout=10)
        hold(message.body == number and message.delivery_count == 0, f"{message} came, and not {number}")
        if place == 0:
            receiver.release(delivered=False)
        else:
            receiver.accept()
        receiver.flow(1)
    connection.close()


# Takes ten messages, says nothing of them, and waits to be killed.
HOLDING = """
import sys, time
from proton.utils import BlockingConnection
connection = BlockingConnection(f"127.0.0.1:{sys.argv[1]}", timeout=10, sasl_enabled=False)
receiver = connection.create_receiver("ended", credit=10)
print([receiver.receive(timeout=10).body for _ in range(10)], flush=True)
time.sleep(60)
"""


@case()
def run_ended(served, _program):
    connection = served.connect()
    sender = connection.create_sender("ended")
    for number in range(20):
        sender.send(Message(body=number))
    gone = subprocess.Popen(["/usr/bin/python3", "-c", HOLDING, str(served.port)], stdout=subprocess.PIPE, text=True)
    had = gone.stdout.readline()
    gone.kill()
    gone.communicate()
    hold(had.strip() == str(list(range(10))), f"the order is another one: {had}")
    served.await_line("failed")
    late = connection.create_receiver("ended", credit=20)
    for number in range(20):
        body = late.receive(timeout=10).body
        hold(body == number, f"{body} came, and not {number}")
        late.accept()
    connection.close()


@case("--limit", "3")
def run_limit(served, _program):
    connection = served.connect()
    sender = connection.create_sender("limited")
    deliveries = [sender.link.send(Message(body=number)) for number in range(5)]
    connection.wait(lambda: all(delivery.settled for delivery in deliveries))
    states = [delivery.remote_state for delivery in deliveries]
    hold(states == [Delivery.ACCEPTED] * 3 + [Delivery.RELEASED] * 2, f"{states}")
    receiver = connection.create_receiver("limited")
    for number in range(3):
        hold(receiver.receive(timeout=10).body == number, "the order is another one")
        receiver.accept()
    connection.close()


# Peers that fail


@case()
def run_sasl(served, _program):
    class Asking(MessagingHandler):
        def on_start(self, event):
            event.container.connect(f"127.0.0.1:{served.port}", user="a", password="b", reconnect=False)

        def on_transport_error(self, event):
            event.container.stop()

    for count in range(20):
        Container(Asking()).run()
        until = time.monotonic() + 10
        while sum("SASL" in line for line in served.lines()) <= count:
            hold(time.monotonic() < until, f"attempt {count}: {served.lines()}")
            time.sleep(0.01)
    hold(all("a SASL layer" in line for line in served.lines()), f"{served.lines()}")


@case()
def run_early(served, _program):
    socket.create_connection(("127.0.0.1", served.port)).close()
    served.await_line("left before its header was complete")
    half = socket.create_connection(("127.0.0.1", served.port))
    half.sendall(b"GET / HTTP/1.1\r\n\r\n")
    served.await_line("its first octets are not AMQP 1.0")
    half.close()


@case()
def run_header_first(served, _program):
    # Nothing is written before the peer's header has come, for a quarter of a second.
    peer = socket.create_connection(("127.0.0.1", served.port))
    peer.settimeout(0.15)
    try:
        raise Wrong(f"it wrote {peer.recv(8)} first")
    except socket.timeout:
        pass
    peer.settimeout(2)
    hold(peer.recv(8) == b"AMQP\x00\x01\x00\x00", "no header after the silence")
    peer.close()


def framed(body):
    return (8 + len(body)).to_bytes(4, "big") + b"\x02\x00\x00\x00" + body


def listed(code, *items):
    body = b"".join(items)
    return b"\x00\x53" + bytes([code]) + b"\xd0" + (4 + len(body)).to_bytes(4, "big") + len(items).to_bytes(4, "big") + body


NULL, TRUE, FALSE, ZERO = b"\x40", b"\x41", b"\x42", b"\x43"


def number(n):
    return b"\x70" + n.to_bytes(4, "big")


def text(s):
    return b"\xa1" + bytes([len(s)]) + s


def octets(s):
    return b"\xa0" + bytes([len(s)]) + s


def transfer(n):
    return framed(listed(0x14, ZERO, number(n), octets(b"%d" % n), ZERO, TRUE, FALSE) + b"\x00\x53\x75\xa0\x01x")


@case("--credit", "1")
def run_violation(served, _program):
    peer = socket.create_connection(("127.0.0.1", served.port))
    opening = b"AMQP\x00\x01\x00\x00" + framed(listed(0x10, text(b"by hand")))
    opening += framed(listed(0x11, NULL, ZERO, number(2048), number(2048)))
    source, target = listed(0x28, text(b"from")), listed(0x29, text(b"to"))
    attach = framed(listed(0x12, text(b"link"), ZERO, FALSE, NULL, NULL, source, target, NULL, NULL, ZERO))
    peer.sendall(opening + attach)
    time.sleep(0.5)
    # One credit was granted, and three messages come.
    peer.sendall(transfer(0) + transfer(1) + transfer(2))
    line = served.await_line("violated the protocol")
    hold("amqp:link:transfer-limit-exceeded" in line and "transfer" in line, line)
    peer.close()


@case()
def run_bind(served, program):
    second = subprocess.run([program, "serve", "--host", "127.0.0.1", "--port", str(served.port)], capture_output=True, text=True, timeout=20)
    hold(second.returncode != 0, "it listens twice")
    hold(f"127.0.0.1:{served.port}" in second.stderr, f"the error names no address: {second.stderr!r}")


# Proton's own examples


def example(name, *words, seconds=20):
    """What an example writes, which is to end by itself."""
    path = os.path.join(EXAMPLES, name)
    return subprocess.run(["/usr/bin/python3", "-c", WRAPPED, path, *words], capture_output=True, text=True, timeout=seconds).stdout


def started(name, *words):
    """An example that goes on."""
    path = os.path.join(EXAMPLES, name)
    return subprocess.Popen(["/usr/bin/python3", "-u", "-c", WRAPPED, path, *words], stdout=subprocess.PIPE, stderr=subprocess.STDOUT, text=True)


@case()
def run_simple(served, _program):
    url = f"127.0.0.1:{served.port}/examples"
    out = example("simple_send.py", "-a", url, "-m", "100")
    hold("all messages confirmed" in out, out)
    out = example("simple_recv.py", "-a", url, "-m", "100")
    numbers = [int(found) for found in re.findall(r"'sequence': (?:int32\()?(\d+)", out)]
    hold(numbers == list(range(1, 101)), out[-300:])


@case()
def run_hello(served, _program):
    # Both examples name the port 5672 in their text.
    for name in ("helloworld.py", "helloworld_blocking.py"):
        with open(os.path.join(EXAMPLES, name), encoding="utf-8") as file:
            changed = re.sub(r"localhost:5672", f"127.0.0.1:{served.port}", file.read())
        with tempfile.NamedTemporaryFile("w", suffix=".py") as copy:
            copy.write(changed)
            copy.flush()
            out = subprocess.run(["/usr/bin/python3", "-c", WRAPPED, copy.name], capture_output=True, text=True, timeout=20)
        hold("Hello World!" in out.stdout, f"{name}: {out.stdout} {out.stderr[-300:]}")


@case()
def run_request_reply(served, _program):
    url = f"127.0.0.1:{served.port}/requests"
    server = started("server.py", "-a", url)
    try:
        hold("Listening" in server.stdout.readline(), "the server did not start")
        for _ in range(3):
            out = example("client.py", "-a", url)
            hold("=> TWAS BRILLIG, AND THE SLITHY TOVES" in out and "=> AND THE MOME RATHS OUTGRABE." in out, out)
    finally:
        server.kill()
        server.communicate()


@case()
def run_selected(served, _program):
    # The filter is not done, and the answer says so: each message comes.
    url = f"127.0.0.1:{served.port}/examples"
    example("colour_send.py", "-a", url, "-m", "10")
    out = example("selected_recv.py", "-a", url, "-m", "10")
    hold(len(out.splitlines()) == 10, out)


@case()
def run_browser(served, _program):
    url = f"127.0.0.1:{served.port}/examples"
    example("simple_send.py", "-a", url, "-m", "5")
    with open(os.path.join(EXAMPLES, "queue_browser.py"), encoding="utf-8") as file:
        changed = re.sub(r"localhost:5672", f"127.0.0.1:{served.port}", file.read())
    with tempfile.NamedTemporaryFile("w", suffix=".py") as copy:
        copy.write(changed)
        copy.flush()
        browser = subprocess.Popen(["/usr/bin/python3", "-u", "-c", WRAPPED, copy.name], stdout=subprocess.PIPE, text=True)
        for _ in range(5):
            hold("sequence" in browser.stdout.readline(), "a message was not shown")
        browser.kill()
        browser.communicate()
    out = example("simple_recv.py", "-a", url, "-m", "5")
    hold(out.count("sequence") == 5, out)


SERVE_FAULTS = (
    ("serve    a dynamic source, which is deleted with its link", run_dynamic),
    ("serve    a coordinator is refused", run_coordinator),
    ("serve    a filter and capabilities are left out", run_filter),
    ("serve    copies, and the messages stay", run_copies),
    ("serve    a target without an address", run_anonymous),
    ("serve    modified, with the delivery-count", run_modified),
    ("serve    released", run_released),
    ("serve    a peer that goes gives its messages back in order", run_ended),
    ("serve    the limit of the queues", run_limit),
    ("serve    a peer that asks for SASL, 20 times", run_sasl),
    ("serve    peers that leave before they say anything", run_early),
    ("serve    the peer's header comes first", run_header_first),
    ("serve    a violation is printed", run_violation),
    ("serve    a port that is taken", run_bind),
    ("serve    Proton's simple_send and simple_recv", run_simple),
    ("serve    Proton's helloworld", run_hello),
    ("serve    Proton's request and reply", run_request_reply),
    ("serve    Proton's selected_recv", run_selected),
    ("serve    Proton's queue_browser", run_browser),
)


def main():
    """Runs the cases alone: live/faults_serve.py PROGRAM PORT [TEXT]."""
    import sys

    program, port = os.path.abspath(sys.argv[1]), int(sys.argv[2])
    failed = 0
    for place, (name, run_one) in enumerate(SERVE_FAULTS):
        if len(sys.argv) > 3 and sys.argv[3] not in name:
            continue
        begun = time.monotonic()
        wrong = run_one(program, port + place)
        failed += bool(wrong)
        print(f"{name:75} {time.monotonic() - begun:6.2f} s  {wrong or 'ok'}", flush=True)
    return 1 if failed else 0


if __name__ == "__main__":
    raise SystemExit(main())

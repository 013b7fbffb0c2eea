"""Faults of `send` and `receive` that cost messages, or said too little, for live/run: each case fails without its repair."""
import contextlib
import os
import re
import socket
import struct
import subprocess
import tempfile
import threading
import time

LIMIT = 60
HERE = os.path.dirname(os.path.abspath(__file__))
SECURE = ["/usr/bin/python3", os.path.join(HERE, "secure.py")]
OPEN, BEGIN, ATTACH, FLOW, TRANSFER, DISPOSITION, DETACH, END, CLOSE = range(0x10, 0x19)
HEADER = b"AMQP\x00\x01\x00\x00"


def started(words, **more):
    return subprocess.Popen(words, stdout=subprocess.PIPE, stderr=subprocess.PIPE, text=True, **more)


def wait_for(port):
    """Until somebody listens at the port, by the kernel's table."""
    for _ in range(200):
        with open("/proc/net/tcp", encoding="ascii") as file:
            if any(line.split()[1].endswith(f":{port:04X}") and line.split()[3] == "0A" for line in file):
                return
        time.sleep(0.02)


def frame(code, *fields):
    """A frame on channel 0 with these encoded fields, and none behind the last."""
    body = b"".join(fields)
    body = b"\x00S" + bytes([code]) + b"\xd0" + struct.pack(">II", len(body) + 4, len(fields)) + body
    return struct.pack(">IBBH", len(body) + 8, 2, 0, 0) + body


def uint(number):
    return b"p" + struct.pack(">I", number)


def text(words, code=0xA1):
    return bytes([code, len(words)]) + words.encode()


def error(condition):
    body = text(condition, 0xA3) + text("why")
    return b"\x00S\x1d\xc0" + bytes([len(body) + 1, 2]) + body


def attach(is_receiver):
    """The attach that answers that of our link."""
    return frame(ATTACH, text("amqp_peer"), b"C", b"A" if is_receiver else b"B", b"@", b"@", b"\x00S\x28E", b"\x00S\x29E", b"@", b"@", b"C")


def flow(credit):
    return frame(FLOW, b"C", uint(2048), b"C", uint(2048), b"C", b"C", uint(credit))


def transfer(number):
    """A message `x`, unsettled."""
    head = frame(TRANSFER, b"C", uint(number), b"\xa0\x04" + struct.pack(">I", number), b"C", b"B")
    return struct.pack(">I", len(head) + 6) + head[4:] + b"\x00Su\xa0\x01x"


def read_value(octets):
    """The first value, and what stands behind it."""
    code, rest = octets[0], octets[1:]
    if code == 0:
        _, rest = read_value(rest)
        return read_value(rest)
    if code in (0xC0, 0xC1):
        return read_values(rest[2 : 1 + rest[0]], rest[1]), rest[1 + rest[0] :]
    if code in (0xD0, 0xD1):
        size, count = struct.unpack(">II", rest[:8])
        return read_values(rest[8 : 4 + size], count), rest[4 + size :]
    kind = code >> 4
    if kind in (0xA, 0xB):
        width = 1 if kind == 0xA else 4
        size = int.from_bytes(rest[:width], "big")
        return rest[width : width + size], rest[width + size :]
    width = {4: 0, 5: 1, 6: 2, 7: 4, 8: 8, 9: 16}.get(kind)
    if width is None:
        return None, b""
    return {0x40: None, 0x41: True, 0x42: False}.get(code, int.from_bytes(rest[:width], "big")), rest[width:]


def read_values(octets, count):
    values = []
    for _ in range(count):
        if octets:
            value, octets = read_value(octets)
            values.append(value)
    return values


class Peer:
    """The other end of one connection, by hand."""

    def __init__(self, stream):
        self.stream, self.kept = stream, b""
        stream.settimeout(LIMIT)

    def frames(self):
        """Each frame with a body that comes: its code, and its fields."""
        self.kept = self.read(8)[8:]
        while True:
            head = self.read(8)
            size = struct.unpack(">I", head[:4])[0]
            octets = self.read(size)
            self.kept = octets[size:]
            if size > 8:
                yield octets[10], read_value(octets[8:size])[0]

    def read(self, least):
        while len(self.kept) < least:
            octets = self.stream.recv(65536)
            if not octets:
                raise EOFError
            self.kept += octets
        return self.kept

    def answer(self, replies):
        """Answers each frame by what `replies` gives for its code and its fields: octets, none, or an end of the connection."""
        self.stream.sendall(HEADER)
        usual = {OPEN: frame(OPEN, text("a")), BEGIN: frame(BEGIN, b"`\x00\x00", b"C", uint(2048), uint(2048)), DETACH: frame(DETACH, b"C", b"A"), END: frame(END), CLOSE: frame(CLOSE)}
        with contextlib.suppress(OSError, EOFError):
            for code, fields in self.frames():
                reply = replies(code, fields)
                if reply is StopIteration:
                    break
                self.stream.sendall(usual.get(code, b"") if reply is None else reply)
                if code == CLOSE:
                    break
        self.stream.close()


def with_peers(words, port, *peers, **more):
    """What our end does whose connections these peers take, one after the other: its status, and what it prints on standard output and standard error."""
    with socket.create_server(("127.0.0.1", port)) as server:
        server.settimeout(LIMIT)

        def take():
            with contextlib.suppress(OSError):
                for replies in peers:
                    Peer(server.accept()[0]).answer(replies)

        thread = threading.Thread(target=take, daemon=True)
        thread.start()
        ran = subprocess.run(words, capture_output=True, text=True, timeout=LIMIT, check=False, **more)
        return ran.returncode, ran.stdout, ran.stderr


def taking(outcome=b"\x00S\x24E", ends=None):
    """A peer that takes messages, and settles each so; behind its attach it sends what `ends` is."""

    def replies(code, fields):
        if code == ATTACH:
            return attach(True) + (ends or flow(100))
        if code == TRANSFER and outcome:
            return frame(DISPOSITION, b"A", uint(fields[1]), uint(fields[1]), b"A", outcome)
        return None

    return replies


# ---- the cases


def run_over_grant(program, port):
    """Of 200 settled messages some are asked for, in several ways: all others stay with `serve`."""
    for more in (["--credit", "10"], ["--credit", "100"], ["--credit", "10", "--half"], ["--credit", "10", "--half", "--journal"]):
        us = started([program, "serve", "--port", str(port)])
        wait_for(port)
        try:
            words = ["--port", str(port), "--address", "q"]
            subprocess.run([program, "send", *words, "--count", "200", "--settled"], capture_output=True, timeout=LIMIT, check=True)
            with tempfile.TemporaryDirectory() as folder:
                more = [*more, f"{folder}/journal"] if more[-1] == "--journal" else more
                had = subprocess.run([program, "receive", *words, "--count", "50", "--lines", *more], capture_output=True, timeout=LIMIT, check=False)
            rest = subprocess.run([program, "receive", *words, "--drain", "--credit", "1000", "--count", "1000", "--lines"], capture_output=True, timeout=LIMIT, check=False)
        finally:
            us.kill()
            us.wait()
        counts = [it.stdout.count(b"\n") for it in (had, rest)]
        if counts != [50, 150] or had.returncode or rest.returncode:
            return f"{more}: {counts} messages, statuses {had.returncode} and {rest.returncode}"
    return None


def run_no_recovery(program, port):
    """A peer that does not recover links ends the session whose attach brings something in: our end attaches once more without it, and says so."""
    for ends in (frame(END, error("amqp:not-implemented")), frame(DETACH, b"C", b"A", error("amqp:not-implemented"))):
        seen = []

        def cut(code, fields):
            return StopIteration if code == TRANSFER else taking()(code, fields)

        def refuse(code, fields):
            if code == ATTACH and len(fields) > 7 and fields[7]:
                return ends if ends[10] == END else attach(True) + ends
            return None

        def take(code, fields):
            if code == TRANSFER:
                seen.append(fields[1])
            return taking()(code, fields)

        with tempfile.TemporaryDirectory() as folder:
            words = [program, "send", "--port", str(port), "--count", "3", "--size", "1", "--journal", f"{folder}/journal", "--retries", "3"]
            status, out, err = with_peers(words, port, cut, refuse, take)
        if (status, out.splitlines()[:2], len(seen)) != (0, ["sent 3", "accepted 3"], 3) or "does not recover links" not in err:
            return f"status {status}, {out.split()}, {len(seen)} messages, {err}"
    return None


def run_told_of_link(program, port):
    """Why the peer ends the session or the link is printed, with a journal too, and if all its frames come in one piece."""
    ended = frame(END, error("amqp:internal-error"))
    left = frame(DETACH, b"C", b"A", error("amqp:resource-deleted")) + frame(END) + frame(CLOSE)
    for condition, ends in (("amqp:internal-error", ended), ("amqp:resource-deleted", left)):
        for is_kept in (False, True):
            with tempfile.TemporaryDirectory() as folder:
                more = ["--journal", f"{folder}/journal", "--retries", "0"] if is_kept else []
                words = [program, "send", "--port", str(port), "--count", "3", *more]
                status, out, err = with_peers(words, port, taking(ends=ends))
            if status != 1 or f"told {condition} why" not in err or not out.startswith("sent "):
                return f"{condition}, {more}: status {status}, {out.split()}, {err}"
    return None


def run_violation(program, port):
    """A peer sends more than it may: which rule it breaks, and by which frame, is printed."""

    def replies(code, _fields):
        if code == ATTACH:
            return attach(False)
        return b"".join(transfer(number) for number in range(3)) if code == FLOW else None

    words = [program, "receive", "--port", str(port), "--count", "10", "--credit", "2", "--lines"]
    status, _, err = with_peers(words, port, replies)
    wanted = "violation amqp:link:transfer-limit-exceeded: the peer sent a transfer"
    return None if status == 1 and wanted in err else f"status {status}: {err}"


def run_wants_sasl(program, port):
    """A peer that wants SASL connects to our end, or is connected to: each time what it wants is said."""
    for number in range(5):
        us = started([program, "receive", "--port", str(port), "--listen"])
        wait_for(port)
        them = started([*SECURE, "connect", str(port)])
        try:
            said = us.communicate(timeout=LIMIT)[1]
        finally:
            for it in (us, them):
                it.kill()
                it.wait()
        if us.returncode != 1 or "SASL" not in said:
            return f"connects, {number}: status {us.returncode}: {said}"
        them = started([*SECURE, "listen", str(port)])
        wait_for(port)
        try:
            ran = subprocess.run([program, "send", "--port", str(port), "--count", "1"], capture_output=True, text=True, timeout=LIMIT, check=False)
        finally:
            them.kill()
            them.wait()
        if ran.returncode != 1 or "SASL" not in ran.stderr and "told " not in ran.stderr:
            return f"listens, {number}: status {ran.returncode}: {ran.stderr}"
    return None


def run_streamed(program, port):
    """Lines that come a second apart go as they come, also with a journal: each is taken before the next one is written."""
    for is_kept in (False, True):
        times = []

        def take(code, fields):
            if code == TRANSFER:
                times.append(time.monotonic())
            return taking()(code, fields)

        with tempfile.TemporaryDirectory() as folder, socket.create_server(("127.0.0.1", port)) as server:
            more = ["--journal", f"{folder}/journal"] if is_kept else []
            us = started([program, "send", "--port", str(port), "--lines", *more], stdin=subprocess.PIPE)
            threading.Thread(target=lambda: Peer(server.accept()[0]).answer(take), daemon=True).start()
            begun = []
            try:
                for line in ("a\n", "b\n", "c"):
                    begun.append(time.monotonic())
                    us.stdin.write(line)
                    us.stdin.flush()
                    time.sleep(1)
                out, err = us.communicate(timeout=LIMIT)
            finally:
                us.kill()
        if us.returncode or len(times) != 3 or not out.startswith("sent 3\naccepted 3\n"):
            return f"status {us.returncode}, {len(times)} messages, {out.split()}, {err}"
        if any(came - went > 0.8 for came, went in zip(times[:2], begun)):
            return f"{more}: came after {[round(came - went, 2) for came, went in zip(times, begun)]} s"
    return None


def peak_of(process):
    """The most memory that the process had until it ended, in KB."""
    most = 0
    while process.poll() is None:
        with contextlib.suppress(OSError, ValueError, IndexError):
            with open(f"/proc/{process.pid}/status", encoding="ascii") as file:
                most = max([most] + [int(line.split()[1]) for line in file if line.startswith("VmHWM")])
        time.sleep(0.01)
    return most


def run_long_lines(program, port):
    """Of many long lines few wait at a time: the memory stays small."""
    us = started([program, "serve", "--port", str(port), "--limit", "2000", "--credit", "2000"])
    wait_for(port)
    try:
        with tempfile.TemporaryFile() as file:
            for _ in range(1500):
                file.write(b"x" * 60000 + b"\n")
            file.seek(0)
            sender = started([program, "send", "--port", str(port), "--lines"], stdin=file)
            most = peak_of(sender)
            out = sender.communicate()[0]
    finally:
        us.kill()
        us.wait()
    is_right = sender.returncode == 0 and out.startswith("sent 1500\naccepted 1500\n") and 0 < most < 20000
    return None if is_right else f"status {sender.returncode}, {out.split()}, {most} KB"


def in_doubt(path):
    """How many messages have begun by the journal there, and have no outcome."""
    words = []
    with contextlib.suppress(FileNotFoundError), open(path, encoding="ascii") as file:
        words = [line.split()[0] for line in file if line.endswith("\n")]
    return 2 * words.count("begun") - len(words) + words.count("sender")


def feed(stream, count):
    """Writes 33 lines a second."""
    with contextlib.suppress(OSError):
        for number in range(count):
            stream.write(f"{number}\n".encode())
            stream.flush()
            time.sleep(0.03)
        stream.close()


class Takers:
    """Peers that settle each message at once, and do not recover links. Each of the first ones is lost behind so many messages of its own."""

    def __init__(self, port, losses, credit):
        self.losses, self.credit, self.tags = list(losses), credit, []
        self.server = socket.create_server(("127.0.0.1", port))
        threading.Thread(target=self.take, daemon=True).start()

    def take(self):
        with contextlib.suppress(OSError):
            while True:
                Peer(self.server.accept()[0]).answer(self.replies())

    def replies(self):
        had = []

        def replies(code, fields):
            if code == ATTACH:
                return frame(END, error("amqp:not-implemented")) if len(fields) > 7 and fields[7] else attach(True) + flow(self.credit)
            if code != TRANSFER:
                return None
            had.append(fields[2])
            self.tags.append(fields[2])
            if self.losses and len(had) == self.losses[0]:
                self.losses.pop(0)
                return StopIteration
            return frame(DISPOSITION, b"A", uint(fields[1]), uint(fields[1]), b"A", b"\x00S\x24E")

        return replies

    def doubled(self):
        return len(self.tags) - len(set(self.tags))

    def close(self):
        self.server.shutdown(socket.SHUT_RDWR)
        self.server.close()


def run_steady(program, port):
    """Lines that come all the time, 33 a second: outcomes are read as they come, so little is in doubt, and a connection that is lost doubles little."""
    count, losses = 150, (20, 30, 40)
    peers = Takers(port, losses, 1000)
    try:
        with tempfile.TemporaryDirectory() as folder:
            path = f"{folder}/journal"
            us = subprocess.Popen([program, "send", "--port", str(port), "--lines", "--journal", path], stdin=subprocess.PIPE, stdout=subprocess.PIPE, stderr=subprocess.PIPE)
            threading.Thread(target=feed, args=(us.stdin, count), daemon=True).start()
            most = 0
            while us.poll() is None:
                most = max(most, in_doubt(path))
                time.sleep(0.005)
            out = us.stdout.read().decode()
    finally:
        us.kill()
        peers.close()
    is_right = us.returncode == 0 and out.startswith(f"sent {count}\naccepted {count}\n") and len(set(peers.tags)) == count
    return None if is_right and most <= 30 and peers.doubled() <= 2 * len(losses) else f"status {us.returncode}, {out.split()}, {most} in doubt, {peers.doubled()} doubled"


def run_fast(program, port):
    """Lines that are all there: the peer is heard between them, so a connection that is lost doubles no more than was on its way."""
    count, losses = 1900, (300, 600)
    peers = Takers(port, losses, 2000)
    try:
        with tempfile.TemporaryDirectory() as folder, tempfile.TemporaryFile() as file:
            file.write(b"".join(b"%d\n" % number for number in range(count)))
            file.seek(0)
            words = [program, "send", "--port", str(port), "--lines", "--journal", f"{folder}/journal"]
            ran = subprocess.run(words, stdin=file, capture_output=True, text=True, timeout=LIMIT, check=False)
    finally:
        peers.close()
    is_right = ran.returncode == 0 and ran.stdout.startswith(f"sent {count}\naccepted {count}\n") and len(set(peers.tags)) == count
    return None if is_right and peers.doubled() <= 150 * len(losses) else f"status {ran.returncode}, {ran.stdout.split()}, {peers.doubled()} doubled: {ran.stderr}"


def run_steady_alone(program, port):
    """Without a journal, too, outcomes are read as they come, and a peer that says nothing more is given up."""
    for is_silent in (False, True):
        begun = time.monotonic()

        def replies(code, fields, had=[]):
            if code == TRANSFER:
                had.append(fields[1])
                return b"" if is_silent else StopIteration if len(had) == 60 else taking()(code, fields)
            return attach(True) + flow(1000) if code == ATTACH else None

        with socket.create_server(("127.0.0.1", port)) as server:
            threading.Thread(target=lambda: Peer(server.accept()[0]).answer(lambda *it, had=[]: replies(*it, had)), daemon=True).start()
            us = subprocess.Popen([program, "send", "--port", str(port), "--lines", "--timeout", "2"], stdin=subprocess.PIPE, stdout=subprocess.PIPE, stderr=subprocess.PIPE)
            threading.Thread(target=feed, args=(us.stdin, 200), daemon=True).start()
            try:
                us.wait(timeout=LIMIT)
                out, err = us.stdout.read().decode(), us.stderr.read().decode()
            finally:
                us.kill()
        took = time.monotonic() - begun
        counts = [int(it) for it in re.findall(r"^(?:sent|accepted) (\d+)", out, re.M)]
        if us.returncode != 1 or len(counts) != 2 or took > 5 or not is_silent and counts[0] - counts[1] > 5:
            return f"silent {is_silent}: status {us.returncode} after {took:.1f} s, {counts}: {err}"
    return None


def giving(numbers):
    """A peer that sends these messages, each a line with its number, once there is credit."""
    sent = []

    def replies(code, _fields):
        if code == ATTACH:
            return attach(False)
        if code != FLOW or sent:
            return None
        sent.append(code)
        return b"".join(transfer(number)[:-1] + b"%d" % number for number in numbers)

    return replies


def run_unnoted(program, port):
    """A run was killed between the print of a message and its line in the journal: the next run cuts the message off the same file, and prints it once."""
    for torn in (0, 1, 2):
        with tempfile.TemporaryDirectory() as folder:
            path, words = f"{folder}/journal", ["--port", str(port), "--lines", "--credit", "9", "--journal", f"{folder}/journal", "--retries", "0"]
            with open(f"{folder}/out", "ab") as out:
                out.write(b"mine\n")
            for numbers in ((0, 1, 2), (2, 3)):
                with open(f"{folder}/out", "ab") as out, socket.create_server(("127.0.0.1", port)) as server:
                    count = str(numbers[-1] + 1)
                    us = subprocess.Popen([program, "receive", "--count", count, *words], stdout=out, stderr=subprocess.PIPE)
                    Peer(server.accept()[0]).answer(giving(numbers))
                    err = us.communicate(timeout=LIMIT)[1]
                if numbers[0] == 0:
                    with open(path, encoding="ascii") as file:
                        noted = file.read()
                    with open(path, "w", encoding="ascii") as file:
                        file.write(noted[: noted.rindex("taken ")])
                    os.truncate(f"{folder}/out", os.path.getsize(f"{folder}/out") - torn)
            with open(f"{folder}/out", encoding="ascii") as file:
                had = file.read().split()
        if us.returncode or had != ["mine", "0", "1", "2", "3"]:
            return f"torn {torn}: status {us.returncode}, {had}: {err}"
    return None


def run_connect_limit(program, port):
    """A host that does not answer is given up after --timeout."""
    with socket.socket() as full:
        full.bind(("127.0.0.1", port))
        full.listen(0)
        others = []
        for _ in range(4):
            other = socket.socket()
            other.setblocking(False)
            with contextlib.suppress(BlockingIOError):
                other.connect(("127.0.0.1", port))
            others.append(other)
        begun = time.monotonic()
        ran = subprocess.run([program, "send", "--port", str(port), "--count", "1", "--timeout", "2"], capture_output=True, text=True, timeout=LIMIT, check=False)
        took = time.monotonic() - begun
        for other in others:
            other.close()
    wanted = f"cannot connect to 127.0.0.1:{port}: "
    return None if ran.returncode == 1 and wanted in ran.stderr and 1 < took < 5 else f"status {ran.returncode} after {took:.1f} s: {ran.stderr}"


def run_wait(program, port):
    """A message is waited for as long as is asked for, and the connection is closed as agreed."""
    closed = []

    def replies(code, _fields):
        if code == CLOSE:
            closed.append(code)
        if code == FLOW and not closed:
            return transfer(0)
        return attach(False) if code == ATTACH else None

    for is_kept in (False, True):
        closed.clear()
        with tempfile.TemporaryDirectory() as folder:
            more = ["--journal", f"{folder}/journal"] if is_kept else []
            words = [program, "receive", "--port", str(port), "--count", "2", "--credit", "1", "--wait", "1", "--lines", *more]
            begun = time.monotonic()

            def once(code, fields, counted=[]):
                if code == FLOW:
                    counted.append(code)
                    return transfer(0) if len(counted) == 1 else b""
                return replies(code, fields)

            status, out, err = with_peers(words, port, lambda code, fields, kept=[]: once(code, fields, kept))
            took = time.monotonic() - begun
        if (status, out) != (1, "x\n") or "no message came for 1 seconds" not in err or "received 1," not in err or not closed or took > 5:
            return f"{more}: status {status} after {took:.1f} s, {out!r}, {err}"
    return None


def run_causes(program, port):
    """A run that fails prints its counts and the cause."""
    ran = subprocess.run([program, "send", "--port", str(port), "--count", "1"], capture_output=True, text=True, timeout=LIMIT, check=False)
    wanted = f"cannot connect to 127.0.0.1:{port}: Connection refused"
    if ran.returncode != 1 or wanted not in ran.stderr or not ran.stdout.startswith("sent 0\n"):
        return f"refused: status {ran.returncode}, {ran.stdout}, {ran.stderr}"
    words = [program, "send", "--host", "no-such-host.invalid", "--port", str(port), "--count", "1"]
    ran = subprocess.run(words, capture_output=True, text=True, timeout=LIMIT, check=False)
    if ran.returncode != 1 or f"cannot connect to no-such-host.invalid:{port}: " not in ran.stderr:
        return f"no host: status {ran.returncode}, {ran.stderr}"
    with socket.create_server(("127.0.0.1", port)):
        ran = subprocess.run([program, "receive", "--listen", "--port", str(port)], capture_output=True, text=True, timeout=LIMIT, check=False)
    if ran.returncode != 1 or f"cannot listen at 127.0.0.1:{port}: Address already in use" not in ran.stderr:
        return f"in use: status {ran.returncode}, {ran.stderr}"

    def reset(code, fields):
        return StopIteration if code == TRANSFER and fields[1] == 2 else taking()(code, fields)

    def abruptly(code, fields):
        reply = reset(code, fields)
        if reply is StopIteration:
            linger = struct.pack("ii", 1, 0)
            STREAMS[-1].setsockopt(socket.SOL_SOCKET, socket.SO_LINGER, linger)
        return reply

    with socket.create_server(("127.0.0.1", port)) as server:

        def take():
            stream = server.accept()[0]
            STREAMS.append(stream)
            Peer(stream).answer(abruptly)

        threading.Thread(target=take, daemon=True).start()
        ran = subprocess.run([program, "send", "--port", str(port), "--count", "5"], capture_output=True, text=True, timeout=LIMIT, check=False)
    # What the peer said last may go with the connection.
    is_right = ran.returncode == 1 and re.match(r"sent 5\naccepted [012]\n", ran.stdout) and "Connection reset by peer" in ran.stderr
    return None if is_right else f"reset: status {ran.returncode}, {ran.stdout.split()}, {ran.stderr}"


# Streams that are reset.
STREAMS = []


def run_listens(program, _port):
    """Where our end listens is printed, with the port that the system chose, and an IPv6 address may stand in brackets."""
    for host in ("127.0.0.1", "[::1]", "::1"):
        us = started([program, "receive", "--listen", "--host", host, "--port", "0", "--lines"])
        try:
            found = re.match(r"listens (.*):(\d+)$", us.stderr.readline())
            if not found or found[2] == "0":
                return f"{host}: prints no address"
            sent = subprocess.run([program, "send", "--host", host, "--port", found[2], "--count", "1"], capture_output=True, text=True, timeout=LIMIT, check=False)
            out = us.communicate(timeout=LIMIT)[0]
        finally:
            us.kill()
        if sent.returncode or us.returncode or out.count("\n") != 1:
            return f"{host}: statuses {sent.returncode} and {us.returncode}, {sent.stderr}"
    return None


def run_settled_so(program, port):
    """Messages are released instead of accepted, and so stay where they are."""
    us = started([program, "serve", "--port", str(port)])
    wait_for(port)
    words = ["--port", str(port), "--address", "q"]
    try:
        subprocess.run([program, "send", *words, "--count", "3"], capture_output=True, timeout=LIMIT, check=True)
        ran = [subprocess.run([program, "receive", *words, "--count", "3", "--lines", *more], capture_output=True, timeout=LIMIT, check=False) for more in (["--release"], [])]
    finally:
        us.kill()
        us.wait()
    is_right = [(it.returncode, it.stdout.count(b"\n")) for it in ran] == [(0, 3), (0, 3)]
    return None if is_right else f"{ran}"


def run_broker_kills(program, port, _management=None):
    """Our ends with journals are killed while messages go through a broker, which does not recover links: no message is lost."""
    words = ["--port", str(port), "--address", f"/queue/live-{os.getpid()}-kills"]
    count, said = 5000, ""
    with tempfile.TemporaryDirectory() as folder:
        with open(f"{folder}/in", "w", encoding="ascii") as file:
            file.writelines(f"{number}\n" for number in range(count))
        for kills in range(4):
            with open(f"{folder}/in", "rb") as file:
                us = started([program, "send", *words, "--lines", "--journal", f"{folder}/sent"], stdin=file)
                if kills < 3:
                    time.sleep(0.3)
                    us.kill()
                said += us.communicate(timeout=LIMIT)[1]
        if us.returncode:
            return f"send: status {us.returncode}: {said}"
        for kills in range(4):
            with open(f"{folder}/out", "ab") as file:
                taker = [program, "receive", *words, "--lines", "--count", "1000000", "--credit", "100", "--wait", "3", "--journal", f"{folder}/had"]
                us = subprocess.Popen(taker, stdout=file, stderr=subprocess.PIPE, text=True)
                if kills < 3:
                    time.sleep(0.3)
                    us.kill()
                said += us.communicate(timeout=LIMIT)[1]
        with open(f"{folder}/out", encoding="ascii") as file:
            had = set(file.read().split())
    is_right = had == {str(number) for number in range(count)} and "no message came for 3 seconds" in said
    return None if is_right else f"{len(had)} different messages: {said}"


CASES = (
    ("receive  no credit for more than is wanted", run_over_grant),
    ("send     with a journal, a peer that does not recover links", run_no_recovery),
    ("send     prints why a peer ends a session or a link", run_told_of_link),
    ("receive  names the rule that a peer breaks", run_violation),
    ("send, receive  peers that want SASL", run_wants_sasl),
    ("send     lines that come a second apart", run_streamed),
    ("send     long lines, in little memory", run_long_lines),
    ("send     lines that come all the time, and lost connections", run_steady),
    ("send     lines that are all there, and lost connections", run_fast),
    ("send     lines that come all the time, without a journal", run_steady_alone),
    ("receive  killed between a message's print and its line in the journal", run_unnoted),
    ("send     a connect that is not answered", run_connect_limit),
    ("receive  a message is waited for, for a second", run_wait),
    ("send, receive  causes and counts", run_causes),
    ("send, receive  where our end listens", run_listens),
    ("receive  messages that are released", run_settled_so),
)

"""What went over connections: as a recorder between two ends had it, and as tshark reads it."""
import re
import socket
import struct
import subprocess
import tempfile
import threading

# The most octets of a packet's payload.
MOST = 60000
# The port that tshark takes for one of AMQP.
AMQP = 5672


class Recorder:
    """Takes each connection at a port on to another port, and keeps what went over it, until it is closed."""

    def __init__(self, port, to):
        self.to = to
        # Of each connection pieces of octets, in their order, and whether they are those of the end that connected.
        self.connections = []
        self.server = socket.create_server(("127.0.0.1", port))
        threading.Thread(target=self.accept, daemon=True).start()

    def accept(self):
        while True:
            try:
                here, _ = self.server.accept()
            except OSError:
                return
            try:
                there = socket.create_connection(("127.0.0.1", self.to))
            except OSError:
                here.close()
                continue
            pieces = []
            self.connections.append(pieces)
            for source, sink, is_first in ((here, there, True), (there, here, False)):
                threading.Thread(target=forward, args=(source, sink, is_first, pieces), daemon=True).start()

    def close(self):
        # A shutdown wakes the thread that accepts, which a close does not.
        self.server.shutdown(socket.SHUT_RDWR)
        self.server.close()


def forward(source, sink, is_first, pieces):
    try:
        while octets := source.recv(65536):
            pieces.append((is_first, octets))
            sink.sendall(octets)
        sink.shutdown(socket.SHUT_WR)
    except OSError:
        # One end is gone: so is the other.
        for it in (source, sink):
            it.close()


def of_end(pieces, is_first):
    """What one end of a connection sent."""
    return b"".join(octets for is_of_first, octets in pieces if is_of_first == is_first)


def packets(number, pieces):
    """The packets of a connection, of IP and TCP, without their sums."""
    ports, sent = {True: 10000 + number, False: AMQP}, {True: 1, False: 1}

    def packet(is_first, flags, sequence, payload=b""):
        there = 0 if flags == 2 else sent[not is_first]
        tcp = struct.pack(">HHIIBBHHH", ports[is_first], ports[not is_first], sequence, there, 0x50, flags, 65535, 0, 0)
        local = socket.inet_aton("127.0.0.1")
        return struct.pack(">BBHHHBBH4s4s", 0x45, 0, 40 + len(payload), 0, 0, 64, 6, 0, local, local) + tcp + payload

    yield packet(True, 0x02, 0)
    yield packet(False, 0x12, 0)
    for is_first, octets in pieces:
        for at in range(0, len(octets), MOST):
            part = octets[at : at + MOST]
            yield packet(is_first, 0x18, sent[is_first], part)
            sent[is_first] = (sent[is_first] + len(part)) % 2**32


def write_capture(file, connections):
    """A file as tshark reads it, of packets of IP."""
    file.write(struct.pack("<IHHiIII", 0xA1B2C3D4, 2, 4, 0, 0, 262144, 101))
    at = 0
    for number, pieces in enumerate(connections):
        for packet in packets(number, pieces):
            file.write(struct.pack("<IIII", at // 1000, at % 1000 * 1000, len(packet), len(packet)) + packet)
            at += 1
    file.flush()


def tshark(path, shown, *fields):
    words = ["tshark", "-r", path, "-Y", shown, "-T", "fields"]
    for it in fields:
        words += ["-e", it]
    ran = subprocess.run(words, capture_output=True, text=True, check=False)
    return ran.returncode, ran.stdout.splitlines(), ran.stderr.strip()


def named(program, octets):
    """The numbers of the performatives in what an end sent, as our `trace` tells them."""
    ran = subprocess.run([program, "trace", "--raw"], input=octets, capture_output=True, check=False)
    return [int(it) for it in re.findall(r"^AMQP:FRAME:\d+ -> @[a-z]+\((\d+)\)", ran.stdout.decode(), re.M)]


def read_alike(program, connections):
    """What is wrong where tshark finds a malformed frame in what went over the connections, or other performatives than our `trace`; else nothing. And of how
    many frames it was asked."""
    with tempfile.NamedTemporaryFile(suffix=".pcap") as file:
        write_capture(file, connections)
        status, lines, told = tshark(file.name, "_ws.malformed || _ws.expert.severity == error", "tcp.stream", "frame.number", "_ws.expert.message")
        if status or lines:
            return f"tshark: status {status}: {told[-200:]} {lines[:5]}", 0
        _, lines, _ = tshark(file.name, "amqp.performative", "tcp.stream", "tcp.dstport", "amqp.performative")
    theirs = {}
    for line in lines:
        stream, port, numbers = line.split("\t")
        theirs.setdefault((int(stream), int(port) == AMQP), []).extend(int(it) for it in numbers.split(","))
    count = 0
    for number, pieces in enumerate(connections):
        for is_first in (True, False):
            ours, read = named(program, of_end(pieces, is_first)), theirs.get((number, is_first), [])
            if ours != read:
                at = next((at for at, (one, other) in enumerate(zip(ours, read)) if one != other), min(len(ours), len(read)))
                return f"connection {number}: tshark reads {len(read)} performatives, trace {len(ours)}; from the {at}th {read[at:at + 5]}, {ours[at:at + 5]}", count
            count += len(ours)
    return None, count

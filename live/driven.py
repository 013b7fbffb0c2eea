"""Connections that `conn` of an executable of amqp_peer drives by lines, for live/run: links that are left and attached again, or put aside and resumed."""
import re
import socket
import subprocess

# A message of one octet.
MESSAGE = "005375a00178"


class Driven:
    """A connection, and what it put out and was not handed on yet."""

    def __init__(self, program, *more):
        self.process = subprocess.Popen([program, "conn", *more], stdin=subprocess.PIPE, stdout=subprocess.PIPE, text=True)
        self.out = b""
        self.say("feed -")

    def say(self, line):
        """What the line is answered."""
        self.process.stdin.write(line + "\n")
        self.process.stdin.flush()
        answer = self.process.stdout.readline().strip()
        for units in re.findall(r"units=([0-9a-f,]+)", answer):
            self.out += bytes.fromhex(units.replace(",", ""))
        return answer

    def want(self, line, wanted):
        """Says a line, which is to be answered so."""
        answer = self.say(line)
        if wanted not in answer:
            raise ValueError(f"{line}: {answer}, and not {wanted}")

    def close(self):
        self.process.kill()
        self.process.communicate()


class Over(Driven):
    """Such a connection over a socket."""

    def __init__(self, program, port, *more):
        super().__init__(program, *more)
        self.peer = socket.create_connection(("127.0.0.1", port))
        self.peer.settimeout(10)
        # What went over it, as a recorder has it.
        self.pieces = []

    def send(self):
        if self.out:
            self.pieces.append((True, self.out))
            self.peer.sendall(self.out)
            self.out = b""

    def hear(self):
        """What the peer says next is fed: what that is answered."""
        self.send()
        octets = self.peer.recv(65536)
        if not octets:
            raise ValueError("the peer's octets have ended")
        self.pieces.append((False, octets))
        answer = self.say(f"feed {octets.hex()}")
        self.send()
        return answer

    def do(self, line):
        """Says a line until it is not refused, as the peer goes on: its answer."""
        answer = self.say(line)
        while answer.startswith("refused"):
            self.hear()
            answer = self.say(line)
        self.send()
        return answer

    def await_told(self, wanted):
        answer = self.hear()
        while wanted not in answer:
            answer = self.hear()
        return answer

    def await_end(self):
        """The peer's end has come (part 2, 2.7.6): it has back what it had begun."""
        while not any(b"\x00\x53\x17" in octets for ours, octets in self.pieces if not ours):
            self.hear()

    def close(self):
        super().close()
        self.peer.close()


def attach(end, role, link, verb="attach", items=""):
    """Our link has this number, and the peer's attach is there."""
    answer = end.do(f"{verb} {role} l 2 0 0 0{items}")
    if f"given=link:{link}" not in answer:
        raise ValueError(f"{verb}: {answer}")
    end.await_told(f"attached:{link}")


def accepted(end, link, tag):
    """A message goes over the link, and is accepted."""
    end.do(f"start {link} {tag} 0 0 0 {MESSAGE}")
    answer = end.do(f"learn {link}")
    if ":accepted:" not in answer:
        raise ValueError(f"learn: {answer}")


def leave(end):
    end.do("end")
    end.do("close")
    end.await_told("phase=closed")


def detached(end):
    """A link of ours is detached, and one of its name attached."""
    end.do("begin")
    attach(end, "sender", 0)
    accepted(end, 0, "61")
    end.do("detach 0")
    end.await_told("gone:0")
    attach(end, "sender", 1)
    accepted(end, 1, "61")
    leave(end)


def resume_absent(end):
    """The peer, which has nothing of the delivery, is told of it and has it anew."""
    attach(end, "sender", 1, "rejoin", " 61:-")
    end.want("waiting 1", "waiting 61:absent")
    end.want("resume 1 61 0", "given=resumed:absent:-:-")
    accepted(end, 1, "61")
    leave(end)


def suspended(end):
    """A link of ours with an unsettled delivery is put aside, and brought back."""
    end.do("begin")
    attach(end, "sender", 0)
    end.do(f"start 0 61 0 0 0 {MESSAGE}")
    end.want("suspend 0", "given=suspended:61:-")
    end.await_told("gone:0")
    resume_absent(end)


def parted(end):
    """The peer puts it aside."""
    end.do("begin")
    attach(end, "sender", 0)
    end.do(f"start 0 61 0 0 0 {MESSAGE}")
    end.await_told("parted:0:61:-")
    resume_absent(end)


def receiving(end):
    """A link of ours on which we took a message and did not settle it is put aside, and brought back: the peer sends it anew."""
    end.do("begin")
    attach(end, "receiver", 0)
    end.do("grant 0 1 0 0")
    tag = re.search(r"taken:0:([0-9a-f]+):", end.do("take 0"))[1]
    end.want("suspend 0", f"given=suspended:{tag}:-")
    end.await_told("gone:0")
    attach(end, "receiver", 1, "rejoin", f" {tag}:-")
    end.want("waiting 1", "waiting -")
    end.do("grant 1 1 0 0")
    end.do("take 1")
    end.do("dispose receiver 1 1 1 accepted")
    leave(end)


def carry(one, other, pieces):
    """All that each puts out goes to the other."""
    while one.out or other.out:
        for near, far, is_first in ((one, other, True), (other, one, False)):
            octets, near.out = near.out, b""
            if octets:
                pieces.append((is_first, octets))
                far.say(f"feed {octets.hex()}")


def resumed(one, other, pieces):
    """Two ends of ours: a delivery that the other one has is resumed, and accepted."""
    carry(one, other, pieces)
    one.want("begin", "ok")
    carry(one, other, pieces)
    other.want("begin", "ok")
    carry(one, other, pieces)
    for end, role in ((one, "sender"), (other, "receiver")):
        end.want(f"attach {role} l 2 0 0 0", "given=link:0")
        carry(one, other, pieces)
    other.want("grant 0 1 0 0", "ok")
    carry(one, other, pieces)
    one.want(f"start 0 61 0 0 0 {MESSAGE}", "given=delivery:0")
    carry(one, other, pieces)
    other.want("take 0", "given=taken:0:61:")
    one.want("suspend 0", "given=suspended:61:-")
    carry(one, other, pieces)
    for end, role in ((one, "sender"), (other, "receiver")):
        end.want(f"rejoin {role} l 2 0 0 0 61:-", "given=link:1")
        carry(one, other, pieces)
    one.want("waiting 1", "waiting 61:held")
    other.want("grant 1 1 0 0", "ok")
    carry(one, other, pieces)
    one.want("resume 1 61 0", "given=resumed:held:1:-")
    carry(one, other, pieces)
    other.want("held receiver", "held 1:1:-:-")
    other.want("dispose receiver 1 1 1 accepted", "ok")
    carry(one, other, pieces)
    one.want("learn 1", "given=learned:1:accepted:1")
    one.want("close", "ok")
    carry(one, other, pieces)


def many_parts(end):
    """A message goes in 3001 transfers, of an octet each but the first, as the peer tells its window anew."""
    end.do("begin")
    attach(end, "sender", 0)
    end.do("start 0 61 0 0 1 005375b000000bb8")
    for _ in range(2999):
        end.do("carry 0 1 78")
    end.do("carry 0 0 78")
    answer = end.do("learn 0")
    if ":accepted:" not in answer:
        raise ValueError(f"learn: {answer}")
    leave(end)


def is_used_up(end):
    """Our window is."""
    return " in=0 " in end.say("windows")


def hear_part(end):
    """A part of the next message is heard: as much as our window lets come."""
    if is_used_up(end):
        end.do("refresh 0")
    while not is_used_up(end):
        end.hear()


def begin_part(end, link):
    """A link on which we take has a part of a message."""
    attach(end, "receiver", link)
    end.do(f"grant {link} 10 0 0")
    hear_part(end)


def take_whole(end, link):
    """The next message, for which our window is told anew as often as it is used up: its octets. It is accepted."""
    answer = end.say(f"take {link}")
    while answer.startswith("refused"):
        if is_used_up(end):
            end.do("refresh 0")
        end.hear()
        answer = end.say(f"take {link}")
    number, octets = re.search(r"taken:(\d+):[^:]*:(\w+)", answer).groups()
    end.do(f"dispose receiver {number} {number} 1 accepted")
    return bytes.fromhex(octets)


def in_parts(one, other, last):
    """Three ends have windows of less than a message. One releases the first message in the middle of it, and has it whole; it detaches in the middle of the
    second, attaches again, and ends its session in the middle. The other one has that whole, and goes in the middle of the third, which the last has. The
    peer closes then. What was had, in order."""
    for end in (one, other, last):
        end.do("begin")
    begin_part(one, 0)
    one.do("dispose receiver 0 0 1 released")
    had = [take_whole(one, 0)]
    hear_part(one)
    one.do("detach 0")
    one.await_told("gone:0")
    begin_part(one, 1)
    one.do("end")
    one.await_end()
    attach(other, "receiver", 0)
    other.do("grant 0 10 0 0")
    had.append(take_whole(other, 0))
    hear_part(other)
    other.close()
    attach(last, "receiver", 0)
    last.do("grant 0 10 0 0")
    had.append(take_whole(last, 0))
    for end in (one, last):
        end.await_told("phase=closed")
    return had

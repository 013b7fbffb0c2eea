"""Our `send` and `receive` with journals, for live/run: ends that are killed and started again, and connections that are cut."""
import contextlib
import os
import socket
import subprocess
import tempfile
import threading
import time

# What a frame of ours begins with, behind its channel: a flow, a disposition, a close.
FLOW, DISPOSITION, CLOSE = (b"\x00\x00\x00S" + bytes([it]) for it in (0x13, 0x15, 0x18))
COUNT = 2000
# When an end is killed: how many lines `receive` had printed.
KILLS = ((1, 300), (150, 151), (700, 1200), (1700, 1850))
# After how many octets, of both ways, a connection is cut, one behind the other; the next one stays.
CUTS = (0, 8, 100, 300, 700, 2000, 20000, 30000)


def transfer(number, tag, is_settled):
    """A message of one octet, in a frame."""
    return bytes.fromhex(f"0000001702000000005314c0090543 52{number:02x} a001{tag:02x} 43 {'41' if is_settled else '42'} 78")


def await_from(peer, wanted):
    """Reads until this came, or to the end."""
    heard = b""
    while wanted not in heard and (octets := peer.recv(65536)):
        heard += octets


class Cutter:
    """Connections at a port, which another port takes; each of the first ones is cut after so many octets."""

    def __init__(self, port, there, cuts):
        self.there, self.cuts = there, list(cuts)
        self.server = socket.create_server(("127.0.0.1", port))
        threading.Thread(target=self.run, daemon=True).start()

    def run(self):
        with contextlib.suppress(OSError):
            while True:
                near, _ = self.server.accept()
                threading.Thread(target=self.join, args=(near,), daemon=True).start()

    def join(self, near):
        try:
            far = socket.create_connection(("127.0.0.1", self.there))
        except OSError:
            near.close()
            return
        for it in (near, far):
            it.setsockopt(socket.IPPROTO_TCP, socket.TCP_NODELAY, 1)
        left = [self.cuts.pop(0) if self.cuts else None]
        ends = [threading.Thread(target=self.carry, args=(*it, left), daemon=True) for it in ((near, far), (far, near))]
        for it in ends:
            it.start()

    @staticmethod
    def carry(one, other, left):
        with contextlib.suppress(OSError):
            while octets := one.recv(65536):
                if left[0] is not None:
                    octets, left[0] = octets[: left[0]], max(left[0] - len(octets), 0)
                other.sendall(octets)
                if left[0] == 0:
                    break
            else:
                other.shutdown(socket.SHUT_WR)
                return
        for it in (one, other):
            with contextlib.suppress(OSError):
                it.shutdown(socket.SHUT_RDWR)

    def close(self):
        # A shutdown wakes the thread that accepts, which a close does not.
        self.server.shutdown(socket.SHUT_RDWR)
        self.server.close()


class Pair:
    """A `send` and a `receive` with journals, whose input and outputs are files."""

    def __init__(self, program, folder, ports, listens, count, more=()):
        self.folder, self.count, self.runs = folder, count, 0
        with open(self.path("in"), "w", encoding="ascii") as file:
            file.writelines(f"{number:06}\n" for number in range(count))
        self.words = {}
        for role, port in zip(("send", "receive"), ports):
            words = [program, role, "--port", str(port), "--journal", self.path(role), "--lines", "--retries", "60", *more]
            self.words[role] = words + ["--listen"] * (role == listens)
        self.words["receive"] += ["--count", str(count), "--credit", "50"]
        self.ends = {}

    def path(self, name):
        return os.path.join(self.folder, name)

    def start(self, role):
        self.runs += 1
        with open(self.path("in"), "rb") as file, open(self.path(f"{role}.out.{self.runs}"), "wb") as out:
            self.ends[role] = subprocess.Popen(self.words[role], stdin=file, stdout=out, stderr=subprocess.PIPE, text=True)

    def lines(self, role):
        """What all runs of it have printed, each by its lines that are whole."""
        had = []
        for number in range(1, self.runs + 1):
            with contextlib.suppress(FileNotFoundError), open(self.path(f"{role}.out.{number}"), encoding="ascii") as file:
                had.append([it[:-1] for it in file if it.endswith("\n")])
        return had

    def noted(self, role, word):
        with open(self.path(role), encoding="ascii") as file:
            return sum(it.startswith(f"{word} ") and it.endswith("\n") for it in file)

    def printed(self):
        return sum(map(len, self.lines("receive")))

    def await_printed(self, count, limit):
        until = time.monotonic() + limit
        while self.printed() < count and self.ends["receive"].poll() is None and time.monotonic() < until:
            time.sleep(0.002)

    def kill(self, role):
        self.ends[role].kill()
        self.ends[role].communicate()

    def wrong(self, twice, limit):
        """What is wrong with both once they have ended, where these messages may be there twice."""
        said = {role: it.communicate(timeout=limit)[1].strip() for role, it in self.ends.items()}
        statuses = [it.returncode for it in self.ends.values()]
        told = self.lines("send")[-1]
        had = sorted(it for run in self.lines("receive") for it in run)
        wanted = sorted([f"{it:06}" for it in range(self.count)] + twice)
        if statuses != [0, 0] or told[:2] != [f"sent {self.count}", f"accepted {self.count}"]:
            return f"statuses {statuses}, send tells {told}, {said}"
        if had != wanted:
            return f"{len(had)} messages, and {len(set(had))} of them different"
        return None

    def close(self):
        for it in self.ends.values():
            it.kill()


def run_kills(program, port, listens, limit):
    """`receive` is killed and started again, and then `send`."""
    for first, second in KILLS:
        with tempfile.TemporaryDirectory() as folder:
            pair = Pair(program, folder, (port, port), listens, COUNT)
            try:
                for role in ("receive", "send") if listens == "receive" else ("send", "receive"):
                    pair.start(role)
                pair.await_printed(first, limit)
                pair.kill("receive")
                # A message that was printed and not noted is printed once more: the one gap there is.
                had = pair.lines("receive")[-1]
                twice = had[pair.noted("receive", "taken") :]
                pair.start("receive")
                pair.await_printed(second, limit)
                pair.kill("send")
                pair.start("send")
                wrong = pair.wrong(twice, limit) if len(twice) < 2 else f"{len(twice)} messages are not noted"
            except subprocess.TimeoutExpired:
                wrong = "does not end"
            finally:
                pair.close()
            if wrong:
                return f"{listens} listens, kills at {first} and {second}: {wrong}"
    return None


def run_cuts(program, port, behind, limit):
    """The socket between both is cut, again and again; also where no frame has more than 512 octets."""
    for more in ((), ("--max-frame", "512")):
        for listens in ("receive", "send"):
            cutter = Cutter(port, behind, CUTS)
            ports = (port, behind) if listens == "receive" else (behind, port)
            with tempfile.TemporaryDirectory() as folder:
                pair = Pair(program, folder, ports, listens, COUNT, more)
                try:
                    pair.start(listens)
                    time.sleep(0.2)
                    pair.start("send" if listens == "receive" else "receive")
                    wrong = pair.wrong([], limit)
                    wrong = wrong or (f"{len(cutter.cuts)} cuts are left" if cutter.cuts else None)
                except subprocess.TimeoutExpired:
                    wrong = "does not end"
                finally:
                    pair.close()
                    cutter.close()
            if wrong:
                return f"{listens} listens, {more}: {wrong}"
    return None


def run_proton_again(program, port, proton, wait_for, limit):
    """Proton takes messages, is killed, and is started again: it has just those that it had not accepted."""
    with tempfile.TemporaryDirectory() as folder:
        pair = Pair(program, folder, (port, port), "receive", COUNT)
        us = them = None
        try:
            them = subprocess.Popen(proton, stdout=subprocess.PIPE, stderr=subprocess.PIPE, text=True)
            wait_for(port)
            pair.start("send")
            us = pair.ends["send"]
            while not os.path.exists(pair.path("send")) or pair.noted("send", "accepted") < 300:
                if us.poll() is not None:
                    return f"ends: {us.communicate()}"
                time.sleep(0.002)
            them.kill()
            them.communicate()
            time.sleep(0.3)
            before = pair.noted("send", "accepted")
            them = subprocess.Popen(proton, stdout=subprocess.PIPE, stderr=subprocess.PIPE, text=True)
            said = us.communicate(timeout=limit)
            had = them.communicate(timeout=limit)[0].strip()
            told = pair.lines("send")[-1][:2]
            is_right = (us.returncode, told, had) == (0, [f"sent {COUNT}", f"accepted {COUNT}"], str(COUNT - before))
            return None if is_right and before < COUNT else f"status {us.returncode}: {said}, tells {told}, Proton {had} behind {before}"
        except subprocess.TimeoutExpired:
            return "does not end"
        finally:
            for it in (us, them):
                if it:
                    it.kill()


def run_tags(program, port, opening, limit):
    """A sender uses a tag for two messages, and its connection is cut; over the next one two messages come settled, with one tag, and a close in the same piece."""
    with tempfile.TemporaryDirectory() as folder, socket.create_server(("127.0.0.1", port)) as server:
        words = [program, "receive", "--port", str(port), "--journal", os.path.join(folder, "journal"), "--count", "4", "--lines"]
        us = subprocess.Popen(words, stdout=subprocess.PIPE, stderr=subprocess.PIPE, text=True)
        last = transfer(0, 1, True) + transfer(1, 1, True) + bytes.fromhex("0000000c02000000005318 45")
        talks = (((transfer(0, 0, False), DISPOSITION), (transfer(1, 0, False), DISPOSITION)), ((last, CLOSE),))
        try:
            server.settimeout(limit)
            for talk in talks:
                peer, _ = server.accept()
                with peer:
                    peer.settimeout(limit)
                    for octets, wanted in ((opening, FLOW), *talk):
                        peer.sendall(octets)
                        await_from(peer, wanted)
            said = us.communicate(timeout=limit)
            return None if (us.returncode, said[0]) == (0, "x\n" * 4) else f"status {us.returncode}: {said}"
        except (OSError, subprocess.TimeoutExpired) as fault:
            return f"{type(fault).__name__}: {fault}"
        finally:
            us.kill()

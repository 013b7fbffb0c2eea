#!/usr/bin/python3
"""Kills RabbitMQ while `send` or `receive` of an executable of amqp_peer works with it, or both of these ends in turn, and counts the messages that are lost or
doubled.

    live/kills.py PROGRAM send|receive|pair [--kills N] [--port N]

`live/install --broker` installs RabbitMQ. A node of its own is started, with its data in a temporary folder, at the port and the next one. All messages are
durable and go through one durable queue. Each of our ends has a journal, and `receive` prints to a file.

A killed broker may double messages: `send` sends again what it has no outcome of, and a broker that did not keep an outcome sends the message to `receive`
again. The exit status is 1 if a message is lost, if one is doubled that `send` had an outcome of, if one comes to `receive` twice over one connection, or if
one is doubled between a `send` and a `receive`.
"""
import argparse
import base64
import collections
import contextlib
import json
import os
import random
import signal
import socket
import subprocess
import sys
import tempfile
import time
import urllib.request

LIMIT = 120
RABBITMQ = "/usr/lib/rabbitmq/bin/rabbitmq-server"
# How many messages go through the queue for each kill.
EACH = 1000
QUEUE = "kills"
HEADER = b"AMQP\x00\x01\x00\x00"
CONFIGURATION = "listeners.tcp.default = {}\nmanagement.tcp.port = {}\namqp1_0.default_user = guest\n"


class Broker:
    """A node of RabbitMQ with data of its own."""

    def __init__(self, folder, port):
        self.folder, self.port, self.process = folder, port, None
        for name, text in (("rabbitmq.conf", CONFIGURATION.format(port, port + 1)), ("plugins", "[rabbitmq_amqp1_0,rabbitmq_management].\n")):
            with open(f"{folder}/{name}", "w", encoding="ascii") as file:
                file.write(text)

    def start(self):
        own = {
            "HOME": self.folder,
            "RABBITMQ_NODENAME": f"kills{self.port}@localhost",
            "RABBITMQ_DIST_PORT": str(self.port + 20000),
            "RABBITMQ_MNESIA_BASE": f"{self.folder}/data",
            "RABBITMQ_LOG_BASE": f"{self.folder}/log",
            "RABBITMQ_ENABLED_PLUGINS_FILE": f"{self.folder}/plugins",
            "RABBITMQ_CONFIG_FILE": f"{self.folder}/rabbitmq.conf",
            "RABBITMQ_PID_FILE": f"{self.folder}/pid",
        }
        with open(f"{self.folder}/broker.out", "ab") as out:
            self.process = subprocess.Popen([RABBITMQ], env=os.environ | own, stdout=out, stderr=out, start_new_session=True)
        until = time.monotonic() + LIMIT
        while not self.is_there():
            if time.monotonic() > until:
                raise TimeoutError("RabbitMQ does not start")
            time.sleep(0.1)

    def is_there(self):
        """Returns whether the broker answers a header. It listens some time before it does."""
        with contextlib.suppress(OSError), socket.create_connection(("127.0.0.1", self.port), timeout=5) as stream:
            stream.sendall(HEADER)
            return stream.recv(8) == HEADER
        return False

    def kill(self):
        if self.process and self.process.poll() is None:
            os.killpg(self.process.pid, signal.SIGKILL)
            self.process.wait()

    def ask(self, method, path, body=None):
        headers = {"content-type": "application/json", "authorization": "Basic " + base64.b64encode(b"guest:guest").decode()}
        data = None if body is None else json.dumps(body).encode()
        asked = urllib.request.Request(f"http://127.0.0.1:{self.port + 1}/api/{path}", data, headers, method=method)
        with urllib.request.urlopen(asked, timeout=LIMIT) as answer:
            return answer.read()

    def declare(self):
        """Declares the queue, as soon as the management interface is there."""
        for _ in range(LIMIT):
            with contextlib.suppress(OSError):
                self.ask("PUT", f"queues/%2F/{QUEUE}", {"durable": True})
                return
            time.sleep(1)
        raise TimeoutError("the management interface does not start")


class Followed:
    """A file that grows, and how many of its lines begin with a text."""

    def __init__(self, path, text):
        self.path, self.text, self.place, self.count = path, text, 0, 0

    def read(self):
        with contextlib.suppress(FileNotFoundError), open(self.path, "rb") as file:
            file.seek(self.place)
            octets = file.read()
            whole = octets[: octets.rfind(b"\n") + 1]
            self.place += len(whole)
            self.count += sum(it.startswith(self.text) for it in whole.splitlines())
        return self.count


def await_count(followed, at, *processes):
    """Waits until the file has so many lines. The programs do not end before."""
    while followed.read() < at:
        for it in processes:
            if it.poll() is not None:
                raise RuntimeError(f"{it.args[1]} ended before the message {at}: status {it.returncode}")
        time.sleep(0.001)


def whole_lines(path):
    with open(path, encoding="ascii") as file:
        return [it[:-1] for it in file if it.endswith("\n")]


def in_doubt_of(journal):
    """Returns the messages that a journal of `send` has begun and has no outcome of."""
    begun = set()
    for word, number in (it.split() for it in whole_lines(journal)[1:]):
        (begun.add if word == "begun" else begun.discard)(int(number))
    return begun


class Run:
    """One of our ends with a journal, and a broker that is killed beside it."""

    def __init__(self, program, command, folder, port):
        self.program, self.command, self.folder = program, command, folder
        self.broker = Broker(folder, port)
        # Of `send` what was in doubt at a kill, and of `receive` how many messages it had printed at each.
        self.in_doubt, self.places = set(), []

    def words(self, command, *more):
        return [self.program, command, "--port", str(self.broker.port), "--address", f"/amq/queue/{QUEUE}", "--lines", *more]

    def start(self):
        kept = ["--journal", f"{self.folder}/journal", "--retries", "600"]
        if self.command == "send":
            words = self.words("send", "--durable", *kept)
        else:
            words = self.words("receive", "--count", str(10**7), "--credit", "10", "--wait", "60", *kept)
        with open(f"{self.folder}/in", "rb") as lines, open(f"{self.folder}/out", "wb") as out, open(f"{self.folder}/errors", "wb") as errors:
            return subprocess.Popen(words, stdin=lines, stdout=out, stderr=errors)

    def fill(self):
        with open(f"{self.folder}/in", "rb") as lines:
            subprocess.run(self.words("send", "--durable"), stdin=lines, stdout=subprocess.DEVNULL, timeout=LIMIT, check=True)

    def drain(self):
        """Takes what is in the queue."""
        words = self.words("receive", "--count", str(10**7), "--credit", "1000", "--wait", "5")
        return [int(it) for it in subprocess.run(words, capture_output=True, timeout=LIMIT, check=False).stdout.split()]

    def kill_broker(self, process, followed, at):
        """Kills the broker once the file has so many lines, and starts it again."""
        await_count(followed, at, process)
        self.broker.kill()
        # Our end takes what came before.
        time.sleep(0.5)
        if self.command == "send":
            self.in_doubt |= in_doubt_of(f"{self.folder}/journal")
        else:
            self.places.append(len(whole_lines(f"{self.folder}/out")))
        self.broker.start()
        print(f"killed after {at} messages", flush=True)

    def run(self, kills):
        """Returns the messages that came, in order."""
        self.broker.start()
        self.broker.declare()
        if self.command == "receive":
            self.fill()
        followed = Followed(f"{self.folder}/journal", b"accepted " if self.command == "send" else b"taken ")
        process = self.start()
        try:
            for number in range(kills):
                self.kill_broker(process, followed, number * EACH + random.randrange(EACH // 10, EACH))
            process.wait(timeout=5 * LIMIT)
        finally:
            process.kill()
            process.wait()
        came = [] if self.command == "send" else [int(it) for it in whole_lines(f"{self.folder}/out")]
        self.places.append(len(came))
        return came + self.drain()

    def unexplained(self, came):
        """Returns how many messages are doubled that `send` had an outcome of, or that came twice over one connection to `receive`."""
        if self.command == "send":
            return sum(often > 1 for it, often in collections.Counter(came).items() if it not in self.in_doubt)
        parts = [came[first:last] for first, last in zip([0, *self.places], [*self.places, len(came)])]
        return sum(len(part) - len(set(part)) for part in parts)

    def close(self):
        self.broker.kill()


class Pair:
    """A `send` and a `receive` with journals, each of which is killed and started again."""

    def __init__(self, program, folder, port):
        self.folder, self.ends = folder, {}
        common = ["--port", str(port), "--lines", "--retries", "600"]
        self.words = {role: [program, role, *common, "--journal", f"{folder}/{role}"] for role in ("receive", "send")}

    def start(self, role):
        with open(f"{self.folder}/in", "rb") as lines, open(f"{self.folder}/out", "ab") as out, open(f"{self.folder}/errors", "ab") as errors:
            self.ends[role] = subprocess.Popen(self.words[role], stdin=lines, stdout=out if role == "receive" else subprocess.DEVNULL, stderr=errors)

    def run(self, kills):
        """Returns the messages that came, in order."""
        self.words["receive"] += ["--listen", "--count", str(kills * EACH), "--credit", "50"]
        followed = Followed(f"{self.folder}/receive", b"taken ")
        for role in self.words:
            self.start(role)
        for number in range(2 * kills):
            role = ("receive", "send")[number % 2]
            await_count(followed, (number * EACH + random.randrange(EACH // 10, EACH)) // 2, *self.ends.values())
            self.ends[role].kill()
            self.ends[role].wait()
            self.start(role)
        statuses = [it.wait(timeout=LIMIT) for it in self.ends.values()]
        if any(statuses):
            raise RuntimeError(f"statuses {statuses}")
        return [int(it) for it in whole_lines(f"{self.folder}/out")]

    def unexplained(self, came):
        return len(came) - len(set(came))

    def close(self):
        for it in self.ends.values():
            it.kill()


def main():
    parser = argparse.ArgumentParser(usage="live/kills.py PROGRAM send|receive|pair [--kills N] [--port N]")
    parser.add_argument("program")
    parser.add_argument("killed", choices=("send", "receive", "pair"))
    parser.add_argument("--kills", type=int, default=30)
    parser.add_argument("--port", type=int, default=5770)
    asked = parser.parse_args()
    if asked.killed != "pair" and not os.path.exists(RABBITMQ):
        print("live/kills.py: RabbitMQ is not there: live/install --broker")
        return 2
    program, count = os.path.abspath(asked.program), asked.kills * EACH
    with tempfile.TemporaryDirectory() as folder:
        with open(f"{folder}/in", "w", encoding="ascii") as file:
            file.writelines(f"{number}\n" for number in range(count))
        run = Pair(program, folder, asked.port) if asked.killed == "pair" else Run(program, asked.killed, folder, asked.port)
        try:
            came = run.run(asked.kills)
        finally:
            run.close()
        print(*sorted(set(whole_lines(f"{folder}/errors"))), sep="\n")
    lost, doubled, unexplained = count - len(set(came)), sum(often > 1 for often in collections.Counter(came).values()), run.unexplained(came)
    print(f"{asked.kills} kills, {count} messages: {lost} lost, {doubled} doubled, {unexplained} of them by our ends")
    return 1 if lost or unexplained else 0


if __name__ == "__main__":
    sys.exit(main())

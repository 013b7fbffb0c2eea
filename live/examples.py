"""Qpid Proton's own examples in C, C++ and Python, against `serve`, `send`, `receive` and `conn`; for live/run.

The examples are run as Debian installs them. Those in C and C++ are compiled into a temporary folder, once in a run.
"""
import concurrent.futures
import contextlib
import functools
import json
import os
import re
import shutil
import subprocess
import tempfile
import threading
import time

from driven import Over, attach
from faults_serve import WRAPPED, Served, hold

FOLDER = "/usr/share/proton/examples"
LIMIT = 60
IN_C = ("broker", "direct", "receive", "send", "send-abort")
IN_CPP = (
    "broker",
    "client",
    "colour_send",
    "direct_recv",
    "direct_send",
    "helloworld",
    "multithreaded_client",
    "queue_browser",
    "reconnect_client",
    "scheduled_send",
    "selected_recv",
    "server",
    "simple_connect",
    "simple_recv",
    "simple_send",
)
# A C++ client asks for a SASL layer by default, and amqp_peer has none. This definition is linked instead of the library's, which calls `run(1)`, too.
WITHOUT_SASL = """
#include <proton/connection_options.hpp>
#include <proton/container.hpp>

void proton::container::run() {
    client_connection_options(connection_options().sasl_enabled(false));
    run(1);
}
"""
ASKED = ("Twas brillig, and the slithy toves", "Did gire and gymble in the wabe.", "All mimsy were the borogroves,", "And the mome raths outgrabe.")


# Building and running


def missing(*names):
    """Returns those programs and files that do not exist."""
    return [it for it in names if not (shutil.which(it) or os.path.exists(it))]


def compile_one(*words):
    ran = subprocess.run([*words, "-w"], capture_output=True, text=True, check=False)
    hold(ran.returncode == 0, f"{' '.join(words)}: {ran.stderr[-400:]}")


@functools.cache
def scratch():
    """Returns the folder of the compiled examples, which is removed at the end of the run."""
    kept = tempfile.TemporaryDirectory()
    with open(f"{kept.name}/without_sasl.cpp", "w", encoding="ascii") as file:
        file.write(WITHOUT_SASL)
    compile_one("g++", "-c", f"{kept.name}/without_sasl.cpp", "-o", f"{kept.name}/without_sasl.o")
    return kept


@functools.cache
def compiled(language, name):
    """Compiles an example, and returns the path of the program."""
    source, folder = f"{FOLDER}/{language}/{name}.{language}", scratch().name
    path = f"{folder}/{language}_{name}"
    if language == "c":
        compile_one("gcc", source, "-o", path, "-lqpid-proton", "-lpthread")
    else:
        compile_one("g++", source, f"{folder}/without_sasl.o", "-o", path, "-lqpid-proton-cpp", "-lpthread")
    return path


def in_c(name, port, *more):
    """Returns the words of an example in C, which takes its host, port and address one by one."""
    return [compiled("c", name), "127.0.0.1", str(port), *map(str, more)]


def in_cpp(name, *words):
    return [compiled("cpp", name), *map(str, words)]


def in_python(name, *words):
    return ["/usr/bin/python3", "-u", "-c", WRAPPED, f"{FOLDER}/python/{name}.py", *map(str, words)]


@contextlib.contextmanager
def running(words):
    """Starts a program, which is killed at the end, or after a minute."""
    with subprocess.Popen(words, stdout=subprocess.PIPE, stderr=subprocess.STDOUT, text=True) as process:
        timer = threading.Timer(LIMIT, process.kill)
        timer.start()
        try:
            yield process
        finally:
            timer.cancel()
            process.kill()


def output_of(process, status=0):
    """Returns what the program prints until it ends, which it does by itself, with this status."""
    out = process.stdout.read()
    process.wait()
    hold(process.returncode == status, f"{os.path.basename(process.args[0])}: status {process.returncode}: {out[-300:].strip()}")
    return out


def run_to_end(words, status=0):
    with running(words) as process:
        return output_of(process, status)


def first_lines(process, count):
    """Returns the first lines of a program that does not end by itself."""
    return [process.stdout.readline().rstrip("\n") for _ in range(count)]


def sockets(port, state):
    """Returns how many sockets with this local port are in a state, by the kernel's table."""
    with open("/proc/net/tcp", encoding="ascii") as table:
        rows = [line.split() for line in table]
    return sum(row[1].endswith(f":{port:04X}") and row[3] == state for row in rows)


def wait_for(port, state="0A"):
    """Waits until a program listens at the port, or for another state of a socket there."""
    until = time.monotonic() + LIMIT
    while not sockets(port, state):
        hold(time.monotonic() < until, f"no socket at the port {port}")
        time.sleep(0.01)


def case(function):
    """Makes a case of a function that raises what is wrong."""

    def run_one(program, port):
        try:
            function(program, port)
            return None
        except Exception as error:  # each is a case that failed
            return f"{type(error).__name__}: {error}"

    return run_one


def served(*more):
    """Makes a case of a function of a `serve` with these options."""

    def over(function):
        def start(program, port):
            with Served(program, port, *more) as serve:
                function(serve, program)

        return case(start)

    return over


def sequence_of(text):
    """Returns the numbers of the messages that an example or `receive --json` printed, in order."""
    return [int(it) for it in re.findall(r"[\"']sequence[\"'] ?[=:] ?(?:int32\()?(\d+)", text)]


def hold_numbers(text, count):
    numbers = sequence_of(text)
    hold(numbers == list(range(1, count + 1)), f"{len(numbers)} messages, the last ones {numbers[-3:]}: {text[-200:]}")


def our_send(program, port, count=100, *more):
    return [program, "send", "--port", str(port), "--count", str(count), *more]


def our_receive(program, port, count=100, *more):
    return [program, "receive", "--port", str(port), "--count", str(count), *more]


def hold_sent(out, count=100):
    hold(f"sent {count}\naccepted {count}\n" in out, out)


# Through `serve`


@case
def run_compile(_program, _port):
    scratch()
    with concurrent.futures.ThreadPoolExecutor(os.cpu_count()) as pool:
        list(pool.map(compiled, ["c"] * len(IN_C) + ["cpp"] * len(IN_CPP), IN_C + IN_CPP))


@served()
def run_c(serve, _program):
    hold("100 messages sent and acknowledged" in run_to_end(in_c("send", serve.port, "examples", 100)), "not all were acknowledged")
    out = run_to_end(in_c("receive", serve.port, "examples", 100))
    hold("100 messages received" in out, out)
    hold_numbers(out, 100)


@served()
def run_simple(serve, _program):
    url = f"127.0.0.1:{serve.port}/examples"
    hold("all messages confirmed" in run_to_end(in_cpp("simple_send", "-a", url, "-m", 100)), "not all were confirmed")
    hold_numbers(run_to_end(in_cpp("simple_recv", "-a", url, "-m", 100)), 100)


@served()
def run_hello(serve, _program):
    out = run_to_end(in_cpp("helloworld", f"//127.0.0.1:{serve.port}", "examples"))
    hold(out == "Hello World!\n", out)


def hold_answers(out):
    wanted = [f"{it} => {it.upper()}" for it in ASKED]
    hold(out.splitlines() == wanted, out)


@served()
def run_request_reply(serve, _program):
    with running(in_cpp("server", f"//127.0.0.1:{serve.port}", "examples")) as server:
        hold_answers(run_to_end(in_cpp("client", "-a", f"127.0.0.1:{serve.port}/examples")))
        had = first_lines(server, 1 + len(ASKED))
    hold(had[1:] == [f"Received {it}" for it in ASKED], f"{had}")


@served()
def run_sync_client(serve, _program):
    url = f"127.0.0.1:{serve.port}/examples"
    with running(in_python("server", "-a", url)):
        hold_answers(run_to_end(in_python("sync_client", "-a", url, "-t", LIMIT)))


@served()
def run_browser(serve, _program):
    url = f"127.0.0.1:{serve.port}/examples"
    run_to_end(in_cpp("simple_send", "-a", url, "-m", 5))
    for _ in range(2):
        with running(in_cpp("queue_browser", f"//127.0.0.1:{serve.port}", "examples")) as browser:
            hold_numbers("\n".join(first_lines(browser, 5)), 5)
    hold_numbers(run_to_end(in_cpp("simple_recv", "-a", url, "-m", 5)), 5)


@served()
def run_selected(serve, _program):
    # `serve` has no filters, and says so in its answer: each message comes.
    run_to_end(in_cpp("colour_send", "-a", f"127.0.0.1:{serve.port}/examples", "-m", 10))
    with running(in_cpp("selected_recv", f"//127.0.0.1:{serve.port}", "examples")) as receiver:
        had = first_lines(receiver, 10)
    hold(had == [f"{('green', 'red')[it % 2]} {it + 1}" for it in range(10)], f"{had}")


@served()
def run_threads(serve, _program):
    out = run_to_end(in_cpp("multithreaded_client", f"amqp://127.0.0.1:{serve.port}", "examples", 100))
    hold(out.splitlines()[-1] == "100 messages sent and received", out[-200:])


@served()
def run_scheduled(serve, _program):
    run_to_end(in_cpp("simple_connect", "-a", f"127.0.0.1:{serve.port}"))
    out = run_to_end(in_cpp("scheduled_send", "-a", f"127.0.0.1:{serve.port}/examples", "-i", 0.1, "-t", 1))
    hold(out.splitlines() and set(out.splitlines()) == {"send"}, out)


@served("--trace")
def run_transactions(serve, program):
    # The examples end as soon as the coordinator is refused: nothing is committed, and nothing comes.
    url = f"127.0.0.1:{serve.port}/examples"
    for name in ("tx_send", "tx_recv"):
        out = run_to_end(in_python(name, "-a", url, "-m", 10))
        hold("committed" not in out, out)
    refused = [it for it in serve.lines() if "-> @detach" in it and "amqp:not-implemented" in it]
    hold(len(refused) == 2, f"{len(refused)} links were refused")
    had = run_to_end([*our_receive(program, serve.port, 10, "--address", "examples", "--drain", "--lines")])
    hold(had == "", had)


@served("--credit", "1")
def run_abort(serve, program):
    # An aborted delivery uses up the credit, which `serve` grants again.
    out = run_to_end(in_c("send-abort", serve.port, "examples", 10))
    hold("10 messages started and aborted" in out, out)
    run_to_end(in_c("send", serve.port, "examples", 10))
    had = run_to_end([*our_receive(program, serve.port, 100, "--address", "examples", "--drain", "--json")])
    hold_numbers(had, 10)


# Reconnecting: `serve` is killed, and started again without what it had


@case
def run_reconnect_client(program, port):
    url = f"amqp://127.0.0.1:{port}"
    client = None
    with contextlib.ExitStack() as stack:
        with Served(program, port):
            client = stack.enter_context(running(in_cpp("reconnect_client", url, "examples", 20000, url)))
            had = first_lines(client, 1000)
        with Served(program, port):
            out = "\n".join(had) + "\n" + output_of(client)
    hold(out.count("listening on") > 1, "it connected once")
    hold_numbers("\n".join(it for it in out.splitlines() if it.startswith("{")), 20000)


def run_sender_again(program, port, words, count):
    """Kills `serve` while an example sends messages. It sends what was not confirmed to the next one, in order."""
    with contextlib.ExitStack() as stack:
        with Served(program, port):
            sender = stack.enter_context(running(words))
            wait_for(port, "01")
            time.sleep(0.2)
        hold(sender.poll() is None, "it had sent all messages before")
        with Served(program, port):
            hold("all messages confirmed" in output_of(sender), "not all were confirmed")
            out = run_to_end([*our_receive(program, port, count, "--address", "examples", "--drain", "--credit", "1000", "--json")])
    numbers = [json.loads(it)["amqp-value"]["sequence"] for it in out.splitlines()]
    hold(numbers and numbers == list(range(numbers[0], count + 1)), f"{len(numbers)} messages, from {numbers[:1]} to {numbers[-1:]}")


@case
def run_simple_send_again(program, port):
    words = in_cpp("simple_send", "-a", f"127.0.0.1:{port}/examples", "-m", 100000, "-r")
    run_sender_again(program, port, words, 100000)


@case
def run_python_send_again(program, port):
    words = in_python("simple_send", "-a", f"127.0.0.1:{port}/examples", "-m", 10000)
    run_sender_again(program, port, words, 10000)


@case
def run_python_recv_again(program, port):
    url = f"127.0.0.1:{port}/examples"
    with contextlib.ExitStack() as stack:
        with Served(program, port):
            receiver = stack.enter_context(running(in_python("simple_recv", "-a", url, "-m", 10)))
            wait_for(port, "01")
            time.sleep(0.2)
        with Served(program, port):
            run_to_end(in_python("simple_send", "-a", url, "-m", 10))
            hold_numbers(output_of(receiver), 10)


# Directly: the example listens, or our end does


def takes_from(words):
    """Makes a case: our `receive` takes a hundred messages of an example that listens."""

    @case
    def run_one(program, port):
        with running(words(port)) as sender:
            wait_for(port)
            hold_numbers(run_to_end(our_receive(program, port, 100, "--json")), 100)
            out = output_of(sender)
            hold("all messages confirmed" in out or "100 messages sent and acknowledged" in out, out)

    return run_one


def sends_to(words):
    """Makes a case: our `send` sends a hundred messages to an example that listens."""

    @case
    def run_one(program, port):
        with running(words(port)) as receiver:
            wait_for(port)
            hold_sent(run_to_end(our_send(program, port)))
            out = output_of(receiver)
            hold(out.count("x" * 16) == 100, out[-200:])

    return run_one


def is_called(sender, receiver):
    """Makes a case: our `receive` listens for an example that sends, and our `send` for one that receives."""

    @case
    def run_one(program, port):
        with running(our_receive(program, port, 100, "--listen", "--json")) as ours:
            wait_for(port)
            run_to_end(sender(port))
            hold_numbers(output_of(ours), 100)
        with running(our_send(program, port, 100, "--listen")) as ours:
            wait_for(port)
            out = run_to_end(receiver(port))
            hold(out.count("x" * 16) == 100, out[-200:])
            hold_sent(output_of(ours))

    return run_one


def through(broker):
    """Makes a case: messages go from our `send` through an example that is a broker to our `receive`."""

    @case
    def run_one(program, port):
        with running(broker(port)):
            wait_for(port)
            hold_sent(run_to_end(our_send(program, port, 1000)), 1000)
            out = run_to_end(our_receive(program, port, 1000, "--credit", "100", "--lines"))
            hold(out == ("x" * 16 + "\n") * 1000, f"{out.count('x' * 16)} messages")

    return run_one


@case
def run_direct_recv(program, port):
    # This example takes messages only whose message-id is a number, which `send` does not write: `conn` does.
    with running(in_cpp("direct_recv", "-a", f"127.0.0.1:{port}/examples", "-m", 3)) as receiver:
        wait_for(port)
        end = Over(program, port)
        try:
            end.do("begin")
            attach(end, "sender", 0)
            for number in range(1, 4):
                body = f"c10d02 a10873657175656e6365 54{number:02x}"
                message = f"005373 c003 01 53{number:02x} 005377 {body}".replace(" ", "")
                end.do(f"start 0 {number:02x} 0 0 0 {message}")
            end.await_told("phase=closed")
        finally:
            end.close()
        hold_numbers(output_of(receiver), 3)


@case
def run_abort_received(program, port):
    # Each aborted delivery uses up a credit, which `receive` grants again, also with a journal.
    with tempfile.TemporaryDirectory() as folder:
        for more in ([], ["--journal", f"{folder}/journal", "--retries", "0"]):
            with running(our_receive(program, port, 2, "--listen", "--lines", *more)) as ours:
                wait_for(port)
                out = run_to_end(in_c("send-abort", port, "examples", 10))
                hold("10 messages started and aborted" in out, out)
                hold("received 0, octets 0, unsettled 0" in output_of(ours, 1), "a part was received")


def at(port, address="examples"):
    return ["-a", f"127.0.0.1:{port}/{address}", "-m", 100]


COMPILED = (
    ("         Proton's examples in C and C++ are compiled", run_compile),
    ("serve    Proton's send and receive, in C", run_c),
    ("serve    Proton's simple_send and simple_recv, in C++", run_simple),
    ("serve    Proton's helloworld, in C++", run_hello),
    ("serve    Proton's request and reply, in C++", run_request_reply),
    ("serve    Proton's queue_browser, in C++", run_browser),
    ("serve    Proton's selected_recv, in C++", run_selected),
    ("serve    Proton's multithreaded_client, in C++", run_threads),
    ("serve    Proton's scheduled_send and simple_connect, in C++", run_scheduled),
    ("serve    Proton's send-abort, in C", run_abort),
    ("serve    is killed, and Proton's reconnect_client connects again, in C++", run_reconnect_client),
    ("serve    is killed, and Proton's simple_send connects again, in C++", run_simple_send_again),
    ("receive  Proton's send-abort, in C", run_abort_received),
    ("receive  Proton's direct, in C", takes_from(lambda port: in_c("direct", port, "examples", 100))),
    ("receive  Proton's direct_send, in C++", takes_from(lambda port: in_cpp("direct_send", *at(port)))),
    ("send     Proton's direct, in C", sends_to(lambda port: in_c("direct", port, "examples", 100))),
    ("conn     Proton's direct_recv, in C++", run_direct_recv),
    (
        "send, receive  listen for Proton's send and receive, in C",
        is_called(lambda port: in_c("send", port, "examples", 100), lambda port: in_c("receive", port, "examples", 100)),
    ),
    (
        "send, receive  listen for Proton's simple_send and simple_recv, in C++",
        is_called(lambda port: in_cpp("simple_send", *at(port)), lambda port: in_cpp("simple_recv", *at(port))),
    ),
    ("send, receive  Proton's broker, in C", through(lambda port: in_c("broker", port))),
    ("send, receive  Proton's broker, in C++", through(lambda port: in_cpp("broker", "-a", f"127.0.0.1:{port}"))),
)

IN_PYTHON = (
    ("serve    Proton's sync_client", run_sync_client),
    ("serve    Proton's tx_send and tx_recv: the coordinator is refused", run_transactions),
    ("serve    is killed, and Proton's simple_send connects again", run_python_send_again),
    ("serve    is killed, and Proton's simple_recv connects again", run_python_recv_again),
    ("receive  Proton's direct_send", takes_from(lambda port: in_python("direct_send", *at(port)))),
    ("send     Proton's direct_recv", sends_to(lambda port: in_python("direct_recv", *at(port)))),
    (
        "send, receive  listen for Proton's simple_send and simple_recv",
        is_called(lambda port: in_python("simple_send", *at(port)), lambda port: in_python("simple_recv", *at(port))),
    ),
    ("send, receive  Proton's broker", through(lambda port: in_python("broker", "-a", f"127.0.0.1:{port}"))),
)


NOT_COMPILED = missing("gcc", "g++", "/usr/include/proton/proactor.h", "/usr/include/proton/container.hpp", f"{FOLDER}/c/send.c", f"{FOLDER}/cpp/simple_send.cpp")
NOT_IN_PYTHON = missing(f"{FOLDER}/python/simple_send.py")
CASES = (*(() if NOT_COMPILED else COMPILED), *(() if NOT_IN_PYTHON else IN_PYTHON))


def skipped():
    """Returns a line for each group of examples that is not run, which says why."""
    groups = (("C and C++", NOT_COMPILED), ("Python", NOT_IN_PYTHON))
    return [f"live/run: Proton's examples in {name} are skipped: {', '.join(absent)} is missing (live/install)" for name, absent in groups if absent]

"""Programs in C, Rust and Python over libteivorm, against Qpid Proton, both ways: the cases of live/run.

They are built at the first case, from crates/amqp_c/out/libamqp_c.a (`rt lib` in crates/amqp_c), the C programs with the address and undefined behaviour
sanitizers.
"""
import functools
import os
import re
import shutil
import socket
import subprocess
import sys
import tempfile
import threading
import time

HERE = os.path.dirname(os.path.abspath(__file__))
ROOT = os.path.dirname(HERE)
C, RUST, PYTHON = (os.path.join(ROOT, "bindings", it) for it in ("c", "rust", "python"))
PROTON = ["/usr/bin/python3", os.path.join(HERE, "peer.py")]
LIMIT = 120
ENDS = 20


def run_to_end(words, folder, **more):
    ran = subprocess.run(words, cwd=folder, capture_output=True, text=True, check=False, **more)
    return None if ran.returncode == 0 else f"{' '.join(words)}: {(ran.stdout + ran.stderr)[-600:]}"


def are_there():
    """Whether the C library was built, without which none of these cases can run."""
    return os.path.exists(os.environ.get("ARCHIVE", os.path.join(ROOT, "crates", "amqp_c", "out", "libamqp_c.a")))


@functools.cache
def built():
    """What is wrong with the build of the programs, or nothing."""
    if not are_there():
        return "crates/amqp_c/out/libamqp_c.a is missing: `rt lib` in crates/amqp_c makes it"
    wrong = run_to_end(["make", "all", "sanitized"], C)
    if not wrong and shutil.which("cargo"):
        wrong = run_to_end(["cargo", "build", "--offline", "--quiet", "--lib", "--examples"], RUST)
    return wrong


def in_c(name, *words):
    return [os.path.join(C, "out", "sanitized", name), *words]


def in_rust(name, *words):
    folder = os.environ.get("CARGO_TARGET_DIR", os.path.join(RUST, "target"))
    return [os.path.join(folder, "debug", "examples", name), *words]


def in_python(command, how, port, count, size=None):
    words = [sys.executable, "-m", "teivorm", command, "--host", "127.0.0.1", "--port", port, "--count", count]
    return [*words, *(["--size", size] if size else ["--quiet"]), *["--listen"] * (how == "listen")]


def wait_for(port):
    """Until somebody listens at the port, as the kernel's table says."""
    for _ in range(500):
        with open("/proc/net/tcp", encoding="ascii") as file:
            if any(line.split()[1].endswith(f":{port:04X}") and line.split()[3] == "0A" for line in file):
                return
        time.sleep(0.02)


def started(words):
    return subprocess.Popen(words, cwd=PYTHON, stdout=subprocess.PIPE, stderr=subprocess.PIPE, text=True)


def together(port, first, others):
    """What the programs print, the first of which listens: of each its status, standard output and standard error; or nothing if one does not end."""
    running = [started(first)]
    wait_for(port)
    running += [started(it) for it in others]
    try:
        return [(it.returncode, out.strip(), error.strip()) for it in running for out, error in [it.communicate(timeout=LIMIT)]]
    except subprocess.TimeoutExpired:
        return None
    finally:
        for it in running:
            it.kill()


def wrong_with(said, wanted):
    """What is wrong: each status is to be 0, and each output to begin as wanted, if anything is."""
    if said is None:
        return "does not end"
    for (status, out, error), text in zip(said, wanted):
        if status or not out.startswith(text):
            return f"status {status}, prints {out[-100:]!r} and {error[-300:]!r} instead of {text!r}"
    return None


def run_one(make, ours, listens, count, size, _, port):
    """One program of ours and one of Proton's, of which either listens."""
    if built():
        return built()
    theirs = "receive" if ours == "send" else "send"
    mine = make(ours, "connect" if listens == "theirs" else "listen", str(port), str(count), *[str(size)] * (ours == "send"))
    proton = [*PROTON, theirs, "listen" if listens == "theirs" else "connect", str(port), str(count), str(size), "accept"]
    said = together(port, *((proton, [mine]) if listens == "theirs" else (mine, [proton])))
    mine_says = f"sent {count} accepted {count}" if ours == "send" else f"received {count}" if make is in_python else f"taken {count}"
    return wrong_with(said, (str(count), mine_says) if listens == "theirs" else (mine_says, str(count)))


def run_epoll(count, size, _, port):
    """One program of ours serves many connections of Proton's: half of them send, half receive."""
    if built():
        return built()
    proton = [[*PROTON, theirs, "connect", str(port), str(count), str(size), "accept"] for theirs in ("send", "receive")]
    said = together(port, in_c("epoll", str(port), str(ENDS), str(count)), proton * (ENDS // 2))
    return wrong_with(said, [f"accepted {count * ENDS}", *[str(count)] * ENDS])


def run_threads(ours, count, _, port):
    if built():
        return built()
    theirs = "receive" if ours == "send" else "send"
    proton = [*PROTON, theirs, "listen", str(port), str(count), "5", "accept"]
    said = together(port, proton, [in_c("threads", ours, str(port), str(count))])
    return wrong_with(said, [str(count), f"{'sent' if ours == 'send' else 'received'} {count}"])


def run_checks(_, __):
    """The header against the sources, its layout in C and C++, and the tests under the sanitizers."""
    return built() or run_to_end(["make", "check"], C)


def run_cargo(_, __):
    return built() or run_to_end(["cargo", "test", "--offline", "--quiet"], RUST)


def blocks(language):
    """The programs of a language in docs/embedding.md."""
    with open(os.path.join(ROOT, "docs", "embedding.md"), encoding="utf-8") as file:
        return re.findall(f"^```{language}\n(.*?)^```", file.read(), re.M | re.S)


def compiled(language, folder, port):
    """The command that runs the first program of a language in docs/embedding.md, which connects to the port."""
    source, program = os.path.join(folder, "text." + {"c": "c", "rust": "rs", "python": "py"}[language]), os.path.join(folder, "text")
    with open(source, "w", encoding="utf-8") as file:
        file.write(blocks(language)[0].replace("5672", str(port)))
    if language == "python":
        return [sys.executable, source]
    if language == "c":
        words = ["cc", "-std=c11", "-D_GNU_SOURCE", "-Wall", "-Wextra", "-Werror", f"-I{ROOT}/include", f"-I{C}/examples", source, f"{C}/out/libteivorm.a"]
    else:
        built_in = os.path.join(os.environ.get("CARGO_TARGET_DIR", os.path.join(RUST, "target")), "debug")
        words = ["rustc", "--edition", "2021", f"--extern=teivorm={built_in}/libteivorm.rlib", source]
    subprocess.run([*words, "-o", program], check=True, cwd=folder)
    return [program]


def run_text(language, _, port):
    """The first program of docs/embedding.md in a language sends a message to Proton."""
    if built():
        return built()
    with tempfile.TemporaryDirectory() as folder:
        program = compiled(language, folder, port)
        said = together(port, [*PROTON, "receive", "listen", str(port), "1", "5", "accept"], [["env", f"PYTHONPATH={PYTHON}", *program]])
    return wrong_with(said, ("1", ""))


def framed(body):
    return (len(body) + 8).to_bytes(4, "big") + b"\x02\x01\0\0" + body


def serve_login(server, heard):
    """One end that asks for SASL and accepts what comes, which is kept."""
    stream, _ = server.accept()
    with stream:
        heard.append(stream.recv(8, socket.MSG_WAITALL))
        stream.sendall(heard[0] + framed(b"\0\x53\x40\xc0\x08\x01\xa3\x05PLAIN"))
        size = int.from_bytes(stream.recv(4, socket.MSG_WAITALL), "big")
        heard.append(stream.recv(size - 4, socket.MSG_WAITALL))
        stream.sendall(framed(b"\0\x53\x44\xc0\x03\x01\x50\0"))


def run_login(_, port):
    """The login of docs/embedding.md, which a peer reads octet by octet."""
    heard, names = [], {}
    exec(blocks("python")[1], names)
    with socket.create_server(("127.0.0.1", port)) as server:
        thread = threading.Thread(target=serve_login, args=(server, heard))
        thread.start()
        with socket.create_connection(("127.0.0.1", port)) as stream:
            names["login"](stream, "guest", "secret")
        thread.join()
    wanted = [b"AMQP\x03\x01\0\0", b"\x02\x01\0\0\0\x53\x41\xc0\x17\x02\xa3\x05PLAIN\xa0\x0d\0guest\0secret"]
    return None if heard == wanted else f"hears {heard}"


def cases():
    """Each case: its name, and what runs it, given our program and a port."""
    yield "callers  header, layout, tests under the sanitizers", run_checks
    languages, texts = [("C", in_c), ("Python", in_python)], ["c", "python"]
    if shutil.which("cargo"):
        yield "callers  Rust: cargo test", run_cargo
        languages.insert(1, ("Rust", in_rust))
        texts.append("rust")
    for it in texts:
        yield f"callers  the text of docs/embedding.md: {it}", functools.partial(run_text, it)
    yield "callers  the text of docs/embedding.md: a login by SASL PLAIN", run_login
    for name, make in languages:
        for ours in ("send", "receive"):
            for listens in ("theirs", "ours"):
                for count, size in ((1000, 0), (10000, 1024), (200, 70000)):
                    run = functools.partial(run_one, make, ours, listens, count, size)
                    yield f"callers  {name:7} {ours:8} {listens:7} listens {count:6} of {size:6}", run
    yield f"callers  C       epoll: {ENDS} connections of Proton", functools.partial(run_epoll, 500, 5)
    for ours in ("send", "receive"):
        yield f"callers  C       threads: {ours}", functools.partial(run_threads, ours, 5000)


CALLERS = tuple(cases())

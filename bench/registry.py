"""What the measuring scripts share: the program, requests to it, and a registry that it fills."""
import hashlib
import os
import socket
import subprocess
import sys
from pathlib import Path

TOP = Path(__file__).resolve().parent.parent
PROGRAM = Path(os.environ.get("REGISTRY_CLI", TOP / "crates/registry_cli/out/registry_cli"))
BASE = "http://127.0.0.1:8080"
ENDPOINTS = "publish-new,publish-update,yank,change-owners"
DIGEST = hashlib.sha256(b"abc").hexdigest()
MIB10 = 10 * 1024 * 1024
SETUP = f"user-add ada\nuser-add bob\ntoken-add ada --endpoints {ENDPOINTS} --digest {DIGEST}\n"


def ask_for_program():
    """Ends where the program was not built."""
    if not PROGRAM.is_file():
        sys.exit(f"{PROGRAM} is missing: run `rt run -- --help` in crates/registry_cli first")


def body(name, version, archive):
    json = b'{"name":"%s","vers":"%s","description":"A crate to measure"}' % (name.encode(), version.encode())
    return len(json).to_bytes(4, "little") + json + len(archive).to_bytes(4, "little") + archive


def request(method, target, sent=b""):
    head = f"{method} {target} HTTP/1.1\r\nhost: r\r\nauthorization: abc\r\ncontent-length: {len(sent)}\r\n\r\n"
    return head.encode() + sent


def publish(name, version, archive):
    return request("PUT", "/api/v1/crates/new", body(name, version, archive))


def run(*words, stdin=subprocess.DEVNULL):
    done = subprocess.run([str(PROGRAM), *words], stdin=stdin, stdout=subprocess.PIPE)
    if done.returncode != 0:
        sys.exit(f"{words}: status {done.returncode}")
    return done.stdout


def make(db):
    """A registry in a new file, with an account ada, its token abc, and an account bob."""
    run("init", "--base", BASE, "--db", db)
    for line in SETUP.splitlines():
        run(*line.split(" "), "--db", db)


def answer(words, wanted, path):
    """What `pipe` prints for a stream of requests, kept at a path meanwhile: every one has to be done."""
    path.write_bytes(b"".join(wanted))
    with open(path, "rb") as source:
        replies = run("pipe", *words, stdin=source)
    path.unlink()
    if replies.count(b"HTTP/1.1 200 OK") != len(wanted):
        sys.exit("a request was refused")
    return replies


def peak_of(process):
    """Peak bytes of a process so far."""
    for line in open(f"/proc/{process.pid}/status"):
        if line.startswith("VmHWM"):
            return int(line.split()[1]) * 1024


def free_port():
    with socket.socket() as probe:
        probe.bind(("127.0.0.1", 0))
        return probe.getsockname()[1]


class Pipe:
    """The program serving its standard input, one request after another."""

    def __init__(self, *words):
        command = [str(PROGRAM), "pipe", *words]
        self.process = subprocess.Popen(command, stdin=subprocess.PIPE, stdout=subprocess.PIPE, bufsize=0)

    def send(self, sent):
        view = memoryview(sent)
        while view:
            view = view[self.process.stdin.write(view):]

    def reply(self):
        """The next reply: its status and how many bytes it has."""
        got = b""
        while b"\r\n\r\n" not in got:
            part = self.process.stdout.read(1 << 20)
            if not part:
                sys.exit("the stream ended")
            got += part
        head, _, rest = got.partition(b"\r\n\r\n")
        length = next(int(line[16:]) for line in head.split(b"\r\n") if line.startswith(b"content-length: "))
        left = length - len(rest)
        while left > 0:
            left -= len(self.process.stdout.read(min(left, 1 << 20)))
        return head.split(b" ")[1], len(head) + 4 + length

    def ask(self, sent):
        self.send(sent)
        status, length = self.reply()
        if status != b"200":
            sys.exit(f"refused with {status}: {sent[:80]!r}")
        return length

    def end(self):
        self.process.stdin.close()
        if self.process.wait() != 0:
            sys.exit(f"pipe: status {self.process.returncode}")

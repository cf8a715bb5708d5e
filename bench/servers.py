"""Servers with a time limit, and exchanges with them over the loopback address."""
import shutil
import signal
import socket
import subprocess
import sys
import time

from registry import PROGRAM, free_port, publish, request

LIMIT = 600
RUN_LIMIT = 6_000
ECHO = """
import socket
server = socket.create_server(("127.0.0.1", 0))
print(server.getsockname()[1], flush=True)
while True:
    link = server.accept()[0]
    link.recv(65536)
    link.sendall(b"HTTP/1.1 200 OK\\r\\ncontent-length: 2\\r\\n\\r\\n{}")
    link.close()
"""
NGINX = """
daemon off; master_process off; error_log stderr crit; pid {folder}/pid; events {{}}
http {{
    access_log off; sendfile on; keepalive_timeout 0;
    client_body_temp_path {folder}/a; proxy_temp_path {folder}/b; fastcgi_temp_path {folder}/c;
    uwsgi_temp_path {folder}/d; scgi_temp_path {folder}/e;
    server {{ listen 127.0.0.1:{port}; root {folder}; }}
}}
"""


class Link:
    """A connection to a server."""

    def __init__(self, port):
        self.socket = socket.create_connection(("127.0.0.1", port), timeout=LIMIT)

    def ask(self, sent):
        """The body of the reply, which has to be a 200."""
        self.socket.sendall(sent)
        got = b""
        while b"\r\n\r\n" not in got:
            got += self.part()
        head, _, rest = got.partition(b"\r\n\r\n")
        if not head.startswith(b"HTTP/1.1 200"):
            sys.exit(f"refused: {got[:300]}")
        fields = (line.lower() for line in head.split(b"\r\n"))
        left = next(int(line[16:]) for line in fields if line.startswith(b"content-length: ")) - len(rest)
        parts = [rest]
        while left > 0:
            parts.append(self.part())
            left -= len(parts[-1])
        return b"".join(parts)

    def part(self):
        return self.socket.recv(1 << 20) or sys.exit("the server hung up")

    def end(self):
        """Waits until the server has closed its end."""
        self.socket.shutdown(socket.SHUT_WR)
        while self.socket.recv(1 << 16):
            pass
        self.socket.close()


class Server:
    """A program that prints its port last on its first line. An alarm ends it even where this script was killed."""

    def __init__(self, command, limit=LIMIT):
        self.process = subprocess.Popen(command, stdout=subprocess.PIPE, preexec_fn=lambda: signal.alarm(limit))

    def __enter__(self):
        first = self.process.stdout.readline()
        self.port = int(first.rpartition(b":")[2] or sys.exit("the server did not start"))
        return self

    def __exit__(self, *_):
        self.process.kill()
        self.process.wait()

    def body(self, target):
        link = Link(self.port)
        body = link.ask(request("GET", target))
        link.end()
        return body


def serving(db, replies=1):
    words = ["serve", "--port", str(free_port()), "--connections", "1000000", "--replies", str(replies), "--db", db]
    return Server([str(PROGRAM), *words])


def exchange(port, sent):
    """The seconds of an exchange on a new connection."""
    start = time.perf_counter()
    link = Link(port)
    link.ask(sent)
    seconds = time.perf_counter() - start
    link.end()
    return seconds


def getting(port, target):
    return lambda _: exchange(port, request("GET", target))


def yanking(port, name):
    """Yanks the first version, and undoes it after the time is taken."""

    def call(_):
        seconds = exchange(port, request("DELETE", f"/api/v1/crates/{name}/0.1.0/yank"))
        exchange(port, request("PUT", f"/api/v1/crates/{name}/0.1.0/unyank"))
        return seconds

    return call


def publishing(port, name, length):
    """Publishes one version more in each round; without a name, each time a new crate."""
    return lambda at: exchange(port, publish(name or f"new-{at}", f"0.2.{at}", bytes(length)))


def start_echo():
    return Server([sys.executable, "-c", ECHO], RUN_LIMIT)


def start_nginx(folder):
    """The port of nginx, if it is there, and its process."""
    if not shutil.which("nginx"):
        return None, None
    port = free_port()
    (folder / "static").mkdir()
    (folder / "conf").write_text(NGINX.format(folder=folder / "static", port=port))
    command = ["nginx", "-e", "stderr", "-p", str(folder), "-c", str(folder / "conf")]
    process = subprocess.Popen(["timeout", str(RUN_LIMIT), *command])
    for _ in range(100):
        time.sleep(0.05)
        with socket.socket() as probe:
            if probe.connect_ex(("127.0.0.1", port)) == 0:
                return port, process
    sys.exit("nginx did not start")

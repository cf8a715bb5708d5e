"""A registry behind nginx with TLS, with the files as `dist/install` lays them out, for what tries the page.

Between nginx and the registry is a `Way`: it writes down what is asked, and alters answers where it is told to.
"""
import hashlib
import http.client
import json
import os
import re
import shutil
import socket
import ssl
import subprocess
import tempfile
import threading
import time
from contextlib import contextmanager, suppress
from http.server import BaseHTTPRequestHandler, ThreadingHTTPServer
from pathlib import Path
from typing import NamedTuple

TOP = Path(__file__).resolve().parent.parent.parent
PROGRAM = Path(os.environ.get("REGISTRY_CLI", TOP / "crates/registry_cli/out/registry_cli")).resolve()
PATIENCE = 60
NGINX = """
pid {folder}/pid; error_log {folder}/error.log; worker_processes auto; events {{ worker_connections 768; }}
http {{
    access_log {folder}/access.log; client_body_temp_path {folder}/a; proxy_temp_path {folder}/b;
    fastcgi_temp_path {folder}/c; uwsgi_temp_path {folder}/d; scgi_temp_path {folder}/e;
    include {folder}/registry.conf;
}}
"""
MANIFEST = """[package]
name = "{name}"
version = "{vers}"
description = "{description}"
edition = "2021"
license = "MIT"
"""


def digest_of(token):
    return hashlib.sha256(token.encode()).hexdigest()


def free_port():
    with socket.socket() as probe:
        probe.bind(("127.0.0.1", 0))
        return probe.getsockname()[1]


def wait_for(what, holds, seconds=PATIENCE):
    deadline = time.monotonic() + seconds
    while not (found := holds()):
        if time.monotonic() > deadline:
            raise TimeoutError(what)
        time.sleep(0.02)
    return found


def is_open(port):
    with socket.socket() as probe:
        return probe.connect_ex(("127.0.0.1", port)) == 0


class Answer(NamedTuple):
    status: int
    kind: str
    body: bytes


class Asked(NamedTuple):
    method: str
    target: str
    headers: dict


class Way:
    """Passes on what nginx asks. `changes` has pairs: a pattern of targets, and what becomes of such an answer."""

    def __init__(self, registry_port):
        self.registry_port = registry_port
        self.asked = []
        self.changes = []
        way = self

        class Handler(BaseHTTPRequestHandler):
            def pass_on(self):
                body = self.rfile.read(int(self.headers.get("content-length", 0)))
                answer = way.answer(self.command, self.path, {**self.headers}, body)
                self.send_response(answer.status)
                self.send_header("content-type", answer.kind)
                self.send_header("content-length", str(len(answer.body)))
                self.end_headers()
                with suppress(ConnectionError):
                    self.wfile.write(answer.body)

            do_GET = do_PUT = do_DELETE = pass_on

            def log_message(self, *_):
                pass

        self.server = ThreadingHTTPServer(("127.0.0.1", 0), Handler)
        self.port = self.server.server_address[1]
        threading.Thread(target=self.server.serve_forever, daemon=True).start()

    def answer(self, method, target, headers, body):
        self.asked.append(Asked(method, target, {name.lower(): text for name, text in headers.items()}))
        link = http.client.HTTPConnection("127.0.0.1", self.registry_port, timeout=PATIENCE)
        link.request(method, target, body or None, headers)
        reply = link.getresponse()
        answer = Answer(reply.status, reply.headers["content-type"], reply.read())
        link.close()
        for pattern, change in self.changes:
            if re.search(pattern, target):
                answer = change(answer)
        return answer

    @contextmanager
    def altered(self, pattern, change):
        self.changes.append((pattern, change))
        yield
        self.changes.clear()

    def targets(self, pattern):
        return [it.target for it in self.asked if re.search(pattern, it.target)]


class Place:
    """A folder with all of it: the registry and its proxies, which `close` ends."""

    def __init__(self, db=None):
        self.folder = Path(tempfile.mkdtemp())
        self.folder.chmod(0o755)
        self.db = Path(db) if db else self.folder / "team.db"
        self.started = []
        self.server = None
        self.port, self.https = free_port(), free_port()
        self.address = f"https://localhost:{self.https}"
        self.certificate = self.folder / "certificate.pem"

    def close(self):
        for process in [*self.started, self.server]:
            if process:
                process.terminate()
                process.wait()
        shutil.rmtree(self.folder)

    def run(self, *words, **settings):
        """What a command says; it has to succeed."""
        command = [*map(str, words)]
        done = subprocess.run(command, stdin=subprocess.DEVNULL, capture_output=True, text=True, timeout=600, **settings)
        if done.returncode != 0:
            raise RuntimeError(f"{' '.join(command)}: status {done.returncode}\n{done.stdout}{done.stderr}")
        return done.stdout

    def admin(self, *words):
        return self.run(PROGRAM, *words, "--db", self.db)

    def admin_all(self, *lines):
        """Commands in one run."""
        commands = self.folder / "commands"
        commands.write_text("".join(f"{line}\n" for line in lines))
        self.run(PROGRAM, "pipe", "--db", self.db, "--setup", commands)

    def serve(self):
        words = [PROGRAM, "serve", "--port", self.port, "--connections", 1_000_000_000, "--db", self.db]
        self.server = subprocess.Popen([*map(str, words)], stdout=subprocess.DEVNULL)
        wait_for("the registry listens", lambda: is_open(self.port))

    @contextmanager
    def stopped(self):
        """The registry is away, so that a command has its file."""
        self.server.terminate()
        self.server.wait()
        yield
        self.serve()

    # The files of the package and the two proxies, with the names and ports of this place.

    def install(self):
        prefix = self.folder / "usr"
        self.run(TOP / "dist/install", env={**os.environ, "PREFIX": prefix, "REGISTRY_CLI": PROGRAM})
        self.page = prefix / "share/kondziga/page"
        self.examples = prefix / "share/doc/kondziga/examples"
        key = self.folder / "certificate.key"
        words = "req -x509 -newkey rsa:2048 -nodes -days 2 -subj /CN=localhost -addext subjectAltName=DNS:localhost"
        self.run("openssl", *words.split(), "-keyout", key, "-out", self.certificate)
        self.way = Way(self.port)
        self.upstream = self.way.port

    def in_place(self, file, port):
        changes = {
            "listen 443": f"listen 127.0.0.1:{port}",
            "    listen [::]:443 ssl http2;\n": "",
            "127.0.0.1:8080": f"127.0.0.1:{self.upstream}",
            "/etc/ssl/crates.example.com.pem": str(self.certificate),
            "/etc/ssl/crates.example.com.key": str(self.certificate.with_suffix(".key")),
            "crates.example.com {": f"localhost:{port} {{\n\ttls {self.certificate} {self.certificate.with_suffix('.key')}",
            "crates.example.com": "localhost",
            "\n{\n": "\n{\n\tauto_https off\n\tadmin off\n",
        }
        text = (self.examples / file).read_text()
        for old, new in changes.items():
            text = text.replace(old, new)
        return text

    def start_nginx(self):
        folder = self.folder / "nginx"
        folder.mkdir()
        (folder / "registry.conf").write_text(self.in_place("nginx.conf", self.https))
        (folder / "nginx.conf").write_text(NGINX.format(folder=folder))
        path = f"{os.environ['PATH']}:/usr/sbin"
        command = ["nginx", "-e", str(folder / "error.log"), "-c", str(folder / "nginx.conf"), "-g", "daemon off;"]
        self.started.append(subprocess.Popen(command, stdout=subprocess.DEVNULL, env={**os.environ, "PATH": path}))
        wait_for("nginx listens", lambda: is_open(self.https))

    def start_caddy(self):
        """Its port."""
        port, file = free_port(), self.folder / "Caddyfile"
        file.write_text(self.in_place("Caddyfile", port))
        command = ["caddy", "run", "--adapter", "caddyfile", "--config", str(file)]
        settings = {**os.environ, "HOME": str(self.folder)}
        with open(self.folder / "caddy.log", "w") as log:
            self.started.append(subprocess.Popen(command, stdout=log, stderr=log, env=settings))
        wait_for("caddy listens", lambda: is_open(port))
        return port

    def get(self, target, token=None, port=None):
        """A reply through a proxy, and its body."""
        trust = ssl.create_default_context(cafile=str(self.certificate))
        link = http.client.HTTPSConnection("localhost", port or self.https, context=trust, timeout=PATIENCE)
        link.request("GET", target, headers={"authorization": token} if token else {})
        reply = link.getresponse()
        body = reply.read()
        link.close()
        return reply, body

    # Crates.

    def publish(self, token, name, vers, archive=b"an archive", **metadata):
        """A publish without cargo, past the proxy; it has to be done."""
        text = json.dumps({"name": name, "vers": vers, **metadata}).encode()
        body = len(text).to_bytes(4, "little") + text + len(archive).to_bytes(4, "little") + archive
        link = http.client.HTTPConnection("127.0.0.1", self.port, timeout=PATIENCE)
        link.request("PUT", "/api/v1/crates/new", body, {"authorization": token})
        reply = link.getresponse()
        said = reply.read()
        link.close()
        if reply.status != 200:
            raise RuntimeError(f"{name} {vers}: {said}")

    def cargo(self, token, folder, *words):
        """What cargo says, as a developer with this token runs it in the folder of a crate."""
        settings = {
            "CARGO_HOME": str(self.folder / "home"),
            "CARGO_HTTP_CAINFO": str(self.certificate),
            "CARGO_REGISTRIES_TEAM_CREDENTIAL_PROVIDER": "cargo:token",
            "CARGO_REGISTRIES_TEAM_INDEX": f"sparse+{self.address}/index/",
            "CARGO_REGISTRIES_TEAM_TOKEN": token,
            "CARGO_TARGET_DIR": str(self.folder / "target"),
            "no_proxy": "*",
        }
        others = {name: text for name, text in os.environ.items() if not name.startswith(("CARGO_", "RUSTC_WRAPPER"))}
        return self.run("cargo", *words, cwd=folder, env={**others, **settings})

    def cargo_publish(self, token, name, vers, description, more=""):
        folder = self.folder / "crates" / f"{name}-{vers}"
        (folder / "src").mkdir(parents=True)
        (folder / "src/lib.rs").write_text(f"//! {description}\n")
        (folder / "Cargo.toml").write_text(MANIFEST.format(name=name, vers=vers, description=description) + more)
        self.cargo(token, folder, "publish", "--registry", "team", "--allow-dirty", "--no-verify")

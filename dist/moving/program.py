"""The program `registry_cli` on a registry's file: its commands and reports, and a stream of requests."""
import hashlib
import os
import subprocess
import tempfile
from pathlib import Path

from .faults import Fault
from .web import Reply

ENDPOINTS = "publish-new,publish-update,yank,change-owners"


def token_command(login, text):
    """The line of a setup that adds a token with all endpoints."""
    digest = hashlib.sha256(text.encode()).hexdigest()
    return f"token-add {login} --endpoints {ENDPOINTS} --digest {digest}"


class Refused(Exception):
    """What the program refuses: its own line, and its status."""

    def __init__(self, line, status):
        super().__init__(line)
        self.status = status


class User:
    """Who runs the program: the one whose file it is, as a log that root makes would lock the service out."""

    def __init__(self, file):
        try:
            found = os.stat(file)
        except OSError as fault:
            raise Fault(f"can't read {file}: {fault.strerror}") from None
        self.is_other = os.geteuid() == 0 and found.st_uid != 0
        self.uid, self.gid = found.st_uid, found.st_gid

    def options(self):
        return {"user": self.uid, "group": self.gid, "extra_groups": []} if self.is_other else {}

    def give(self, path):
        if self.is_other:
            os.chown(path, self.uid, self.gid)


class Program:
    """`registry_cli` on one file. It has a folder for a while, for what it reads and writes."""

    def __init__(self, path, db):
        self.path = path
        self.db = Path(db).absolute()
        self.user = User(db)
        self.temporary = tempfile.TemporaryDirectory(prefix="registry-")
        self.folder = Path(self.temporary.name)
        self.user.give(self.folder)

    def start(self, arguments, **options):
        """Starts it apart from the terminal, whose Ctrl-C is for the script."""
        try:
            return subprocess.Popen(
                [self.path, *arguments],
                stdout=subprocess.PIPE,
                stderr=subprocess.PIPE,
                start_new_session=True,
                **self.user.options(),
                **options,
            )
        except OSError as fault:
            raise Fault(f"can't run {self.path}: {fault.strerror}") from None

    def run(self, command, *arguments):
        """What a command prints; raises Refused where it does not end with status 0."""
        process = self.start([command, *arguments, "--db", str(self.db)], stdin=subprocess.DEVNULL)
        said, refusal = process.communicate()
        if process.returncode:
            raise Refused(refusal.decode(errors="replace").strip(), process.returncode)
        return said.decode()

    def lines(self, report):
        """The lines of a report."""
        return self.run(report).split("\n")[:-1]

    def setup_file(self, commands):
        path = self.folder / "setup"
        path.write_text("".join(f"{command}\n" for command in commands))
        self.user.give(path)
        return path

    def do(self, commands):
        """Does commands of the administrator, in one run."""
        if commands:
            session = Session(self, commands)
            session.close()

    def accounts(self):
        """The accounts by their ids: login, name or None, and whether it is enabled."""
        found = []
        for line in self.lines("users"):
            name = line[54:]
            found.append((line[10:42].rstrip(), None if name == "-" else name, line[44:52] == "enabled "))
        return found

    def crates(self):
        """The names of the crates, each with the number of its versions."""
        return {line[:64].rstrip(): int(line[66:].split()[0]) for line in self.lines("crates")}

    def add_accounts(self, accounts):
        """Adds accounts, each a login and a name or None. No line of a setup file has a name with a
        space in it."""
        commands = []
        for login, name in accounts:
            if name is None or " " not in name:
                commands.append(f"user-add {login}" + ("" if name is None else f" --name={name}"))
                continue
            self.do(commands)
            commands = []
            self.run("user-add", login, f"--name={name}")
        self.do(commands)


class Session:
    """A stream of requests to the program's `pipe`, each answered before the next is sent. The
    commands of a setup are done first."""

    def __init__(self, program, setup=()):
        self.program = program
        self.process = None
        self.start(setup)

    def start(self, setup):
        arguments = ["pipe", "--db", str(self.program.db)]
        if setup:
            arguments += ["--setup", str(self.program.setup_file(setup))]
        self.process = self.program.start(arguments, stdin=subprocess.PIPE)

    def ask(self, method, target, token, body=b""):
        if self.process is None:
            self.start(())
        head = (
            f"{method} {target} HTTP/1.1\r\nhost: registry\r\n"
            f"authorization: {token}\r\ncontent-length: {len(body)}\r\n\r\n"
        )
        try:
            self.process.stdin.write(head.encode())
            self.process.stdin.write(body)
            self.process.stdin.flush()
            return self.reply()
        except BrokenPipeError:
            raise self.broken() from None

    def head(self):
        """The status of a reply, and its fields."""
        lines = []
        while not lines or lines[-1] != b"\r\n":
            lines.append(self.process.stdout.readline())
            if not lines[-1].endswith(b"\r\n"):
                raise self.broken()
        fields = dict(line.decode().rstrip("\r\n").split(": ", 1) for line in lines[1:-1])
        return int(lines[0].split(b" ")[1]), fields

    def reply(self):
        status, fields = self.head()
        length = int(fields["content-length"])
        body = self.process.stdout.read(length)
        if len(body) != length:
            raise self.broken()
        if fields.get("connection") == "close":
            self.close()
        return Reply(status, body)

    def broken(self):
        """Why the stream ended: what the program says of it."""
        refusal, status = self.end()
        return Refused(refusal or "the stream of requests ended", status)

    def end(self):
        """Ends the stream, and gives what the program said, and its status."""
        process, self.process = self.process, None
        try:
            process.stdin.close()
        except BrokenPipeError:
            pass
        process.stdout.read()
        refusal = process.stderr.read().decode(errors="replace").strip()
        process.wait()
        return refusal, process.returncode

    def close(self):
        """Ends the stream; raises Refused where the program refused its setup or its file."""
        if self.process is None:
            return
        refusal, status = self.end()
        if status:
            raise Refused(refusal, status)

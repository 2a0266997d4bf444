"""Who is asked: a new cluster in memory, and the gridmaster that serves."""
import contextlib
import socket
import subprocess
import threading

import gridmaster_files as files
from gridmaster_words.asking import PATIENCE
from gridmaster_words.names import group, user
from gridmaster_words.running import fail, setting

AT_ONCE = 32             # requests that are sent before their replies are read, where there are many
MEANINGS = {11: "syntax error", 12: "text too long", 14: "no such object", 15: "not permitted", 16: "exists already",
            17: "in use", 18: "bad value", 20: "cycle", 21: "limit reached", 99: "no memory"}


def refusal(code):
    """What a code says."""
    return "refused: %s (%d)" % (MEANINGS.get(code, "code"), code)


def find(variable, name):
    program = files.program(variable, name)
    if not program:
        fail(127, "there is no program %s: name it by %s" % (name, variable))
    return program


class NewCluster:
    """A new cluster in memory: `gridmaster simulate`, which answers once the next header begins."""

    def __init__(self):
        command = [find("GRIDMASTER", "gridmaster"), "simulate"]
        try:
            self.process = subprocess.Popen(command, stdin=subprocess.PIPE, stdout=subprocess.PIPE)
        except OSError as fault:
            fail(127, "the program gridmaster (%s) can't be run: %s" % (command[0], fault.strerror))
        self.limit = threading.Timer(PATIENCE, self.process.kill)
        self.limit.daemon = True
        self.limit.start()
        self.process.stdin.write(b"@0")

    def __enter__(self):
        return self

    def __exit__(self, *_):
        self.limit.cancel()
        self.process.kill()
        self.process.communicate()

    def ask_all(self, texts):
        """Code and lines of the reply to each of some short requests."""
        script = "".join(" root root\n%s@0" % "".join("@" * line.startswith("@") + line + "\n" for line in text.split("\n"))
                         for text in texts)
        try:
            self.process.stdin.write(script.encode("latin-1"))
            self.process.stdin.flush()
            return [self.reply() for _ in texts]
        except (OSError, ValueError):
            self.process.kill()
            fail(9, "gridmaster simulate ended with %s" % self.process.wait())

    def reply(self):
        code, count = map(int, self.process.stdout.readline().split())
        return code, [self.process.stdout.readline().decode("latin-1").rstrip("\n") for _ in range(count)]

    def ask(self, text):
        return self.ask_all([text])[0]


class Gridmaster:
    """The gridmaster that serves, by gq; many requests in a row go over one connection."""

    def __init__(self):
        self.port = setting("GRIDMASTER_PORT", "SGE_QMASTER_PORT") or "6444"
        self.user, self.group = user(), group()
        self.program, self.connection, self.asked, self.changed = find("GQ", "gq"), None, 0, 0

    def no_answer(self):
        fail(9, "no answer from a gridmaster at port %s of this machine; load again when there is one" % self.port)

    def by_gq(self, text):
        command = [self.program, self.port, self.user, self.group]
        try:
            run = subprocess.run(command, input=text.encode("latin-1"), stdout=subprocess.PIPE, close_fds=False, timeout=PATIENCE)
        except subprocess.TimeoutExpired:
            self.no_answer()
        except OSError as fault:
            fail(127, "the program gq (%s) can't be run: %s" % (command[0], fault.strerror))
        if run.returncode == 9:
            self.no_answer()
        if run.returncode not in (0, 1):
            fail(2, "gq ended with %d for port, user and group %s" % (run.returncode, " ".join(command[1:])))
        return run.stdout

    def by_connection(self, texts):
        """Frames and their replies, as gridmaster_wire(5) says: all are sent before the first reply is read."""
        frames = [("%s %s\n%s" % (self.user, self.group, text)).encode("latin-1") for text in texts]
        try:
            self.connection.write(b"".join(len(frame).to_bytes(4, "big") + frame for frame in frames))
            self.connection.flush()
            replies = [self.connection.read(int.from_bytes(self.connection.read(8), "big")) for _ in frames]
        except OSError:
            self.no_answer()
        if not all(reply.endswith(b"\n") for reply in replies):
            self.no_answer()
        return replies

    @contextlib.contextmanager
    def one_connection(self):
        """What is asked inside goes over one connection: a process for each of many requests takes long."""
        try:
            there = socket.create_connection(("127.0.0.1", int(self.port)), PATIENCE)
        except OSError:
            self.no_answer()
        with there, contextlib.suppress(OSError), there.makefile("rwb") as self.connection:
            yield
        self.connection = None

    def ask_all(self, texts):
        """Code and lines of the reply to each of some requests."""
        self.asked += len(texts)
        replies = self.by_connection(texts) if self.connection else [self.by_gq(text) for text in texts]
        lines = [reply.decode("latin-1").split("\n") for reply in replies]
        found = [(int(reply[0].split()[0]), reply[1:-1]) for reply in lines]
        if any(code == 15 for code, _ in found):
            fail(1, "%s is no manager of the gridmaster" % self.user)
        return found

    def ask(self, text):
        return self.ask_all([text])[0]

    def change_all(self, texts):
        """The code of each of some changes."""
        codes = [code for code, _ in self.ask_all(texts)]
        self.changed += codes.count(0)
        return codes

    def change(self, text):
        return self.change_all([text])[0]

"""Runs of the built program, each held to the status, the output and the error line that are wanted of it."""
import collections
import contextlib
import os
import random
import re
import resource
import shlex
import shutil
import socket
import subprocess

try:
    import sqlite3
except ImportError:
    sqlite3 = None

# What ends a subject's runs where the program left no file, or no database, that later runs need.
FAULTS = (OSError, sqlite3.Error) if sqlite3 else OSError

Ended = collections.namedtuple("Ended", "status output error")
# A run that takes longer is stopped, and its status is 124.
SECONDS = 300


class Runs:
    """Runs in one folder, the room: how many were made, and how many were wrong."""

    def __init__(self, program, room):
        self.program, self.room = program, room
        self.made = self.wrong = 0
        self.limit = None

    def path(self, name):
        """The path of a file in the room, which words name ./NAME; the room itself is . there."""
        return os.path.join(self.room, name)

    def words(self, line):
        """The words of a line, as a shell parts them; - alone is no word."""
        words = [] if line == "-" else shlex.split(line)
        return [re.sub(r"^\.(?=/|$)", self.room, word) for word in words]

    def write(self, name, content):
        with open(self.path(name), "wb") as file:
            file.write(content if isinstance(content, bytes) else content.encode())

    def read(self, name):
        return bytes_of(self.path(name))

    def table(self, text, given=""):
        """Runs the lines of a table: words, status, output and error, two spaces or more between them, and - for nothing."""
        for line in text.splitlines():
            if line.strip() and not line.strip().startswith("#"):
                words, status, output, error = re.split(r" {2,}", line.strip())
                self.ends(words, int(status), "" if output == "-" else output + "\n", "" if error == "-" else error, given)

    def ends(self, words, status=0, output="", error="", given="", stdin=None, stdout=None):
        """Runs the program once, with this input, or from and to these files. The error is one line, or * for any text."""
        found = self.found(words, given, stdin, stdout)
        how = "".join(f" {sign} {file}" for sign, file in (("<", stdin), (">", stdout)) if file)
        self.compare(f"desk {words}{how}", found, status, output, error)

    def found(self, words, given="", stdin=None, stdout=None):
        """How the program ends that is run so."""
        self.write("in", given)
        self.write("out", "")
        source = os.open(stdin or self.path("in"), os.O_RDONLY)
        with open(self.path("err"), "wb") as err, open(stdout or self.path("out"), "wb") as out:
            how = {"stdin": source, "stdout": out, "stderr": err, "timeout": SECONDS, "preexec_fn": self.limit}
            returned = status_of([self.program, *self.words(words)], how)
        os.close(source)
        return Ended(returned, self.read("out"), self.read("err"))

    @contextlib.contextmanager
    def limited(self, size):
        """Within it each run that is not of a served desk has so many bytes of addresses at most, and leaves no core."""
        def limit():
            resource.setrlimit(resource.RLIMIT_CORE, (0, 0))
            resource.setrlimit(resource.RLIMIT_AS, (size, size))

        self.limit = limit
        try:
            yield
        finally:
            self.limit = None

    def compare(self, what, found, status=0, output="", error=""):
        """Holds an end to what is wanted of it."""
        self.made += 1
        output = output if isinstance(output, bytes) else output.encode()
        error_fits = found.error != b"" if error == "*" else found.error == (f"{error}\n" if error else "").encode()
        if found.status != status or found.output != output or not error_fits:
            self.wrong += 1
            fault = f"{what}: wanted {shown(Ended(status, output, error.encode()))}; found {shown(found)}"
            print(fault.encode("utf-8", "backslashreplace").decode())

    def holds(self, is_so, fault):
        """Tells a fault where something is not so that holds beside the runs."""
        if not is_so:
            self.wrong += 1
            print(fault)

    def stands(self, name, size, mode):
        """The file has so many bytes, or any number of them (None), and may be read and written so."""
        self.made += 1
        found = os.stat(self.path(name)) if os.path.exists(self.path(name)) else None
        is_so = found and found.st_mode & 0o7777 == mode and (size is None or found.st_size == size)
        self.holds(is_so, f"{name}: wanted {'any number of' if size is None else size} bytes and mode {mode:o}, found {found}")

    def leaves(self, words, status, error, output="", but_log=False):
        """Runs the program, which leaves the file of its second word byte for byte as it was, or not there. So it leaves
        the file's log, but where that may be begun anew."""
        file = self.words(words)[1]
        parts = [file] if but_log else [file, f"{file}-wal"]
        before = [bytes_of(part) for part in parts]
        self.ends(words, status, output, error)
        self.made += 1
        self.holds([bytes_of(part) for part in parts] == before, f"desk {words}: a file is not as it was")

    def refuses_all(self, error, file, but_log=False):
        """Each command but `init` ends with 3 and that line, and leaves the file and its log, which may be begun anew or not."""
        for words in (f"keys {file} ./keys.csv", f"days {file} ./days.txt", f"results {file} G1", f"serve {file} --port 1",
                      f"register {file} G1 2026-06-16T18:00:00 ./register.csv"):
            self.leaves(words, 3, error, but_log=but_log)

    def remove(self, *names):
        """Removes the files whose names begin so."""
        for name in os.listdir(self.room):
            if name.startswith(names):
                os.remove(self.path(name))

    def copy(self, name, to):
        shutil.copy(self.path(name), self.path(to))

    def sql(self, name, text):
        """Has sqlite run statements on a file."""
        with sqlite(self.path(name)) as database:
            try:
                database.executescript(text)
            except sqlite3.Error as fault:
                self.holds(False, f"{name}: {text}: {fault}")


def sqlite(path):
    """A database that sqlite opens; `with` closes it."""
    return contextlib.closing(sqlite3.connect(path, isolation_level=None))


def status_of(words, how):
    """The status with which a command ends, as a shell tells it."""
    try:
        return shell_status(subprocess.run(words, **how).returncode)
    except subprocess.TimeoutExpired:
        return 124


def shell_status(returncode):
    """A status as a shell tells it, where a signal has a number below zero."""
    return returncode if returncode >= 0 else 128 - returncode


def bytes_of(path):
    """What is in a file, or None where it is not there."""
    if not os.path.exists(path):
        return None
    with open(path, "rb") as file:
        return file.read()


def shown(ended):
    return f"status {ended.status}, output {ended.output[:300]!r}, error {ended.error[:300]!r}"


class Served:
    """A desk that is served on a free port, PORT in the words; `with` waits for the line that says so, and for the end, which
    has this status."""

    def __init__(self, runs, words, status=0):
        self.runs, self.status = runs, status
        self.port = free_port()
        self.line = words.replace("PORT", str(self.port))
        self.what = f"desk {words}"

    def __enter__(self):
        words = ["timeout", "60", self.runs.program, *self.runs.words(self.line)]
        how = {"stdin": subprocess.DEVNULL, "stdout": subprocess.PIPE, "stderr": subprocess.PIPE}
        self.process = subprocess.Popen(words, **how)
        self.first = self.process.stdout.readline()
        return self

    def __exit__(self, *_):
        output, error = self.process.communicate()
        found = Ended(shell_status(self.process.returncode), self.first + output, error)
        self.runs.compare(self.what, found, self.status, "listening\n")

    def stop(self):
        """Stops it by hand, after which its status is 143."""
        self.process.terminate()

    def answers(self, request, key, status, reply, body=None):
        """A request, sent with this key, is answered with this status and body."""
        given = exchange(self.port, request_text(request, key, body))
        self.runs.compare(f"{self.what}, asked {request}", Ended(0, given, b""), 0, reply_text(status, reply))


def request_text(request, key, body=None):
    length = "" if body is None else f"Content-Length: {len(body)}\r\n"
    return f"{request} HTTP/1.1\r\nDesk-Key: {key}\r\n{length}\r\n{body or ''}"


def reply_text(status, reply):
    headers = f"Content-Type: application/json\r\nContent-Length: {len(reply)}\r\nConnection: close"
    return f"HTTP/1.1 {status}\r\n{headers}\r\n\r\n{reply}"


def exchange(port, text):
    """All bytes that answer a request, or what went wrong."""
    try:
        with socket.create_connection(("127.0.0.1", port), timeout=20) as peer:
            peer.sendall(text.encode())
            return b"".join(iter(lambda: peer.recv(65536), b""))
    except OSError as error:
        return repr(error).encode()


def free_port():
    """A port of this machine that nobody listens on, below those that the system gives to connections."""
    while True:
        port = random.randrange(20000, 30000)
        with socket.socket() as peer:
            if peer.connect_ex(("127.0.0.1", port)):
                return port

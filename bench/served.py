"""A desk that is served for a program of this folder: what it is asked, and what it takes for that."""
import importlib.machinery
import importlib.util
import os
import re
import socket
import subprocess
import sys

# Where the C library clears and copies by one instruction of the machine, each byte is counted: that is switched off.
UNCOUNTED = {"GLIBC_TUNABLES": "glibc.cpu.x86_rep_stosb_threshold=100000000:glibc.cpu.x86_rep_movsb_threshold=100000000"}
READS = ("notice", "mine")


def of_bench(name):
    """Another program of this folder, as a module."""
    loader = importlib.machinery.SourceFileLoader(name, os.path.join(os.path.dirname(os.path.abspath(__file__)), name))
    module = importlib.util.module_from_spec(importlib.util.spec_from_loader(name, loader))
    loader.exec_module(module)
    return module


def free_port():
    with socket.socket() as taken:
        taken.bind(("127.0.0.1", 0))
        return taken.getsockname()[1]


class Desk:
    """A desk that is served until the end of `with`. Callgrind runs it where a file for its output is named."""

    def __init__(self, program, file, *words, counts=None):
        self.counts, self.dumps, self.port = counts, 0, free_port()
        self.words = [program, "serve", file, "--port", str(self.port), *words]
        if counts:
            self.words = ["valgrind", "--tool=callgrind", "--instr-atstart=no", "--callgrind-out-file=" + counts, *self.words]

    def __enter__(self):
        env = {**os.environ, **UNCOUNTED}
        self.process = subprocess.Popen(self.words, stdout=subprocess.PIPE, stderr=subprocess.PIPE, env=env)
        if self.process.stdout.readline() != b"listening\n":
            sys.exit("serve: " + self.process.communicate()[1].decode())
        return self

    def __exit__(self, *_):
        self.process.terminate()
        self.process.communicate()

    def ask(self, verb, key, body="", refused=None, meeting="G1"):
        """Asks, and exits where the answer is not acceptance, or not a refusal of this number."""
        text = "%s /m/%s/%s HTTP/1.1\r\nDesk-Key: %s\r\nContent-Length: %d\r\n\r\n%s"
        method = "GET" if verb in READS else "POST"
        with socket.create_connection(("127.0.0.1", self.port), timeout=600) as peer:
            peer.sendall((text % (method, meeting, verb, key, len(body), body)).encode())
            reply = b""
            while part := peer.recv(65536):
                reply += part
        if not re.search(rb'\r\n\r\n\{"code":%d,' % refused, reply) if refused else reply[9:12] != b"200":
            sys.exit("%s %s: %s" % (verb, body, reply.decode()))

    def processor(self):
        """Milliseconds of a processor that it took so far, its own and the system's for it."""
        tasks = "/proc/%d/task/" % self.process.pid
        return sum(int(open(tasks + task + "/schedstat").read().split()[0]) for task in os.listdir(tasks)) / 1e6

    def memory(self):
        """The MB that it holds, and the most that it held since `forget_memory`."""
        with open("/proc/%d/status" % self.process.pid) as status:
            told = status.read()
        return [int(re.search(r"^%s:\s+(\d+) kB" % name, told, re.M)[1]) / 1000 for name in ("VmRSS", "VmHWM")]

    def forget_memory(self):
        with open("/proc/%d/clear_refs" % self.process.pid, "w") as asked:
            asked.write("5")

    def control(self, *words):
        subprocess.run(["callgrind_control", *words, str(self.process.pid)], capture_output=True, check=True)

    def count(self, *asked, **how):
        """Asks, and returns the instructions that it took, and the statements of the database that it ran."""
        self.control("-i", "on")
        self.ask(*asked, **how)
        self.control("-i", "off")
        self.control("-d", "asked")
        self.dumps += 1
        with open("%s.%d" % (self.counts, self.dumps)) as dump:
            text = dump.read()
        names = dict(re.findall(r"^c?fn=(\(\d+\)) (.+)$", text, re.M))
        statements = {place for place, name in names.items() if re.search(r"Transaction::(query_all|execute)\b", name)}
        calls = re.findall(r"^cfn=(\(\d+\)).*\ncalls=(\d+)", text, re.M)
        return int(re.search(r"^totals: (\d+)", text, re.M)[1]), sum(int(n) for place, n in calls if place in statements)

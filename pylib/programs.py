"""Runs programs: treestore, which is built first where it is stale, and those that it is compared with."""
import collections
import os
import re
import resource
import select
import statistics
import subprocess
import sys

TOP = os.path.dirname(os.path.dirname(os.path.realpath(__file__)))
FRONT_DOOR = os.path.join(TOP, "treestore")
TREESTORE = os.path.join(TOP, "crates", "treestore", "out", "treestore")
SETTING = re.compile(r"(\w+)=\$\{\1:-(.*)\}")  # a line of the front door for the C library
LIMIT = 120  # processor seconds, behind which a program is ended
PATIENCE = 60  # seconds for an answer, of those who would rather see the program killed than wait
SHORTEST = 0.2  # seconds of a measurement of a command
ANSWERED = ("ok ", "! ")  # how the last line of an answer begins


def build():
    """Has the front door build the program where it is stale, and takes over its settings of the C library. The program is run without the
    front door, which looks for newer sources each time."""
    if subprocess.run([FRONT_DOOR], stdin=subprocess.DEVNULL).returncode:
        sys.exit("there is no program to run")
    with open(FRONT_DOOR) as script:
        for setting in filter(None, map(SETTING.match, script)):
            os.environ.setdefault(*setting.groups())


def program_of(chosen):
    """The path of the program that was named, or that of the repository's, which is built where it is stale."""
    if chosen:
        return os.path.abspath(chosen)
    build()
    return TREESTORE


def limit_time():
    resource.setrlimit(resource.RLIMIT_CPU, (LIMIT, LIMIT))


def run(words, script=b"", folder=".", errors=None, output=subprocess.PIPE):
    """Runs a program, and answers its wait status, its output, its processor seconds and its peak of memory in MiB."""
    child = subprocess.Popen(words, stdin=subprocess.PIPE, stdout=output, stderr=errors, cwd=folder, preexec_fn=limit_time)
    child.stdin.write(script)
    child.stdin.close()
    printed = child.stdout.read().decode() if child.stdout else ""
    _, status, usage = os.wait4(child.pid, 0)
    child.returncode = status
    return status, printed, usage.ru_utime + usage.ru_stime, usage.ru_maxrss / 1024


def measure(words, script=b"", folder=".", output=subprocess.PIPE):
    """As `run`, of a program that ends well; where it doesn't, so does the caller."""
    status, printed, seconds, memory = run(words, script, folder, output=output)
    if status != 0:
        sys.exit(f"{words[0]} ended with {status}")
    return printed, seconds, memory


def answers(program, commands, folder, words=()):
    """The lines that a program prints for each of some commands, which it does in a folder."""
    script = "".join(f"{command}\n" for command in commands).encode()
    done = subprocess.run([program, *words], input=script, stdout=subprocess.PIPE, cwd=folder)
    answered, lines = [], []
    for line in done.stdout.decode().split("\n")[:-1]:
        lines.append(line)
        if line.startswith(ANSWERED):
            answered.append(lines)
            lines = []
    if done.returncode or lines or len(answered) != len(commands):
        raise RuntimeError(f"{program} ended with {done.returncode} and {len(answered)} answers to {len(commands)} commands")
    return answered


class Ended(Exception):
    """The program ended before it was told to."""


class Session:
    """A program that runs in a folder, and does one command after another, while its caller looks at what comes of each. Where nothing is printed
    for so many seconds as the limit says it is killed."""

    def __init__(self, folder, words=(), program=TREESTORE, script=subprocess.PIPE, errors=None, settings=(), limit=None):
        self.lines, self.rest, self.limit = collections.deque(), b"", limit
        self.child = subprocess.Popen(
            [program, *words], stdin=script, stdout=subprocess.PIPE, stderr=errors, cwd=folder, env={**os.environ, **dict(settings)}
        )

    def send(self, *commands):
        os.write(self.child.stdin.fileno(), "".join(f"{command}\n" for command in commands).encode())

    def line(self):
        while not self.lines:
            if not select.select([self.child.stdout], [], [], self.limit)[0]:
                self.child.kill()
            piece = os.read(self.child.stdout.fileno(), 1 << 16)
            if not piece:
                raise Ended(f"it has ended with {self.child.wait()}")
            *whole, self.rest = (self.rest + piece).split(b"\n")
            self.lines += whole
        return self.lines.popleft().decode(errors="replace")

    def answer(self, *commands):
        """The lines that commands print."""
        self.send(*commands)
        lines, left = [], len(commands)
        while left:
            lines.append(self.line())
            left -= lines[-1].startswith(ANSWERED)
        return lines

    def do(self, command, times=1):
        """The last line that a command prints, which is done so many times."""
        return self.answer(*[command] * times)[-1]

    def demand(self, command, what=None):
        """The words of the last line of a command; where it is refused, the caller ends, and says what was refused."""
        said = self.do(command)
        if not said.startswith("ok"):
            sys.exit(f"{what or command}: {said}")
        return said.split()

    def grammar_size(self):
        """How many nodes the grammar has, which is saved as `g`."""
        return int(self.demand("save-grammar g")[4])

    def seconds(self):
        with open(f"/proc/{self.child.pid}/schedstat") as told:
            return int(told.read().split()[0]) / 1e9

    def timed(self, command, times=1):
        """The last line that a command prints, and the seconds of all its times."""
        before = self.seconds()
        said = self.do(command, times)
        return said, self.seconds() - before

    def seconds_of(self, command, runs=1):
        """The seconds of a command that was done before."""
        times = max(1, min(1000, int(SHORTEST / max(self.timed(command)[1], 1e-6))))
        return statistics.median(self.timed(command, times)[1] / times for _ in range(runs))

    def memory(self, kind):
        """The bytes of its memory, by the name that the system has for them."""
        with open(f"/proc/{self.child.pid}/status") as status:
            return int(re.search(rf"{kind}:\s+(\d+)", status.read())[1]) * 1024

    def anonymous(self):
        """The bytes of its own memory, without those of files that it maps."""
        return self.memory("RssAnon")

    def resident(self):
        """The MiB that it holds."""
        return self.memory("VmRSS") / 2**20

    def peak(self):
        """The most MiB that it held so far."""
        return self.memory("VmHWM") / 2**20

    def end(self):
        """Ends the script, and answers the status, what is left on standard output, and what is on standard error where it was asked for."""
        output, errors = self.child.communicate(timeout=self.limit)
        left = b"".join(line + b"\n" for line in self.lines) + self.rest + output
        return self.child.returncode, left.decode(), (errors or b"").decode()

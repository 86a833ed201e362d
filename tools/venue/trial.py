"""A venue on this machine, for trials: a broker on loopback, markets with their adapters, a clock and desks, which all end with it. All its
files are in a folder that goes too."""
import json
import os
import shutil
import signal
import subprocess
import sys
import tempfile
import threading
import time

HERE = os.path.dirname(os.path.realpath(__file__))
sys.path[:0] = [HERE, os.path.realpath(f"{HERE}/../lib")]
from built_program import program
from scripts import script

broker = script(f"{HERE}/broker")
BEGINNING = b'{"version":4}\n'
PYTHON = "/usr/bin/python3"
NUMBERS = (signal.SIGTERM, signal.SIGHUP, signal.SIGINT, signal.SIGALRM)


def lacking():
    """The Debian packages that a trial needs and that aren't on this machine."""
    has_pika = os.path.exists(PYTHON) and subprocess.run([PYTHON, "-c", "import pika"], stderr=subprocess.DEVNULL, check=False).returncode == 0
    there = {"rabbitmq-server": os.path.exists(f"{broker.BIN}/rabbitmq-server"), "python3-pika": has_pika, "openssl": bool(shutil.which("openssl"))}
    return [name for name, is_there in there.items() if not is_there]


def end_at_signals(seconds, name):
    """Lets a trial end all that it started, and its files, at the usual signals and after a limit of time."""
    def over(number, _):
        # (a second one doesn't break off what ends all)
        for each in NUMBERS:
            signal.signal(each, signal.SIG_IGN)
        sys.exit(f"{name}: not done within {seconds} s" if number == signal.SIGALRM else 128 + number)
    for number in NUMBERS:
        signal.signal(number, over)
    signal.alarm(seconds)


def until(what, seconds, is_so, every=0.05):
    """Waits for a condition."""
    end = time.monotonic() + seconds
    while not is_so():
        if time.monotonic() > end:
            sys.exit(f"{os.path.basename(sys.argv[0])}: after {seconds} s still not so: {what}")
        time.sleep(every)


class Service:
    """A process that is started again when it ends, as a service manager does, until that is over."""

    def __init__(self, words, room, name):
        self.words, self.room, self.name, self.starts, self.is_over, self.ran = words, room, name, 0, False, None
        self.thread = threading.Thread(target=self.supervise, daemon=True)
        self.thread.start()

    def supervise(self):
        while not self.is_over:
            with open(f"{self.room}/{self.name}.err", "ab") as said:
                self.ran = subprocess.Popen(self.words, cwd=self.room, stdin=subprocess.DEVNULL, stderr=said, start_new_session=True)
            self.starts += 1
            if self.is_over:
                kill_group(self.ran)
            self.ran.wait()
            time.sleep(0.3)

    def market(self):
        """The process of the market under an adapter, or None between two of them."""
        try:
            with open(f"/proc/{self.ran.pid}/task/{self.ran.pid}/children", encoding="ascii") as file:
                return int(file.read().split()[0])
        except (OSError, IndexError, AttributeError):
            return None

    def end(self):
        self.is_over = True
        if self.ran:
            kill_group(self.ran)
        self.thread.join(20)


def kill_group(ran):
    try:
        os.killpg(ran.pid, signal.SIGKILL)
    except ProcessLookupError:
        pass


class Trial:
    """A venue of accounts 1 to `desks` on so many nodes, by this program, or the one that is built from the sources."""

    def __init__(self, desks, nodes, built=None):
        self.program, self.services, self.running = os.path.abspath(built) if built else program(), [], []
        if not os.path.isfile(self.program) or not os.access(self.program, os.X_OK):
            sys.exit(f"{os.path.basename(sys.argv[0])}: {self.program} is no program")
        self.is_over, self.turn = False, threading.Lock()
        self.room = tempfile.mkdtemp(prefix="venue-")
        try:
            broker.write(f"{self.room}/broker", desks, [str(nodes)])
            self.settings, self.broker = f"{self.room}/broker/settings.json", broker.Broker(f"{self.room}/broker")
            with open(f"{self.room}/beginning", "wb") as file:
                file.write(BEGINNING)
            self.broker.start()
            self.broker.load()
        except BaseException:
            self.__exit__()
            raise

    def __enter__(self):
        return self

    def __exit__(self, *_):
        with self.turn:
            self.is_over = True
        for service in self.services:
            service.is_over = True
        for service in self.services:
            service.end()
        for ran in self.running:
            kill_group(ran)
            ran.wait()
        if hasattr(self, "broker"):
            self.broker.stop()
        shutil.rmtree(self.room, ignore_errors=True)

    def service(self, name, *words):
        self.services.append(Service([*words], self.room, name))
        return self.services[-1]

    def adapter(self, name):
        """A market on a file of its own, with its adapter."""
        return self.service(name, f"{HERE}/adapter", self.settings, f"{self.room}/beginning", f"{self.room}/{name}.flow", self.program)

    def clock(self, seconds, budget=1_000):
        return self.service("clock", f"{HERE}/clock", self.settings, str(seconds), str(budget))

    def desk(self, number):
        """A desk whose lines are written to it, and whose messages are in its own file and in one that ends with .out."""
        own = f"{self.room}/desk{number}"
        with self.turn:
            if self.is_over:
                sys.exit()
            with open(f"{own}.out", "ab") as out, open(f"{own}.err", "ab") as said:
                ran = subprocess.Popen([f"{HERE}/desk.py", self.settings, str(number), own], stdin=subprocess.PIPE, stdout=out, stderr=said, start_new_session=True)
            self.running.append(ran)
        return ran

    def lines(self, number, lines, seconds=120):
        """Sends lines as a desk, and waits until all are answered."""
        ran = self.desk(number)
        ran.communicate("".join(line + "\n" for line in lines).encode(), seconds)
        if ran.returncode:
            sys.exit(f"desk {number} ended with {ran.returncode}: {self.read(f'desk{number}.err').decode()}")

    def read(self, name):
        place = f"{self.room}/{name}"
        if not os.path.exists(place):
            return b""
        with open(place, "rb") as file:
            return file.read()

    def noted(self, number):
        """What a desk has noted in its own file: the texts that it has sent, and the lines of the messages that it has got."""
        lines = self.read(f"desk{number}").split(b"\n")[:-1]
        return [json.loads(line)["line"] for line in lines if line.startswith(b'{"id"')], [line for line in lines if not line.startswith(b'{"id"')]

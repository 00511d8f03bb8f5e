"""A card on a serial device: the program `line` at one end of a pair of ptys that socat joins, a master at the other."""
import os
import select
import shutil
import subprocess
import tempfile
import time

PATIENCE = 30  # seconds until something that must happen is taken for lost


def until(what, test):
    """Waits until the test holds."""
    end = time.monotonic() + PATIENCE
    while not test():
        assert time.monotonic() < end, "%s: not within %d s" % (what, PATIENCE)
        time.sleep(0.02)


class Port:
    """`line PROTOCOL` on the card's end, set up by `stty SETTINGS`, in the environment given; `device` is the master's end."""

    def __init__(self, program, protocol, settings, env=None):
        self.folder = tempfile.mkdtemp()
        self.device = os.path.join(self.folder, "master")
        self.card = os.path.join(self.folder, "card")
        self.printed = os.path.join(self.folder, "lines")
        self.started = []
        self.end = None
        try:
            ends = ["pty,raw,echo=0,link=" + self.device, "pty,raw,echo=0,link=" + self.card]
            self.socat = self.start(["socat", *ends], stdout=subprocess.DEVNULL)
            until("socat", lambda: os.path.exists(self.device) and os.path.exists(self.card))
            subprocess.run(["stty", "-F", self.card, *settings], check=True)
            with open(self.printed, "wb") as lines:
                self.line = self.start([program, "line", protocol, self.card], stdout=lines, env=env)
            until("line", self.is_open)
            self.end = os.open(self.device, os.O_RDWR | os.O_NOCTTY)
        except BaseException:
            self.clean()
            raise

    def start(self, words, stdout, env=None):
        process = subprocess.Popen(words, stdin=subprocess.DEVNULL, stdout=stdout, env=env)
        self.started.append(process)
        return process

    def is_open(self):
        """Whether the program has the card's end open."""
        assert self.line.poll() is None, "line ended at once"
        card = os.path.realpath(self.card)
        folder = "/proc/%d/fd" % self.line.pid
        try:
            return any(os.path.realpath(os.path.join(folder, fd)) == card for fd in os.listdir(folder))
        except FileNotFoundError:
            return False  # one was closed between the list and the look at it, as this process's own are where the program begins

    def put(self, data):
        """Puts bytes on the line from the master's end."""
        os.write(self.end, data)

    def reply(self, length):
        """The next bytes from the card."""
        got = b""
        while len(got) < length:
            assert select.select([self.end], [], [], PATIENCE)[0], "no reply, or only %s" % got.hex()
            got += os.read(self.end, length - len(got))
        return got

    def silent(self, seconds):
        """Nothing comes from the card, for as long as that."""
        if select.select([self.end], [], [], seconds)[0]:
            raise AssertionError("a reply that is none: %s" % os.read(self.end, 600).hex())

    def lines(self):
        """Ends the line: the program ends with it, and the lines that it has printed are handed back."""
        os.close(self.end)
        self.end = None
        self.socat.terminate()
        assert self.line.wait(PATIENCE) == 0, "line ended by itself in a wrong way"
        with open(self.printed) as lines:
            return lines.read().splitlines()

    def clean(self):
        if self.end is not None:
            os.close(self.end)
        for process in reversed(self.started):
            if process.poll() is None:
                process.kill()
            process.wait()
        shutil.rmtree(self.folder, ignore_errors=True)  # socat may be taking its links away

    def __enter__(self):
        return self

    def __exit__(self, *what):
        self.clean()

"""What the benchmarks share: the program as it is built, and programs timed in folders of their own."""
import os
import shutil
import subprocess
import sys
import tempfile
import time

TOP = os.path.dirname(os.path.dirname(os.path.abspath(__file__)))


def program():
    """The exchange, which is proved and built first where it has to be. Without its words it touches no journal."""
    subprocess.run([os.path.join(TOP, "exchange")], stdin=subprocess.DEVNULL, check=False)
    return os.path.join(TOP, "crates", "exchange_cli", "out", "exchange_cli")


def need(*names):
    """Ends with a message where a program isn't there."""
    missing = [name for name in names if shutil.which(name) is None]
    if missing or not os.path.exists("/usr/bin/time"):
        sys.exit(f"{os.path.basename(sys.argv[0])}: it needs Debian's packages {' '.join([*missing, 'time'])}")


def best(words, lines, replies, rounds=3, journal=None):
    """Seconds and peak memory in KiB of the best of some rounds. Each runs in a new folder beside the lines, with a
    copy of this journal; the folder of the last round is left."""
    least = None
    memory = replies + ".memory"
    for _ in range(rounds):
        folder = tempfile.mkdtemp(dir=os.path.dirname(replies))
        if journal is not None:
            shutil.copy(journal, os.path.join(folder, "exchange.journal"))
        # A child of this script would start with the script's own peak; `time` forks it from a small process.
        with open(lines, "rb") as given, open(replies, "wb") as taken:
            start = time.monotonic()
            subprocess.run(["/usr/bin/time", "-f", "%M", "-o", memory, *words], cwd=folder, stdin=given, stdout=taken, check=True)
            seconds = time.monotonic() - start
        with open(memory) as told:
            peak = int(told.read())
        if least is None or seconds < least[0]:
            least = (seconds, peak)
    return least[0], least[1], folder


def lines_in(path):
    with open(path, "rb") as written:
        return sum(1 for _ in written)

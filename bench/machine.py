"""What the measuring scripts share: processor times and memory of commands, C compilers whose flags are read back, and the machine."""
import collections
import datetime
import os
import re
import shutil
import statistics
import subprocess
import sys

COMPILERS = {"gcc": ("gcc", "g++"), "clang": ("clang", "clang++")}
# The last of them makes a compiler write its command line into the object.
FLAGS = ["-O3", "-march=native", "-frecord-gcc-switches"]
TOOL = os.path.basename(sys.argv[0])
# a command's user and system time in s, and its greatest resident memory in bytes
Used = collections.namedtuple("Used", "user system memory")


def stop(why):
    sys.exit(f"{TOOL}: {why}")


def timed(*words, **how):
    """What a command used."""
    try:
        child = subprocess.Popen(words, **how)
    except OSError as fault:
        stop(f"{words[0]}: {fault.strerror}")
    _, status, used = os.wait4(child.pid, 0)
    child.returncode = os.waitstatus_to_exitcode(status)
    if child.returncode:
        stop(f"{' '.join(words)} ended with {child.returncode}")
    return Used(used.ru_utime, used.ru_stime, 1024 * used.ru_maxrss)


def in_turn(commands, runs):
    """The times of some runs of each command, all in turn."""
    rounds = [[sum(timed(*words)[:2]) for words in commands] for _ in range(runs)]
    return list(zip(*rounds))


def ratio(own, other):
    """How long one command takes beside another: the median of the ratios in turn, which a slow moment of the machine does not shift."""
    return statistics.median(a / b for a, b in zip(own, other))


def quiet(*words, **how):
    """Runs a command that must succeed; its messages are shown only where it does not."""
    try:
        done = subprocess.run(words, capture_output=True, text=True, errors="replace", **how)
    except OSError as fault:
        stop(f"{words[0]}: {fault.strerror}")
    if done.returncode:
        stop(f"{' '.join(words)} ended with {done.returncode}: {(done.stderr or done.stdout).strip()[-400:]}")
    return done.stdout


def compilers():
    """The C compilers that are installed."""
    found = [name for name, programs in COMPILERS.items() if all(map(shutil.which, programs))]
    return found or stop("neither gcc nor clang is installed")


def recorded(path):
    """The command lines of the compiler that an object or a program was built by."""
    return re.findall(r"^ *\[ *[0-9a-f]+\]  (.*)$", quiet("readelf", "-p", ".GCC.command.line", path), re.M)


def optimization(line):
    """The optimization flag that counts, which is the last one, or none."""
    return ([""] + re.findall(r"(?:^|\s)(-O\S*)", line))[-1]


def check_flags(path):
    """Stops unless each part of a program was compiled by -O3. Returns the flags that count."""
    lines = recorded(path)
    if not lines:
        stop(f"{path}: the compiler recorded no flags")
    for line in lines:
        if optimization(line) != "-O3":
            stop(f"{path}: compiled by {optimization(line) or 'no -O'} and not by -O3: {line}")
    targets = {word for line in lines for word in re.findall(r"(?:^|\s)(-march=\S+)", line)}
    return " ".join(["-O3", *sorted(targets)])


def version(*words):
    return quiet(*words).splitlines()[0]


def processor():
    with open("/proc/cpuinfo", encoding="ascii") as file:
        return re.search(r"model name\s*: (.*)", file.read())[1]


def described(*tools):
    """The day, the machine, the versions of the tools, and what runs beside this: the load, and the tasks that run now but for this one."""
    with open("/proc/loadavg", encoding="ascii") as file:
        load, _, _, tasks, _ = file.read().split()
    names = [version(name, "--version") for name in [*compilers(), *filter(shutil.which, tools)]]
    beside = f"load {load}, {int(tasks.split('/')[0]) - 1} other tasks running"
    return f"{datetime.date.today():%d %B %Y}; {processor()}, {os.cpu_count()} processors; {'; '.join(names)}; {beside}".lstrip("0")

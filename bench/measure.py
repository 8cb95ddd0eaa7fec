"""Runs commands and measures them; the scripts beside this one share it."""
import os
import pathlib
import re
import subprocess
from typing import NamedTuple

ROOT = pathlib.Path(__file__).resolve().parent.parent

# Runs a command and prints its wall and user time in nanoseconds, its peak memory in KiB and its status, or that of the signal that ended
# it less than 0. Before the command stand the seconds of processor time that it may take, 0 for any, and the file for its standard output. It
# has the native stack that the script `p10` gives. It is a program of its own, since a child of a script would begin with the script's own peak.
PROBE = r"""
#include <stdio.h>
#include <stdlib.h>
#include <sys/resource.h>
#include <sys/wait.h>
#include <time.h>
#include <unistd.h>
static void limit(int what, rlim_t amount) {
    struct rlimit limits;
    getrlimit(what, &limits);
    limits.rlim_cur = amount < limits.rlim_max ? amount : limits.rlim_max;
    setrlimit(what, &limits);
}
int main(int count, char **words) {
    struct timespec begin, end;
    struct rusage usage;
    int status;
    clock_gettime(CLOCK_MONOTONIC, &begin);
    pid_t child = fork();
    if (child == 0) {
        if (!freopen(words[2], "w", stdout) || !freopen("/dev/null", "w", stderr)) _exit(126);
        limit(RLIMIT_STACK, 80 << 20);
        limit(RLIMIT_CORE, 0);
        if (atoi(words[1]) > 0) limit(RLIMIT_CPU, atoi(words[1]));
        execvp(words[3], words + 3);
        _exit(127);
    }
    wait4(child, &status, 0, &usage);
    clock_gettime(CLOCK_MONOTONIC, &end);
    printf("%lld %lld %ld %d\n", (end.tv_sec - begin.tv_sec) * 1000000000LL + end.tv_nsec - begin.tv_nsec,
           usage.ru_utime.tv_sec * 1000000000LL + usage.ru_utime.tv_usec * 1000LL, usage.ru_maxrss, WIFEXITED(status) ? WEXITSTATUS(status) : -WTERMSIG(status));
    return 0;
}
"""


class Ran(NamedTuple):
    """What a run took: seconds of wall and of user time, and its peak memory in KiB; and its status, or a signal's number less than 0."""
    wall: float
    user: float
    peak: int
    status: int


def built_p10():
    """The path of the proved program, which is built where it isn't yet."""
    first = ROOT / "examples" / "first"
    command = [ROOT / "p10", "verify", "--cert", first / "a.p10", first / "a.c"]
    if subprocess.run(command, stdout=subprocess.DEVNULL).returncode != 0:
        raise SystemExit("p10 isn't built")
    return str(ROOT / "build" / "p10")


def environment_of(words, p10=str(ROOT / "build" / "p10")):
    """The environment of a command: that in which the script `p10` runs the program, where it's that one, and else this one's."""
    given = re.search(r"^export (\w+)=\$\{\1:-(.*)\}$", (ROOT / "p10").read_text(), re.MULTILINE)
    return {given[1]: given[2], **os.environ} if words[0] == p10 else dict(os.environ)


def built_probe(folder):
    probe = os.path.join(folder, "probe")
    subprocess.run(["cc", "-O1", "-x", "c", "-", "-o", probe], input=PROBE, text=True, check=True)
    return probe


def run(probe, words, environment, folder=None, seconds=0, output=os.devnull):
    """A run of a command in a folder, which ends after so many seconds of processor time."""
    ran = subprocess.run([probe, str(seconds), output, *words], check=True, capture_output=True, text=True, cwd=folder, env=environment)
    wall, user, peak, status = map(int, ran.stdout.split())
    return Ran(wall / 1e9, user / 1e9, peak, status)


def measure(probe, commands, repeats):
    """For each command, a list of words with its wanted status: the least wall time in seconds and the
    greatest peak memory in KiB. The commands take turns, so that none has the quieter machine."""
    runs = [[] for _ in commands]
    for _ in range(repeats):
        for number, (words, wanted) in enumerate(commands):
            ran = run(probe, words, environment_of(words))
            if ran.status != wanted:
                raise SystemExit(f"{words} ended with {ran.status}, not {wanted}")
            runs[number].append(ran)
    return [(min(ran.wall for ran in each), max(ran.peak for ran in each)) for each in runs]

"""What the benchmarks of plays share: how long an action takes at best, and a play of a script."""

import subprocess
import time


def best(action, runs):
    """The least time of so many runs of an action, in seconds."""
    times = []
    for _ in range(runs):
        begin = time.perf_counter()
        action()
        times.append(time.perf_counter() - begin)
    return min(times)


def play(program, path):
    """Plays the script in a file."""
    with open(path) as script:
        subprocess.run([program, "play"], stdin=script, stdout=subprocess.DEVNULL, check=True)

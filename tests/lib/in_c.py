"""What is written in C in this folder: long traces and logs, a simulation of traces, and a client that keeps the clock."""

import functools
import os
import shutil
import subprocess
import sys

HERE = os.path.dirname(os.path.abspath(__file__))


@functools.lru_cache(maxsize=None)
def compiled(files, name):
    """The path of the program, compiled once. Where there is no compiler the test ends."""
    if not shutil.which("cc"):
        print("not tried: all of it, as cc is missing")
        print("0 passed, 0 failed, 1 skipped")
        sys.exit(0)
    path = files(name, b"")
    subprocess.run(["cc", "-O2", "-o", path, os.path.join(HERE, f"{name}.c")], check=True)
    return path


def level_of(limit, queues, hand=1, length=50):
    """A config. One of no queues rejects."""
    return {"limit": limit, "queues": queues or 64, "handSize": hand, "queueLengthLimit": length, "limitResponse": "Queue" if queues else "Reject"}


def run_of(config, patience, charge, trace):
    """The line of a run for the simulation in C."""
    queues = config["queues"] if config["limitResponse"] == "Queue" else 0
    return f"{config['limit']} {queues} {config['handSize']} {config['queueLengthLimit']} {patience} {charge or 'usual'} {trace}\n"


def through(commands, **how):
    """The processes of these commands, each of which reads what the one before it prints."""
    processes = []
    for words in commands:
        before = processes[-1].stdout if processes else subprocess.DEVNULL
        processes.append(subprocess.Popen(words, stdin=before, stdout=subprocess.PIPE, **how))
        if processes[:-1]:
            before.close()
    return processes

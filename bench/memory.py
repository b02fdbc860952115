"""How much memory a program holds at most while it runs."""

import subprocess
import time
from pathlib import Path


def peak_of(words, folder=None, patience=600):
    """The greatest resident KiB of a program, looked up again and again while it runs; it is given up after so many seconds.

    The system's own count would not do: it has what this process held as it started the program."""
    child = subprocess.Popen(words, cwd=folder, stdin=subprocess.DEVNULL, stdout=subprocess.DEVNULL)
    peak = 0
    end = time.monotonic() + patience
    try:
        while child.poll() is None and time.monotonic() < end:
            try:
                status = Path(f"/proc/{child.pid}/status").read_text()
            except OSError:
                break
            if Path(words[0]).name[:15] in status.split("\n", 1)[0]:
                peak = max([peak] + [int(line.split()[1]) for line in status.splitlines() if line.startswith("VmHWM:")])
            time.sleep(0.001)
    finally:
        if time.monotonic() >= end:
            child.kill()
        child.wait()
    return peak


def held_by(words, patience=600):
    """What a program holds once it said a line, and the most that it held until then, in resident KiB. It ends when its input does."""
    child = subprocess.Popen(words, stdin=subprocess.PIPE, stdout=subprocess.PIPE, text=True)
    try:
        said = child.stdout.readline()
        lines = Path(f"/proc/{child.pid}/status").read_text().splitlines()
        child.communicate(timeout=patience)
    finally:
        child.kill()
        child.wait()
    sizes = {line.split(":")[0]: int(line.split()[1]) for line in lines if line.startswith(("VmRSS:", "VmHWM:"))}
    return (sizes["VmRSS"], sizes["VmHWM"]) if said and child.returncode == 0 else (0, 0)

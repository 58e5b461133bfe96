"""What bench/text_times and bench/whole_times share: drawn numbers, and runs of programs on each processor in turn."""
import os
import sys
import time

MASK = (1 << 64) - 1
PROCESSORS = sorted(os.sched_getaffinity(0))


def mix(number):
    """Returns a number of 64 bits that looks drawn."""
    number = number * 0x9E3779B97F4A7C15 & MASK
    number = (number ^ number >> 30) * 0xBF58476D1CE4E5B9 & MASK
    return number ^ number >> 27


def take_processor(run):
    """Moves to the next processor: where one shares its core with other work, all programs take longer."""
    os.sched_setaffinity(0, {PROCESSORS[run % len(PROCESSORS)]})


def used(words, source, result):
    """Runs a program with its input and its output in files, and returns what it used, as `getrusage` says it, and the seconds that passed."""
    began = time.monotonic()
    with open(source, "rb") as text, open(result, "wb") as answers:
        pid = os.posix_spawn(words[0], words, os.environ, file_actions=[
            (os.POSIX_SPAWN_DUP2, text.fileno(), 0), (os.POSIX_SPAWN_DUP2, answers.fileno(), 1)])
        _, status, used = os.wait4(pid, 0)
    if status:
        sys.exit(f"{' '.join(words)} ended with status {os.waitstatus_to_exitcode(status)}")
    return used, time.monotonic() - began


def machine():
    """Returns when and on what machine the runs were made."""
    now = time.localtime()
    with open("/proc/cpuinfo", encoding="ascii", errors="replace") as file:
        names = [line.split(":", 1)[1].strip() for line in file if line.startswith("model name")]
    processor, load = names[0] if names else "an unknown processor", os.getloadavg()[0]
    return f"On {now.tm_mday} {time.strftime('%B %Y', now)}, {processor}, load {load:.2f} when it began"


def print_head(began, how):
    """Prints when and on what machine runs were made, after what `machine` returned before them, and how."""
    print(f"{began}, {os.getloadavg()[0]:.2f} when it ended: {how}.\n")

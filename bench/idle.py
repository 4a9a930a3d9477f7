"""What else the machine does while something is measured."""

import os
import pathlib
import resource
import time

from shared import fail, say

MOST = 0.05  # of the time of all processors, so much may others use on an idle machine
SECONDS = 2  # of a look
MOST_LOOKS = 150


def used_in_all():
    """The seconds that all processors have not been idle, by the kernel's count."""
    _, user, nice, system, _, _, interrupts, soft_interrupts, stolen, *_ = pathlib.Path("/proc/stat").read_text().split()[:11]
    ticks = sum(map(int, (user, nice, system, interrupts, soft_interrupts, stolen)))
    return ticks / os.sysconf("SC_CLK_TCK")


def used_here():
    """The seconds of processors that this process and those that it has waited for have used."""
    usages = map(resource.getrusage, (resource.RUSAGE_SELF, resource.RUSAGE_CHILDREN))
    return sum(usage.ru_utime + usage.ru_stime for usage in usages)


class Others:
    """What other processes use, from the time when this is made."""

    def __init__(self):
        self.begun = self.now()

    def now(self):
        return time.monotonic(), used_in_all(), used_here()

    def share(self):
        """The share of the time of all processors that others have used."""
        seconds, in_all, here = (now - begun for now, begun in zip(self.now(), self.begun))
        return min(max(in_all - here, 0) / (seconds * os.cpu_count()), 1)


def others_now():
    """What others use in a short time."""
    others = Others()
    time.sleep(SECONDS)
    return others.share()


def wait_until_idle(is_busy_allowed):
    """Waits until others use little, and fails where they go on for minutes. It does not wait where that is allowed."""
    for look in range(MOST_LOOKS):
        share = others_now()
        if share <= MOST:
            return
        if look == 0:
            say(f"the machine is not idle: others use {share:.0%} of it")
        if is_busy_allowed:
            return
    fail(f"the machine did not become idle in {MOST_LOOKS * SECONDS} seconds: --busy measures beside other processes")


def in_words(share):
    """How idle the machine was, for the line above a table."""
    return "otherwise idle" if share <= MOST else f"beside other processes, which used {share:.0%} of them"

"""The signals that end a tool which has something to end or remove then."""

import atexit
import contextlib
import math
import signal
import time

from lib import STOPS

# when an alarm comes that was set before the tool began, and whether it ends the tool; once known
alarm_comes, heeds_alarm = None, None
overdue = 0  # ticks of an earlier timer that have yet to come


# at its end Python takes back what it calls at signals
atexit.register(signal.setitimer, signal.ITIMER_REAL, 0)


class Stopped(SystemExit):
    """The end of a tool by a signal, `code` - 128."""


def put_off_stops():
    """Signals that end the tool wait until heed_stops."""
    signal.pthread_sigmask(signal.SIG_BLOCK, STOPS)


def heed_stops():
    signal.pthread_sigmask(signal.SIG_UNBLOCK, STOPS)


@contextlib.contextmanager
def uninterrupted():
    """Holds back what would interrupt the tool, so that it knows each process that it starts."""
    put_off_stops()
    try:
        yield
    finally:
        heed_stops()


def stop(number, _):
    """Ends the tool at a signal, once, so that what it has begun is ended and removed."""
    for other in STOPS:  # not by SIG_IGN: of one that has just come Python would tell then
        signal.signal(other, lambda *_: None)
    raise Stopped(128 + number)


def look_each_second(look=lambda *_: None, first=1):
    """Calls `look` each second, instead of what was called before. Python only takes note of a
    signal that comes just before a wait, and heeds it when the wait is interrupted: by this. The
    timer may have been set before: that alarm still ends the tool, and so does one that is sent."""
    global alarm_comes, heeds_alarm, overdue
    left, _ = signal.setitimer(signal.ITIMER_REAL, 0)
    if alarm_comes is not None:
        overdue = int(not left)
    else:
        heeds_alarm = signal.getsignal(signal.SIGALRM) != signal.SIG_IGN
        alarm_comes = time.monotonic() + left if left and heeds_alarm else math.inf

    def tick(number, frame):
        global overdue
        is_sent, overdue = signal.getitimer(signal.ITIMER_REAL)[0] > 0 and not overdue, 0
        if heeds_alarm and (is_sent or alarm_comes <= time.monotonic()):
            stop(number, frame)
        set_timer(1)
        look()

    signal.signal(signal.SIGALRM, tick)
    set_timer(first)


def set_timer(seconds):
    left = max(alarm_comes - time.monotonic(), 1e-6)  # 0 would be no alarm
    signal.setitimer(signal.ITIMER_REAL, min(seconds, left))


def give_back_alarm():
    """Has the timer be as it was before the tool began, for the program that it becomes."""
    if alarm_comes is not None:
        set_timer(0 if alarm_comes == math.inf else alarm_comes)


def stop_at_signals():
    """Has them end the tool so, except those that it was started to ignore."""
    for number in STOPS - {signal.SIGALRM}:
        if signal.getsignal(number) != signal.SIG_IGN:
            signal.signal(number, stop)
    if alarm_comes is None and signal.getsignal(signal.SIGALRM) != signal.SIG_IGN:
        look_each_second()

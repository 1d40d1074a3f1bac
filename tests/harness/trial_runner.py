"""Runs some trials at a time, each in its own process and within its time. tools/try-cards and tools/try-phone share this."""

import contextlib
import multiprocessing
import os
import signal
import subprocess
import sys
import time
import traceback
from multiprocessing import connection

# how long trials have to end what they began, once they are told to end, in seconds
MOST_TO_END = 10
# how many run at a time, if nothing else is stated
AT_ONCE = 4
# for how long a server and its clients wait for a processor in a trial that is tried again after a fault, in seconds
STARVED = 0.5


class Late(Exception):
    """All the time has gone by."""


class Told(Late):
    """It was told to end."""


def late(*_):
    raise Late


def told(*_):
    raise Told


def is_never(_):
    return False


class Runner:
    """Runs the trials of a tool. Each is handed what `makes` makes of its name and the programs. All of them may take so many
    seconds, and each so many. One that `is_repeated` is tried again after every fault. One whose server and clients waited for a
    processor for the seconds of `excused` shows nothing."""

    def __init__(self, tool, makes, most_time, most_of_one, is_repeated=is_never, excused=STARVED, at_once=AT_ONCE):
        self.tool, self.makes, self.most_time, self.most_of_one = tool, makes, most_time, most_of_one
        self.is_repeated, self.excused, self.at_once = is_repeated, excused, at_once

    def tried(self, afd, af, seconds, trial):
        """Runs a trial: how many things were tried, and how many were not so. Where the machine let them wait, it is tried again:
        one try of three without a fault shows the server."""
        begun = time.monotonic()
        for attempt in range(3):
            run = self.tried_once(afd, af, seconds, trial)
            is_late = time.monotonic() - begun > self.most_time / 3
            if attempt == 2 or is_late or not run.faults or (not self.is_repeated(trial) and run.starved() < STARVED):
                break
            run.told = [
                "the machine let the server and its clients wait for %.1f s, and %s is tried again" % (run.starved(), trial.__name__)]
            self.tell(run)
        is_judged = not run.faults or run.starved() < self.excused
        if not is_judged:
            run.told.append(
                "%s says nothing: the machine let the server and its clients wait for %.1f s" % (trial.__name__, run.starved()))
        self.tell(run)
        return run.trials, run.faults if is_judged else 0

    def tell(self, run):
        for line in run.told:
            print("%s: %s" % (self.tool, line))
        sys.stdout.flush()

    def tried_once(self, afd, af, seconds, trial):
        run = self.makes(trial.__name__, afd, af)
        # where it is told to end, it first ends what it began
        before = [signal.signal(it, handler) for it, handler in ((signal.SIGALRM, late), (signal.SIGTERM, told))]
        signal.alarm(seconds)
        try:
            with run.room:
                trial(run)
        except Told:
            os._exit(1)
        except (Late, subprocess.TimeoutExpired):
            run.holds("it ends within %d seconds" % seconds, False)
        except (Exception, SystemExit) as fault:
            run.holds("it goes to its end: %r at %s" % (fault, traceback.extract_tb(fault.__traceback__)[-1]), False)
        finally:
            signal.alarm(0)
            for it, handler in zip((signal.SIGALRM, signal.SIGTERM), before):
                signal.signal(it, handler)
        return run

    def all_tried(self, afd, af, trials):
        """Runs these trials, some at a time, each in a process of its own. How each ended."""
        signal.signal(signal.SIGTERM, lambda *_: sys.exit(1))
        until = time.monotonic() + self.most_time
        waiting, running, ends = list(trials), {}, []
        try:
            while waiting or running:
                while waiting and len(running) < self.at_once:
                    self.begin(running, afd, af, waiting.pop(0))
                ready = connection.wait(running, max(0, until - time.monotonic()))
                if not ready:
                    return [*ends, self.late()]
                for end in ready:
                    ends.append(given(end))
                    running.pop(end).join()
            return ends
        finally:
            end_all(running.values())

    def begin(self, running, afd, af, trial):
        """Begins a trial, whose end is told over a pipe."""
        near, far = multiprocessing.Pipe(duplex=False)
        process = multiprocessing.Process(target=self.tell_end, args=(far, afd, af, trial))
        process.start()
        far.close()
        running[near] = process

    def tell_end(self, pipe, afd, af, trial):
        signal.signal(signal.SIGTERM, signal.SIG_DFL)
        pipe.send(self.tried(afd, af, self.most_of_one, trial))

    def late(self):
        """What it comes to if not all trials end in time. A machine that has too much to do shows nothing."""
        print("%s: not so: all trials end within %d seconds" % (self.tool, self.most_time))
        return 1, int(os.getloadavg()[0] < os.cpu_count())

    def ended(self, ends):
        """Says how trials ended, and ends so."""
        trials, faults = (sum(each) for each in zip(*ends))
        print("%s: %d trials, %d faults" % (self.tool, trials, faults))
        sys.exit(faults != 0)


def given(pipe):
    """How a trial ended. One whose process was killed has a fault."""
    try:
        return pipe.recv()
    except EOFError:
        return 1, 1


def end_all(processes):
    """Ends trials that run. Each has some seconds to end what it began; then all of that is killed."""
    for process in processes:
        process.terminate()
    until = time.monotonic() + MOST_TO_END
    for process in processes:
        process.join(max(0, until - time.monotonic()))
        if process.is_alive():
            for each in [process.pid, *below(process.pid)]:
                with contextlib.suppress(ProcessLookupError):
                    os.kill(each, signal.SIGKILL)
        process.join()


def below(process):
    """The processes that a process has begun, and those that these have."""
    found = []
    with contextlib.suppress(OSError):
        for thread in os.listdir("/proc/%d/task" % process):
            with open("/proc/%d/task/%s/children" % (process, thread)) as file:
                found += map(int, file.read().split())
    return found + [each for it in found for each in below(it)]


def chosen(tool, trials, names):
    """The trials of these names, or all where none is stated."""
    known = {it.__name__: it for it in trials}
    unknown = [name for name in names if name not in known]
    if unknown:
        sys.exit("%s: there is no trial %s" % (tool, unknown[0]))
    return [known[name] for name in names] or trials

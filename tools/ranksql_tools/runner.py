"""Runs scripts, several at once, each of them once, and no plan twice."""

import os
import subprocess
import tempfile
import threading
from concurrent.futures import ThreadPoolExecutor

from .plans import shape_of, with_estimates
from .trials import Trial

# As each run holds the tables and what its plan holds, no more run at once, however many processors there are.
MOST_AT_ONCE = 4


class Failed(Exception):
    """A run that ended with a fault: its status, and its line."""

    def __init__(self, status, line):
        super().__init__(line)
        self.status, self.line = status, line


class TooLong(Exception):
    """A run that took longer than it may."""


class Dropped(Exception):
    """A run that nobody wants any more."""


class Runner:
    """Runs the program on copies of a script. It remembers how a run ended, since several questions ask for the same."""

    def __init__(self, program, seconds):
        self.program, self.seconds = program, seconds
        self._pool = ThreadPoolExecutor(max(1, min(MOST_AT_ONCE, os.cpu_count() or 1)))
        # What was started and not dropped, by script and seed; the seed by which a plan of each shape is run, by script and shape.
        self._runs, self._seeds = {}, {}
        # The programs at work, and how often runs were dropped.
        self._lock, self._at_work, self._drops = threading.Lock(), set(), 0

    def __enter__(self):
        return self

    def __exit__(self, *_):
        self.drop()

    def start(self, script, seed):
        """Lets a script run while something else is done."""
        if (script, seed) not in self._runs:
            self._runs[script, seed] = self._pool.submit(self._run, script, seed, self._drops)
        return self._runs[script, seed]

    def printed(self, script, seed):
        """What a script prints under `run`."""
        return self.start(script, seed).result()

    def start_trials(self, copy, seeds):
        """Lets the plans of a copy's query run while something else is done. It waits until the plans are known, and gives whether
        there is one by each seed."""
        found = [(seed, self.start(copy.plan_script(), seed)) for seed in seeds]
        plans = [(seed, run.result()) for seed, run in found if run.exception() is None]
        for seed, plan in plans:
            self._start_analysis(copy, plan, seed)
        return len(plans) == len(seeds)

    def trial(self, copy, seed):
        """What the plan of a copy's query does by a seed. Plans of one shape do the same by each seed, and are run once."""
        plan = self.printed(copy.plan_script(), seed)
        return Trial(with_estimates(self._start_analysis(copy, plan, seed).result(), plan))

    def _start_analysis(self, copy, plan, seed):
        script = copy.script()
        return self.start(script, self._seeds.setdefault((script, shape_of(plan)), seed))

    def drop(self):
        """Ends all runs that aren't done."""
        with self._lock:
            self._drops += 1
            for program in self._at_work:
                program.kill()
        self._runs = {key: run for key, run in self._runs.items() if run.done() and run.exception() is None}

    def _run(self, script, seed, drops):
        with tempfile.TemporaryDirectory(prefix="advise") as folder:
            path = os.path.join(folder, "copy.sql")
            with open(path, "wb") as file:
                file.write(script)
            with self._lock:
                if drops != self._drops:
                    raise Dropped
                program = subprocess.Popen([self.program, "run", path, str(seed)], stdin=subprocess.DEVNULL,
                                           stdout=subprocess.PIPE, stderr=subprocess.PIPE)
                self._at_work.add(program)
            try:
                out, told = program.communicate(timeout=self.seconds)
            except subprocess.TimeoutExpired:
                program.kill()
                program.communicate()
                raise TooLong from None
            finally:
                with self._lock:
                    self._at_work.discard(program)
        if program.returncode != 0:
            raise Failed(program.returncode, told.decode("utf-8", "replace").strip())
        return out.decode("utf-8", "replace")

#!/usr/bin/env bash
# Measures the gate: runs `rt ci` from nothing on a clean clone of what is committed (by `--anew` under a kit that keeps
# what passed), and prints the minutes of processor time by crate and kind: the proof of the crate, that of its tests, the
# checks that its must-fail edits begin and end with (`base`), and the edits. Some kits try the edits of a crate one over
# another's work; there the first of them has no base of its own, and is counted as the base. Then it names the slowest
# edits. The time of a process is what the system says of it when it was last seen, four times a second, so that a little
# is lost of each. It also says how long the run took, what the whole of it cost as the shell tells it, and the last line
# of `rt ci`, whose status it ends with. The whole output of `rt ci` is kept in the file that is named first on the command
# line, if one is.
# shellcheck source=bench/functions.sh
. "$(dirname "$0")/functions.sh"

needs rt 'it is the gate'
needs python3 'it takes the times'
log=${1:-$work/log}

git clone --quiet "$root" "$work/clone" || exit
cd "$work/clone" || exit
python3 - "$log" <<'PYTHON'
import collections
import os
import re
import resource
import subprocess
import sys
import time

KINDS = ["proof", "tests", "base", "edits"]
SLOWEST = 20
TICKS = os.sysconf("SC_CLK_TCK")


def read(path):
    with open(path, "rb") as file:
        return file.read()


# The crate and the kind of a process of the prover, and of an edit's the folder of work that it begins with and the one of
# its text; or None for any other process.
def told_of(pid):
    words = read("/proc/%s/cmdline" % pid).decode(errors="replace").split("\0")
    if os.path.basename(words[0]) != "rattle" or "--crate-name" not in words:
        return None
    crate = words[words.index("--crate-name") + 1]
    folder = os.readlink("/proc/%s/cwd" % pid)
    begun = words[words.index("--incremental") + 1] if "--incremental" in words else ""
    if "/rt-edit-" not in folder:
        return crate, "tests" if "--test" in words else "proof", None
    if begun.endswith("/seed"):
        return crate, "base", None
    return crate, "edits", (begun or folder, folder)


# The seconds that a process has used.
def seconds_of(pid):
    fields = read("/proc/%s/stat" % pid).rsplit(b")", 1)[1].split()
    return (int(fields[11]) + int(fields[12])) / TICKS, int(fields[19])


# Whether a process is the gate's or was started by one that is.
def is_ours(pid, gate):
    while pid > 1:
        if pid == gate:
            return True
        pid = int(read("/proc/%d/stat" % pid).rsplit(b")", 1)[1].split()[1])
    return False


# The kind and the name of each try that begins with the work in this folder, in turn. The folder that a kit makes for one
# edit ends with its place among the edits of its crate. Where all of them share one, the first of them makes its work, and
# behind the last comes the crate itself.
def named(crate, begun, tries):
    names = sorted(it for it in os.listdir("crates/%s/must-fail" % crate) if it.endswith(".edit"))
    place = os.path.basename(begun)
    if place.isdigit() or len(names) == 1:
        return [("edits", names[int(place) if place.isdigit() else 0])] * tries
    return [("base", "")] + [("edits", it) for it in names[1:]] + [("base", "")] * (tries - len(names))


spent, told, others = {}, {}, set()
# (some kits print this on standard error)
help_text = subprocess.run(["rt", "--help"], stdout=subprocess.PIPE, stderr=subprocess.STDOUT, text=True).stdout
keeps = "--anew" in help_text
start = time.time()
with open(sys.argv[1], "w") as log:
    words = ["rt", "ci"] + ["--anew"] * keeps
    gate = subprocess.Popen(words, stdout=log, stderr=subprocess.STDOUT, stdin=subprocess.DEVNULL)
    while gate.poll() is None:
        for pid in filter(str.isdigit, os.listdir("/proc")):
            try:
                seconds, begun = seconds_of(pid)
                key = pid, begun
                if key in others:
                    continue
                if key not in told:
                    # (a process that was just started may still have the words of the one that started it)
                    found = told_of(pid) if is_ours(int(pid), gate.pid) else None
                    if not found:
                        if seconds > 1:
                            others.add(key)
                        continue
                    told[key] = found
                spent[key] = seconds
            except (OSError, ValueError, IndexError):
                pass
        time.sleep(0.25)
wall = time.time() - start
usage = resource.getrusage(resource.RUSAGE_CHILDREN)
minutes, slow = collections.Counter(), collections.Counter()
tries, begun_with = collections.defaultdict(set), collections.defaultdict(collections.Counter)
for key, (crate, kind, tried) in told.items():
    if tried:
        begun_with[crate, tried[0]][tried[1]] += spent.get(key, 0)
    else:
        minutes[crate, kind] += spent.get(key, 0) / 60
for (crate, begun), seconds in begun_with.items():
    for took, (kind, edit) in zip(seconds.values(), named(crate, begun, len(seconds))):
        minutes[crate, kind] += took / 60
        if kind == "edits":
            tries[crate].add(edit)
            slow[crate, edit] += took

row = "%-14s" + "%8s" * 5 + "%8s %8s"
print(row % ("crate", *KINDS, "all", "edits", "seconds"))
sums = {crate: sum(minutes[crate, kind] for kind in KINDS) for crate, _ in minutes}
for crate in sorted(sums, key=lambda it: -sums[it]):
    number = len(tries[crate])
    mean = "%.0f" % (minutes[crate, "edits"] * 60 / number) if number else "-"
    print(row % (crate, *("%.1f" % minutes[crate, kind] for kind in KINDS), "%.1f" % sums[crate], number, mean))
whole = ["%.1f" % sum(minutes[crate, kind] for crate in sums) for kind in KINDS]
print(row % ("all", *whole, "%.1f" % sum(sums.values()), sum(map(len, tries.values())), ""))
print("minutes of processor time; `seconds` are those of an edit, at the mean")
print("the slowest edits, with their seconds:")
for (crate, edit), seconds in slow.most_common(SLOWEST):
    print("%6.0f %s/%s" % (seconds, crate, edit))
print("%.1f minutes on %d processors; the processes of the gate took %.1f minutes of processor time in all"
      % (wall / 60, len(os.sched_getaffinity(0)), (usage.ru_utime + usage.ru_stime) / 60))
with open(sys.argv[1], errors="replace") as log:
    lines = [it for it in log.read().splitlines() if re.match(r"\d+ passed, \d+ failed", it)]
print(lines[-1] if lines else "rt ci ended without its last line")
sys.exit(gate.returncode)
PYTHON

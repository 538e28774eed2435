#!/usr/bin/env python3
"""bench/gate_minutes.py: processor minutes of the gate by crate. Started beside a running `.ci/run` of this checkout, it looks at the gate's processes twice a second until
they end, and prints a row a crate: its proof, its tests' proofs, its must-fail edits. Processes that live shorter than half a second are missed, so the sum is a few
percent short of the process's own time. What an earlier run kept isn't done again and costs nothing: only a gate from nothing gives the whole."""
import glob, os, re, time

top = os.path.realpath(os.path.join(os.path.dirname(__file__), ".."))
tick = os.sysconf("SC_CLK_TCK")

OTHER = "other", "proof"

def read(path):
    try:
        with open(path, "rb") as f:
            return f.read()
    except OSError:
        return b""

def processes():
    """All processes: their parents, words and processor seconds."""
    found = {}
    for folder in glob.glob("/proc/[0-9]*"):
        stat = read(folder + "/stat")
        if not stat:
            continue
        fields = stat[stat.rindex(b")") + 2:].split()
        words = read(folder + "/cmdline").split(b"\0")
        found[int(folder[6:])] = (int(fields[1]), [w.decode(errors="replace") for w in words], (int(fields[11]) + int(fields[12])) / tick)
    return found

def gate(found):
    """The process of `rt ci` in this checkout."""
    for pid, (_, words, _) in found.items():
        if "ci" in words and any(w.endswith("rt") for w in words):
            try:
                if os.path.realpath("/proc/%d/cwd" % pid) == top:
                    return pid
            except OSError:
                pass
    return None

def under(found, pid, ancestor):
    while pid in found and pid != ancestor:
        pid = found[pid][0]
    return pid == ancestor

def place(found, pid):
    """The crate and the part of the gate that a process works for: those of itself or of the nearest process above it that names a crate."""
    while pid in found:
        words = found[pid][1]
        if "--crate-name" in words:
            crate = words[words.index("--crate-name") + 1]
            try:
                inside = os.path.realpath("/proc/%d/cwd" % pid).startswith(top + "/crates/")
            except OSError:
                inside = True
            return crate, "edits" if not inside else "tests" if "--test" in words else "proof"
        pid = found[pid][0]
    return OTHER

spent = {}
while True:
    found = processes()
    root = gate(found)
    if root is None:
        if spent:
            break
        time.sleep(0.5)
        continue
    for pid in found:
        if pid != root and under(found, pid, root):
            key = pid, read("/proc/%d/stat" % pid).rpartition(b")")[2].split()[19:20].__repr__()
            where = place(found, pid)
            if where == OTHER and key in spent:
                where = spent[key][0]  # a process that is about to end has no words left
            spent[key] = where, found[pid][2]
    time.sleep(0.5)

rows = {}
for (crate, part), seconds in spent.values():
    rows.setdefault(crate, {"proof": 0, "tests": 0, "edits": 0})[part] += seconds
print("| crate | proof | tests | edits | minutes |")
print("|---|---|---|---|---|")
total = {"proof": 0, "tests": 0, "edits": 0}
for crate in sorted(rows, key=lambda c: -sum(rows[c].values())):
    row = rows[crate]
    for part in row:
        total[part] += row[part]
    print("| `%s` | %.1f | %.1f | %.1f | %.1f |" % (crate, row["proof"] / 60, row["tests"] / 60, row["edits"] / 60, sum(row.values()) / 60))
print("| all | %.1f | %.1f | %.1f | %.1f |" % (total["proof"] / 60, total["tests"] / 60, total["edits"] / 60, sum(total.values()) / 60))

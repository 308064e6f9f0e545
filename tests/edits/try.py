#!/usr/bin/env python3
"""Tries small meaning-changing edits of src/ and specs/ and tells which of them no proof refuses.

Use: tests/edits/try.py [--count N] [--seed S] [--only CRATE] [--jobs J] > tests/edits/RESULT.txt
Each edit is made in a copy of the repository. Its crate is checked; if that is still proved, so are the crates that
lean on it, one by one, up to the first that refuses. An edit that does not get as far as the prover is left out and
another one taken.
"""

import argparse
import concurrent.futures
import os
import random
import re
import shutil
import subprocess
import sys
import tempfile
import threading

sys.path.insert(0, os.path.dirname(os.path.abspath(__file__)))
import edits

ROOT = os.path.dirname(os.path.dirname(os.path.dirname(os.path.abspath(__file__))))


def crates():
    """The crates in the order of crates.txt, each with those that it leans on."""
    found = {}
    for line in open(os.path.join(ROOT, "crates.txt")):
        if ":" in line and not line.startswith("#"):
            name, deps = line.split(":")
            found[name.split()[0]] = deps.split()
    return found


class Copy:
    """A copy of the repository with what is proved already."""

    def __init__(self):
        self.path = tempfile.mkdtemp(prefix="edits-")
        for part in ("crates", "crates.txt"):
            source = os.path.join(ROOT, part)
            (shutil.copytree if os.path.isdir(source) else shutil.copy)(source, os.path.join(self.path, part))

    def check(self, crate):
        """'proved', 'compile' where the edit is no program or no definition, or the first thing that is refused."""
        run = subprocess.run(["rt", "check", "--jobs", "1"], cwd=os.path.join(self.path, "crates", crate),
                             capture_output=True, text=True)
        log = run.stdout + run.stderr
        if run.returncode == 0:
            return "proved" if self.prints(crate) else "output"
        if "logic=not-proved" not in log or re.search(r"^(\./)?(src|specs)/\S+: error", log, re.M):
            return "compile"
        first = re.search(r"^\./(\S+?): error: `([^`]*)`", log, re.M)
        first = first or re.search(r"^(fn \S+): no proof: .*did not prove `([^`]*)`", log, re.M)
        return "%s %s" % (first.group(1), first.group(2)) if first else "a function"

    def prints(self, crate):
        """Whether a program still prints what is stored; a library prints nothing."""
        folder = os.path.join(self.path, "crates", crate)
        stored = os.path.join(folder, "stdout")
        if not os.path.isfile(os.path.join(folder, "src", "main.rt")):
            return True
        subprocess.run(["rt", "run"], cwd=folder, stdin=subprocess.DEVNULL, capture_output=True)
        with open(os.path.join(folder, "stdin")) as given:
            run = subprocess.run([os.path.join(folder, "out", crate)], stdin=given, capture_output=True)
        return run.stdout == open(stored, "rb").read()

    def attempt(self, crate, path, edit, order):
        """Where the edit is refused, or None if it is nowhere."""
        i, old, new = edit
        file = os.path.join(self.path, path)
        before = open(file).read()
        text = before.split("\n")
        assert text[i : i + len(old)] == old
        text[i : i + len(old)] = new
        open(file, "w").write("\n".join(text))
        try:
            users = users_of(crate, before.split("\n"), i, order) if "/specs/" in path else []
            for c in [crate] + users:
                verdict = self.check(c)
                if verdict != "proved":
                    return c, verdict
            return None
        finally:
            open(file, "w").write(before)


def users_of(crate, text, i, order):
    """The crates that lean on a crate, first those that mention the definition of a line."""
    while i > 0 and (not text[i] or text[i].startswith((" ", "--"))):
        i -= 1
    name = re.sub(r"^(unfoldable |abbrev )?(pub )?(record )?", "", text[i]).split(" ")[0]
    users = [c for c in order if crate in order[c]]

    def mentions(c):
        found = subprocess.run(["grep", "-rqwF", name, os.path.join(ROOT, "crates", c)], capture_output=True)
        return found.returncode == 0

    return sorted(users, key=lambda c: not mentions(c))


def candidates(order, only, seed):
    """The edits of each file; files and edits in an order that the seed decides."""
    chance = random.Random(seed)
    files = []
    for crate in order:
        for part in ("src", "specs"):
            folder = os.path.join(ROOT, "crates", crate, part)
            for base, _, names in sorted(os.walk(folder)):
                # A check does not read tests, so no edit of one is refused.
                tried = [n for n in sorted(names) if n.endswith((".rt", ".antt")) and n != "tests.rt"]
                files += [(crate, os.path.relpath(os.path.join(base, n), ROOT)) for n in tried]
    queues = []
    for crate, path in files:
        if only and crate != only:
            continue
        text = open(os.path.join(ROOT, path)).read().split("\n")
        whole = "\n".join(text)
        names = set(re.findall(r"(?:fn|use \w+::)\s*(\w+)", whole))
        for listed in re.findall(r"^use [\w:]+::\{([^}]*)\}", whole, re.M):
            names |= set(re.findall(r"\b[a-z]\w*", listed))
        found = list(edits.of_file(path, text, names))
        chance.shuffle(found)
        if found:
            queues.append((crate, path, found))
    chance.shuffle(queues)
    return queues


def main():
    parse = argparse.ArgumentParser()
    parse.add_argument("--count", type=int, default=120)
    parse.add_argument("--seed", type=int, default=1)
    parse.add_argument("--jobs", type=int, default=2)
    parse.add_argument("--only")
    options = parse.parse_args()
    order = crates()
    queues = candidates(order, options.only, options.seed)
    total = sum(len(found) for _, _, found in queues)
    # every file gets its share of the edits, by how many it has: at least one, and at most four
    shares = [min(4, max(1, round(options.count * len(found) / total))) for _, _, found in queues]
    lock, results = threading.Lock(), []
    copies = [Copy() for _ in range(options.jobs)]

    def work(job):
        (crate, path, found), share = job
        with lock:
            copy = copies.pop()
        done, lines = 0, set()
        for edit in found:
            if done == share:
                break
            if edit[0] in lines:
                continue
            verdict = copy.attempt(crate, path, edit, order)
            if verdict and verdict[1] == "compile":
                continue
            lines.add(edit[0])
            done += 1
            with lock:
                results.append((path, edit, verdict))
                show(results[-1], sys.stderr)
        with lock:
            copies.append(copy)

    with concurrent.futures.ThreadPoolExecutor(options.jobs) as pool:
        list(pool.map(work, zip(queues, shares)))
    for copy in copies:
        shutil.rmtree(copy.path)
    results.sort(key=lambda r: (r[0], r[1][0]))
    kept = [r for r in results if r[2] is None]
    print("%d edits, %d refused, %d not refused (seed %d)" % (len(results), len(results) - len(kept), len(kept), options.seed))
    for result in kept + [r for r in results if r[2] is not None]:
        show(result, sys.stdout)


def show(result, out):
    path, (i, old, new), verdict = result
    told = "NOT REFUSED" if verdict is None else "refused in %s: %s" % verdict
    print("\n%s:%d  %s\n  - %s\n  + %s" % (path, i + 1, told, " / ".join(s.strip() for s in old), " / ".join(s.strip() for s in new)), file=out, flush=True)


if __name__ == "__main__":
    main()

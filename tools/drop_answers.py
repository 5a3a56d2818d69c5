#!/usr/bin/env python3
"""Deletes the answers that the check of a crate finds alone: tools/drop_answers.py CRATE.. (lowest first)

A folder proofs/**/F has an Answers.antt, one answer for each goal of F. Where `rt check` proves a goal with
no answer, its answer is only text to keep up. This takes all such files of a crate aside, reads which goals
stay open, and puts back their answers and the definitions that those use. Answers stay too whose goals are
open under --margin, which halves the search's limits, and all of a function that gets SLOWER seconds slower.
"""
import os
import re
import shutil
import subprocess
import sys
import time

SLOWER = 5.0
TOP = os.path.dirname(os.path.dirname(os.path.abspath(__file__)))


class Check:
    """One run of rt check: whether it proves the crate, what it leaves open, and the seconds of each function that it checked."""

    def __init__(self, crate, *flags):
        last, self.seconds, self.proved, self.open, self.failed = None, {}, False, {}, set()
        run = subprocess.Popen(["nice", "rt", "check", *flags], cwd=crate, text=True, stdout=subprocess.PIPE, stderr=subprocess.STDOUT)
        for line in run.stdout:
            now = time.time()
            if found := re.match(r"checked (\S+), \d+ of", line):
                # the first has the time of what all share, which is not counted
                self.seconds[found[1]], last = now - (last or now), now
            elif found := re.match(r"fn \S+: no proof: expected answers in \./(\S+?); `search` did not prove ((?:`[^`]+`(?:, )?)+)", line):
                self.open.setdefault(os.path.join(crate, found[1]), set()).update(re.findall(r"`([^`]+)`", found[2]))
            elif found := re.match(r"fn (\S+): (?!proved|no holes)", line):
                self.failed.add(found[1])
            self.proved |= line.startswith("logic=proved")
        run.wait()


def file_of(crate, function, files):
    """Returns a function's file: a cycle of calls has one, in a folder that joins names by _."""
    path = os.path.join(crate, "proofs", *function.split("::")[1:], "Answers.antt")
    return path if path in files else next((it for it in files if "/+" in it and function.split("::")[-1] in it.split("/")[-2]), None)


def paragraphs(text):
    """Returns the paragraphs of a file, the head of a module as one of its own."""
    text = re.sub(r"(?m)^(module .* where)\n", r"\1\n\n", text)
    return [part.strip("\n") + "\n" for part in re.split(r"\n(?: *\n)+", text) if part.strip()]


def kind(part):
    """Returns what a paragraph is, and the name that it defines."""
    text = "\n".join(line for line in part.split("\n") if line.strip() and not line.lstrip().startswith(("--", "use ")))
    if not text or text.startswith("module "):
        return "head" if text else "imports" if re.search(r"(?m)^use ", part) else "remark", None
    name, answer = re.match(r" *(?:abbrev )?(?:pub )?(\S+)( : goal\.)?", text).groups()
    return "answer" if answer else "helper", name


def serves(answer, goal):
    """Whether an answer may be one of an open goal: a goal of several clauses is answered whole or clause by clause."""
    (of, clause, _), (part, in_part, _) = answer.partition("-clause-"), goal.partition("-clause-")
    return answer == goal or (of.removesuffix("-whole") == part.removesuffix("-whole") and not (clause and in_part))


def unused(parts):
    """Returns the paragraphs that nothing needs: helpers, heads of empty modules, and remarks above nothing."""
    words = [set(re.findall(r"[^\s(){},.;]+", re.sub(r"(?m)--.*$", "", part))) for part in parts]
    for i, part in enumerate(parts):
        what, name = kind(part)
        after = parts[i + 1] if i + 1 < len(parts) else ""
        if what == "helper" and "◌" not in name and not any(name in w for j, w in enumerate(words) if j != i):
            yield part
        elif (what == "head" and not after.startswith(" ")) or (what == "remark" and (not after or kind(after)[0] == "remark")):
            yield part


def thinned(text, goals):
    """Returns a file with the answers of these goals alone; '' for none of them."""
    parts = paragraphs(text)
    keep = [part for part in parts if kind(part)[0] != "answer" or any(serves(kind(part)[1], goal) for goal in goals)]
    if len(keep) == len(parts) or not any(kind(part)[0] == "answer" for part in keep):
        return text if len(keep) == len(parts) else ""
    while gone := set(unused(keep)):
        keep = [part for part in keep if part not in gone]
    return "\n".join(keep).replace(" where\n\n", " where\n")


def write(files):
    for path, text in files.items():
        if text:
            os.makedirs(os.path.dirname(path), exist_ok=True)
            with open(path, "w", encoding="utf-8") as file:
                file.write(text)
        elif os.path.exists(path):
            os.remove(path)


def search(crate, old):
    """Thins the files until the crate is proved. Returns them and the seconds of the changed functions, before and after; None if that does not end."""
    write(dict.fromkeys(old, ""))
    goals, whole = Check(crate, "--allow-holes").open, set()
    for _ in range(8):
        new = {path: text if path in whole else thinned(text, goals.get(path, ())) for path, text in old.items()}
        changed = {path for path in old if old[path] != new[path]}
        write(new)
        if not changed:
            return new, 0.0, 0.0
        # what the check kept would hide the time of functions with no file
        shutil.rmtree(os.path.join(crate, "out", "incremental"), ignore_errors=True)
        check = Check(crate, "--jobs", "1")
        found = (Check(crate, "--margin", "--allow-holes") if check.proved else check).open
        for path, names in found.items():
            goals.setdefault(path, set()).update(names)
        if not check.proved:
            failed = {file_of(crate, function, old) for function in check.failed} & changed - set(found)
            whole |= failed if failed or found else changed
        elif not found:
            # a remark has the check read the old files again, for their time
            write({path: old[path] + "\n-- again\n" for path in changed})
            before = Check(crate, "--jobs", "1").seconds
            write(new)
            took = [(file_of(crate, name, old), was, check.seconds[name]) for name, was in before.items() if name in check.seconds]
            slow = {path for path, was, now in took if path in changed and now > was + SLOWER}
            if not slow:
                return new, sum(was for _, was, _ in took), sum(now for _, _, now in took)
            whole |= slow
    return None


def thin(crate):
    paths = [os.path.join(at, "Answers.antt") for at, _, names in os.walk(os.path.join(crate, "proofs")) if "Answers.antt" in names]
    old = {path: text for path in sorted(paths) if re.search(r"(?m)^use \S+\.Goals as goal$", text := open(path, encoding="utf-8").read())}
    done = None
    try:
        done = Check(crate).proved and search(crate, old)
    finally:
        write({} if done else old)
    if not done:
        return print(f"{crate}: not proved as it stands, or not with fewer answers", flush=True)
    new, was, now = done
    answers = " -> ".join(str(sum(kind(part)[0] == "answer" for text in files.values() for part in paragraphs(text))) for files in (old, new))
    lines = " -> ".join(str(sum(text.count("\n") for text in files.values())) for files in (old, new))
    print(f"{os.path.basename(crate)}: answers {answers}, lines {lines}, check of what changed {was:.1f} s -> {now:.1f} s", flush=True)


if __name__ == "__main__":
    for each in sys.argv[1:]:
        thin(os.path.join(TOP, "crates", each))

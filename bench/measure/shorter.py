#!/usr/bin/env python3
"""Says which parts of a crate's proofs one tactic proves, and can write them so.

    bench/measure/shorter.py CRATE [--built CLONE] [--write]

A part is a clause of a lemma or of an answer, several clauses as one, a field of a record, a local
fact that states its type, or a case by `inl` or `inr`, if it has several lines; lemmas with
`unfolding` are left out. In a copy of the crate it writes, beside each lemma, one more for each
part, with `grind` in its place, with what the part cites as facts; it checks the copy, tries what
passes once more with each fact left out, and prints what it has found. With --write it writes that
into the crate, and checks it; a lemma that fails there stays as it was. Then look at each change:
restore what said more to a reader than the tactic does.

The crates below must have been built, in this clone or in CLONE, by `rt ci CRATE` there. It takes
one minute to ten, since each tactic that finds nothing runs to its limit.
"""
import argparse
import pathlib
import re
import shutil
import subprocess
import sys
import tempfile

sys.dont_write_bytecode = True
import proof_parts  # noqa: E402  (without bytecode in that folder)

ROOT = pathlib.Path(__file__).resolve().parents[2]
IMPORT = re.compile(r"(?m)^use (\S+)\.\{(.*)\}$")
REJECTED = re.compile(r"(?m)^\./(\S+?):\d+:\d+: error: `([^`]+)`")
# `arith` has what these say.
OF_TESTS = "Rattle.std.proofs.lemmas.Bool"
WIDTH = 100


class Trial:
    """A lemma of a file, a part of it, and the facts that its proof is tried with."""

    def __init__(self, path, lemma, part, given, rewritten):
        self.path, self.lemma, self.part = path, lemma, part
        self.given, self.rewritten = given, rewritten

    def proof(self):
        return proof_parts.proof_by(self.given, self.rewritten)

    def with_facts(self, given):
        return Trial(self.path, self.lemma, self.part, tuple(given), self.rewritten)

    def gain(self):
        """The lines that the file loses, as `rt fmt` lays the new ones out."""
        new = proof_parts.replaced(self.lemma, self.part, self.proof())
        return len(self.lemma.body) - sum(len(laid_out(line)) for line in new)

    def overlaps(self, other):
        mine = (self.part.first, self.part.begin), (self.part.last, self.part.end)
        its = (other.part.first, other.part.begin), (other.part.last, other.part.end)
        return (self.path, self.lemma) == (other.path, other.lemma) and (
            mine[0] < its[1] and its[0] < mine[1])


def laid_out(line):
    """A line of a proof, broken before the tactic and, if need be, between its facts."""
    found = re.match(r"(.*? (?:=|↦)) (grind \()(.*)(\);?)$", line) or re.match(
        r"(.*? (?:=|↦)) (rw \S+ \(grind \()(.*)(\)\);?)$", line)
    if len(line) <= WIDTH or not found:
        return [line]
    margin = " " * (proof_parts.indent(line) + 4)
    whole = "".join([margin, *found.groups()[1:]])
    if len(whole) <= WIDTH:
        return [found[1], whole]
    facts = proof_parts.apart(found[3], ",")
    return [found[1], margin + found[2], *(f"{margin}  {fact}," for fact in facts),
            margin + found[4]]


def importing(text):
    """The text of a file that imports `arith` if it cites it."""
    if any("arith" in names.split(", ") for _, names in IMPORT.findall(text)):
        return text
    return re.sub(r"(?m)^use ", "use Rattle.std.proofs.Common.{arith}\nuse ", text, count=1)


def known_in(text, found):
    """The lemmas that a file has or imports."""
    imported = {word.strip() for path, names in IMPORT.findall(text) for word in names.split(",")
                if ".proofs." in path and path != OF_TESTS}
    return {lemma.name for lemma in found} | {word for word in imported if re.search("[-_]", word)}


def trials_of(crate):
    for path in sorted(crate.glob("proofs/**/*.antt")):
        if path.name == "Lib.antt":
            continue
        text = path.read_text(encoding="utf-8")
        found = list(proof_parts.lemmas(text.split("\n")))
        known = known_in(text, found)
        for lemma in found:
            for part in proof_parts.parts(lemma):
                for given, rewritten in proof_parts.tactics(lemma, part, known):
                    trial = Trial(path.relative_to(crate), lemma, part, given, rewritten)
                    if trial.gain() > 0:
                        yield trial


def checked(crate, folder, built, *words):
    """The messages of a check of the crate that stands in a folder."""
    guide = subprocess.check_output(["rt", "doc"], text=True).strip()
    kit = pathlib.Path(guide).parent
    below = re.search(rf"(?m)^{crate}(?: staticlib)?: *(.*)$",
                      (ROOT / "crates.txt").read_text(encoding="utf-8"))[1].split()
    command = [f"{kit}/bin/rattle", "check", "--crate-name", crate, "src/lib.rt",
               "--extern", f"std={kit}/rlibs/std.rlib", "-L", f"dependency={kit}/rlibs"]
    for name in below:
        own = built / "crates" / name / "out" / "rlib"
        held = own if (built / "crates" / name).is_dir() else kit / "rlibs"
        command += ["--extern", f"{name}={held}/{name}.rlib"]
    for own in sorted(built.glob("crates/*/out/rlib")):
        command += ["-L", f"dependency={own}"]
    command += ["--antt-project", f"{kit}/rattle/logic/antt-project.json", "--logic-built",
                f"{kit}/logic_built", "--links", f"{crate}=", "--jobs", "1", "--empty-contracts",
                *words]
    done = subprocess.run(command, cwd=folder, capture_output=True, text=True)
    return done.stdout + done.stderr


def write_beside(path, trials):
    """Writes, after each lemma of a file, the lemmas that have a part proved in another way."""
    lines = path.read_text(encoding="utf-8").split("\n")
    for number, trial in sorted(trials, key=lambda numbered: -numbered[1].lemma.end):
        lemma, other = trial.lemma, f"{trial.lemma.name}_part{number}"
        named = re.sub(rf"^( *)(?:pub )?{re.escape(lemma.name)} :", rf"\1{other} :",
                       lemma.statement[0])
        margin = " " * lemma.depth
        body = [margin + other + line[lemma.depth + len(lemma.name):]
                if line.startswith(f"{margin}{lemma.name} ") else line
                for line in proof_parts.replaced(lemma, trial.part, trial.proof())]
        lines[lemma.end:lemma.end] = ["", named, *lemma.statement[1:], *body]
    path.write_text(importing("\n".join(lines)), encoding="utf-8")


def passing(crate, built, trials):
    """Those of some trials that a check of a copy of the crate accepts."""
    with tempfile.TemporaryDirectory() as folder:
        copy = pathlib.Path(folder) / crate
        shutil.copytree(ROOT / "crates" / crate, copy,
                        ignore=shutil.ignore_patterns("out", "must-fail"))
        numbered = list(enumerate(trials))
        for path in {trial.path for trial in trials}:
            write_beside(copy / path, [one for one in numbered if one[1].path == path])
        messages = checked(crate, copy, built)
    others = [line for line in messages.splitlines()
              if " error: " in line and not re.search(r"error: `[^`]*_part\d+`", line)]
    if others or "logic=" not in messages:
        sys.exit("shorter: the copy has other faults, so nothing is known:\n"
                 + ("\n".join(others) or messages))
    rejected = set(REJECTED.findall(messages))
    return [trial for number, trial in numbered
            if (str(trial.path), f"{trial.lemma.name}_part{number}") not in rejected]


def longest(trials):
    """Parts that don't overlap, the longest first."""
    chosen = []
    for trial in sorted(trials, key=lambda one: (-(one.part.last - one.part.first), -one.gain())):
        if not any(trial.overlaps(other) for other in chosen):
            chosen.append(trial)
    return chosen


def with_few_facts(crate, built, chosen):
    """The trials without the facts that they pass without."""
    fewer = [(at, fact, trial.with_facts(one for one in trial.given if one != fact))
             for at, trial in enumerate(chosen) for fact in trial.given]
    passed = set(passing(crate, built, [trial for _, _, trial in fewer]))
    spare, one_less = {}, {}
    for at, fact, trial in fewer:
        if trial in passed:
            spare.setdefault(at, []).append(fact)
            one_less.setdefault(at, trial)
    least = {at: chosen[at].with_facts(one for one in chosen[at].given if one not in facts)
             for at, facts in spare.items()}
    passed = set(passing(crate, built, list(least.values())))
    return [least[at] if least.get(at) in passed else one_less.get(at, trial)
            for at, trial in enumerate(chosen)]


def write_into(crate, built, found):
    """Writes what was found into the crate, but for the lemmas that the check then rejects."""
    folder = ROOT / "crates" / crate
    old = {trial.path: (folder / trial.path).read_text(encoding="utf-8") for trial in found}
    while found:
        for path, text in old.items():
            lines = text.split("\n")
            mine = [trial for trial in found if trial.path == path]
            for lemma in reversed(list(proof_parts.lemmas(lines))):
                new = lemma
                for trial in sorted((one for one in mine if one.lemma == lemma),
                                    key=lambda one: (-one.part.first, -one.part.begin)):
                    body = proof_parts.replaced(new, trial.part, trial.proof())
                    new = proof_parts.dataclasses.replace(new, body=tuple(body))
                lines[lemma.end - len(lemma.body):lemma.end] = [
                    part for line in new.body for part in laid_out(line)]
            (folder / path).write_text(
                importing("\n".join(lines)) if mine else text, encoding="utf-8")
        messages = checked(crate, folder, built, "--fix-imports")
        rejected = set(REJECTED.findall(messages))
        if "logic=proved" in messages:
            subprocess.run(["rt", "fmt"], cwd=folder, check=True)
            break
        left = [one for one in found if (str(one.path), one.lemma.name) not in rejected]
        if not left or left == found:
            for path, text in old.items():
                (folder / path).write_text(text, encoding="utf-8")
        if left == found:
            sys.exit(f"shorter: nothing is written, since the check says:\n{messages}")
        found = left
    return found


def main():
    parser = argparse.ArgumentParser(
        description=__doc__, formatter_class=argparse.RawDescriptionHelpFormatter)
    parser.add_argument("crate")
    parser.add_argument("--built", type=pathlib.Path, default=ROOT)
    parser.add_argument("--write", action="store_true")
    given = parser.parse_args()
    built = given.built.resolve()
    trials = list(trials_of(ROOT / "crates" / given.crate))
    print(f"{len(trials)} tried", flush=True)
    found = with_few_facts(given.crate, built, longest(passing(given.crate, built, trials)))
    for trial in found:
        print(f"{trial.gain()} lines less: {trial.path}, a {trial.part.kind} of "
              f"{trial.lemma.name}\n    {trial.proof()}")
    if given.write:
        found = write_into(given.crate, built, found)
    print(f"{len(found)} parts, {sum(trial.gain() for trial in found)} lines less")


if __name__ == "__main__":
    main()

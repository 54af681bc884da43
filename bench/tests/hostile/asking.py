"""Scripts as md_cases reads them, and its result for each."""

import subprocess

# The word that makes md_cases run cases, of which it reads the first eight bytes separately, and
# its output after them, once it has made the calls that may fail.
FIRST = b"worked cases\n"
LAST = b"each call was made\n"
# The names of references in a script's document.
SCRIPT_NAMES = ["amp", "lt", "gt", "quot", "apos", "colon", "sol", "num", "quest"]
CALLS = ["compile", "compile_checked", "compile_counted"]


class Wrong(Exception):
    """The error that ended a test before its results could be judged."""


def lines_of(events):
    """The lines of events. Each is a sign, a name, an index and columns."""
    return [f"{sign}{name} {index}.{columns}" for sign, name, index, columns in events]


def script(options, events, document):
    """The script of events over a document, with lines that set options."""
    return "\n".join([*options, *lines_of(events), "--\n"]).encode() + document


def questions(names, given):
    """The questions for the results of `CALLS` for a script, with these names of references."""
    asked = "".join(f"? compiled {call}\n" for call in CALLS)
    return (asked + "".join(f"={name} {text}\n" for name, text in names)).encode() + given


def is_refusal(answer):
    """Whether an answer says why there is no text: no text of these tests begins so."""
    return answer.startswith(b"! ")


def common_answer(answer, events):
    """The result of each of `CALLS`, with two visits of each of so many events if there is a
    text; None if they differ.
    """
    for visits in (f"{2 * events} visits, ", ""):
        heads = [f"compiled {call}: ".encode() for call in CALLS]
        heads = [heads[0], *(b"\n" + head for head in heads[1:])]
        heads[-1] += visits.encode()
        size = (len(answer) - len(b"".join(heads))) // len(heads)
        said = answer[len(heads[0]):len(heads[0]) + max(size, 0)]
        if answer == b"".join(head + said for head in heads) and is_refusal(said) == (not visits):
            return said
    return None


def answers(program, asked):
    """The results of md_cases for scripts, each with a title of its own."""
    cases = [b"%%%% " + title.encode() + b"\n" for title, _ in asked]
    scripts = [given for _, given in asked]
    if any(b"\n%%%% " in given for given in scripts):
        raise Wrong("a script has a line that begins another one")
    given = FIRST + b"\n".join(map(b"".join, zip(cases, scripts)))
    ran = subprocess.run([program], input=given, capture_output=True, check=False)
    said, begun = [], 0
    for case, after in zip(cases, [*cases[1:], LAST]):
        end = ran.stdout.find(b"\n" + after, begun)
        if not ran.stdout.startswith(case, begun) or end < 0:
            near = ran.stdout[begun:begun + 200]
            raise Wrong(f"{case.decode().strip()}: status {ran.returncode}, {near!r}")
        said.append(ran.stdout[begun + len(case):end])
        begun = end + 1
    if (ran.returncode, ran.stdout[begun:]) != (0, LAST):
        near = ran.stdout[begun:begun + 200]
        raise Wrong(f"behind the last of them: status {ran.returncode}, {near!r}")
    return said


def told(given, program):
    """The result of `mdevents` for a script, in the form of md_cases."""
    ran = subprocess.run([program], input=given, capture_output=True, check=False)
    if (ran.returncode, ran.stderr) == (0, b""):
        return ran.stdout
    if (ran.returncode, ran.stdout) == (1, b""):
        return b"! " + ran.stderr.removesuffix(b"\n")
    return b"! status %d" % ran.returncode


def is_told_otherwise(answer):
    """Whether md_cases reports a call with another result than `run`."""
    return answer.endswith(b" answers otherwise")

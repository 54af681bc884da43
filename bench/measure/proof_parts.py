"""Parts of proofs that one tactic may prove: where they stand, and what they cite."""
import dataclasses
import re

SIGNATURE = re.compile(r"( *)(?:pub )?([a-zA-Z][^\s(){}:=]*) :(?: |$)")
FIELD = re.compile(r" *[a-zA-Z][^\s(){}:=;]* =(?= |$)")
FACT = re.compile(r" *let [a-zA-Z_][^\s:=]* :(?= |$)")
CASE = re.compile(r"( *)\| (?:inl|inr) ?([^\s↦]*) ↦")
LET = re.compile(r"let ([a-zA-Z_][^\s:=]*)(?: :| =)")
WORD = re.compile(r"[A-Za-z][^\s(){}\[\],;.]*")
KNOWN_AT_GOAL = re.compile(r"(?<![\w.])c\.[\w.-]*[\w-]")
IS_FACT = re.compile(r"\.(?:ensures|requires|true|false|is|invariant|was)\b|\.not-|-is$")
# An argument of a call: a word, or something in brackets with at most one pair of brackets in it.
ARGUMENT = (r"(?: (?!(?:in|then|else|where|as)\b)"
            r"(?:\((?:[^()]|\([^()]*\))*\)|\w[^\s()\[\],;∙]*|\[\]))")
CONSTRUCTORS = {"true", "false", "zero", "suc", "refl", "tt", "inl", "inr"}


@dataclasses.dataclass(frozen=True)
class Lemma:
    """A lemma of a file: its name, its indent, the line after it, its statement and its proof."""
    name: str
    depth: int
    end: int
    statement: tuple
    body: tuple


@dataclasses.dataclass(frozen=True)
class Part:
    """A part of a lemma's proof, from a line and column to a line and column.

    `given` is the hypothesis that a case names, or the left side that a whole lemma gets.
    """
    kind: str
    first: int
    begin: int
    last: int
    end: int
    given: str = ""


def indent(line):
    return len(line) - len(line.lstrip())


def nesting(text):
    """How many brackets a text opens, less those that it closes."""
    return sum((mark in "([{") - (mark in ")]}") for mark in text)


def apart(text, mark):
    """The parts of a text between marks that stand outside brackets."""
    parts, depth = [""], 0
    for each in text:
        depth += nesting(each)
        if depth == 0 and each == mark:
            parts.append("")
        else:
            parts[-1] += each
    return [part.strip() for part in parts if part.strip()]


def end_of(lines, at, goes_on):
    while at < len(lines) and lines[at].strip() and goes_on(lines[at]):
        at += 1
    return at


def with_helpers(lines, end, depth):
    """The end of a proof whose `where` has blocks that blank lines part."""
    while True:
        at = end
        while at < len(lines) and not lines[at].strip():
            at += 1
        if at == len(lines) or indent(lines[at]) <= depth:
            return end
        end = end_of(lines, at, lambda line: True)


def lemmas(lines):
    at = 0
    while at < len(lines):
        found, begin = SIGNATURE.match(lines[at]), at
        at += 1
        if not found:
            continue
        depth, name = len(found[1]), found[2]
        own = (name + " ", "]", ")", "}")
        middle = end_of(lines, at, lambda line: indent(line) > depth)
        at = end_of(
            lines, middle, lambda line: indent(line) > depth or line[depth:].startswith(own))
        if at == middle or not lines[middle][depth:].startswith(name + " "):
            continue
        if any(line.strip() == "where" for line in lines[middle:at]):
            at = with_helpers(lines, at, depth)
        yield Lemma(name, depth, at, tuple(lines[begin:middle]), tuple(lines[middle:at]))


def equals_sign(lines, first, begin, last):
    """Where the part after the first `=` outside brackets begins."""
    depth = 0
    for at in range(first, last + 1):
        line = lines[at]
        for column in range(begin if at == first else 0, len(line)):
            depth += nesting(line[column])
            if depth == 0 and f" {line} "[column:column + 3] == " = ":
                return at, column + 1
    return None


def clauses(lemma):
    starts = [at for at, line in enumerate(lemma.body)
              if line[lemma.depth:].startswith(lemma.name + " ")]
    for first, after in zip(starts, [*starts[1:], len(lemma.body)]):
        found = equals_sign(lemma.body, first, 0, after - 1)
        if found and after - first > 1:
            yield Part("clause", *found, after - 1, len(lemma.body[after - 1]))


def closing(lines, first, begin, ending):
    """The line that ends with these words, outside the brackets that open from a place on."""
    depth = nesting(lines[first][begin:])
    for at in range(first, len(lines)):
        depth += nesting(lines[at]) if at > first else 0
        if depth < 0:
            return None
        if depth == 0 and lines[at].endswith(ending):
            return at
    return None


def inner_parts(lemma):
    """Fields of records, local facts with a type, and cases, of two lines or more."""
    lines = lemma.body
    for at, line in enumerate(lines):
        field, fact, case = FIELD.match(line), FACT.match(line), CASE.match(line)
        if field and at and lines[at - 1].endswith(("{", ";")):
            last = closing(lines, at, field.end(), ";")
            if last is not None and last > at:
                yield Part("field", at, field.end(), last, len(lines[last]) - 1)
        if fact:
            last = closing(lines, at, fact.end(), " in")
            found = last is not None and equals_sign(lines, at, fact.end(), last)
            if found and last > found[0]:
                yield Part("fact", *found, last, len(lines[last]) - 3)
        if case:
            last, depth = at, nesting(line)
            while last + 1 < len(lines) and (
                    depth > 0 or indent(lines[last + 1]) > len(case[1])):
                last += 1
                depth += nesting(lines[last])
            if depth == 0 and last > at:
                yield Part("case", at, case.end(), last, len(lines[last]), case[2])


def named_in(statement):
    """The names that a statement gives to its arguments, and None for those without a name."""
    arguments = apart(" ".join(statement).split(" :", 1)[1], "→")[:-1]
    for argument in arguments:
        groups = [re.match(r"([({])([^(){}:]+) : ", group) for group in apart(argument, " ")]
        if all(groups):
            yield from (name for one in groups if one[1] == "(" for name in one[2].split())
        else:
            yield None


def one_clause(lemma):
    """One clause in place of several, for a lemma that doesn't call itself."""
    text = "\n".join(lemma.body)
    sides = []
    for line in re.split(rf"(?m)^ {{{lemma.depth}}}(?={re.escape(lemma.name)} )", text)[1:]:
        left, _, right = line.partition(" =")
        if lemma.name in WORD.findall(right) or "{" in left or "where" in WORD.findall(right):
            return
        sides.append(apart(left[len(lemma.name):].replace("\n", " "), " "))
    if len(sides) < 2 or len({len(side) for side in sides}) > 1:
        return
    stated = [*named_in(lemma.statement), *[None] * len(sides[0])]
    names = []
    for column, name in zip(zip(*sides), stated):
        plain = [word for word in [name, *column] if word and re.fullmatch(r"[a-z][\w-]*", word)
                 and word not in CONSTRUCTORS | set(names)]
        if not plain:
            return
        names.append(plain[0])
    yield Part("lemma", 0, 0, len(lemma.body) - 1, len(lemma.body[-1]), " ".join(names))


def parts(lemma):
    return [*one_clause(lemma), *clauses(lemma), *inner_parts(lemma)]


def text_of(lemma, part):
    lines = list(lemma.body[part.first:part.last + 1])
    lines[-1] = lines[-1][:part.end]
    lines[0] = lines[0][part.begin:]
    return "\n".join(lines)


def replaced(lemma, part, proof):
    """The lines of a lemma's proof with another proof of a part."""
    before, after = lemma.body[:part.first], lemma.body[part.last + 1:]
    if part.kind == "lemma":
        return [" " * lemma.depth + f"{lemma.name} {part.given} = {proof}"]
    begin = lemma.body[part.first][:part.begin].rstrip()
    return [*before, f"{begin} {proof}{lemma.body[part.last][part.end:]}", *after]


def calls(name, text, bound):
    """The calls of a lemma whose arguments nothing in the text binds; the name, where one does."""
    for found in re.findall(rf"(?<![^\s(])({re.escape(name)}{ARGUMENT}+)", text):
        found = re.sub(r"( _)+$", "", found)
        yield name if "λ" in found or bound & set(WORD.findall(found)) else found


def tactics(lemma, part, known):
    """Proofs of a part by `grind`, each with the facts that it is given."""
    text = text_of(lemma, part)
    if text.strip().startswith("grind"):
        return []
    before = "\n".join(lemma.body)[:sum(len(line) + 1 for line in lemma.body[:part.first])]
    words = list(dict.fromkeys(WORD.findall(text)))
    bound = set(LET.findall(text)) | set(" ".join(re.findall(r"λ ([^.]*)\.", text)).split())
    cited = [word for word in words if word in known and word != lemma.name]
    local = [word for word in words if word in LET.findall(before) and word not in bound]
    local += [word for word in dict.fromkeys(KNOWN_AT_GOAL.findall(text)) if IS_FACT.search(word)]
    own = [call for call in dict.fromkeys(calls(lemma.name, text, bound)) if call != lemma.name]
    applied = list(dict.fromkeys(
        call for word in cited for call in [*calls(word, text, bound)] or [word]))
    tried = [[*cited, *local, *own], [*cited, *own], [*applied, *local, *own]]
    found = [(given, "") for given in tried]
    if part.kind == "case" and part.given not in ("", "_"):
        found.append((tried[0], part.given))
    return list(dict.fromkeys((tuple(given), by) for given, by in found))


def proof_by(given, rewritten):
    """The proof with these facts, after the goal is rewritten by a hypothesis, if one is named."""
    proof = f"grind ({', '.join(['arith', *given])})" if given else "grind arith"
    return f"rw {rewritten} ({proof})" if rewritten else proof

#!/usr/bin/env python3
"""Lists the places of crates/*/src that docs/DESIGN-PASS.md counts, point by point.

    tools/design_places.py [FOLDER] [--counts]

FOLDER is the top of a checkout, this one if it is left out. Each place is a line: the point and
the kind, the crate, the function, and what stands there. With --counts only the numbers are
printed. The kinds are plain searches of the text, told at each function below."""
import difflib
import os
import re
import sys

TABLES = ("order", "delta2", "delta1", "delta3")


def functions(text):
    """The functions of a file: the name, the head with its contract, the body."""
    found = []
    for start in re.finditer(r"(?m)^( *)(?:pub )?(?:extern \"C\" )?fn (\w+)", text):
        indent, name = start.group(1), start.group(2)
        open_ = re.compile(r"(?m)^%s\{$|\{$" % indent)
        at = start.start()
        lines = text[at:].split("\n")
        head, body, inside = [], [], False
        for line in lines:
            if not inside:
                if line == indent + "{":
                    inside = True
                elif line.endswith("{") and not re.match(r"\s*(requires|ensures)", line):
                    head.append(line)
                    inside = True
                elif line.rstrip().endswith(";") and not head:
                    break
                else:
                    head.append(line)
                    if line.rstrip().endswith("};") or line.rstrip().endswith(");"):
                        break
            elif line == indent + "}":
                break
            else:
                body.append(line)
        if inside:
            found.append((name, "\n".join(head), "\n".join(body)))
    return found


def without_comments(text):
    return re.sub(r"(?m)^\s*//.*\n", "", text)


def parameters(head):
    inner = head[head.index("(") + 1:]
    return inner[:inner.index(")\n")] if ")\n" in inner else inner[:inner.rindex(")")]


def tokens(body):
    return re.findall(r"\w+|[^\w\s]", body)


def enums_like_option(text):
    """1a: an enum of two cases, one of which carries a value (Option) or both do (Result)."""
    for it in re.finditer(r"(?ms)^(?:pub )?enum (\w+) \{\n(.*?)^\}", text):
        cases = re.findall(r"(?m)^    (\w+)(\([^)]*\)| \{)?", it.group(2))
        cases = [c for c in cases if c[0] not in ("//",)]
        if len(cases) == 2 and (cases[0][1] or cases[1][1]):
            yield "1a enum", it.group(1), ", ".join(c[0] + c[1] for c in cases)


def of_function(name, head, body):
    """The kinds that are read off one function."""
    ends = head.rstrip().rstrip("{")
    params = parameters(head) if "(" in head else ""
    numbers = r"\brefused\(\d+\)|status_only\(\d+\)|\banswer\(\d+,"
    if re.search(r"-> u32\b", head) and re.search(r"first_of|_status\b|behind_role|\b0 9\b", head):
        yield "1b a refusal's number as the result", name, "-> u32"
        numbers += r"|return \d+;"
    for it in re.finditer(numbers, body):
        yield "1c a refusal's number in code", name, it.group(0)
    for it in re.finditer(r"if (status|table|long) != 0", body):
        yield "1d a number tested for done", name, it.group(0)
    for it in re.finditer(r"\b(way|role): u32", params):
        yield "1e a number for a kind", name, it.group(0)
    if re.search(r"(?m)^\s*\w+::\w+ => \d+,", body):
        yield "1e a number for a kind", name, "a match that numbers an enum"
    for it in re.finditer(r"\b(flags|marks): &(mut )?\[u8\]|let mut (flags|marks) = \[0;", params + body):
        yield "1f a flag as a byte", name, it.group(0)
    for it in re.finditer(r"(?m)^\s*(?:'\w+: )?(while .*|loop) \{|^.*= loop \{", body):
        yield "3a while or loop", name, it.group(0).strip()
    for it in re.finditer(r"for (\w+) in ([^{\n]*\.\.[^{\n]*) \{", body):
        index = it.group(1)
        rest = body[it.end():]
        if re.search(r"\w\[%s\]" % index, rest):
            yield "3b range with an index over a slice", name, it.group(0)
        else:
            yield "3c another range", name, it.group(0)
    if re.fullmatch(r"\s*for \w+ in [^{]*\{\s*[\w\[\]. +]+ = [\w\[\]. +]+( as u16)?;\s*\}\s*(\w+\s*)?", re.sub(r"let mut \w+ = \[0; \w+\];", "", body)):
        yield "4c a copy or a fill by hand", name, "one loop of one assignment"
    if re.fullmatch(r"\s*\w+ as usize\s*", body):
        yield "4b a conversion by hand", name, body.strip()
    if name in ("status_only", "refused", "explained", "told", "answer", "kind_number", "job_number"):
        yield "4b a conversion by hand", name, "builds one type of this repository from another"
    if sum(1 for t in TABLES if re.search(r"\b%s:" % t, params)) >= 2 and "Prepared" not in params:
        yield "5a tables that travel apart", name, " ".join(t for t in TABLES if re.search(r"\b%s:" % t, params))
    if re.search(r"\bat: usize,[^)]*out: &mut|bytes: usize, out", params):
        yield "6a a buffer with an index beside", name, "at, out"
    if re.search(r"read: &\[u8\], bytes: usize", params):
        yield "6a a buffer with an index beside", name, "read, bytes"
    if re.search(r"\bway ==", body):
        yield "7a a switch on the step", name, "way"


def facts(heads):
    """5b: a fact (the first word of a requires) that stands in three or more contracts."""
    seen = {}
    for crate, name, head in heads:
        for it in re.finditer(r"requires (?:\w+ )?\{ (\w+) ", head):
            if it.group(1)[0].isupper():
                seen.setdefault(it.group(1), []).append(crate + "::" + name)
    for fact in sorted(seen):
        if len(seen[fact]) >= 3:
            yield "5b a fact in three or more contracts", fact, "%d: %s" % (len(seen[fact]), ", ".join(seen[fact]))


def twins(bodies):
    """2a: two functions of 25 words or more whose bodies are alike to four fifths."""
    for i, (one, a) in enumerate(bodies):
        for other, b in bodies[i + 1:]:
            if min(len(a), len(b)) < 25 or max(len(a), len(b)) > 2 * min(len(a), len(b)):
                continue
            m = difflib.SequenceMatcher(None, a, b, autojunk=False)
            if m.real_quick_ratio() >= 0.8 and m.quick_ratio() >= 0.8 and m.ratio() >= 0.8:
                yield "2a alike to four fifths", one, other


def namesakes(heads):
    """2b: one name in two crates, or beside it with `_around`, but for the methods of std's traits."""
    seen = {}
    for crate, name, _ in heads:
        if name not in ("from", "try_from", "main", "byte_at", "count"):
            seen.setdefault(name.replace("_around", ""), []).append(crate + "::" + name)
    for name in sorted(seen):
        if len(seen[name]) >= 2:
            yield "2b one name twice", name, ", ".join(seen[name])


def main():
    args = [a for a in sys.argv[1:] if not a.startswith("--")]
    top = args[0] if args else os.path.join(os.path.dirname(os.path.abspath(__file__)), "..")
    places, heads, bodies = [], [], []
    for crate in sorted(os.listdir(top + "/crates")):
        folder = f"{top}/crates/{crate}/src"
        for file in sorted(os.listdir(folder)) if os.path.isdir(folder) else []:
            if not file.endswith(".rt"):
                continue
            text = without_comments(open(f"{folder}/{file}").read())
            if crate == "ruffarmoire":
                continue
            places += [(kind, crate, name, what) for kind, name, what in enums_like_option(text)]
            for it in re.finditer(r"(?m)^    (?:pub )?(failed|repeat): bool", text):
                places.append(("1f a flag with a value beside it", crate, it.group(1), "in a struct"))
            for it in re.finditer(r"#\[derive\((Drop|Clone, Copy)\)\]\npub (struct|enum) (\w+)", text):
                places.append(("4a a type without derives for equality and printing", crate, it.group(3), it.group(1)))
            for name, head, body in functions(text):
                places += [(kind, crate, n, what) for kind, n, what in of_function(name, head, body)]
                heads.append((crate, name, head))
                bodies.append((crate + "::" + name, tokens(body)))
    places += [(kind, "", name, what) for kind, name, what in facts(heads)]
    places += [(kind, "", name, what) for kind, name, what in twins(bodies)]
    places += [(kind, "", name, what) for kind, name, what in namesakes(heads)]
    counts = {}
    for kind, crate, name, what in sorted(places):
        counts[kind] = counts.get(kind, 0) + 1
        if "--counts" not in sys.argv:
            print(f"{kind} | {crate + '::' if crate else ''}{name} | {what}")
    for kind in sorted(counts):
        print(f"{counts[kind]:4} {kind}")


main()

#!/usr/bin/env python3
"""Respells the repository's own definitions, lemmas, fields and variables of .antt files: a dash in a name becomes an underscore.

usage: python3 tools/respell_names.py [--list]     at the top of the repository; --list only prints the names and what it leaves

It was run once, after the toolchain's own port script, when this repository came over to a Rattle whose words are in snake case. A name is
respelled in specs/, proofs/, the clauses of src/ and the must-fail edits alike. These keep their dashes: names of the toolchain's libraries,
names that the check makes (goals, steps of the code, loops), file names, and prose.
"""
import collections
import os
import re
import subprocess
import sys

NAME = r"[A-Za-z_][\w'₁₂]*(?:-[\w'₁₂]+)+"
WORD = re.compile(r"(?<![\w'·◌-])" + NAME + r"(?![\w'◌-])")
# The port script's `first_of` is the name of a tactic: each crate that defines or cites it has another name for it.
OTHER = {"suzuki_kasami": "first_site", "suzuki_rules": "queued_some", "ricart_rules": "first_exists", "counting": "first_exists"}


def sources():
    said = subprocess.run(["git", "ls-files", "-co", "--exclude-standard", "crates"], capture_output=True, text=True, check=True).stdout
    return [f for f in said.splitlines() if f.endswith((".antt", ".rt", ".edit")) and os.path.exists(f)]


def of_function(path):
    """A file that answers for one function: its names at the left margin are the check's."""
    return os.path.basename(path) in ("Answers.antt", "Invariants.antt", "Proof.antt", "Choices.antt")


def code(text):
    return re.sub(r"--(?=\s).*|//.*", "", text)


def imported(texts):
    """Names of the toolchain's libraries and of the check's modules."""
    out = set()
    for text in texts.values():
        body = code(text)
        for m in re.finditer(r"use\s+([\w.·-]+)\.\{([^}]*)\}", body):
            own = re.match(r"Rattle\.(\w+)\.(specs|proofs)\b", m.group(1))
            if not own or own.group(1) == "std" or m.group(1).endswith((".Goals", ".Given")):
                out |= set(WORD.findall(m.group(2)))
    return out


def kept(texts):
    """Names of the toolchain: imported from elsewhere, or made by the check."""
    out = imported(texts)
    for path, text in texts.items():
        body = code(text)
        out |= set(re.findall(r"\bgoal\.(" + NAME + ")", body))
        if of_function(path):
            # What the check makes is cited behind `c.`, `w.`, `l.`.
            for m in re.finditer(r"(?<![\w'.-])[a-z]\w*((?:\.[\w'-]+)+)", body):
                parts = m.group(1)[1:].split(".")
                if m.group(0).split(".")[0] in ("c", "w", "l", "v", "goal"):
                    out |= {p for p in parts if "-" in p}
    return out


def source_names(texts):
    """Names of src/ that have an underscore, as an older check spelled them: with a dash."""
    out = set()
    for path, text in texts.items():
        if path.endswith(".rt"):
            body = re.sub(r"ghost use[^;]*;", "", code(text))
            out |= {n.replace("_", "-") for n in re.findall(r"(?<![\w'-])[a-z]\w*_\w+", body)}
    return out


def made(texts):
    """Names that .antt files and clauses define: definitions, fields, binders, local names."""
    out = collections.Counter()
    for path, text in texts.items():
        if path.endswith(".edit"):
            continue
        body = code(text)
        for m in WORD.finditer(body):
            before, after = body[: m.start()], body[m.end() :]
            line = before.rsplit("\n", 1)[-1]
            defines = re.match(r"(?:\s+[\w'₁₂-]+)*\s*:(?!:)", after) and re.fullmatch(r"\s*(?:(?:abbrev|pub|unfoldable|ruleset|record|data|let)\s+)*", line)
            binder = re.match(r"(?:\s+[\w'₁₂-]+)*\s*:", after) and re.search(r"[({](?:[\w'₁₂-]+\s+)*$", line)
            local = re.search(r"\b(?:let|as)\s+$", line)
            bound = re.search(r"λ\s+(?:[\w'₁₂-]+\s+)*$", line) and re.match(r"(?:\s+[\w'₁₂-]+)*\s*\.\s", after)
            record = re.search(r"\b(?:record|data)\s+$", line)
            pattern = re.search(r"(?:\[|\|)\s+[^↦\n]*$", line) and re.match(r"[^\n|]*↦", after)
            clause = re.fullmatch(r"\s*[\w'₁₂-]+(?:\s+[\w'()₁₂-]+)*\s+", line) and re.match(r"(?:\s+[\w'()₁₂-]+)*\s*=(?!=)", after) and path.endswith(".antt")
            if defines or binder or local or bound or record or pattern or clause:
                out[m.group()] += 1
    return out


def main():
    texts = {f: open(f, encoding="utf-8").read() for f in sources()}
    keep, names, source = kept(texts), made(texts), source_names(texts)
    # A step of the check has the name of the function that is called, which keeps its underscores.
    goals = {n for t in texts.values() for n in re.findall(r"\bgoal\.(" + NAME + ")", code(t))}
    own = set(made({f: t for f, t in texts.items() if not of_function(f)})) - goals - imported(texts)
    words = {n: n.replace("-", "_") for n in names if n not in keep or n in source or n in own}
    seen = set()
    for t in texts.values():
        seen |= set(WORD.findall(code(t)))
    words |= {n: n.replace("-", "_") for n in seen & source}
    plain = collections.defaultdict(set)
    for f, t in texts.items():
        for m in re.finditer(r"(?<![\w'-])[A-Za-z_][\w'₁₂]*(?![\w'-])", code(t)):
            plain[m.group()].add(f)
    if "--list" in sys.argv:
        print("respelled:", len(words), " ".join(sorted(words)))
        print("\nkept though defined:", " ".join(sorted(n for n in names if n not in words)))
        print("\nkept, not defined here:", " ".join(sorted(seen - set(words) - keep)))
        for n, s in sorted(words.items()):
            if s in plain:
                print("falls together:", n, s, sorted(plain[s])[:3])
        return
    for f, t in texts.items():
        new = WORD.sub(lambda m: words.get(m.group(), m.group()), t)
        crate = f.split("/")[1]
        if crate in OTHER and not f.endswith(".edit"):
            new = re.sub(r"(?<![\w'.-])first_of(?![\w'-])", OTHER[crate], new)
        if new != t:
            open(f, "w", encoding="utf-8").write(new)
    print("respelled", len(words), "names")


main()

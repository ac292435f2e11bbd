#!/usr/bin/env python3
"""Checks the pages: links, lengths and words; and the words of comments in scripts.

    checks/pages.py [--crates | --docs]

The pages are the Markdown files that git tracks. A link to a file has to name one that is there, and a link to a heading one that the
page has. A page has at most the lines that LENGTHS gives it. In CONTRIBUTING.md the table "What to run" names each script of checks/
and no other.

Pages, docstrings and comments have none of the words in WORDS, which were this project's own. The glossary is left out, since it
explains those that definitions still use, and so are dated runs in docs/log/, which stay as they were written.

It doesn't see: former words that are plain English elsewhere ("holds", "keeps", "words", "answers", "in order", "copy"); code in
backticks, blocks, names and paths; what scripts print; comments of crates.txt; whether a sentence is clear.

With --crates it also prints such words in comments of crates/, and how many there are in each file and each crate; those are no errors.
With --docs it does so for documentation alone: doc comments of sources, but for tests, and comments of specs/. There it also sees the
words in DOC_WORDS, and each is an error.

It prints each error and fails if there is one. Run it when a page or a comment changes.
"""

import argparse
import io
import os
import re
import subprocess
import sys
import tokenize
from collections import Counter
from pathlib import Path

ROOT = Path(__file__).resolve().parent.parent
LINK = re.compile(r"\[[^\]]*\]\(([^)\s]+)\)")
FENCED = re.compile(r"^(```|~~~).*?^\1", re.M | re.S)
LENGTHS = {
    "README.md": 100,
    "CONTRIBUTING.md": 120,
    "CHANGELOG.md": 60,
    "docs/HANDBOOK.md": 450,
    "docs/PROTOCOL.md": 800,
    "docs/RULES.md": 450,
    "docs/ARCHITECTURE.md": 200,
    "docs/THEOREMS.md": 300,
    "docs/DECISIONS.md": 240,
    "docs/PERFORMANCE.md": 100,
    "docs/PROVING.md": 100,
    "docs/GLOSSARY.md": 60,
    "examples/bridge/README.md": 80,
    "bench/native/README.md": 40,
}
CRATE_README = 40
# our former word, and what to write
WORDS = {
    r"\b(?:told|tell(?:s|ing)?)\b|\banswered by\b": "returns, reports, prints; a message is answered",
    r"\bsa(?:ys?|id)\b": "returns, reports, prints, states",
    r"\bfaults?\b": "error",
    r"\bwant of\b|growth was refused|\bfor want\b": "out of memory",
    r"\bstrangers?\b|\bforeign\b|\bstrange\b|no desk's": "unknown sender, not a desk",
    r"\ba stop\b|\bstops\b(?= of the machine)|\bstops the machine|\bmachine stops": "crash",
    r"fault line|\bwords of (?:a|the|each|its)\b": "standard error, arguments",
    r"heard list": "log",
    r"\bdoubt\b": "in flight",
    r"\bshuts?\b|\b(?:is|are|was|be) down\b": "failed",
    r"\bsized\b|\bno room\b": "out of space",
    r"\bwhole numbers?\b": "integer",
    r"\bnoughts?\b|\bplants?\b|edits to be refused|bodies that go through": "zeros, mutants",
    r"\bst(?:ands?|ood|anding)\b": "depends on, represents, is in",
    r"plain form|by one sweep": "the direct algorithm, the sweep",
    r"\bgo(?:es|ing)? by\b|\bwent by\b": "follow",
    r"\bof wh(?:ich|om)\b|none of them or some|\bbeside\b|\bso many\b": "two sentences, next to, as many as N",
}
# what documentation in crates/ has no more either
DOC_WORDS = {
    r"\bholds?\b|\bheld\b|\bkeeps?\b|\bkeeping\b|\bkept\b": "store, satisfy, stay, is true",
    r"\bword of\b|\bcommand line's words\b": "argument",
    r"\ba growth\b|\bgrowths?\b": "allocation",
    r"\b(?:never|isn't|not|it|store) down\b": "failed",
}
SCRIPTS = ["*.py", "*.sh", "dev", "desk", ".ci/run"]


def files(*patterns):
    """The files that match, but for those that git ignores."""
    listed = subprocess.run(["git", "ls-files", "-co", "--exclude-standard", *patterns], cwd=ROOT, capture_output=True, text=True, check=True)
    return [ROOT / name for name in sorted(set(listed.stdout.splitlines())) if (ROOT / name).is_file()]


def text_of(page):
    return FENCED.sub("", page.read_text())


def prose_of(page):
    """The page without code, output and names."""
    return re.sub(r"`[^`\n]*`|^    .*$", "", text_of(page), flags=re.M)


def comments_of(script):
    """The comments and docstrings of a script or source, without code, names and paths."""
    text, found = script.read_text(), []
    if "python" in text.partition("\n")[0] or script.suffix == ".py":
        starts_statement = True
        for token in tokenize.generate_tokens(io.StringIO(text).readline):
            if token.type == tokenize.COMMENT or (token.type == tokenize.STRING and starts_statement):
                found.append(token.string)
            if token.type not in (tokenize.COMMENT, tokenize.NL):
                starts_statement = token.type in (tokenize.NEWLINE, tokenize.INDENT, tokenize.DEDENT)
    else:
        begins = r"//+!?|--" if script.suffix in (".rt", ".antt") else r"#(?!!)"
        found = re.findall(rf"(?:^|\s)(?:{begins})\s(.*)", text)
    return re.sub(r"`[^`\n]*`|^    .*$|\S+\.(?:py|sh|md|txt)\b|\w+_\w+", "", "\n".join(found), flags=re.M)


def documentation_of(source):
    """The doc comments of a source, or the comments of a file of definitions, each as one line, without code and names."""
    begins = r"--+" if source.suffix == ".antt" else r"//[/!]"
    found, before = [], -2
    for number, line in enumerate(source.read_text().splitlines()):
        comment = re.match(rf"\s*{begins}(?:\s(.*)|)$", line)
        if comment and before == number - 1 and comment[1]:
            found[-1] += " " + comment[1]
        elif comment:
            found.append(comment[1] or "")
        before = number if comment else before
    return re.sub(r"`[^`\n]*`|\w+_\w+", "", "\n".join(found))


def anchors_of(page):
    """The names by which headings are linked to, as the usual viewers of Markdown make them."""
    anchors = []
    for heading in re.findall(r"^#+ +(.+?) *$", text_of(page), re.M):
        plain = re.sub(r"\[([^\]]*)\]\([^)]*\)", r"\1", heading.replace("`", ""))
        anchor = re.sub(r"[^\w\- ]", "", plain.lower()).replace(" ", "-")
        anchors.append(anchor if anchor not in anchors else f"{anchor}-{anchors.count(anchor)}")
    return anchors


def broken_links(page):
    for link in LINK.findall(re.sub(r"`[^`\n]*`", "", text_of(page))):
        if re.match(r"[a-z]+:", link):
            continue
        name, _, anchor = link.partition("#")
        to = (page.parent / name).resolve() if name else page
        if not to.exists():
            yield f"there is no {link}"
        elif anchor and to.suffix == ".md" and anchor not in anchors_of(to):
            yield f"{to.name} has no heading #{anchor}"


def too_long(page, name):
    most = CRATE_README if re.fullmatch(r"crates/\w+/README\.md", name) else LENGTHS.get(name)
    lines = len(page.read_text().splitlines())
    if most is None:
        yield "it isn't one of the project's pages"
    elif lines > most:
        yield f"it has {lines} lines, and may have {most}"


def own_words(prose, words=WORDS):
    for former, instead in words.items():
        for found in re.finditer(former, prose, re.I):
            around = " ".join(prose[max(0, found.start() - 30) : found.end() + 30].split())
            yield f"{found[0]!r} in {around!r}: write {instead}"


def scripts_to_run(page):
    """Compares the table of CONTRIBUTING.md with the scripts in checks/."""
    table = page.read_text().partition("## What to run")[2].partition("\n## ")[0]
    named = set(re.findall(r"\b(\w+\.py)\b", re.sub(r"\b(?:bench|examples)/\S+", "", table)))
    there = {it.name for it in (ROOT / "checks").glob("*.py") if os.access(it, os.X_OK)}
    for name in sorted(there - named):
        yield f"its table doesn't name checks/{name}"
    for name in sorted(named - there):
        yield f"its table names {name}, and checks/ has no such script"


def errors_of(page):
    name = page.relative_to(ROOT).as_posix()
    yield from broken_links(page)
    if name.startswith("docs/log/"):
        return
    yield from too_long(page, name)
    if name != "docs/GLOSSARY.md":
        yield from own_words(prose_of(page))
    if name == "CONTRIBUTING.md":
        yield from scripts_to_run(page)


def count_in_crates(documentation):
    """Prints the former words in comments of crates/, or in documentation alone, and how many there are in each file and crate.

    Returns how many there are.
    """
    in_files, in_crates = Counter(), Counter()
    for source in files("crates/*.rt", "crates/*.antt"):
        name = source.relative_to(ROOT)
        if not documentation:
            found = own_words(comments_of(source))
        elif name.parts[2] == "specs" or (name.parts[2] == "src" and not {"tests", "tests.rt"} & set(name.parts)):
            found = own_words(documentation_of(source), WORDS | DOC_WORDS)
        else:
            continue
        for word in found:
            in_files[name.as_posix()] += 1
            in_crates[name.parts[1]] += 1
            print(f"{name}: {word}")
    for name, count in in_files.most_common():
        print(f"{count:5} {name}")
    kind = "documentation" if documentation else "comments"
    print(f"{kind} of crates/: {in_crates.total()} words" + (";" if in_crates else ""), ", ".join(f"{crate} {count}" for crate, count in in_crates.most_common()))
    return in_crates.total()


def main():
    words = argparse.ArgumentParser(description=__doc__, formatter_class=argparse.RawDescriptionHelpFormatter)
    which = words.add_mutually_exclusive_group()
    which.add_argument("--crates", action="store_true", help="print such words of comments in crates/ too")
    which.add_argument("--docs", action="store_true", help="print such words of documentation in crates/ too")
    given = words.parse_args()
    in_crates = count_in_crates(given.docs) if given.crates or given.docs else 0
    pages, scripts = files("*.md"), files(*SCRIPTS)
    errors = [f"{page.relative_to(ROOT)}: {error}" for page in pages for error in errors_of(page)]
    errors += [f"{script.relative_to(ROOT)}: {error}" for script in scripts for error in own_words(comments_of(script))]
    for error in errors:
        print(error)
    print(f"{len(pages)} pages, {len(scripts)} scripts, {len(errors)} errors")
    sys.exit(bool(errors) or (given.docs and in_crates > 0))


if __name__ == "__main__":
    main()

"""Renames a local variable of a function: in its body, in its proof by hand, and in the mutants that change it.

A check names a call's result, an arm and a loop after the variable that they bind: `let near = spans(..)` is `c.spans-near` in a proof. So a
proof by hand has to follow the name.
"""

import re

from wrong_bodies import edits_of, span_of, steps_of

# after these the name of a variable comes: the known facts, a loop's state, a branch; an arm, a loop, a test or a join
STATES = re.compile(r"[clw]|fn|initial|(?:in|in_ok|in_err|in_default|loop|if|match|branch)(?:-.*)?")
# what follows the name of a loop's variable, or of one that a branch gave a value
OF_VARIABLES = ("index", "item", "iterator", "is", "end")


class NotRenamed(Exception):
    """Why the variable can't be renamed."""


def body_of(text, function):
    """Returns where the body of the function begins and ends in a file's text."""
    begin, end = span_of(text, function)
    indent = re.match(r" *", text[begin:])[0]
    found = re.compile(rf"^{indent}\{{|(?<=\S) \{{$", re.M).search(text, begin, end)
    if not found:
        raise NotRenamed(f"{function} has no body")
    return found.end(), end


def binds(body, name):
    """Whether the body binds the name: by `let`, by `for`, in an arm or by a closure."""
    patterns = (rf"\b(?:let|for)\b[^=;{{]*\b{name}\b[^=;{{]*(?:=|\bin\b)", rf"\b{name}\b[^=;\n]*=>", rf"\|[^|\n]*\b{name}\b[^|\n]*\|")
    return any(re.search(pattern, body) for pattern in patterns)


def bracket_before(body, place):
    """Returns the place of the bracket that is open at a place, or -1."""
    depth = 0
    for at in range(place - 1, -1, -1):
        depth += (body[at] in ")]}") - (body[at] in "([{")
        if depth < 0:
            return at
    return -1


def is_shorthand(body, begin, end):
    """Whether the name is a field's too: `Span { start, length }`."""
    alone = re.match(r"\s*[,}]", body[end:]) and re.search(r"[{,]\s*$", body[:begin])
    at = bracket_before(body, begin)
    return bool(alone and at >= 0 and body[at] == "{" and re.search(r"\b[A-Z]\w*\s*$", body[:at]))


def places_in(body, old, new):
    """Returns where the variable is in the body, and what is written there in its place."""
    for found in re.finditer(rf'"(?:[^"\\]|\\.)*"|//[^\n]*|(?<![\w.]){old}\b(?!\s*(?:!|::|\())|(?<=\.\.){old}\b', body):
        if found[0].startswith('"'):  # a text may name it: "{start}"
            for named in re.finditer(rf"(?<!\{{)\{{{old}(?=[:}}])", found[0]):
                yield found.start() + named.start(), found.start() + named.end(), f"{{{new}"
        elif found[0] == old:
            is_field = re.match(r"\s*:(?!:)", body[found.end() :]) and body[bracket_before(body, found.start())] == "{"
            if not is_field:
                yield *found.span(), f"{old}: {new}" if is_shorthand(body, *found.span()) else new


def in_body(body, old, new, begin=0, end=None):
    """Returns a part of the body, with the variable renamed."""
    end = len(body) if end is None else end
    written = []
    for first, last, text in places_in(body, old, new):
        if begin <= first and last <= end:
            written += [body[begin:first], text]
            begin = last
    return "".join([*written, body[begin:end]])


def in_proof(text, old, new, is_called):
    """Returns the proof with the function's variable renamed, and the steps that are named after it.

    A call is a step with its own name, or with its own and the variable's: so where a function of the variable's name is called, the first
    part of a step is the call.
    """

    def named(found):
        before = re.search(r"([\w-]+)\.$", text[: found.start()])
        first, *rest = found[0].split("-")
        of_state = before and STATES.fullmatch(before[1]) and not (before[1] == "c" and is_called)
        is_variable = rest[0] in OF_VARIABLES if rest else of_state
        if found[0].startswith("--") or not rest and not is_variable:
            return found[0]
        return "-".join([new if first == old and (is_variable or not is_called) else first, *(new if part == old else part for part in rest)])

    return re.sub(r"--[^\n]*|(?<![\w-])[a-zA-Z_][\w-]*", named, text)


def in_edit(edit, folder, file, function, old, new):
    """Returns the edit's text, with the variable renamed where it changes this function's body."""
    lines = edit.read_text().splitlines()
    places = [at for at, line in enumerate(lines) if re.match(r"(?:old|new):", line)]
    for number, (change, before, after) in enumerate(steps_of(edit, folder)):
        for which, text, part in ((0, before, change.old), (1, after, change.new)) if change.file == file else ():
            begin, end = body_of(text, function)
            place = change.place_in(before) - begin
            if 0 <= place < end - begin:
                lines[places[2 * number + which]] = f"{('old', 'new')[which]}: {in_body(text[begin:end], old, new, place, place + len(part))}"
    return "".join(f"{line}\n" for line in lines)


def renamed(folder, file, path, proofs, old, new):
    """Returns the texts of the files that change, by their paths. `file` declares the function, `proofs` are the files of its proof by hand."""
    function = "::".join(path.split("::")[-2:]) if re.search(r"::[A-Z]\w*::\w+$", f"::{path}") else path.rpartition("::")[2]
    source = folder / file
    text = source.read_text()
    begin, end = body_of(text, function)
    if not re.fullmatch(r"[a-z_]\w*", new) or re.search(rf"\b{new}\b", text[span_of(text, function)[0] : end]):
        raise NotRenamed(f"{new} isn't a new name in {path}")
    if not binds(text[begin:end], old):
        raise NotRenamed(f"{path} binds no variable {old}")
    texts = {edit: in_edit(edit, folder, file, function, old, new) for edit in edits_of(folder.name, True) if f"file: {file}\n" in edit.read_text()}
    is_called = bool(re.search(rf"\b{old}(?:::<[^>]*>)?\(", text[begin:end]))
    texts |= {proof: in_proof(proof.read_text(), old, new, is_called) for proof in proofs}
    texts[source] = text[:begin] + in_body(text[begin:end], old, new) + text[end:]
    return {file: text for file, text in texts.items() if text != file.read_text()}

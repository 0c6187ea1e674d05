"""Wrong bodies of crates: how an edit is put into a crate's texts, and how the prover took it. `./check` uses it."""
import os
import re

PARTS = ("src/", "specs/", "proofs/")
# a proof that names what an edit took away, and what cites that proof
NAMES = re.compile(r"(\./)?proofs/.*(has no field|is not in scope|has no `|was not admitted)")
# code or a definition that can't be read, so that no contract was tried
UNREAD = re.compile(r"is not in scope|has no field|is no name|operand is missing|expected the end|cannot continue")


# what the prover says last of a function, by its path below the crate
VERDICT = re.compile(r"fn \w+::(\S+): (.*)")
# where a function begins, and the impl or the trait around it; where a function of a module, or such a block, ends
FUNCTION = re.compile(r"^( *)(?:pub(?:\([^)]*\))? )?fn (\w+)", re.M)
BLOCK = re.compile(r"^(?:pub )?(?:impl|trait)\b([^{]*)", re.M)
CLOSED = re.compile(r"^}", re.M)


class BadEdit(Exception):
    """Why an edit can't be applied."""


def changes_of(edit, crate):
    """What an edit changes, in order: the path of a file, the text that has to be in it once, and what comes there."""
    path, old, found = "", "", []
    for line in text_of(edit).split("\n"):
        key, _, value = line.partition(":")
        value = value.removeprefix(" ")
        if key == "file":
            path = value.strip()
            if not path.startswith(PARTS) or not os.path.isfile(f"{crate}/{path}"):
                raise BadEdit(f"there is no file {path}")
        elif key == "old":
            old = value
        elif key == "new":
            if not path or not old:
                raise BadEdit("a 'new:' has no 'file:' and 'old:' before it")
            found.append((path, old, value))
            old = ""
    if not found:
        raise BadEdit("it has no 'old:' and 'new:'")
    return found


def edited(those, crate):
    """The texts of a crate's files that edits change, by path: pairs of 'old:' and 'new:' behind a 'file:'."""
    texts = {}
    for path, old, new in [change for edit in those for change in changes_of(edit, crate)]:
        text = texts.get(path) or text_of(f"{crate}/{path}")
        if text.count(old) != 1:
            raise BadEdit(f"an 'old:' is in {path} {text.count(old)} times, and not once")
        texts[path] = text.replace(old, new)
    return texts


def why_unfit(those, crate):
    """Why edits can't be put in together, if they can't."""
    try:
        edited(those, crate)
    except (BadEdit, OSError, ValueError) as error:
        return str(error)
    return ""


def functions_of(edit, crate):
    """The functions whose bodies an edit changes, by their paths below the crate. None where it changes more."""
    changes = changes_of(edit, crate)
    found = [function_at(path, text_of(f"{crate}/{path}"), old) for path, old, _ in changes]
    return [] if None in found else sorted(set(found))


class Round:
    """Edits of a crate, each of other functions, that are tried by one check, and what that said."""

    def __init__(self, edit, functions):
        self.edits, self.functions, self.said = [edit], functions, ""

    def takes(self, edit, functions, crate):
        """Whether an edit of these functions can be tried beside those that are here, which change other ones."""
        are_other = self.functions and functions and not set(self.functions).intersection(functions)
        return are_other and not why_unfit([*self.edits, edit], crate)

    def has_behind(self, edit):
        """Whether this is the first edit of several."""
        return len(self.edits) > 1 and edit == self.edits[0]


def rounds_of(due, crate):
    """These edits in few rounds. One that changes more than bodies of functions is alone in its own."""
    rounds = []
    for edit in due:
        functions = [] if why_unfit([edit], crate) else functions_of(edit, crate)
        its = next((it for it in rounds if it.takes(edit, functions, crate)), None)
        if its:
            its.edits.append(edit)
            its.functions += functions
        else:
            rounds.append(Round(edit, functions))
    return rounds


def function_at(path, text, old):
    """The path below the crate of the function where this text is, as the prover has it."""
    module = re.fullmatch(r"src/(.*)\.rt", path)
    above = text[: text.find(old)] if old in text else ""
    heads = [*FUNCTION.finditer(above)]
    if not module or not heads or CLOSED.search(above, heads[-1].end()):
        return None
    words = [] if module[1] in ("lib", "main") else module[1].split("/")
    if heads[-1][1]:
        words.append(owner_of(BLOCK.findall(above)[-1]))
    return "::".join([*words, heads[-1][2]])


def owner_of(head):
    """What the prover calls the type of an impl, behind which it puts the trait's name, or a trait."""
    while "<" in head:
        head = re.sub(r"<[^<>]*>", "", head)
    head = re.split(r"\bwhere\b|(?<!:):(?!:)", head)[0]
    return "".join(it.split("::")[-1].strip() for it in reversed(head.split(" for ")))


def text_of(path):
    with open(path, encoding="utf-8") as file:
        return file.read()


def why_not_refused(said):
    """Why what a check of an edited crate, or of functions of it, said isn't that a goal is false, '' where it is.

    And where it stops.
    """
    if re.search(r"^fn \S+: could not tell", said, re.M):
        return "BAD EDIT: the prover could not tell", ""
    verdicts = re.findall(r"^logic=(\S+)", said, re.M)
    for asked, proved in re.findall(r"^only=(\d+) proved=(\d+)$", said, re.M):
        verdicts.append("proved" if asked == proved else "not-proved")
    if verdicts[-1:] == ["proved"]:
        return "NOT REFUSED: the crate is still proved with this edit", ""
    lines = said.split("\n")
    if verdicts[-1:] != ["not-proved"]:
        first = next((line for line in lines if "error" in line), said[:200])
        return f"BAD EDIT: it didn't reach the prover: {first[:200]}", ""
    stops = [line for line in lines if re.match(r"(note: )?\S+:\d+:\d+:", line)]
    stops = [line for line in stops if ": error" in line or line.startswith("note: ")] or stops
    unread = next((line for line in stops if is_unread(line)), "")
    if unread:
        return f"BAD EDIT: it can't be read: {unread[:200]}", ""
    shown = next((line for line in stops if not NAMES.match(line)), "")
    if stops and not shown:
        return f"refused only since a proof names what the edit took away: {stops[0][:200]}", ""
    return "", shown


def why_not_refused_among(said, functions):
    """The same of these functions alone, of what a check of several said. It may leave out one that calls another."""
    told, notes, is_refused = [], [], False
    folders = tuple(f"./proofs/{it.replace('::', '/')}/" for it in functions)
    for line in said.split("\n"):
        verdict = VERDICT.match(line)
        if verdict and verdict[1] in functions:
            told += notes
            is_refused |= verdict[2].startswith(("no proof", "not proved")) and "it calls" not in verdict[2]
        if line.startswith(folders):
            told.append(line)
        if line.startswith("note: src/"):
            notes.append(line)
        elif verdict:
            notes = []
    if not (is_refused and told):
        return "that doesn't tell of it alone", ""
    return why_not_refused("\n".join([*told, "logic=not-proved"]))


def is_unread(line):
    """Whether a line tells that code or a definition can't be read, where a body that is only wrong reads well."""
    at = re.match(r"(?:\./)?(?:src|specs)/\S+?:\d+:\d+: error: (?:(`[^`]*`): )?(.*)", line)
    return at is not None and (not at[1] or UNREAD.search(re.sub(r"`[^`]*`", "", at[2])) is not None)

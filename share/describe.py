#!/usr/bin/env python3
"""Makes the completions, the manual page and the texts of help from what the program says of its own words.

  share/describe.py          writes completions/upsched.bash, completions/_upsched, man/upsched.1 and help/
  share/describe.py check    compares them with what it would write: status 1 and their names where they differ

help/ has what `--help` prints of the program (upsched.txt) and of each command, and what `--version` prints. The
launcher prints them where no proved program is there, and reads from them which words there are.

The program is the one behind --program, or the proved one (./upsched --build). Where that isn't there, it is the one
that is built without proof and kept, whole (quick/keep.sh).
"""
import argparse
import dataclasses
import os
import re
import subprocess
import sys

HERE = os.path.dirname(os.path.abspath(__file__))
PROGRAM = os.path.join(HERE, "../crates/upsched/out/upsched")
# What may stand behind an option, where it isn't a file.
VALUES = {"members": ["3", "5"]}
FILES = {"FILE", "DIR", "PLAN", "SCRIPT", "J0", "J1", "J2", "JOURNAL"}


@dataclasses.dataclass
class Item:
    """An argument, an option or a word, as a line of the help has it."""

    names: list
    value: str
    about: str


@dataclasses.dataclass
class Word:
    """What the help of a word says."""

    name: str
    about: str
    usage: str
    arguments: list
    options: list
    words: list
    behind: list
    said: str


def item_of(text):
    spelled, _, about = text.strip().partition("  ")
    value = re.search(r"<([^>]+)>|^\[([^\]]+)\]$", spelled)
    named = value.group(1) or value.group(2) if value else ""
    return Item(re.findall(r"--?[\w-]+", spelled) or [spelled.split()[0]], named, about.strip())


def items_of(lines):
    """The items of a part of the help: a line that stands further right goes on with the one before."""
    items = []
    for line in lines:
        if items and len(line) - len(line.lstrip()) > 8 and not line.lstrip().startswith("-"):
            items[-1] += " " + line.strip()
        else:
            items.append(line)
    return [item_of(it) for it in items]


def said_by(program, *words):
    """What the program prints, which is called by its name."""
    how = {"executable": program, "capture_output": True, "text": True, "check": True}
    return subprocess.run(["upsched", *words], **how).stdout


def word_of(program, name):
    said = said_by(program, *name.split(), "--help")
    parts, at = {"about": [], "behind": []}, "about"
    for line in said.splitlines():
        head = re.match(r"(Usage|Commands|Arguments|Options):(.*)", line)
        if head:
            at = head.group(1)
            parts[at] = [head.group(2).strip()] if head.group(2) else []
        elif not line.strip():
            at = "behind" if at != "about" and at == "Options" else at
        else:
            parts[at].append(line)
    usage = re.sub(r"^\S+", "upsched", " ".join(parts["Usage"]))
    lists = [items_of(parts.get(it, [])) for it in ("Arguments", "Options", "Commands")]
    return Word(name, " ".join(parts["about"]), usage, *lists, parts["behind"], said)


def described(program):
    """The program's own word, and each of its words."""
    whole = word_of(program, "")
    return whole, [word_of(program, it.names[0]) for it in whole.words if it.names[0] != "help"]


def options_of(word):
    return [name for it in word.options for name in it.names]


def bash(whole, words):
    names = " ".join(it.name for it in words)
    lines = [
        "# Completions of upsched for bash; share/describe.py makes them.",
        "_upsched() {",
        '    local now=${COMP_WORDS[COMP_CWORD]} before=${COMP_WORDS[COMP_CWORD - 1]} options=""',
        "    COMPREPLY=()",
        "    if ((COMP_CWORD == 1)); then",
        f'        COMPREPLY=($(compgen -W "{names} {" ".join(options_of(whole))}" -- "$now"))',
        "        return",
        "    fi",
        "    case $before in",
        *(f'        --{option}) COMPREPLY=($(compgen -W "{" ".join(values)}" -- "$now")) && return ;;'
          for option, values in VALUES.items()),
        "    esac",
        "    case ${COMP_WORDS[1]} in",
        *(f'        {it.name}) options="{" ".join(options_of(it))}" ;;' for it in words),
        "    esac",
        '    if [[ $now == -* ]]; then',
        '        COMPREPLY=($(compgen -W "$options" -- "$now"))',
        "    else",
        '        COMPREPLY=($(compgen -f -- "$now"))',
        "    fi",
        "}",
        "complete -o filenames -F _upsched upsched",
    ]
    return "\n".join(lines) + "\n"


def quoted(text):
    return text.replace("'", "'\\''").replace("[", "\\[").replace("]", "\\]").replace(":", "\\:")


def zsh_value(item, option=""):
    if not item.value:
        return ""
    if option in VALUES:
        return f":{item.value}:({' '.join(VALUES[option])})"
    return f":{item.value}:{'_files' if item.value.strip('.') in FILES else ''}"


def zsh_items(word):
    for it in word.options:
        for name in it.names:
            yield f"'{name}[{quoted(it.about)}]{zsh_value(it, name.strip('-'))}'"
    for it in word.arguments:
        many = "*" if it.names[0].endswith("...") else ""
        yield f"'{many}:{quoted(it.about)}:{'_files' if it.value in FILES else ''}'"


def zsh(whole, words):
    lines = [
        "#compdef upsched",
        "# Completions of upsched for zsh; share/describe.py makes them.",
        "local -a words_of_upsched",
        "words_of_upsched=(",
        *(f"    '{it.name}:{quoted(it.about)}'" for it in words),
        ")",
        "if ((CURRENT == 2)); then",
        "    _describe word words_of_upsched",
        "    return",
        "fi",
        "local word=$words[2]",
        "shift words",
        "((CURRENT--))",
        "case $word in",
    ]
    for it in words:
        lines += [f"    {it.name})", "        _arguments \\"]
        lines += [f"            {item} \\" for item in zsh_items(it)]
        lines[-1] = lines[-1][:-2]
        lines += ["        ;;"]
    return "\n".join(lines + ["esac"]) + "\n"


def roff(text):
    return text.replace("\\", "\\e").replace("-", "\\-")


def man_items(items):
    for it in items:
        value = f" \\fI{roff(it.value)}\\fR" if it.value and it.names[0].startswith("-") else ""
        yield from (".TP", f"\\fB{', '.join(roff(name) for name in it.names)}\\fR{value}", roff(it.about))


def man_word(word):
    yield from (f".SS {word.name}", roff(word.about) + ".", ".PP", f"\\fB{roff(word.usage)}\\fR")
    yield from man_items(word.arguments + [it for it in word.options if "--help" not in it.names])
    for line in word.behind:
        yield from (".PP", roff(line))


def man(whole, words):
    lines = [
        '.\\" Made by share/describe.py.',
        ".TH UPSCHED 1",
        ".SH NAME",
        f"upsched \\- {roff(whole.about)}",
        ".SH SYNOPSIS",
        f"\\fB{roff(whole.usage)}\\fR",
        ".SH WORDS",
        *(line for it in words for line in man_word(it)),
        ".SH EXIT STATUS",
        *man_items([
            Item(["0"], "", "It did what its word says, and what it looked at is good."),
            Item(["1"], "", "A fault, told in one line on standard error, or what it looked at isn't good."),
            Item(["2"], "", "Its words aren't understood."),
        ]),
        ".SH SEE ALSO",
        *(roff(line) for line in whole.behind),
    ]
    return "\n".join(lines) + "\n"


def texts_of(program):
    """The text of each file, by its path below this folder."""
    whole, words = described(program)
    texts = {"completions/upsched.bash": bash, "completions/_upsched": zsh, "man/upsched.1": man}
    texts = {path: make(whole, words) for path, make in texts.items()}
    texts["help/upsched.txt"] = whole.said
    texts["help/version.txt"] = said_by(program, "--version")
    texts.update({f"help/{word.name}.txt": word.said for word in words})
    return texts


def kept_program():
    """The path of the whole program that is built without proof and kept."""
    found = subprocess.run([os.path.join(HERE, "../quick/keep.sh"), "whole"], stdout=subprocess.PIPE, text=True)
    return found.stdout.rstrip("\n")


def text_at(path):
    if not os.path.exists(path):
        return None
    with open(path) as file:
        return file.read()


def main():
    given = argparse.ArgumentParser(description=__doc__, formatter_class=argparse.RawDescriptionHelpFormatter)
    given.add_argument("what", nargs="?", choices=["check"])
    given.add_argument("--program")
    given = given.parse_args()
    program = given.program or (PROGRAM if os.access(PROGRAM, os.X_OK) else kept_program())
    if not os.access(program, os.X_OK):
        sys.exit("share/describe.py: no proved program: ./upsched --build makes it")
    texts = texts_of(program)
    others = {f"help/{name}" for name in os.listdir(os.path.join(HERE, "help"))} - set(texts)
    if given.what == "check":
        differ = [path for path, text in texts.items() if text_at(os.path.join(HERE, path)) != text]
        for path in sorted([*differ, *others]):
            print(f"{path} isn't what share/describe.py makes of the program's help")
        sys.exit(1 if differ or others else 0)
    for path, text in texts.items():
        with open(os.path.join(HERE, path), "w") as file:
            file.write(text)
    for path in others:
        os.remove(os.path.join(HERE, path))


if __name__ == "__main__":
    main()

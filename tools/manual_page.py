"""The manual pages of the program and of the board server, made from the program's manual and help texts."""
import re

from tools.program import commands, printed

BOARD = "THE BOARD"
ESCAPES = {"\\": r"\e", "-": r"\-", "'": r"\(aq", "`": r"\(ga", "^": r"\(ha", "~": r"\(ti"}


def escaped(line):
    """A line, escaped so that roff prints each byte as it is."""
    text = "".join(ESCAPES.get(letter, letter) for letter in line)
    return rf"\&{text}" if text.startswith((".", "'", r"\(aq")) else text


def shown(lines, indent=2):
    """Lines that are printed as they are, without blank lines before and after them."""
    text = "\n".join(lines).strip("\n").splitlines()
    return [".nf", f".in {indent}n", *(escaped(line.rstrip()) for line in text), ".in", ".fi"]


def sections(manual):
    """The sections of the manual, each with its heading, which is a line in capitals without indentation."""
    parts = re.split(r"^([A-Z][A-Z ]+)$", manual, flags=re.M)
    return zip(parts[1::2], parts[2::2])


def unindented(text):
    """The lines of a text without the two spaces before most of them; the others are examples of files."""
    return [line.removeprefix("  ") for line in text.splitlines()]


def beginning(name, what, version, day):
    """The beginning of a page."""
    page = [f'.TH {name.upper()} 1 "{day.isoformat()}" "cdmseq {version}" "User Commands"', ".SH NAME", rf"{name} \- {escaped(what)}"]
    return [*page, ".SH SYNOPSIS"]


def ending(other):
    """The end of a page, which refers to the other page."""
    return [".SH SEE ALSO", rf".BR {other} (1).", "The pages and the worked days are in", ".IR /usr/share/doc/cdmseq ."]


def manual_page(program, version, day):
    """The page of the program as roff: its manual except the section on the board, and its help texts."""
    helps = {name: printed(program, name, "--help") for name in commands(program)}
    page = [
        *beginning("cdmseq", "pre-departure sequencer for Airport CDM", version, day),
        *shown(re.search(r"^Usage: (.*)", text, re.M)[1] for text in helps.values()),
        *(".SH COMMANDS", *shown(f"{name:<9}{about}" for name, about in commands(program).items())),
    ]
    for heading, text in sections(printed(program, "manual")):
        if heading != BOARD:
            page += [f".SH {heading}", *shown(unindented(text))]
    page.append(".SH ARGUMENTS AND OPTIONS")
    for name, text in helps.items():
        lines = [line for line in text.splitlines()[1:] if not line.startswith(("Usage: ", "Full manual"))]
        page += [f".SS {name}", *shown(lines, 0)]
    return "\n".join([*page, *ending("cdmboard")]) + "\n"


def board_page(program, version, day):
    """The page of the board server as roff: the section on the board in the program's manual."""
    about, usage, words = board_parts(program)
    page = [*beginning("cdmboard", "board server of cdmseq, over HTTP", version, day), *shown(usage), ".SH DESCRIPTION", *shown(about)]
    return "\n".join([*page, ".SH ARGUMENTS, OPTIONS AND COMMANDS", *shown(words), *ending("cdmseq")]) + "\n"


def board_parts(program):
    """The section on the board in its three parts: the description, the usage, and the meaning of the arguments."""
    text = "\n".join(unindented(dict(sections(printed(program, "manual")))[BOARD]))
    about, usage, words = re.split(r"\n\n(?=  cdmboard|LOG )", text.strip("\n"))
    return [part.splitlines() for part in (about, re.sub("^  ", "", usage, flags=re.M), words)]

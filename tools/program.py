"""What a program of this repository prints about itself."""
import re
import subprocess


def printed(program, *words):
    """What the program prints for these arguments, on standard output or, if there is nothing, on standard error."""
    ran = subprocess.run([program, *words], stdin=subprocess.DEVNULL, stdout=subprocess.PIPE, stderr=subprocess.PIPE, text=True, check=False)
    return ran.stdout or ran.stderr


def section(text, heading):
    """The lines below a heading of a help text, up to the next blank line."""
    found = re.search(rf"^{heading}:\n((?:.+\n)*)", text, re.M)
    return found[1].splitlines() if found else []


def commands(program):
    """The program's commands, each with its purpose."""
    lines = section(printed(program, "--help"), "Commands")
    return {line.split()[0]: re.sub(r" \[alias: .*", "", line.split(maxsplit=1)[1]) for line in lines}


def options(program, command):
    """The long options of a command, each with the name of its value, or None if it takes no value."""
    found = (re.match(r" +(?:-\w, )?(--[a-z-]+)(?: <(\w+)>)?", line) for line in section(printed(program, command, "--help"), "Options"))
    return {match[1]: match[2] for match in found if match}


def values(program, command, option):
    """The values of an option, as listed in the error for a wrong value; none if that error has no list."""
    found = re.search(r"\[possible values: (.*)\]", printed(program, command, f"{option}=?"))
    return found[1].split(", ") if found else []

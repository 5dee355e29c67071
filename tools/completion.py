"""The completions for bash: for the program, from its help texts, and for the board server, from the program's manual."""
import re

from tools.manual_page import board_parts
from tools.program import commands, options, values

TEXT = r"""# bash completion of cdmseq: commands, options, their values, and files
_cdmseq() {
    local word=${COMP_WORDS[COMP_CWORD]} before=${COMP_WORDS[COMP_CWORD - 1]}
    local commands='%(commands)s' options=''
    COMPREPLY=()
    if [ "$word" = = ]; then
        word=''
    elif [ "$before" = = ]; then
        before=${COMP_WORDS[COMP_CWORD - 2]}
    fi
    if [ "$COMP_CWORD" = 1 ]; then
        mapfile -t COMPREPLY < <(compgen -W "$commands --help --version" -- "$word")
        return
    fi
    case ${COMP_WORDS[1]} in
%(options)s
    esac
    case ${COMP_WORDS[1]}$before in
%(values)s
    esac
    case ${COMP_WORDS[1]},$word in
        help,*) mapfile -t COMPREPLY < <(compgen -W "$commands" -- "$word") ;;
        *,-*) mapfile -t COMPREPLY < <(compgen -W "$options" -- "$word") ;;
        *)
            compopt -o filenames 2> /dev/null
            mapfile -t COMPREPLY < <(compgen -f -- "$word")
            ;;
    esac
}
complete -F _cdmseq cdmseq
"""


def completion(program):
    """The program's completion as a bash script."""
    names, of_commands, of_values = list(commands(program)), [], []
    for name in names:
        found = options(program, name)
        of_commands.append(f"        {name}) options='{' '.join(found)}' ;;")
        for option, value in found.items():
            if value and value != "FILE":
                words = " ".join(values(program, name, option))
                of_values.append(f"        {name}{option}) mapfile -t COMPREPLY < <(compgen -W '{words}' -- \"$word\"); return ;;")
    of_values.append("        *) ;;")
    return TEXT % {"commands": " ".join(names), "options": "\n".join(of_commands), "values": "\n".join(of_values)}


BOARD_TEXT = r"""# bash completion of cdmboard: commands, options and files
_cdmboard() {
    local word=${COMP_WORDS[COMP_CWORD]}
    COMPREPLY=()
    case $COMP_CWORD,$word in
        *,-*) mapfile -t COMPREPLY < <(compgen -W '%(options)s' -- "$word"); return ;;
        1,*) mapfile -t COMPREPLY < <(compgen -W '%(commands)s' -- "$word") ;;
    esac
    compopt -o filenames 2> /dev/null
    mapfile -t -O "${#COMPREPLY[@]}" COMPREPLY < <(compgen -f -- "$word")
}
complete -F _cdmboard cdmboard
"""


def board_completion(program):
    """The board server's completion as a bash script."""
    usage = "\n".join(board_parts(program)[1])
    names = re.findall(r"^cdmboard ([a-z]+)", usage, re.M)
    return BOARD_TEXT % {"commands": " ".join(names), "options": " ".join(sorted({*re.findall("--[a-z-]+", usage), "--help"}))}

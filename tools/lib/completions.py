"""What shells complete after `ibsm` and its tools. What a tool takes is read from the usage in its help, and of a tool
in C from the list of its options."""
from __future__ import annotations

import re

# The commands of the program, and their options.
FLOOR, PLANS = "--floor", "--lmc --routing --roots --order"
COMMANDS = {
    "facts": FLOOR,
    "join": FLOOR,
    "plan": f"{FLOOR} {PLANS}",
    "order": "--routing --roots --order --held",
    "audit": "--all --max-load --loads --way --lanes",
    "next": f"{PLANS} --last-order",
    "run": PLANS,
    "serve": f"--sm-key --multicast {PLANS}",
    "manage": f"--sm-key --multicast {PLANS} --every --poll --timeout --tries --outstanding --strict --newest",
    "help": "",
}
RULES = "updown spread balance"
OPTION = r"(?<![\w-])--[a-z][a-z-]*"


class Taken:
    """What a tool takes, by its help: its options, the words of which some options take one, and its commands."""

    def __init__(self, text: str) -> None:
        usage = text[text.index("usage: ") :].split("\n\n")[0]
        if "[OPTION]" in usage.split("\n")[0]:
            # What follows the first line tells what the tool does.
            usage = "\n".join(re.findall(r"^ +(?:-\w, +)?(--[a-z][a-z-]*)", text, re.M))
        self.options = " ".join(dict.fromkeys(re.findall(OPTION, usage + " --help --version")))
        self.values = {
            option: words.replace("|", " ") for option, words in re.findall(rf"({OPTION}) ([a-z]+(?:\|[a-z]+)+)", usage)
        }
        if "--routing" in self.options.split():
            self.values.setdefault("--routing", RULES)
        self.commands = " ".join(re.findall(r"(?m)^(?:usage: | {7})\S+ ([a-z-]+) [A-Z]", usage))


def cases(tools: dict[str, Taken], indent: str) -> str:
    """Returns the branches of a shell's `case`: what may follow each tool, each command of `ibsm`, and `ibsm`
    itself."""
    lines = []
    for name, taken in sorted(tools.items()):
        lines.append(f"{indent}ibsm-{name}) words='{taken.options}' commands='{taken.commands}' ;;")
    lines += [f"{indent}'ibsm {name}') words='{options} --help' ;;" for name, options in COMMANDS.items()]
    every = " ".join(sorted({*COMMANDS, *tools}))
    return "\n".join([*lines, f"{indent}ibsm*) words='--help --version' commands='{every}' ;;"])


def value_cases(tools: dict[str, Taken], indent: str) -> str:
    """Returns the branches of a shell's `case` for options that take one of some words: those of each tool, and the
    rules of plans."""
    lines = [
        f"{indent}'ibsm-{name} {option}') values='{words}' ;;"
        for name, taken in sorted(tools.items())
        for option, words in sorted(taken.values.items())
    ]
    return "\n".join([*lines, f"{indent}'ibsm '*' --routing') values='{RULES}' ;;"])


def for_bash(tools: dict[str, Taken]) -> str:
    """Returns the text for bash. `tools` has what each tool takes by its name without ibsm-."""
    return f"""# Completion of ibsm and its tools for bash: options, commands, and else files.
_ibsm() {{
    local words= commands= values= name=${{COMP_WORDS[0]##*/}} at=1
    local now=${{COMP_WORDS[COMP_CWORD]}} before=${{COMP_WORDS[COMP_CWORD-1]}}
    COMPREPLY=()
    if [ "$name" = ibsm ] && [ "$COMP_CWORD" -gt 1 ]; then
        at=2
        case " {' '.join(COMMANDS)} " in
            *" ${{COMP_WORDS[1]}} "*) name="ibsm ${{COMP_WORDS[1]}}" ;;
            *) name="ibsm-${{COMP_WORDS[1]}}" ;;
        esac
    fi
    case $name in
{cases(tools, "        ")}
    esac
    case "$name $before" in
{value_cases(tools, "        ")}
        'ibsm help '*) values='{' '.join(sorted({*COMMANDS, *tools}))}' ;;
    esac
    if [ "$values" ]; then
        COMPREPLY=($(compgen -W "$values" -- "$now"))
    elif [ "${{now#-}}" != "$now" ]; then
        COMPREPLY=($(compgen -W "$words" -- "$now"))
    elif [ "$COMP_CWORD" -eq "$at" ] && [ "$commands" ]; then
        COMPREPLY=($(compgen -W "$commands" -- "$now"))
    fi
}}
complete -o default -F _ibsm ibsm {' '.join(f'ibsm-{name}' for name in sorted(tools))}
"""


def for_zsh(tools: dict[str, Taken]) -> str:
    """Returns the text for zsh. `tools` has what each tool takes by its name without ibsm-."""
    return f"""#compdef ibsm {' '.join(f'ibsm-{name}' for name in sorted(tools))}
# Completion of ibsm and its tools for zsh: options, commands, and else files.
local words= commands= values= name=$service now=$PREFIX at=2
local -a given
given=("${{(@)${{(z)BUFFER}}}}")
if [[ $name == ibsm && $CURRENT -gt 2 ]]; then
    at=3
    case " {' '.join(COMMANDS)} " in
        *" ${{given[2]}} "*) name="ibsm ${{given[2]}}" ;;
        *) name="ibsm-${{given[2]}}" ;;
    esac
fi
case $name in
{cases(tools, "    ")}
esac
case "$name ${{given[CURRENT-1]}}" in
{value_cases(tools, "    ")}
    'ibsm help '*) values='{' '.join(sorted({*COMMANDS, *tools}))}' ;;
esac
if [[ -n $values ]]; then
    compadd -- ${{=values}}
elif [[ $now == -* ]]; then
    compadd -- ${{=words}}
elif [[ $CURRENT -eq $at && -n $commands ]]; then
    compadd -- ${{=commands}}
else
    _files
fi
"""

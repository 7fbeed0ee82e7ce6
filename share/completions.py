#!/usr/bin/env python3
"""Completions of rr's words for bash, zsh and fish, made from the program's own help.

    share/completions.py --rr RR            compares rr.bash, _rr and rr.fish here; the status is 1 where one differs
    share/completions.py --write --rr RR    writes them

To use one, for rr and for rr-unproved:
    bash    source share/rr.bash
    zsh     copy share/_rr into a folder of fpath
    fish    copy share/rr.fish to ~/.config/fish/completions/rr.fish"""
import argparse
import pathlib
import re
import subprocess
import sys

HERE = pathlib.Path(__file__).resolve().parent
MADE = "# Made by share/completions.py from the help of rr."
PROGRAMS = ("rr", "rr-unproved")


def told(program, words):
    return subprocess.run([program, *words], capture_output=True, text=True, check=True, timeout=60).stdout


def section(text, title):
    """The lines below a title, each with its word and what it says of it."""
    inside = re.search(rf"^{title}:\n((?:  .*\n)+)", text, re.M)
    return [re.split(r"  +", line.strip(), maxsplit=1) for line in inside.group(1).splitlines()] if inside else []


class Option:
    """An option: its short and long spelling, its value's name and what the help says."""

    def __init__(self, spelled, text=""):
        short, long, self.value = re.fullmatch(r"(?:(-\w)(?:, )?)?(--[\w-]+)?(?: <(\w+)>)?", spelled).groups()
        self.spellings = [it for it in (short, long) if it]
        self.text = re.sub(r" \(see more with '--help'\)", "", text)


class Command:
    """A command: its options, and whether its arguments are files, folders or neither."""

    def __init__(self, program, name, text):
        self.name, self.text = name, text
        if name == "help":
            self.options, self.takes = [], "commands"
            return
        help_text = told(program, [name, "-h"])
        self.options = [Option(*row) for row in section(help_text, "Options")]
        arguments = [word.strip("<>[]") for word, _ in section(help_text, "Arguments")]
        self.takes = kind(arguments[0]) if arguments else "nothing"


def kind(value):
    """What completes a value of this name."""
    return {"FILE": "files", "REPORT": "files", "SCRIPT": "files", "TAPE": "files", "DIR": "folders"}.get(value, "nothing")


def bash(commands, options):
    """A function for bash."""
    cases = []
    for command in commands:
        words = " ".join(it for option in command.options for it in option.spellings)
        cases.append(f"    {command.name}) words='{words}'; takes={command.takes} ;;")
    # (an option of one name may have a value with one command and none with another, as --tape of run and draw)
    valued = [(command.name, option) for command in commands for option in command.options if option.value]
    values = {f"{name}:{spelled}": kind(option.value) for name, option in valued for spelled in option.spellings}
    rows = [f"    {pair}) takes={takes}; words= ;;" for pair, takes in sorted(values.items())]
    names = " ".join(command.name for command in commands)
    top = " ".join(it for option in options for it in option.spellings)
    return "\n".join(
        [
            MADE,
            "_rr() {",
            "  local current=$2 before=$3 words takes=nothing",
            "  if [ \"$COMP_CWORD\" = 1 ]; then",
            f"    COMPREPLY=($(compgen -W '{names} {top}' -- \"$current\"))",
            "    return",
            "  fi",
            "  case ${COMP_WORDS[1]} in",
            *cases,
            "  esac",
            "  case ${COMP_WORDS[1]}:$before in",
            *rows,
            "  esac",
            f"  [ $takes != commands ] || words='{names}'",
            "  COMPREPLY=($(compgen -W \"$words\" -- \"$current\"))",
            "  case $current:$takes in",
            "    -*) ;;",
            "    *:files) compopt -o filenames; mapfile -t -O ${#COMPREPLY[@]} COMPREPLY < <(compgen -f -- \"$current\") ;;",
            "    *:folders) compopt -o filenames; mapfile -t -O ${#COMPREPLY[@]} COMPREPLY < <(compgen -d -- \"$current\") ;;",
            "  esac",
            "}",
            f"complete -F _rr {' '.join(PROGRAMS)}",
            "",
        ]
    )


ZSH = {"files": "_files", "folders": "_files -/", "nothing": " ", "commands": "_rr_commands"}


def zsh_text(text):
    return re.sub(r"([\[\]:'\\])", lambda it: "'\\''" if it.group() == "'" else "\\" + it.group(), text)


def zsh_options(options):
    rows = []
    for option in options:
        value = f":{option.value}:{ZSH[kind(option.value)]}" if option.value else ""
        rows += [f"'{spelled}[{zsh_text(option.text)}]{value}'" for spelled in option.spellings]
    return rows


def zsh(commands, options):
    """A function for zsh."""
    names = [f"    '{command.name}:{zsh_text(command.text)}'" for command in commands]
    lines = [f"#compdef {' '.join(PROGRAMS)}", MADE, "_rr_commands() {", "  local -a names", "  names=(", *names, "  )"]
    lines += ["  _describe command names", "}", "_rr() {", "  local state", "  _arguments -C \\"]
    lines += [f"    {row} \\" for row in zsh_options(options)]
    lines += ["    '1:command:_rr_commands' \\", "    '*::argument:->inner'", "  [[ $state == inner ]] || return 0", "  case $words[1] in"]
    for command in commands:
        rest = f"'*:argument:{ZSH[command.takes]}'"
        lines.append(f"    {command.name}) _arguments " + " ".join([*zsh_options(command.options), rest]) + " ;;")
    return "\n".join([*lines, "  esac", "}", "_rr \"$@\"", ""])


def fish_text(text):
    return "'" + text.replace("\\", "\\\\").replace("'", "\\'") + "'"


def fish_option(option, when):
    words = "".join(f" -s {it[1:]}" if len(it) == 2 else f" -l {it[2:]}" for it in option.spellings)
    value = {"files": " -rF", "folders": " -xa '(__fish_complete_directories)'", "nothing": " -x"}[kind(option.value)] if option.value else ""
    return f"  complete -c $program{when}{words}{value} -d {fish_text(option.text)}"


def fish(commands, options):
    """Lines for fish."""
    lines = [MADE, f"for program in {' '.join(PROGRAMS)}", "  complete -c $program -f"]
    lines += [fish_option(option, " -n __fish_use_subcommand") for option in options]
    for command in commands:
        lines.append(f"  complete -c $program -n __fish_use_subcommand -a {command.name} -d {fish_text(command.text)}")
        when = f" -n '__fish_seen_subcommand_from {command.name}'"
        lines += [fish_option(option, when) for option in command.options]
        if command.takes == "files":
            lines.append(f"  complete -c $program{when} -F")
        elif command.takes == "folders":
            lines.append(f"  complete -c $program{when} -a '(__fish_complete_directories)'")
        elif command.takes == "commands":
            lines.append(f"  complete -c $program{when} -a '{' '.join(it.name for it in commands)}'")
    return "\n".join([*lines, "end", ""])


def main():
    words = argparse.ArgumentParser(description=__doc__, formatter_class=argparse.RawDescriptionHelpFormatter)
    words.add_argument("--write", action="store_true")
    words.add_argument("--rr", type=pathlib.Path, required=True)
    asked = words.parse_args()
    program = asked.rr.resolve()
    top = told(program, ["-h"])
    commands = [Command(program, *row) for row in section(top, "Commands")]
    options = [Option(*row) for row in section(top, "Options")]
    for name, made in (("rr.bash", bash), ("_rr", zsh), ("rr.fish", fish)):
        text = made(commands, options)
        if asked.write:
            (HERE / name).write_text(text)
        elif (HERE / name).read_text() != text:
            sys.exit(f"share/completions.py: share/{name} isn't what the program's help gives; --write makes it anew")
    print(f"share/completions.py: {len(commands)} commands, for bash, zsh and fish")


main()

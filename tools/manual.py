#!/usr/bin/env python3
"""Makes the man page and the shells' completions of bin/hrt from its definition in command.py:

    tools/manual.py NAME       prints the one of this name: hrt.1, hrt.bash, _hrt, hrt.fish
    tools/manual.py --write    writes all of them into share/"""
import os
import sys

from command import COMMANDS, ENVIRONMENT, EXAMPLE, INTRODUCTION, OPTIONS, SEE_ALSO, STATUSES

TOP = os.path.dirname(os.path.dirname(os.path.abspath(__file__)))
SHARE = os.path.join(TOP, "share")

CHECK_BY_ITSELF = "hrt_check is the program that hrt check starts. By itself it takes no word but --summary, and reads standard input."


def version():
    with open(os.path.join(TOP, "VERSION"), encoding="ascii") as file:
        return file.read().strip()


def roff(text):
    """Text as a man page has it, which calls the command by the name that it has where it is installed."""
    return text.replace("bin/hrt", "hrt").replace("\\", "\\e").replace("-", "\\-").replace("'", "\\(aq")


def item(name, says):
    return [".TP", f".B {roff(name)}", f"{roff(says)}."]


def man_page():
    lines = [
        f'.TH HRT 1 "" "Hulayban {version()}" "User Commands"',
        ".SH NAME",
        "hrt, hrt_check \\- runs scripts of timer calls on a proved library of high\\-resolution timers, and checks the trace of a kernel\\(aqs own timers",
        ".SH SYNOPSIS",
    ]
    for synopsis in [*(it.synopsis() for it in COMMANDS), *(it.name for it in OPTIONS)]:
        lines += [f".B hrt {roff(synopsis)}", ".br"]
    lines.append(".SH DESCRIPTION")
    for text in (*INTRODUCTION, CHECK_BY_ITSELF):
        lines += [".PP", roff(text)]
    lines.append(".SH COMMANDS")
    for command in COMMANDS:
        lines += item(command.synopsis(), f"{command.says}. {command.more.rstrip('.')}")
        for option in command.options:
            lines += [".RS", *item(option.whole(), option.says_all()), ".RE"]
    for title, entries in (("OPTIONS", [(it.name, it.says) for it in OPTIONS]), ("EXIT STATUS", STATUSES), ("ENVIRONMENT", ENVIRONMENT)):
        lines.append(f".SH {title}")
        for name, says in entries:
            lines += item(str(name), says)
    lines += [".SH EXAMPLES", ".nf", *map(roff, EXAMPLE), ".fi", ".SH SEE ALSO", roff(SEE_ALSO)]
    return "\n".join(lines) + "\n"


def bash_completions():
    names = " ".join(it.name for it in (*COMMANDS, *OPTIONS))
    lines = [
        "# Completions of bin/hrt for bash: source this file.",
        "_hrt() {",
        "    local word=${COMP_WORDS[COMP_CWORD]} words= files=no",
        '    case "$COMP_CWORD ${COMP_WORDS[1]}" in',
        f"        '1 '*) words='{names}' ;;",
    ]
    for command in COMMANDS:
        words = " ".join(it.name for it in command.options)
        lines.append(f"        *' {command.name}') words='{words}' files={'yes' if command.takes_file else 'no'} ;;")
    lines += [
        "    esac",
        '    mapfile -t COMPREPLY < <(compgen -W "$words" -- "$word"; [ "$files" = no ] || compgen -f -- "$word")',
        "}",
        "complete -o filenames -F _hrt hrt bin/hrt ./bin/hrt",
    ]
    return "\n".join(lines) + "\n"


def zsh_completions():
    lines = ["#compdef hrt bin/hrt", "# Completions of bin/hrt for zsh: put this file into a folder of $fpath.", "_hrt() {", "    local -a words=("]
    lines += [f"        '{it.name}:{it.says}'" for it in (*COMMANDS, *OPTIONS)]
    lines += ["    )", "    (( CURRENT > 2 )) || { _describe command words; return }", "    case $words[2] in"]
    for command in COMMANDS:
        behind = {it.name: f":{it.range()}:" if it.has_number() else ":script:_files" if it.file else "" for it in command.options}
        found = [f"'{it.name}[{it.says}]{behind[it.name]}'" for it in command.options]
        lines.append(f"        {command.name}) _arguments {' '.join(found + [chr(39) + '*:file:_files' + chr(39)] * command.takes_file)} ;;")
    return "\n".join([*lines, "    esac", "}", '_hrt "$@"']) + "\n"


def fish_completions():
    lines = ["# Completions of bin/hrt for fish: put this file into ~/.config/fish/completions."]
    lines += [f"complete -c hrt -n __fish_use_subcommand -f -a {it.name} -d '{it.says}'" for it in COMMANDS]
    lines += [f"complete -c hrt -n __fish_use_subcommand -f -l {it.name[2:]} -d '{it.says}'" for it in OPTIONS]
    for command in COMMANDS:
        seen = f"complete -c hrt -n '__fish_seen_subcommand_from {command.name}'"
        lines += [f"{seen} {'-x ' if it.has_number() else '-r ' * bool(it.file)}-l {it.name[2:]} -d '{it.says_all()}'" for it in command.options]
        lines += [] if command.takes_file else [f"{seen} -f"]
    return "\n".join(lines) + "\n"


MADE = {"hrt.1": man_page, "hrt.bash": bash_completions, "_hrt": zsh_completions, "hrt.fish": fish_completions}


def main(words):
    if words == ["--write"]:
        os.makedirs(SHARE, exist_ok=True)
        for name, make in MADE.items():
            with open(os.path.join(SHARE, name), "w", encoding="ascii") as file:
                file.write(make())
        return 0
    if len(words) != 1 or words[0] not in MADE:
        print(__doc__, file=sys.stderr)
        return 2
    sys.stdout.write(MADE[words[0]]())
    return 0


if __name__ == "__main__":
    sys.exit(main(sys.argv[1:]))

#!/usr/bin/env python3
"""usage: describe.py man|bash|zsh|fish PROGRAM

Prints the manual page of modsched, or what completes its command lines in a shell, made from the help that the program prints.
"""
import re
import subprocess
import sys

SECTIONS = ("Usage:", "Commands:", "Arguments:", "Options:", "Limits:", "Exit status:")


def help_of(program, *words):
    """The help of the program or of a subcommand: the lines of each section by its name, those before the first under "about"."""
    text = subprocess.run([program, *words, "--help"], check=True, capture_output=True, text=True).stdout
    parts, name = {"about": []}, "about"
    for line in text.splitlines():
        head = next((s for s in SECTIONS if line.startswith(s)), None)
        if head:
            name, line = head, line[len(head):].strip()
            parts[name] = []
        parts[name].append(line.rstrip())
    return {name: "\n".join(lines).strip("\n") for name, lines in parts.items()}


def commands_of(program):
    """The subcommands with what they do, in the order of the help."""
    rows = (line.split(None, 1) for line in help_of(program)["Commands:"].splitlines())
    return {name: about for name, about in rows if name != "help"}


def entries_of(text):
    """What is told of each argument or option: its head, as `--ratio <R>`, and its text."""
    heads = list(re.finditer(r"^ {2,6}(-\S.*|<\S+>)$", text, re.M))
    ends = [head.start() for head in heads[1:]] + [len(text)]
    return [(head[1], text[head.end():end].strip()) for head, end in zip(heads, ends)]


def options_of(parts):
    """The long names of options, with whether they take a value and the first sentence of what they do."""
    for head, text in entries_of(parts.get("Options:", "")):
        name = re.search(r"--([a-z-]+)", head)[1]
        yield name, "<" in head, " ".join(re.split(r"\.\s| \(|\n\s*\[|$", text)[0].split()).rstrip(".")


def quoted(text):
    """A word of a shell."""
    return "'" + text.replace("'", "'\\''") + "'"


def roff(text):
    """Text as roff; lines that begin with blanks keep their layout."""
    lines, kept = [], False
    for line in text.splitlines():
        if line.startswith("  ") != kept and line:
            kept = not kept
            lines.append(".nf" if kept else ".fi")
        lines.append(re.sub(r"^([.'])", r"\\&\1", line.replace("\\", "\\e").replace("-", "\\-")) or ".PP")
    return "\n".join(lines + [".fi"] * kept)


def roff_entries(text):
    for head, about in entries_of(text):
        yield ".TP\n.B " + roff(head) + "\n" + roff("\n".join(line.strip() for line in about.splitlines() if line.strip()))


def man(program):
    version = subprocess.run([program, "--version"], check=True, capture_output=True, text=True).stdout.split()[1]
    whole, commands = help_of(program), commands_of(program)
    page = [f'.TH MODSCHED 1 "" "modsched {version}" "User Commands"', ".SH NAME",
            "modsched \\- " + roff(whole["about"].split(".")[0].replace("\n", " ")),
            ".SH SYNOPSIS", roff(whole["Usage:"]), ".SH DESCRIPTION", roff(whole["about"]), ".SH COMMANDS"]
    for name in commands:
        parts = help_of(program, name)
        page += [".SS " + roff(parts["Usage:"]), roff(parts["about"])]
        for section in ("Arguments:", "Options:"):
            page += roff_entries(parts.get(section, ""))
    page += [".SH LIMITS", roff(whole["Limits:"]), ".SH EXIT STATUS", roff(whole["Exit status:"])]
    return "\n".join(page)


def bash(program):
    commands = commands_of(program)
    cases = "\n".join(f"        {name}) options='{' '.join('--' + o for o, _, _ in options_of(help_of(program, name)))}' ;;" for name in commands)
    return f"""# Completes command lines of modsched in bash.
_modsched() {{
    local word=${{COMP_WORDS[COMP_CWORD]}} options
    case ${{COMP_WORDS[1]}} in
{cases}
        *) options='{' '.join(commands)} help --help --version' ;;
    esac
    [ "$COMP_CWORD" -gt 1 ] && [[ $word != -* ]] && options=
    mapfile -t COMPREPLY < <(compgen -W "$options" -- "$word")
}}
complete -o default -F _modsched modsched"""


def zsh(program):
    commands = commands_of(program)
    named = "\n".join("        " + quoted(f"{name}:{about}") for name, about in commands.items())
    cases = []
    for name in commands:
        parts = help_of(program, name)
        rules = [quoted(f"--{o}[{about}]" + f":{o}:" * takes) for o, takes, about in options_of(parts)]
        rules += [quoted(f"{n}:{head.strip('<>').lower()}:_files") for n, (head, _) in enumerate(entries_of(parts.get("Arguments:", "")), 1)]
        cases.append(f"        {name}) _arguments {' '.join(rules)} ;;")
    cases = "\n".join(cases)
    return f"""#compdef modsched
# Completes command lines of modsched in zsh.
_modsched() {{
    local -a commands=(
{named}
    )
    if (( CURRENT == 2 )); then
        _describe command commands
        return
    fi
    shift words
    (( CURRENT-- ))
    case $words[1] in
{cases}
    esac
}}
_modsched "$@\""""


def fish(program):
    commands = commands_of(program)
    lines = ["# Completes command lines of modsched in fish."]
    for name, about in commands.items():
        lines.append(f"complete -c modsched -f -n __fish_use_subcommand -a {name} -d {quoted(about)}")
        for option, takes, what in options_of(help_of(program, name)):
            lines.append(f"complete -c modsched -n '__fish_seen_subcommand_from {name}' -l {option}{' -x' * takes} -d {quoted(what)}")
    return "\n".join(lines)


if __name__ == "__main__":
    forms = {"man": man, "bash": bash, "zsh": zsh, "fish": fish}
    if len(sys.argv) != 3 or sys.argv[1] not in forms:
        sys.exit(__doc__)
    print(forms[sys.argv[1]](sys.argv[2]))

"""Completions of am-rehearse for zsh and fish, from what its --help prints. (Those for bash the program prints itself.)"""
import re
import subprocess
from pathlib import Path

LINE = re.compile(r"^ +(?:-(?P<short>\w), )?(?:--(?P<option>[\w-]+)(?: <(?P<value>[^>]*)>)?|(?P<name>[<\[]?[\w=]+[>\]]?(?:\.\.\.)?))"
                  r"  +(?P<text>.*)$")
VALUES = re.compile(r" \[(?:possible values: (?P<values>[^\]]*)|default: [^\]]*)\]")
# What is completed in another way than by the names of files.
NO_FILE = {"DURATION", "NAME", "ROUTE", "MATCHER", "RECEIVER,..", "LABEL=VALUE"}

# The lines of a help, by their headings.
Help = dict[str, list[re.Match[str]]]


class Option:
    """An option of a command: its value, if it takes one, and the values that it can have, if they are listed."""

    def __init__(self, found: re.Match[str]) -> None:
        self.name, self.short, self.value = found["option"], found["short"], found["value"]
        listed = [it["values"] for it in VALUES.finditer(found["text"]) if it["values"]]
        self.values, self.text = listed[0].split(", ") if listed else [], VALUES.sub("", found["text"])


class Command:
    """A command: what it does, its options, and the names of its arguments."""

    def __init__(self, name: str, text: str, words: Help) -> None:
        self.name, self.text = name, text
        self.options = [Option(it) for it in words["Options"]]
        self.arguments = [re.sub(r"\W*([\w=]+)\W*", r"\1", it["name"]) for it in words.get("Arguments", [])]


def help_of(program: Path, *words: str) -> Help:
    """The lines of a help, by the heading that they are under."""
    said = subprocess.run([program, *words, "--help"], stdout=subprocess.PIPE, check=True).stdout.decode()
    found: Help = {}
    heading = ""
    for line in said.splitlines():
        heading = line[:-1] if re.match(r"\w+:$", line) else heading
        if match := LINE.match(line):
            found.setdefault(heading, []).append(match)
    return found


def commands_of(program: Path) -> tuple[list[Command], list[Option]]:
    """The commands of a program, and its own options."""
    words = help_of(program)
    found = [Command(it["name"], it["text"], help_of(program, it["name"])) for it in words["Commands"] if it["name"] != "help"]
    return found, [Option(it) for it in words["Options"]]


def quoted(text: str) -> str:
    return "'" + text.replace("'", "'\\''") + "'"


def zsh_option(option: Option) -> str:
    """A specification for _arguments."""
    text = option.text.replace("\\", "\\\\").replace("[", "\\[").replace("]", "\\]").replace(":", "\\:")
    action = f"({' '.join(option.values)})" if option.values else "" if option.value in NO_FILE else "_files"
    value = f":{option.value.replace(':', '')}:{action}" if option.value else ""
    # (an option that can be given again)
    return quoted(f"{'*' if 'given again' in option.text else ''}--{option.name}[{text}]{value}")


def zsh(program: Path, name: str) -> str:
    """A completion for zsh, which is found as _NAME."""
    commands, own = commands_of(program)
    lines = [f"#compdef {name}", f"_{name.replace('-', '_')}() {{", "    local -a commands=("]
    lines += [f"        {quoted(it.name + ':' + it.text.replace(':', ' -'))}" for it in commands]
    lines += ["    )", "    if (( CURRENT == 2 )); then", "        _describe command commands",
              f"        _arguments {' '.join(map(zsh_option, own))}", "        return", "    fi", "    local command=$words[2]",
              "    shift words", "    (( CURRENT-- ))", "    case $command in"]
    for it in commands:
        files = [quoted("*:FILE:_files")] if it.arguments else []
        lines += [f"    {it.name})", f"        _arguments {' '.join([*map(zsh_option, it.options), *files])} ;;"]
    return "\n".join([*lines, "    esac", "}", f"_{name.replace('-', '_')} \"$@\"", ""])


def fish_option(name: str, when: str, option: Option) -> str:
    words = ["complete", "-c", name, "-n", quoted(when), "-l", option.name, *(["-s", option.short] if option.short else [])]
    if option.values:
        words += ["-x", "-a", quoted(" ".join(option.values))]
    elif option.value in NO_FILE:
        words += ["-x"]
    elif option.value:
        words += ["-r", "-F"]
    return " ".join([*words, "-d", quoted(option.text)])


def fish(program: Path, name: str) -> str:
    """A completion for fish."""
    commands, own = commands_of(program)
    lines = [f"complete -c {name} -n __fish_use_subcommand -f -a {it.name} -d {quoted(it.text)}" for it in commands]
    lines += [fish_option(name, "__fish_use_subcommand", it) for it in own]
    for it in commands:
        when = f"__fish_seen_subcommand_from {it.name}"
        lines += [] if it.arguments else [f"complete -c {name} -n {quoted(when)} -f"]
        lines += [fish_option(name, when, option) for option in it.options]
    return "\n".join([*lines, ""])

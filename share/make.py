#!/usr/bin/env python3
"""Makes the man page and the completions of bash, zsh and fish out of what the program's help says, `docs/HELP.txt`.

    share/make.py          writes tep.1, tep.bash, _tep and tep.fish beside this script
    share/make.py check    tells which of them isn't what it would write; the status is 1 where one isn't

What the page has besides stands in `tep.1.in`.
"""

import dataclasses
import datetime
import pathlib
import re
import sys
import textwrap

HERE = pathlib.Path(__file__).resolve().parent
TOP = HERE.parent
COLUMNS = 78

# What stands between the brackets of a value, and what a completion offers for it. Of another value it offers nothing.
IS_FILE = {"FILE", "check LEAF"}
IS_FOLDER = {"DIR", "SHARD"}
RANGE = re.compile(r"(\d+)\.\.(\d+)")


@dataclasses.dataclass
class Option:
    """An option of a command; `short` and `value` are empty where it has none."""

    short: str
    long: str
    value: str
    text: str

    def names(self):
        return ([f"-{self.short}"] if self.short else []) + [f"--{self.long}"]

    def is_repeatable(self):
        return self.text.endswith("; repeatable")


@dataclasses.dataclass
class Argument:
    """The words behind the options: `FILE`, with dots where there may be many, in square brackets where there may be none."""

    value: str
    is_many: bool
    may_lack: bool
    text: str


@dataclasses.dataclass
class Command:
    """What the help says of a command; the program's own has no name."""

    name: str
    about: str
    usage: str = ""
    commands: list = dataclasses.field(default_factory=list)  # names with their texts
    options: list = dataclasses.field(default_factory=list)
    arguments: list = dataclasses.field(default_factory=list)
    notes: list = dataclasses.field(default_factory=list)  # paragraphs
    examples: list = dataclasses.field(default_factory=list)  # command lines

    def needs(self, option):
        """The usage names the option by itself."""
        return f" --{option.long} " in self.usage


class Unread(Exception):
    """A line of the help that is of no known form."""


def found(pattern, line):
    match = re.fullmatch(pattern, line)
    if not match:
        raise Unread(line)
    return [group or "" for group in match.groups()]


def option_of(line):
    return Option(*found(r" +(?:-(\w), |)--([\w-]+)(?: <([^>]+)>|)  +(\S.*)", line))


def argument_of(line):
    bracket, value, dots, text = found(r"  ([<\[])([\w ]+)[>\]](\.\.\.|)  +(\S.*)", line)
    return Argument(value, bool(dots), bracket == "[", text)


def command_of(name, text):
    """What a help text says."""
    about, *paragraphs = text.strip("\n").split("\n\n")
    command = Command(name, about)
    for paragraph in paragraphs:
        head, *lines = paragraph.split("\n")
        if head.startswith("Usage: "):
            command.usage = head[len("Usage: ") :] + " "
        elif head == "Commands:":
            command.commands = [found(r"  (\w+)  +(\S.*)", line) for line in lines]
        elif head == "Arguments:":
            command.arguments = [argument_of(line) for line in lines]
        elif head == "Options:":
            command.options = [option_of(line) for line in lines]
        elif head in ("Example:", "Examples:"):
            command.examples = [found(r"  (\S.*)", line)[0] for line in lines]
        else:
            command.notes.append(paragraph)
    if not command.usage or not command.options:
        raise Unread(f"the help of 'tep {name}' has no usage or no options")
    return command


def read_help():
    """The program's own help, and that of each command, in the order of the program's help."""
    texts = {}
    words = None
    for line in (TOP / "docs/HELP.txt").read_text(encoding="utf-8").splitlines()[1:]:
        if line.startswith("$ tep"):
            words = line
            texts[words] = ""
        else:
            texts[words] += line + "\n"
    # Command lines that share a text stand above each other, and the text below the last.
    shared = ""
    for words in reversed(texts):
        shared = texts[words] or shared
        texts[words] = shared
    own = command_of("", texts["$ tep --help"])
    commands = [command_of(name, texts[f"$ tep {name} --help"]) for name, _ in own.commands if name != "help"]
    return own, commands


# The page.


def literal(text):
    """The text as roff takes it, with each hyphen a minus and each quote upright."""
    return text.replace("\\", "\\e").replace("'", "\\(aq").replace("-", "\\-")


def escaped(text):
    """The same, where a hyphen that joins letters stays one."""
    return re.sub(r"(?<=[A-Za-z])\\-(?=[A-Za-z])", "-", literal(text))


def filled(text):
    """The text with a full stop at its end, each sentence begun on a line of its own."""
    sentences = re.split(r"(?<=\.) (?=[A-Z])", " ".join(text.split()).rstrip(".") + ".")
    lines = [line for each in sentences for line in textwrap.wrap(escaped(each), COLUMNS, break_on_hyphens=False)]
    return [("\\&" if line.startswith((".", "'")) else "") + line for line in lines]


def flag(name):
    """A name of an option as the macro takes it, which writes the first hyphen."""
    return f"Fl {name[1:]}"


def option_synopsis(command, option):
    name = flag(f"--{option.long}") + (f" Ar {option.value}" if option.value else "")
    if command.needs(option):
        return f".{name}"
    return f".Op {name}" + (" ..." if option.is_repeatable() else "")


def argument_synopsis(argument):
    name = f"Ar {argument.value}" + (" ..." if argument.is_many else "")
    return f".Op {name}" if argument.may_lack else f".{name}"


def synopsis(own, commands):
    lines = [".Nm"]
    for command in commands:
        options = [option for option in command.options if option.long not in ("help", "version")]
        options.sort(key=lambda option: not command.needs(option))
        lines += [".Nm", f".Cm {command.name}"]
        lines += [option_synopsis(command, option) for option in options]
        lines += [argument_synopsis(argument) for argument in command.arguments]
    lines += [".Nm", ".Cm help", ".Op Ar COMMAND"]
    for option in own.options:
        lines += [".Nm", f".{flag('--' + option.long)}"]
    return lines


def entries(items):
    """A list of heads, each with its text below."""
    lines = [".Bl -tag -width Ds"]
    for head, text in items:
        lines += [f".It {head}", *filled(text)]
    return [*lines, ".El"]


def option_entry(option):
    value = f" Ar {escaped(option.value)}" if option.value else ""
    return " , ".join(flag(name) for name in option.names()) + value, option.text


def argument_entry(argument):
    return f"Ar {argument.value}" + (" ..." if argument.is_many else ""), argument.text


def option_sections(own, commands):
    """A part for each command: what it is for, its words, and what else is to know."""
    lines = entries(map(option_entry, own.options))
    for command in commands:
        lines += [f".Ss tep {command.name}", *filled(command.about)]
        lines += entries([argument_entry(each) for each in command.arguments] + [option_entry(each) for each in command.options])
        for note in command.notes:
            lines += [".Pp", *filled(note)]
    for name, text in own.commands:
        if name == "help":
            lines += [".Ss tep help", *filled(text)]
    return lines


def shown(example):
    """A command line, cut where it is too long, as a shell takes it: between an option and its value it isn't cut."""
    joined = re.sub(r"(?<= )(-[\w-]+) (?!-)", r"\1\0", example)
    cuts = textwrap.wrap(joined, COLUMNS - 12, subsequent_indent="    ", break_on_hyphens=False, break_long_words=False)
    lines = [literal(cut.replace("\0", " ")) for cut in cuts]
    return [line + " \\e" for line in lines[:-1]] + lines[-1:]


def example_section(own, commands):
    lines = []
    for command in [own, *commands]:
        about = "A run" if not command.name else command.about
        lines += [".Pp"] if lines else []
        *before, last = filled(about)
        lines += [*before, last.rstrip(".") + ":", ".Bd -literal -offset indent"]
        for example in command.examples:
            lines += shown(example)
        lines.append(".Ed")
    return lines


def released():
    """The day of the last release."""
    day = re.search(r"^## \[[0-9.]+\] - (\d+-\d+-\d+)$", (TOP / "CHANGELOG.md").read_text(encoding="utf-8"), re.MULTILINE)
    moment = datetime.date.fromisoformat(day.group(1))
    months = "January February March April May June July August September October November December".split()
    return f"{months[moment.month - 1]} {moment.day}, {moment.year}"


def page(own, commands):
    about = own.about.split(";")[0]
    parts = {
        "@DATE@": [released()],
        "@ABOUT@": [about[0].lower() + about[1:]],
        "@SYNOPSIS@": synopsis(own, commands),
        "@OPTIONS@": option_sections(own, commands),
        "@EXAMPLES@": example_section(own, commands),
    }
    text = (HERE / "tep.1.in").read_text(encoding="utf-8")
    for name, lines in parts.items():
        text = text.replace(name, "\n".join(lines))
    head, rest = text.split("\n", 1)
    return f'.\\" {MADE}\n{head}\n{rest}'


# The completions.

MADE = "Made by share/make.py of what the program's help says."


def offer(value):
    """What is offered for a value: "files", "folders", its numbers, or nothing."""
    if value in IS_FILE:
        return "files"
    if value in IS_FOLDER:
        return "folders"
    numbers = RANGE.fullmatch(value)
    return [str(number) for number in range(int(numbers[1]), int(numbers[2]) + 1)] if numbers else []


def rest_offer(command):
    return offer(command.arguments[0].value) if command.arguments else []


def words_of(command):
    return " ".join(name for option in command.options for name in option.names() if name.startswith("--"))


BASH = """\
# Completion of tep in bash. {made}
# shellcheck shell=bash

# _tep_offers KIND [WORDS]: completes the word at hand as a file, a folder, or one of these words
_tep_offers() {{
    case $1 in
        files)
            compopt -o filenames 2>/dev/null
            mapfile -t COMPREPLY < <(compgen -f -- "$cur")
            ;;
        folders)
            compopt -o filenames 2>/dev/null
            mapfile -t COMPREPLY < <(compgen -d -- "$cur")
            ;;
        *)
            compopt +o default 2>/dev/null
            mapfile -t COMPREPLY < <(compgen -W "${{2-}}" -- "$cur")
            ;;
    esac
}}

_tep() {{
    local cur=${{COMP_WORDS[COMP_CWORD]}} before=${{COMP_WORDS[COMP_CWORD - 1]}}
    # --out=here comes as three words.
    if [ "$cur" = "=" ]; then
        cur=""
    elif [ "$before" = "=" ] && [ "$COMP_CWORD" -gt 2 ]; then
        before=${{COMP_WORDS[COMP_CWORD - 2]}}
    fi
    COMPREPLY=()
    if [ "$COMP_CWORD" -eq 1 ]; then
        _tep_offers words "{first}"
        return
    fi
    case ${{COMP_WORDS[1]}} in
{cases}
        help) [ "$COMP_CWORD" -gt 2 ] || _tep_offers words "{names}" ;;
    esac
}}

complete -o default -F _tep tep
"""


def bash_offer(kind):
    return f"_tep_offers {kind}" if isinstance(kind, str) else f'_tep_offers words "{" ".join(kind)}"'


def bash_case(command):
    """What is offered within a command: by the word before, and without one of these by how the word begins."""
    lines = [f"        {command.name})", '            case $before,$cur in']
    kinds = {}
    for option in command.options:
        if option.value:
            kinds.setdefault(bash_offer(offer(option.value)), []).extend(option.names())
    for action, names in kinds.items():
        lines.append(f"                {' | '.join(name + ',*' for name in names)}) {action} ;;")
    lines.append(f'                *,-*) _tep_offers words "{words_of(command)}" ;;')
    lines.append(f"                *) {bash_offer(rest_offer(command))} ;;")
    return [*lines, "            esac", "            ;;"]


def bash(own, commands):
    names = [name for name, _ in own.commands]
    return BASH.format(
        made=MADE,
        first=" ".join(names) + " " + words_of(own),
        names=" ".join(names),
        cases="\n".join(line for command in commands for line in bash_case(command)),
    )


ZSH = """\
#compdef tep
# Completion of tep in zsh. {made}

_tep() {{
    local context state state_descr line
    typeset -A opt_args
    _arguments -C \\
{own}
        '1:command:->command' \\
        '*::word:->words' && return
    case $state in
        command) _tep_commands ;;
        words)
            case $line[1] in
{cases}
                help) _arguments '1:command:_tep_commands' ;;
            esac
            ;;
    esac
}}

_tep_commands() {{
    local -a commands=(
{names}
    )
    _describe command commands
}}

if [[ $funcstack[1] = _tep ]]; then
    _tep "$@"
else
    compdef _tep tep
fi
"""


def quoted(text):
    """The text within single quotes of a shell, which zsh's own marks in it don't end."""
    return "'" + text.replace("'", "'\\''") + "'"


def zsh_text(text):
    return re.sub(r"([\[\]:\\])", r"\\\1", text)


def zsh_offer(kind):
    return {"files": "_files", "folders": "_files -/"}[kind] if isinstance(kind, str) else f"({' '.join(kind)})" if kind else " "


def zsh_option(option):
    """The words of `_arguments` for an option."""
    many = "*" if option.is_repeatable() else ""
    value = f":{option.value}:{zsh_offer(offer(option.value))}" if option.value else ""
    text = quoted(f"[{zsh_text(option.text)}]{value}")
    long = f"--{option.long}" + ("=" if option.value else "")
    if not option.short:
        return f"'{many}{long}'{text}"
    short = f"-{option.short}" + ("+" if option.value else "")
    return f"'{many or f'({option.names()[0]} {option.names()[1]})'}'{{{short},{long}}}{text}"


def zsh_argument(argument):
    return quoted(f"{'*' if argument.is_many else '1'}:{argument.value}:{zsh_offer(offer(argument.value))}")


def zsh_case(command):
    words = [zsh_option(option) for option in command.options] + [zsh_argument(argument) for argument in command.arguments]
    call = " \\\n                        ".join(["_arguments -s -S", *words])
    return [f"                {command.name})", f"                    {call}", "                    ;;"]


def zsh(own, commands):
    return ZSH.format(
        made=MADE,
        own="\n".join(f"        {zsh_option(option)} \\" for option in own.options),
        cases="\n".join(line for command in commands for line in zsh_case(command)),
        names="\n".join(f"        {quoted(name + ':' + text)}" for name, text in own.commands),
    )


FISH = """\
# Completion of tep in fish. {made}

# The words before the one at hand are tep and a command, and with a name its command is that one.
function __tep_command
    set -l words (commandline -opc)
    test (count $words) -gt 1; and contains -- $words[2] $argv
end

function __tep_first
    test (count (commandline -opc)) -eq 1
end

{lines}
"""


def fish_offer(kind, is_value):
    """The words that tell what is offered, for a value or for the words behind the options."""
    if kind == "files":
        return "-r -F" if is_value else ""
    action = "(__fish_complete_directories)" if kind == "folders" else " ".join(kind)
    return ("-x" if is_value else "-f") + (f" -a '{action}'" if action else "")


def fish_line(condition, *words):
    return " ".join(word for word in (f"complete -c tep -n '{condition}'", *words) if word)


def fish_text(text):
    return "-d '" + text.replace("\\", "\\\\").replace("'", "\\'") + "'"


def fish_option(condition, option):
    short = f"-s {option.short}" if option.short else ""
    value = fish_offer(offer(option.value), True) if option.value else ""
    return fish_line(condition, short, f"-l {option.long}", value, fish_text(option.text))


def fish(own, commands):
    lines = [fish_line("__tep_first", "-f", f"-a {name}", fish_text(text)) for name, text in own.commands]
    lines += [fish_option("__tep_first", option) for option in own.options]
    for command in commands:
        condition = f"__tep_command {command.name}"
        lines += ["", *(fish_option(condition, option) for option in command.options)]
        rest = fish_offer(rest_offer(command), False)
        lines += [fish_line(condition, rest)] if rest else []
    names = " ".join(name for name, _ in own.commands)
    lines += ["", fish_line("__tep_command help", "-f", f"-a '{names}'")]
    return FISH.format(made=MADE, lines="\n".join(lines))


FILES = {"tep.1": page, "tep.bash": bash, "_tep": zsh, "tep.fish": fish}


def main(words):
    if words not in ([], ["check"]):
        print("share/make.py: it takes no word but check", file=sys.stderr)
        return 2
    try:
        facts = read_help()
    except Unread as line:
        print(f"share/make.py: docs/HELP.txt has a line of no known form: {line}", file=sys.stderr)
        return 1
    status = 0
    for name, text_of in FILES.items():
        text = text_of(*facts)
        path = HERE / name
        if not words:
            path.write_text(text, encoding="utf-8")
        elif not path.exists() or path.read_text(encoding="utf-8") != text:
            print(f"share/{name} isn't what docs/HELP.txt and share/tep.1.in say: share/make.py writes it anew")
            status = 1
    return status


if __name__ == "__main__":
    sys.exit(main(sys.argv[1:]))

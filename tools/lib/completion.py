"""What a program's --help says, as completion for bash, zsh and fish: a module of tools/release.py.

The first word is a command. A word that begins with a hyphen is an option of the command. Any other is a file, except
behind an option that takes a number, and with a command that takes regions or no file.
"""
import re

import manual

NUMBERS = {"N", "R", "A", "REGION", "REGIONS", "W,K,N", "CLASS.FIELD"}  # what stands in a help text for a value that is no file
BASH = """\
# bash completion of {name}, made of what its --help says
_{name}() {{
    local word=${{COMP_WORDS[COMP_CWORD]}} options= files= i
    COMPREPLY=()
    if [ "$COMP_CWORD" -eq 1 ]; then
        compopt +o default
        COMPREPLY=($(compgen -W '{first}' -- "$word"))
        return
    fi
    case ${{COMP_WORDS[1]}} in
{commands}
    esac
    for ((i = COMP_CWORD - 1; i > 1; i--)); do
        case ${{COMP_WORDS[i]}},$((COMP_CWORD - i)) in
{values}
            -*) break ;;
        esac
    done
    if [[ $word == -* ]]; then
        COMPREPLY=($(compgen -W "$options" -- "$word"))
    fi
    [ -n "$files" ] || compopt +o default
}}
complete -o default -F _{name} {name}
"""
ZSH = """\
#compdef {name}
# zsh completion of {name}, made of what its --help says
_{name}() {{
    local -a commands
    commands=(
{described}
    )
    if (( CURRENT == 2 )); then
        _describe -t commands command commands
        [[ $PREFIX == -* ]] && compadd -- {program_options}
        return
    fi
    local command=$words[2]
    shift words
    (( CURRENT-- ))
    case $command in
{cases}
        help) _describe -t commands command commands ;;
    esac
}}
_{name} "$@"
"""


class Option:
    """An option: its words, what it takes, and what it means."""

    def __init__(self, entry, meaning):
        self.words = re.findall(r"(?:^|[ ,])(--?[\w-]+)", entry)
        self.takes, self.meaning = re.findall(r"<(\w+)>", entry), meaning

    def long(self):
        return self.words[-1]


def options_of(help_text):
    return [Option(*entry) for entry in help_text.options]


def takes_files(help_text):
    return any(name.strip("[]<>.") not in NUMBERS for name, _ in help_text.arguments)


def quoted(text):
    """A text in single quotes, as each of the three shells reads it."""
    return "'" + text.replace("'", "’") + "'"


def bash(name, whole, commands):
    first = [*commands, "help", *(word for option in options_of(whole) for word in option.words)]
    cases, values = [], {}
    for command, help_text in commands.items():
        words = " ".join(word for option in options_of(help_text) for word in option.words)
        cases.append(f"        {command}) options='{words}' files={'yes' if takes_files(help_text) else ''} ;;")
        for option in options_of(help_text):
            for place, taken in enumerate(option.takes, 1):
                for word in option.words:
                    values[f"{word},{place}"] = "" if taken in NUMBERS else "yes"
    cases.append(f"        help) COMPREPLY=($(compgen -W '{' '.join(commands)}' -- \"$word\")); compopt +o default; return ;;")
    lines = [f"            {value}) files={files}; options=; break ;;" for value, files in values.items()]
    return BASH.format(name=name, first=" ".join(first), commands="\n".join(cases), values="\n".join(lines))


def zsh_option(option):
    """The specification of an option for _arguments."""
    meaning = re.sub(r"([\[\]\\])", r"\\\1", option.meaning).replace("'", "’")
    values = "".join(f":{taken}:{' ' if taken in NUMBERS else '_files'}" for taken in option.takes)
    words = option.long() if len(option.words) == 1 else "{" + ",".join(option.words) + "}"
    if len(option.words) == 1:
        return f"'{words}[{meaning}]{values}'"
    return f"'({' '.join(option.words)})'{words}'[{meaning}]{values}'"


def zsh(name, whole, commands):
    described = [f"        '{command}:{help_text.about.replace(':', chr(92) + ':')}'" for command, help_text in commands.items()]
    cases = []
    for command, help_text in commands.items():
        words = [zsh_option(option) for option in options_of(help_text)]
        if takes_files(help_text):
            words.append("'*:file:_files'")
        cases.append(f"        {command}) _arguments {' '.join(words)} ;;")
    program_options = " ".join(word for option in options_of(whole) for word in option.words)
    return ZSH.format(name=name, described="\n".join(described), cases="\n".join(cases), program_options=program_options)


def fish_option(option):
    """The words by which `complete` knows an option."""
    words = [f"-l {word[2:]}" if word.startswith("--") else f"-s {word[1:]}" for word in reversed(option.words)]
    if option.takes:
        words.append("-x" if option.takes[-1] in NUMBERS else "-r -F")
    return f"{' '.join(words)} -d {quoted(option.meaning)}"


def fish(name, whole, commands):
    lines = [f"# fish completion of {name}, made of what its --help says", f"complete -c {name} -f"]
    for command, help_text in commands.items():
        lines.append(f"complete -c {name} -n __fish_use_subcommand -a {command} -d {quoted(help_text.about)}")
    lines += [f"complete -c {name} -n __fish_use_subcommand {fish_option(option)}" for option in options_of(whole)]
    for command, help_text in commands.items():
        condition = f"-n '__fish_seen_subcommand_from {command}'"
        if takes_files(help_text):
            lines.append(f"complete -c {name} {condition} -F")
        lines += [f"complete -c {name} {condition} {fish_option(option)}" for option in options_of(help_text)]
    return "\n".join(lines) + "\n"


def files(program):
    """The completion files of a program, by the names that they have below a prefix."""
    name, (whole, commands) = program.name, manual.helps(program)
    return {f"share/bash-completion/completions/{name}": bash(name, whole, commands),
            f"share/zsh/site-functions/_{name}": zsh(name, whole, commands),
            f"share/fish/vendor_completions.d/{name}.fish": fish(name, whole, commands)}

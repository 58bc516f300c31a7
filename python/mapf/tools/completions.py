"""Writes the completions of mapf for bash, zsh and fish from its help. Each offers commands, options, the few words
that an option may take, and files where an argument names one.
"""

import shlex
from collections.abc import Iterable, Iterator

from .help_texts import HELP, Argument, Help, Manual, Option

FROM = "made by tools/manual from what mapf --help prints"


def names_of(commands: Iterable[Help]) -> list[str]:
    """The names of the commands."""
    return [command.name for command in commands]


def options_of(options: Iterable[Option]) -> list[str]:
    """The options by all their names."""
    return [name for option in options for name in option.names()]


def valued(manual: Manual) -> list[str]:
    """The options of all commands that take a value, by all their names."""
    return sorted({name for command in manual.commands for option in command.options if option.value
                   for name in option.names()})


def file_places(manual: Manual, command: Help) -> list[str]:
    """At which places the command takes a file, counted from 1."""
    return [str(place) for place, one in enumerate(command.arguments, 1) if one.name in manual.files]


# bash.

BASH = """\
# Completions of mapf for bash, [FROM].

# Offers those of the words that go on as the word at the cursor does.
_mapf_offer() {
  mapfile -t COMPREPLY < <(compgen -W "$1" -- "$word")
}

_mapf() {
  local word=${COMP_WORDS[COMP_CWORD]} before=${COMP_WORDS[COMP_CWORD - 1]} command=${COMP_WORDS[1]}
  local options= files= place=1 at
  COMPREPLY=()
  if ((COMP_CWORD == 1)); then
    _mapf_offer '[WORDS]'
    return
  fi
  # What is given as --option=value is three words here.
  if [[ $word == = ]]; then
    word=
  elif [[ $before == = ]]; then
    before=${COMP_WORDS[COMP_CWORD - 2]}
  fi
  for ((at = 2; at < COMP_CWORD; at++)); do
    case ${COMP_WORDS[at]} in
      [VALUED])
        at=$((at + 1))
        [[ ${COMP_WORDS[at]} != = ]] || at=$((at + 1))
        ;;
      -?*) ;;
      *) place=$((place + 1)) ;;
    esac
  done
  case $command in
[COMMANDS]
  esac
  if [[ $word == -* ]]; then
    _mapf_offer "$options"
  elif [[ " $files " == *" $place "* ]]; then
    compopt -o default
  fi
}

complete -F _mapf mapf
"""


def bash(manual: Manual) -> str:
    """The completions for bash."""
    words = names_of(manual.commands) + options_of(manual.program.options)
    commands = [line for command in manual.commands for line in bash_command(manual, command)]
    return filled(BASH, WORDS=" ".join(words), VALUED=" | ".join(valued(manual)) or "''", COMMANDS="\n".join(commands))


def bash_command(manual: Manual, command: Help) -> Iterator[str]:
    """What is offered after this command."""
    yield f"    {command.name})"
    if command.name == HELP:
        yield f"      ((place > 1)) || _mapf_offer '{' '.join(names_of(manual.commands))}'"
        yield "      return"
    else:
        yield from bash_values(command)
        options, files = options_of(command.options), file_places(manual, command)
        yield f"      options='{' '.join(options)}' files='{' '.join(files)}'"
    yield "      ;;"


def bash_values(command: Help) -> Iterator[str]:
    """What is offered as the value of an option."""
    options = [option for option in command.options if option.value]
    if not options:
        return
    yield "      case $before in"
    for option in options:
        offered = f"_mapf_offer '{' '.join(option.values())}'; return" if option.values() else "return"
        yield f"        {' | '.join(option.names())}) {offered} ;;"
    yield "      esac"


# zsh.

ZSH = """\
#compdef mapf
# Completions of mapf for zsh, [FROM].

_mapf() {
  local curcontext=$curcontext state line
  local -A opt_args
  local -a commands=(
[NAMES]
  )
  _arguments -C \\
[OPTIONS]
    '1:command:->command' '*::argument:->argument' && return
  case $state in
    command) _describe command commands ;;
    argument)
      case $line[1] in
[COMMANDS]
      esac
      ;;
  esac
}

_mapf "$@"
"""


def zsh(manual: Manual) -> str:
    """The completions for zsh."""
    names = "\n".join("    " + shlex.quote(f"{command.name}:{command.about}") for command in manual.commands)
    options = "\n".join(f"    {zsh_option(option)} \\" for option in manual.program.options)
    commands = "\n".join(zsh_command(manual, command) for command in manual.commands)
    return filled(ZSH, NAMES=names, OPTIONS=options, COMMANDS=commands)


def zsh_command(manual: Manual, command: Help) -> str:
    """What is offered after this command."""
    if command.name == HELP:
        return f"        {HELP}) _arguments '1:command:({' '.join(names_of(manual.commands))})' ;;"
    arguments = [zsh_argument(manual, place, one) for place, one in enumerate(command.arguments, 1)]
    specs = [*map(zsh_option, command.options), *arguments]
    return " \\\n            ".join([f"        {command.name})\n          _arguments", *specs]) + "\n          ;;"


def zsh_argument(manual: Manual, place: int, one: Argument) -> str:
    """What is offered at this place."""
    return shlex.quote(f"{place}:{one.name}:{'_files' if one.name in manual.files else ' '}")


def zsh_option(option: Option) -> str:
    """What is offered of an option. After one that asks for help or a version nothing else is."""
    words = option.words.replace("\\", r"\\").replace("[", r"\[").replace("]", r"\]")
    ending = f"[{words}]"
    if option.value:
        offered = f"({' '.join(option.values())})" if option.values() else " "
        ending += f":{option.value}:{offered}"
    sign = "=" if option.value else ""
    names = option.names()
    is_last = not option.value and option.short in ("-h", "-V")
    barred = "'(- *)'" if is_last else f"'({' '.join(names)})'" if len(names) > 1 else ""
    spelled = f"{{{','.join(name + sign for name in names)}}}" if len(names) > 1 else names[0] + sign
    return barred + spelled + shlex.quote(ending)


# fish.

FISH = """\
# Completions of mapf for fish, [FROM].

# Whether the command is the first of these words, and, if places follow, the next argument is at one of them.
function __mapf_asks
    set -l words (commandline -opc)
    test (count $words) -ge 2; and test $words[2] = $argv[1]; or return 1
    set -q argv[2]; or return 0
    set -l place 1
    set -l is_value no
    for word in $words[3..-1]
        if test $is_value = yes
            set is_value no
        else if contains -- $word [VALUED]
            set is_value yes
        else if not string match -q -- '-*' $word
            set place (math $place + 1)
        end
    end
    contains -- $place $argv[2..-1]
end

complete -c mapf -f
[COMMANDS]
"""


def fish(manual: Manual) -> str:
    """The completions for fish."""
    lines = [fish_line("__fish_use_subcommand", *fish_option(option)) for option in manual.program.options]
    lines += [fish_line("__fish_use_subcommand", "-a", command.name, "-d", command.about)
              for command in manual.commands]
    for command in manual.commands:
        lines += [fish_line(f"__mapf_asks {command.name}", *fish_option(option)) for option in command.options]
        places = file_places(manual, command)
        if places:
            lines.append(fish_line(f"__mapf_asks {command.name} {' '.join(places)}", "-F"))
    lines.append(fish_line(f"__mapf_asks {HELP} 1", "-a", " ".join(names_of(manual.commands))))
    return filled(FISH, VALUED=" ".join(valued(manual)), COMMANDS="\n".join(lines))


def fish_option(option: Option) -> list[str]:
    """The words of fish that describe an option."""
    words = ["-s", option.short[1:]] if option.short else []
    words += ["-l", option.long[2:]] if option.long else []
    words += ["-x"] if option.value else []
    words += ["-a", " ".join(option.values())] if option.values() else []
    return [*words, "-d", option.words]


def fish_line(when: str, *words: str) -> str:
    """A line that offers something where this holds."""
    return f"complete -c mapf -n {fish_quoted(when)} {' '.join(map(fish_quoted, words))}"


def fish_quoted(word: str) -> str:
    """A word as fish reads it."""
    if word.replace("-", "").replace("_", "").isalnum():
        return word
    return "'" + word.replace("\\", "\\\\").replace("'", "\\'") + "'"


def filled(form: str, **parts: str) -> str:
    """A form with its parts in their places."""
    for name, part in {"FROM": FROM, **parts}.items():
        form = form.replace(f"[{name}]", part)
    return form

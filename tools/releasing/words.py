"""The page of the manual and the completions of bash, zsh and fish, made from the one table of words of the script around the program."""

from __future__ import annotations

import datetime

from tools.run.words import COMMANDS, OPTIONS, STATUSES, Command, Option

# Those of the script, which every command takes.
COMMON = ("--memory", "--explain", "--prove", "--help", "--version")
# Those that stand without a command.
ALONE = ("--help", "--version", "--clean")


def options_of(command: Command) -> list[Option]:
    names = [*command.options, *(it for it in COMMON if it in OPTIONS and command.document)]
    return [OPTIONS[it] for it in dict.fromkeys(names)]


# ---- the manual ----

def plain(text: str) -> str:
    """A text as troff reads it: a hyphen that is one, and no line that begins with a control character."""
    safe = " ".join(text.split()).replace("\\", "\\e").replace("-", "\\-")
    return f"\\&{safe}" if safe[:1] in (".", "'") else safe


def manual(version: str, epoch: int) -> str:
    day = datetime.datetime.fromtimestamp(epoch, datetime.timezone.utc).strftime("%Y-%m-%d")
    lines = [f'.TH CONC_RUN 1 "{day}" "conc_run {version}" "User Commands"', ".SH NAME",
             "conc_run \\- what interrupted and masked Concurrent Haskell code may really do",
             ".SH SYNOPSIS"]
    for command in COMMANDS.values():
        lines += [f".B conc_run {command.name}", plain(command.usage.removeprefix(command.name).strip()), ".br"]
    lines += [".SH DESCRIPTION", plain("It checks and runs small scripts with the threads, MVars and asynchronous exceptions of Concurrent Haskell, and lists "
              "all that a script may come to, over all schedules. With no FILE, or with -, the script is read from standard input. A file whose name "
              "begins with - is given behind --, or as ./-NAME."), ".SH COMMANDS"]
    for command in COMMANDS.values():
        lines += [".TP", f".B {plain(command.usage)}", plain(sentence(command.help))]
    lines += [".SH OPTIONS"]
    for option in OPTIONS.values():
        lines += [".TP", f".B {plain(option.usage)}", plain(sentence(option.help))]
    lines += [".SH EXIT STATUS"]
    for status, text in STATUSES.items():
        lines += [".TP", f".B {status}", plain(sentence(text))]
    lines += [".SH ENVIRONMENT", ".TP", ".B CONC_RUN_MEMORY", plain("The most memory of a run in MB, where --memory says none."),
              ".SH FILES", ".TP", ".I /usr/share/doc/conc\\-run", plain("Documents (TOUR.md leads through the examples, LANGUAGE.md has the language and what each refusal "
              "means), examples, and play.html, which does the same in a browser."), ".SH EXAMPLE",
              ".EX", "conc_run outcomes /usr/share/doc/conc\\-run/examples/update.conc", ".EE"]
    return "\n".join(lines) + "\n"


def sentence(text: str) -> str:
    whole = " ".join(text.split())
    return whole[:1].upper() + whole[1:] + "."


# ---- completions ----

def bash() -> str:
    cases = "\n".join(f"    {it.name}) options='{' '.join(option.name for option in options_of(it))}' ;;" for it in COMMANDS.values())
    choices = [(it.name, " ".join(it.choices)) for it in OPTIONS.values() if it.choices]
    values = "\n".join(f"    {name}) COMPREPLY=($(compgen -W '{values}' -- \"$word\")); return ;;" for name, values in choices)
    numbers = "|".join(it.name for it in OPTIONS.values() if it.value and not it.choices)
    return f"""# Completion of conc_run for bash.
_conc_run() {{
  local word=${{COMP_WORDS[COMP_CWORD]}} before=${{COMP_WORDS[COMP_CWORD - 1]}} command= options= it
  COMPREPLY=()
  case $before in
{values}
    {numbers}) return ;;
  esac
  for it in "${{COMP_WORDS[@]:1:COMP_CWORD - 1}}"; do
    case $it in
      -*) ;;
      *) command=$it; break ;;
    esac
  done
  case $command in
    '') COMPREPLY=($(compgen -W '{" ".join(COMMANDS)} {" ".join(ALONE)}' -- "$word")); return ;;
{cases}
  esac
  case $word in
    -*) COMPREPLY=($(compgen -W "$options" -- "$word")) ;;
    *) compopt -o filenames 2> /dev/null; COMPREPLY=($(compgen -f -- "$word")) ;;
  esac
}}
complete -F _conc_run conc_run
"""


def in_zsh(text: str) -> str:
    return " ".join(text.split()).replace("'", "'\\''").replace("[", "\\[").replace("]", "\\]").replace(":", "\\:")


def zsh_option(option: Option) -> str:
    behind = f":{option.value.lower()}:" + (f"({' '.join(option.choices)})" if option.choices else " ") if option.value else ""
    return f"'{option.name}[{in_zsh(option.help)}]{behind}'"


def zsh() -> str:
    commands = "\n".join(f"    '{it.name}:{in_zsh(it.help)}'" for it in COMMANDS.values())
    cases = "\n".join(f"    {it.name}) _arguments {' '.join(map(zsh_option, options_of(it)))}{_zsh_files(it)} ;;" for it in COMMANDS.values())
    return f"""#compdef conc_run
# Completion of conc_run for zsh.
_conc_run() {{
  local -a commands
  commands=(
{commands}
  )
  if (( CURRENT == 2 )); then
    _describe command commands
    _arguments {" ".join(zsh_option(OPTIONS[it]) for it in ALONE)}
    return
  fi
  local command=$words[2]
  shift words
  (( CURRENT-- ))
  case $command in
{cases}
  esac
}}
_conc_run "$@"
"""


def _zsh_files(command: Command) -> str:
    return " '*:file:_files'" if "FILE" in command.operand else ""


def in_fish(text: str) -> str:
    return " ".join(text.split()).replace("\\", "\\\\").replace("'", "\\'")


def fish() -> str:
    lines = ["# Completion of conc_run for fish.", "complete -c conc_run -f"]
    for command in COMMANDS.values():
        lines.append(f"complete -c conc_run -n __fish_use_subcommand -a {command.name} -d '{in_fish(command.help)}'")
    for name in ALONE:
        lines.append(f"complete -c conc_run -n __fish_use_subcommand -l {name[2:]} -d '{in_fish(OPTIONS[name].help)}'")
    for command in COMMANDS.values():
        seen = f"-n '__fish_seen_subcommand_from {command.name}'"
        if "FILE" in command.operand:
            lines.append(f"complete -c conc_run {seen} -F")
        for option in options_of(command):
            value = f" -x -a '{' '.join(option.choices)}'" if option.choices else " -x" if option.value else ""
            lines.append(f"complete -c conc_run {seen} -l {option.name[2:]}{value} -d '{in_fish(option.help)}'")
    return "\n".join(lines) + "\n"

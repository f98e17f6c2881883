"""Makes what bash completes for a program of what the program's --help prints: its subcommands, its
options, the words that an option or an argument can be where the help lists them, files, and where
an argument is a command of a competition the words of these, which the help of `replay` lists."""

import re

import manual

FILES = ("FILE", "JOURNAL")


def choices(meaning):
    """The words that can stand there, where the help lists them."""
    found = re.search(r"\[possible values: ([^\]]*)\]", meaning)
    return found[1].split(", ") if found else []


def arms_of(said):
    """What stands after each option that takes something: an arm of a `case` for each kind."""
    arms = {}
    for spellings, taken, meaning in said.options():
        if taken is None:
            continue
        if taken in FILES:
            offered = 'compgen -f -- "$word"'
        else:
            offered = f'compgen -W "{" ".join(choices(meaning))}" -- "$word"'
        arms.setdefault(offered, []).extend(spellings)
    return arms


def words_of(said):
    """All that may begin a word: options, subcommands, and the words of an argument."""
    options = [spelling for spellings, _, _ in said.options() for spelling in spellings
               if spelling.startswith("--")]
    values = [value for _, meaning in said.items["Arguments"] for value in choices(meaning)]
    return options, said.subcommands() + values


def commands_of(said):
    """The words of a competition's commands, which a help lists one a line."""
    lines = [line for part in said.after for line in part.splitlines()]
    found = [re.match(r"  ([A-Z]+) ", line) for line in lines]
    return list(dict.fromkeys(it[1] for it in found if it))


def offered_by(said, indent, commands=()):
    """The lines that fill COMPREPLY for one help."""
    options, words = words_of(said)
    if any("TEXT" in given for given, _ in said.items["Arguments"]):
        words += commands
    lines = []
    arms = arms_of(said)
    if arms:
        lines.append('case "$before" in')
        for offered, spellings in arms.items():
            lines.append(f'  {"|".join(spellings)}) mapfile -t COMPREPLY < <({offered}); return ;;')
        lines.append("esac")
    lines += [
        f'if [[ $word == -* ]]; then offered="{" ".join(options)}"',
        f'else offered="{" ".join(words)}"; fi']
    return [f"{indent}{line}" for line in lines]


def script_of(name, program):
    """The script that bash reads."""
    said = manual.help_of(program)
    lines = [f"# What bash completes for {name}: made of its --help.",
             f"_{name}_words() {{",
             '  local word=${COMP_WORDS[COMP_CWORD]} before= offered=',
             "  COMPREPLY=()",
             "  ((COMP_CWORD > 0)) && before=${COMP_WORDS[COMP_CWORD - 1]}"]
    subcommands = [it for it in said.subcommands() if it != "help"]
    if subcommands:
        lines += ["  local asked=", "  ((COMP_CWORD > 1)) && asked=${COMP_WORDS[1]}",
                  '  case "$asked" in']
        helps = {it: manual.help_of(program, it) for it in subcommands}
        commands = commands_of(helps["replay"]) if "replay" in helps else []
        for subcommand, own in helps.items():
            lines += [f"    {subcommand})", *offered_by(own, "      ", commands), "      ;;"]
        lines += [f'    help) offered="{" ".join(subcommands)}" ;;', "    *)",
                  *offered_by(said, "      "), "      ;;", "  esac"]
    else:
        lines += offered_by(said, "  ")
    lines += ['  mapfile -t COMPREPLY < <(compgen -W "$offered" -- "$word")', "}",
              f"complete -F _{name}_words {name}"]
    return "\n".join(lines) + "\n"

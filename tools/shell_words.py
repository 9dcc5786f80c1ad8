"""Lists of words, and the commands of the program with their options, as the completions of each shell have them."""

import textwrap

from program import Argument

# How wide a line of the completions may be.
WIDTH = 100
# What fish and zsh complete the value of an option with, by its name; nothing for any other.
VALUES = {
    "OUT": ("-r -F", "_files"),
    "NAME": ("-x -a '(__mkedit_names)'", "_mkedit_names"),
    "TARGET": ("-x -a '(__mkedit_targets)'", "_mkedit_targets"),
    "WHEN": ("-x -a 'auto always never'", "(auto always never)"),
    "FORM": ("-x -a 'text json'", "(text json)"),
}


def wrapped(text, **indents):
    return textwrap.wrap(text, WIDTH, break_on_hyphens=False, **indents)


def of_bash(name, words):
    """The words, as bash has them in a variable."""
    lines = wrapped(f'{name}="{" ".join(words)}"', subsequent_indent="    ")
    yield from (f"{it} \\" for it in lines[:-1])
    yield lines[-1]


def of_zsh(name, words):
    """The words, as zsh has them in an array of a function."""
    yield f"    {name}=("
    indent = " " * 8
    yield from wrapped(" ".join(words), initial_indent=indent, subsequent_indent=indent)
    yield "    )"


def of_fish(name, words):
    """The words, as fish has them in a variable."""
    yield f"set -l {name} {' '.join(words)}"


def words_of(commands):
    """The words of the commands, and that for help."""
    return [*(word for word, _, _ in commands), "help"]


def options_of(arguments):
    """The options among some arguments, with that for help."""
    yield from (it for it in arguments if it.name.startswith("--"))
    yield Argument("--help", "Flag", "Print help", "h")


def options_of_bash(commands):
    """The options of each command, as bash has them in a function."""
    for word, _, arguments in commands:
        words = (it for option in options_of(arguments) for it in (f"-{option.letter}" * bool(option.letter), option.name) if it)
        yield f'        {word}) echo "{" ".join(words)}" ;;'


def options_of_zsh(commands):
    """What each command does, and its options, as zsh has them in functions."""
    yield from ("_mkedit_commands() {", "    local -a commands", "    commands=(")
    yield from (f"        '{word}:{about}'" for word, about, _ in commands)
    yield from ("        'help:Prints help for a command'", "    )", "    _describe -t commands 'command' commands", "}")
    for word, _, arguments in commands:
        yield from ("", f"_mkedit_options_of_{word}() {{", "    options=(")
        yield from (f"        {option_of_zsh(it)}" for it in options_of(arguments))
        yield from ("    )", "}")


def option_of_zsh(it):
    """An option, as _arguments reads it."""
    value = f":{it.value}:{VALUES.get(it.value, ('', ' '))[1]}" if it.value else ""
    long = f"{it.name}=" if it.value else it.name
    front = "'*'" if it.kind == "Values" else f"'(-{it.letter} {it.name})'"
    told = f"[{it.help.replace('[', '(').replace(']', ')')}]{value}'"
    return f"{front}{{-{it.letter}{'+' * bool(it.value)},{long}}}'{told}" if it.letter else f"'{long}{told}"


def after_one_of(words):
    """The condition of fish that one of these commands was written, and not the command help."""
    return f"'__fish_seen_subcommand_from {' '.join(words)}; and not __fish_seen_subcommand_from help'"


def options_of_fish(commands):
    """What each command does, its options, and where files and commands stand, as fish completes them."""
    yield from (f"complete -c mkedit -n __fish_use_subcommand -a {word} -d '{about}'" for word, about, _ in commands)
    known = {}
    for word, _, arguments in commands:
        for it in arguments:
            if it.name.startswith("--"):
                known.setdefault(it, []).append(word)
    for it, words in known.items():
        letter, value = f"-s {it.letter} " * bool(it.letter), VALUES.get(it.value, ("-x", ""))[0] + " " if it.value else ""
        yield f"complete -c mkedit -n {after_one_of(words)} {letter}-l {it.name[2:]} {value}-d '{it.help}'"
    words = [word for word, _, arguments in commands if any(it.name in ("FILE", "NEW") for it in arguments)]
    yield f"complete -c mkedit -n {after_one_of(words)} -F"
    yield f"complete -c mkedit -n '__fish_seen_subcommand_from help' -a '{' '.join(words_of(commands))}'"

"""Completions of the program and of the tools for bash, zsh and fish, made of what each says with --help."""

from __future__ import annotations

import pathlib
import re
import sys

from packages import helps
from packages.helps import Help, Item

sys.path.append(str(helps.ROOT / "tools"))

from linksim_tools.common import faults  # noqa: E402  (it is in a folder that was just named)

# Where the files are below a folder of data, by what the command is called.
PLACES = {
    "bash": "bash-completion/completions/{}", "zsh": "zsh/site-functions/_{}", "fish": "fish/vendor_completions.d/{}.fish",
}
SHORT = {"--help": "-h", "--version": "-V"}


def offers(level: Help) -> str:
    """What may follow after the words of a level."""
    return " ".join([*level.commands, *level.options, *(SHORT[it] for it in level.options if it in SHORT)])


def described(level: Help) -> list[tuple[str, str]]:
    """The commands and options of a level, each with what it does."""
    return [*level.commands.items(), *((option, level.of(option)) for option in level.options)]


def choices(found: list[Help]) -> dict[str, str]:
    """What is offered after an option that takes something: its choices, `files`, or nothing of a number."""
    takes = {option: value.strip("<>") for level in found for option, value in level.options.items() if value}
    named = {option: "files" if re.fullmatch(r"FILE|NAME|CONF|OUT\.\w+", value) else "" for option, value in takes.items()}
    return {option: value.strip("{}").replace(",", " ") if "{" in value else named[option] for option, value in takes.items()}


def cases(found: list[Help], files: str, words: str) -> str:
    """The lines of a shell's `case` over the options that take something."""
    return "\n".join(f"    {option}) {files if it == 'files' else words.format(it)} ;;" for option, it in choices(found).items())


def takes_files(found: list[Help]) -> bool:
    """Whether files stand among the words by themselves; the program has each after an option."""
    return found[0].name != "linksim"


def bash(found: list[Help]) -> str:
    name, function = found[0].name, "_" + found[0].name.replace("-", "_")
    rows = "\n".join(f'    "{" ".join(level.words)}") offers="{offers(level)}" ;;' for level in found)
    return f"""# Completion of {name}'s commands, options and files for bash.

{function}() {{
    local word=${{COMP_WORDS[COMP_CWORD]}} before=${{COMP_WORDS[COMP_CWORD - 1]}} level= offers= files= front= next
    COMPREPLY=()
    # bash takes --table=practice.csv for three words, or for one where COMP_WORDBREAKS has no `=`.
    if [[ $word == --*=* ]]; then
        front=${{word%%=*}}= before=${{word%%=*}} word=${{word#*=}}
    elif [[ $word == = ]]; then
        word=
    elif [[ $before == = ]]; then
        before=${{COMP_WORDS[COMP_CWORD - 2]}}
    fi
    # The commands before the word; options and files among them are passed over.
    for next in "${{COMP_WORDS[@]:1:COMP_CWORD-1}}"; do
        case "${{level:+$level }}$next" in
        {" | ".join(f'"{" ".join(level.words)}"' for level in found if level.words) or '""'}) level="${{level:+$level }}$next" ;;
        esac
    done
    case $level in
{rows}
    esac
    case $before in
{cases(found, "files=1", 'offers="{}"')}
    esac
    if [[ $files ]]; then
        compopt -o filenames 2>/dev/null
        mapfile -t COMPREPLY < <(compgen -P "$front" -f -- "$word")
    else
        mapfile -t COMPREPLY < <(compgen -P "$front" -W "$offers" -- "$word")
    fi
}}

complete {"-o bashdefault -o default " if takes_files(found) else ""}-F {function} {name}
"""


def quoted(text: str) -> str:
    """A description between single quotes, without what zsh and fish read in it."""
    return re.sub(r"[\[\]:'\\]", " ", text)


def zsh(found: list[Help]) -> str:
    name, rows = found[0].name, []
    for level in found:
        items = [f"'{word}:{quoted(said)}'" for word, said in described(level)]
        rows.append(f"    '{' '.join(level.words)}') offers=({' '.join(items)}) ;;")
    known = " | ".join(f"'{' '.join(level.words)}'" for level in found if level.words) or "''"
    lines = "\n".join(rows)
    return f"""#compdef {name}
# Completion of {name}'s commands, options and files for zsh.

local level= next before=$words[CURRENT-1]
local -a offers
for next in "${{(@)words[2,CURRENT-1]}}"; do
    case "${{level:+$level }}$next" in
    {known}) level="${{level:+$level }}$next" ;;
    esac
done
case $level in
{lines}
esac
if [[ $PREFIX == --*=* ]]; then
    before=${{PREFIX%%=*}}
    compset -P '*='
fi
case $before in
{cases(found, "_files; return", "offers=({})")}
esac
_describe 'command or option' offers -o nosort{" || _files" if takes_files(found) else ""}
"""


def fish(found: list[Help]) -> str:
    name = found[0].name
    lines = [f"# Completion of {name}'s commands, options and files for fish.", ""]
    lines += [] if takes_files(found) else [f"complete -c {name} -f"]
    for level in found:
        seen = [f"__fish_seen_subcommand_from {word}" for word in level.words]
        if level.commands:
            seen.append(f"not __fish_seen_subcommand_from {' '.join(it for it in level.commands if it not in level.words)}")
        condition = f' -n "{"; and ".join(seen)}"' if seen else ""
        lines += [f"complete -c {name} -f{condition} -a {word} -d '{quoted(said)}'" for word, said in level.commands.items()]
        for word in level.options:
            value = choices([level]).get(word)
            more = "" if value is None else " -r -F" if value == "files" else f" -x -a '{value}'"
            lines.append(f"complete -c {name}{condition} -l {word[2:]}{more} -d '{quoted(level.of(word))}'")
    return "\n".join(lines) + "\n"


def explained() -> list[Item]:
    """What linksim-explain takes as a name: what it makes of the program's commands, and each refusal with its cause."""
    words = {"about": "which program this is", "outcome": "why blocks are open"}
    words.update(dict.fromkeys(("cut", "check", "send", "run", "audit"), "what is wrong with the files of a command"))
    found = {fault.name: fault.cause for section in faults.listed().values() for fault in section
             if faults.named(fault.name)}
    return [Item(name, True, [said]) for name, said in {**words, **found}.items()]


def of_program(program: str) -> list[Help]:
    """The levels of the program; its `help` takes each command, and nothing after it."""
    found = helps.of_program(program)
    commands = [it for it in found[0].items if it.is_command]
    return [*found, Help("linksim", ("help",), items=commands), *(Help("linksim", ("help", it.term)) for it in commands)]


def write(folder: pathlib.Path, program: str) -> None:
    """Writes the completions of the program and of all tools below a folder of data."""
    for found in [of_program(program), *map(helps.levels, helps.TOOLS)]:
        found[0].items += explained() if found[0].name == "linksim-explain" else []
        for shell, made in (("bash", bash), ("zsh", zsh), ("fish", fish)):
            path = folder / PLACES[shell].format(found[0].name)
            path.parent.mkdir(parents=True, exist_ok=True)
            path.write_text(made(found))

"""Completions of a program's words for bash, zsh and fish, as tools/words writes them."""

from __future__ import annotations

from dataclasses import dataclass, field


@dataclass
class Word:
    """One word of a command line."""

    # Its short and its long form; empty for a word by its place.
    short: str = ""
    long: str = ""
    # What stands for its value, as `TABLE`; empty for a flag.
    value: str = ""
    help: str = ""
    needed: bool = False
    many: bool = False
    values: list[str] = field(default_factory=list)


@dataclass
class Words:
    """What a program's help says."""

    name: str
    about: str = ""
    arguments: list[Word] = field(default_factory=list)
    options: list[Word] = field(default_factory=list)


# What stands for the name of a file or a folder.
FILES = ("SETTINGS", "LOG", "DIR", "OLD", "NEW")


def of(words: Words) -> list[tuple[str, str, str]]:
    """The shell, the file's name and its text, for each shell."""
    return [
        ("bash", words.name, bash(words)),
        ("zsh", f"_{words.name}", zsh(words)),
        ("fish", f"{words.name}.fish", fish(words)),
    ]


def names(words: Words) -> list[str]:
    """All forms of all options."""
    return [form for it in words.options for form in (it.short, it.long) if form]


def bash_values(it: Word) -> str:
    """What is offered in the place of a word."""
    if it.values:
        return f"mapfile -t COMPREPLY < <(compgen -W '{' '.join(it.values)}' -- \"$word\")"
    return "compopt -o default" if it.value in FILES else ":"


def bash(words: Words) -> str:
    """The completions for bash."""
    valued = [it for it in words.options if it.value]
    lines = [
        f"# Completions of {words.name} for bash; written by tools/words.",
        f"_{words.name}() {{",
        "    local word=${COMP_WORDS[COMP_CWORD]} at place=0",
        "    COMPREPLY=()",
    ]
    if valued:
        lines.append("    case ${COMP_WORDS[COMP_CWORD-1]} in")
        lines += [f"        {it.long}) {bash_values(it)}; return ;;" for it in valued]
        lines.append("    esac")
    if words.options:
        lines += [
            "    case $word in",
            f"        -*) mapfile -t COMPREPLY < <(compgen -W '{' '.join(names(words))}' -- \"$word\"); return ;;",
            "    esac",
        ]
    lines += [
        "    for ((at = 1; at < COMP_CWORD; at++)); do",
        "        case ${COMP_WORDS[at]} in",
        *([f"            {'|'.join(it.long for it in valued)}) at=$((at + 1)) ;;"] if valued else []),
        "            -*) ;;",
        "            *) place=$((place + 1)) ;;",
        "        esac",
        "    done",
        "    case $place in",
    ]
    for place, it in enumerate(words.arguments):
        lines.append(f"        {'*' if it.many else place}) {bash_values(it)} ;;")
    return "\n".join([*lines, "    esac", "}", f"complete -F _{words.name} {words.name}", ""])


def quoted(text: str) -> str:
    """A text inside the brackets of a zsh word."""
    return text.replace("\\", "\\\\").replace("[", "\\[").replace("]", "\\]").replace(":", "\\:").replace("'", "'\\''")


def zsh_values(it: Word) -> str:
    """What is offered in the place of a word."""
    if it.values:
        return f"({' '.join(it.values)})"
    return "_files" if it.value in FILES else " "


def zsh(words: Words) -> str:
    """The completions for zsh."""
    lines = []
    for it in words.options:
        value = f":{it.value}:{zsh_values(it)}" if it.value else ""
        alone = "(- *)" if it.long in ("--help", "--version") else ""
        lines += [f"'{alone}{form}[{quoted(it.help)}]{value}'" for form in (it.short, it.long) if form]
    for place, it in enumerate(words.arguments, 1):
        lines.append(f"'{'*' if it.many else place}:{it.value}:{zsh_values(it)}'")
    text = " \\\n".join(["_arguments", *(f"    {it}" for it in lines)])
    return f"#compdef {words.name}\n# Completions of {words.name} for zsh; written by tools/words.\n{text}\n"


def fish_quoted(text: str) -> str:
    """A text in the quotes of fish."""
    return "'" + text.replace("\\", "\\\\").replace("'", "\\'") + "'"


def fish(words: Words) -> str:
    """The completions for fish."""
    lines = [f"# Completions of {words.name} for fish; written by tools/words."]
    if not any(it.value in FILES for it in words.arguments):
        lines.append(f"complete -c {words.name} -f")
    for it in words.options:
        forms = (f" -s {it.short[1:]}" if it.short else "") + f" -l {it.long[2:]}"
        values = (
            f" -x -a '{' '.join(it.values)}'"
            if it.values
            else (" -r" if it.value in FILES else " -x")
            if it.value
            else ""
        )
        lines.append(f"complete -c {words.name}{forms}{values} -d {fish_quoted(it.help)}")
    for place, it in enumerate(words.arguments, 1):
        if it.values:
            lines.append(
                f"complete -c {words.name} -f -n 'test (count (commandline -opc)) -eq {place}' -a '{' '.join(it.values)}'"
            )
    return "\n".join([*lines, ""])

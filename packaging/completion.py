"""Completion of words in bash, of the options that programs print for `--help`."""
import re

_OPTION = re.compile(r"^ +(?:-\w, )?(--[a-z][a-z-]*)", re.MULTILINE)
_COMMAND = re.compile(r"^  ([a-z]+) {2,}", re.MULTILINE)

_SCRIPT = """# Words of ngc and its tools, for bash; made of what each prints for --help.

declare -gA _ngc_options=(
{options}
)
_ngc_commands="{commands}"

_ngc() {{
    local current=${{COMP_WORDS[COMP_CWORD]}} name=${{COMP_WORDS[0]##*/}}
    COMPREPLY=()
    if [[ $name == ngc && $COMP_CWORD -eq 1 && $current != -* ]]; then
        mapfile -t COMPREPLY < <(compgen -W "$_ngc_commands" -- "$current")
        return
    fi
    if [[ $name == ngc && $COMP_CWORD -gt 1 ]]; then
        name="ngc ${{COMP_WORDS[1]}}"
    fi
    if [[ $current == -* ]]; then
        mapfile -t COMPREPLY < <(compgen -W "${{_ngc_options[$name]}}" -- "$current")
    fi
}}

complete -o default -F _ngc {names}
"""


def script(helps: dict[str, str]) -> str:
    """The script, of the helps by the words that ask for them: those of programs, and of commands as `ngc dry`."""
    options = "\n".join(f'    ["{words}"]="{" ".join(options_of(text))}"' for words, text in sorted(helps.items()))
    names = " ".join(sorted(words for words in helps if " " not in words))
    return _SCRIPT.format(options=options, commands=" ".join(commands_of(helps["ngc"])), names=names)


def options_of(text: str) -> list[str]:
    """The long options of a help, in its order."""
    return list(dict.fromkeys(_OPTION.findall(text)))


def commands_of(text: str) -> list[str]:
    """The commands of a help of `ngc`."""
    return _COMMAND.findall(text.partition("Commands:\n")[2].partition("\n\n")[0])

"""The completion for bash, made of the words that `dnsreplay --help` tells."""
from . import helps

TEXT = """\
# bash completion for dnsreplay, made of what `dnsreplay --help` and `dnsreplay COMMAND --help` tell
_dnsreplay() {{
    local word=${{COMP_WORDS[COMP_CWORD]}} before=${{COMP_WORDS[COMP_CWORD - 1]}} command=${{COMP_WORDS[1]}} words
    local -A options=(
{options}
    )
    if [[ $COMP_CWORD == 1 ]]; then
        words="{commands} {alone}"
    elif [[ " {files} " == *" $before "* ]]; then
        compopt -o filenames
        mapfile -t COMPREPLY < <(compgen -f -- "$word")
        return
    elif [[ " {valued} " == *" $before "* ]]; then
        return
    else
        words="${{options[$command]-}} {alone}"
    fi
    mapfile -t COMPREPLY < <(compgen -W "$words" -- "$word")
}}
complete -F _dnsreplay dnsreplay
"""

def text(whole, commands):
    """By the program's help and its commands."""
    every = [each for command in commands for each in helps.options(command.help)]
    named = {command.name: " ".join(word for word, *_ in helps.options(command.help)) for command in commands}
    fields = {
        "options": "\n".join(f'        [{name}]="{words}"' for name, words in named.items()),
        "commands": " ".join(named),
        "alone": " ".join(term for term, _ in whole.tables[1]),
        "files": " ".join(sorted({word for word, value, _ in every if value == "FILE"})),
        "valued": " ".join(sorted({word for word, value, _ in every if value and value != "FILE"})),
    }
    return TEXT.format(**fields)

#!/usr/bin/env python3
"""Prints what bash completes behind pra: source <(./pra completion)"""

import sys

import stopped
import words as known_words

TEXT = """# What bash completes behind pra, made by pra completion.
_pra() {{
    local word=${{COMP_WORDS[COMP_CWORD]}} before=${{COMP_WORDS[COMP_CWORD - 1]}}
    local at mode="" takes=""
    for ((at = 1; at < COMP_CWORD; at++)); do
        case ${{COMP_WORDS[at]}} in
        -*) ;;
        *) mode=${{COMP_WORDS[at]}} && break ;;
        esac
    done
    COMPREPLY=()
    case $before in
{choices}    {numbers}) return ;;
    esac
    case $mode in
{takes}    esac
    case $word in
    -*) COMPREPLY=($(compgen -W "$takes {everywhere}" -- "$word")) ;;
    *)
        case $mode in
        "") COMPREPLY=($(compgen -W "{words}" -- "$word")) ;;
        help) COMPREPLY=($(compgen -W "{words}" -- "$word")) ;;
        esac
        ;;
    esac
}}
complete -o default -F _pra pra ./pra
"""
CHOICE = """    {name}) COMPREPLY=($(compgen -W "{choices}" -- "$word")) && return ;;
"""


def text():
    known, options = known_words.table()
    numbers = [it.name for it in options.values() if it.value and known_words.is_number(it)]
    chosen = ((it.name, " ".join(known_words.choices(it))) for it in options.values())
    lines = (CHOICE.format(name=name, choices=choices) for name, choices in chosen if choices)
    takes = (f'    {it.name}) takes="{" ".join(it.names)}" ;;\n' for it in known.values())
    everywhere = " ".join(known_words.EVERYWHERE)
    parts = {"choices": "".join(lines), "numbers": " | ".join(numbers), "takes": "".join(takes)}
    return TEXT.format(words=" ".join(known), everywhere=everywhere, **parts)


def main(words):
    if words:
        print("fault words\nusage: pra completion", file=sys.stderr)
        return known_words.NO_WORDS
    print(text(), end="")
    return 0


if __name__ == "__main__":
    sys.exit(stopped.status_of(lambda: main(sys.argv[1:])))

"""What bash completes after `yokeorange` and `yoke`."""
from __future__ import annotations

import argparse

from yoke import command

ENGINE = '''# Completion of yokeorange for bash.
_yokeorange() {
    local word=${COMP_WORDS[COMP_CWORD]}
    case $word in
        -*) COMPREPLY=($(compgen -W "--max-objects --max-file --" -- "$word")) ;;
        *) COMPREPLY=($(compgen -f -- "$word")) ;;
    esac
}
complete -o filenames -F _yokeorange yokeorange
'''
COMPANION = '''# Completion of yoke for bash: verbs, options of the verb, and files.
_yoke() {{
    local word=${{COMP_WORDS[COMP_CWORD]}}
    if [ "$COMP_CWORD" -eq 1 ]; then
        COMPREPLY=($(compgen -W "{verbs} --help --version" -- "$word"))
        return
    fi
    case $word in -*) ;; *) COMPREPLY=($(compgen -f -- "$word")); return ;; esac
    local options=
    case ${{COMP_WORDS[1]}} in
{cases}    esac
    COMPREPLY=($(compgen -W "$options" -- "$word"))
}}
complete -o filenames -F _yoke yoke
'''


def options_of(verb: argparse.ArgumentParser) -> list[str]:
    """The long options of a verb that its help shows, sorted."""
    return sorted(
        name
        for action in verb._actions
        if action.help != argparse.SUPPRESS
        for name in action.option_strings
        if name.startswith('--')
    )


def verbs() -> dict[str, argparse.ArgumentParser]:
    """The parser of each verb of yoke."""
    for action in command.parser()._actions:
        if isinstance(action, argparse._SubParsersAction):
            return dict(action.choices)
    raise ValueError('yoke has no verbs')


def companion() -> str:
    """The completion of yoke, from its parser."""
    found = verbs()
    cases = ''.join(
        f'        {name}) options="{" ".join(options_of(verb))}" ;;\n'
        for name, verb in found.items()
    )
    return COMPANION.format(verbs=' '.join(found), cases=cases)


def of() -> dict[str, str]:
    """The completion of each program, by its name."""
    return {'yokeorange': ENGINE, 'yoke': companion()}

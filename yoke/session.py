"""The session of a day: lines run over the last one that was kept, and kept themselves.

    session = Session.of(arguments)
    answer = session.ask(['find changed'])              # looks; keeps nothing
    with session.day.locked():
        answer = session.edit('do', ['tag n1 Tref=7'])  # Refused where a step is; else it is the session from now on
"""
import argparse
import os
from dataclasses import dataclass
from typing import IO, Dict, Iterable, List, NoReturn, Optional

from yoke import damage, opl, saved, stored, words
from yoke.day import Day, State
from yoke.program import Answer, BadLine, Program, Target
from yoke.trouble import Clash, NoAnswer, Refused, Trouble


@dataclass(frozen=True)
class Session:
    """The last session of a day, and the program that goes on with it."""

    day: Day
    program: Program

    @classmethod
    def of(cls, arguments: argparse.Namespace) -> 'Session':
        """That of the words of a command line."""
        return cls(Day(arguments.day), Program.of(arguments))

    def ask(self, lines: Iterable[str], allow_refused: bool = False) -> Answer:
        """The Answer to lines over the last session, of which nothing is kept. Refused at the first
        refused one, unless they are allowed.
        """
        return self._run(self.day.last(), list(lines), allow_refused)

    def edit(
        self,
        verb: str,
        lines: Iterable[str],
        allow_refused: bool = False,
        keep_refused: bool = False,
    ) -> Answer:
        """Does lines over the last session, and keeps what comes as the work of a verb; answers
        with the Answer.

        Where a step is refused nothing is kept, and Refused is raised. With `allow_refused` the
        Answer comes all the same, and with `keep_refused` the other steps are kept too. NoAnswer
        where a document went out and its answer isn't known: the server may have taken what such an
        edit would change.
        """
        self.check_settled()
        with self.day.draft(verb) as draft:
            answer = self._run(
                self.day.last(),
                list(lines),
                allow_refused,
                lambda answer: (draft.begin() if keep_refused or not answer.refused() else None),
            )
            if draft.file is not None:
                draft.keep()
        return answer

    def check_settled(self) -> None:
        """NoAnswer where a document went out, and it isn't known what the server took of it, or
        where a part of the edits is being sent.
        """
        pending, held = self.day.pending(), self.day.held()
        if pending:
            raise NoAnswer(
                'it isn\'t known yet what the server took of {}: yoke send looks, and goes on'.format(
                    self.day.path(pending)
                )
            )
        if held:
            raise NoAnswer(
                'a send was stopped while {} edits were held back: the same yoke send goes on'.format(
                    len(held.keys)
                )
            )

    def confirm(self, name: str, size: int) -> Answer:
        """Takes in the answers of a server, which are a file of the day, and keeps the session
        after them as the work of `send`.

        Answers with the Answer, whose last `upload` has what is left, in chunks of so many changes.
        Trouble where the answers aren't those to what this session would send.
        """
        lines = [
            'confirm ' + opl.escape(os.path.abspath(self.day.path(name))),
            f'upload {size}',
        ]
        with self.day.draft('send') as draft:
            answer = self._run(
                self.day.last(),
                lines,
                True,
                lambda answer: draft.begin() if answer.replies[0].word == 'ok' else None,
            )
            taken = answer.last('confirm')
            assert taken is not None
            if taken.word != 'ok':
                raise Trouble(f'{self.day.path(name)}: {words.refusal(taken.rest)}')
            draft.keep()
        if answer.refused():
            raise_refused(answer)
        return answer

    def _run(
        self, state: State, lines: List[str], allow_refused: bool, target: Optional[Target] = None
    ) -> Answer:
        """Replies carry the numbers of the lines given here, from 1. With a `target` the session
        after them is saved into the file that it gives for the replies to them, where the session
        was taken up.
        """

        def checked(answer: Answer) -> Optional[IO[bytes]]:
            assert target is not None
            first, *others = answer.replies
            return target(Answer.of(others)) if first.word == 'ok' else None

        steps = [resume(state)] + lines
        try:
            answer = self.program.save(steps, checked) if target else self.program.run(steps)
        except BadLine as bad:
            bad.line -= 1
            raise
        first = answer.replies.pop(0)
        if first.word != 'ok':
            broken = damage.of_reply(self.day, state.path, first)
            if broken is not None:
                raise broken
            raise Refused(f'{state.path} isn\'t taken up: {words.refusal(first.rest)}')
        for reply in answer.replies:
            reply.line -= 1
        if not allow_refused and answer.refused():
            raise_refused(answer)
        return answer

    def relations(self) -> Dict[str, saved.Known]:
        """The relations of the last session alone: of a large one they are a small part, at its
        end.
        """
        with stored.opened(self.day.last().path) as session:
            return {known.key: known for known in session.of_kind('r')}

    def known(self) -> Dict[str, saved.Known]:
        """The objects of the last session, `saved.Known` by key, read without the program."""
        return saved.read(self.day.last().text())


def raise_refused(answer: Answer) -> NoReturn:
    """Raises the first refusal of an Answer: Clash where it is for conflicts, else Refused."""
    reply = answer.refused()[0]
    raise (Clash if reply.number == 23 else Refused)(
        f'{words.refusal(reply.rest)}: {words.cut(reply.step)}'
    )


def resume(state: State) -> str:
    """The line that takes a kept session up."""
    return 'resume ' + opl.escape(os.path.abspath(state.path))

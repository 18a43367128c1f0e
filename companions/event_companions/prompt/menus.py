"""Lines from a terminal by prompt_toolkit: a menu shows how a word or a name may go on."""
from __future__ import annotations

import select
import sys
from typing import Iterable

from prompt_toolkit import PromptSession
from prompt_toolkit.completion import CompleteEvent, Completer, Completion
from prompt_toolkit.document import Document
from prompt_toolkit.filters import Condition
from prompt_toolkit.input.typeahead import get_typeahead, store_typeahead
from prompt_toolkit.patch_stdout import patch_stdout

from event_companions.prompt.offers import Offers


class Menu(Completer):
    def __init__(self, offers: Offers):
        self.offers = offers

    def get_completions(self, document: Document, complete_event: CompleteEvent) -> Iterable[Completion]:
        """What may stand in place of the part that is typed."""
        for offer in self.offers(document.text_before_cursor):
            yield Completion(offer.text, start_position=-len(offer.typed), display=offer.shown)


class Menus:
    def __init__(self, offers: Offers):
        # the menu takes its room once something is typed: until then what was said last keeps the screen
        self.lines: PromptSession[str] = PromptSession(
            completer=Menu(offers), reserve_space_for_menu=6, complete_while_typing=Condition(self.has_begun)
        )
        # a question has an answer of its own, and no menu
        self.answers: PromptSession[str] = PromptSession()

    def has_begun(self) -> bool:
        return bool(self.typed())

    def line(self, prompt: str) -> str:
        # what is printed meanwhile stands above the line
        with patch_stdout():
            return str(self.lines.prompt(prompt))

    def typed(self) -> str:
        return str(self.lines.default_buffer.text)

    def is_ahead(self) -> bool:
        keys = get_typeahead(self.lines.input)
        store_typeahead(self.lines.input, keys)
        return bool(keys) or bool(select.select([sys.stdin], [], [], 0)[0])

    def say_above(self, prompt: str, text: str) -> None:
        self.lines.message = prompt
        print(text, flush=True)

    def answer(self, question: str) -> str:
        return str(self.answers.prompt(question))

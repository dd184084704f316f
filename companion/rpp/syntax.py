"""What is wrong with a text that leaves the grammar.

There is a sentence for each of the usual mistakes, what to write instead, and, if that is a text, the edits that write it.

    hint = syntax_hint(text, at)        # where the grammar is left: Hint, with what was expected there"""
from typing import Callable, List, Optional

from .grammar import first_wrong, spelled
from .spelling import Hint
from .syntax_blocks import of_end, of_missing_word, of_parentheses, of_statement_begin, of_stray_word
from .syntax_calls import (
    of_argument, of_call_parentheses, of_construct, of_copy, of_local, of_new, of_new_with_arguments, of_word_in_copy)
from .syntax_changes import (
    of_arrow, of_call_without_word, of_cast, of_comment_as_quotient, of_keyword_as_variable, of_operator_name, of_update,
    of_word_at_begin)
from .syntax_declarations import (
    of_digit_first, of_extends, of_field, of_first_word, of_hyphen, of_keyword_as_name, of_method_head, of_modifier, of_type,
    of_word_behind_statement)
from .syntax_fields import of_int_as_class, of_name_twice, of_statement_among_fields
from .syntax_place import Place
from .syntax_values import of_value, of_value_end
from .tokens import cut

HINTS: List[Callable[[Place], Optional[Hint]]] = [
    of_first_word, of_hyphen, of_digit_first, of_word_in_copy, of_comment_as_quotient, of_arrow, of_statement_among_fields,
    of_int_as_class, of_name_twice, of_extends, of_modifier, of_cast,
    of_operator_name, of_keyword_as_variable, of_missing_word,
    of_stray_word, of_keyword_as_name, of_method_head, of_field, of_type, of_argument, of_call_parentheses,
    of_local, of_construct, of_new_with_arguments, of_new, of_copy, of_update, of_call_without_word,
    of_word_at_begin, of_value, of_value_end, of_parentheses, of_statement_begin, of_end, of_word_behind_statement]


def syntax_hint(text: bytes, at: int) -> Hint:
    """What is said of the place where the grammar is left; without a sentence where no usual mistake is seen, and with nothing where
    this module finds another place than the program."""
    tokens = cut(text)[0]
    spot = first_wrong(tokens)
    it = Place(text, tokens, spot) if spot else None
    if it is None or it.begin() != at:
        return Hint('')
    found = f'`{it.word()}`' if it.word() else 'the end of the source'
    hint = next(filter(None, (rule(it) for rule in HINTS)), Hint(''))
    return hint._replace(expected=spelled(spot.expected), found=found)

"""What stands where a source is refused, as far as it can be found out, and what to write instead. It is a guess: the program alone says what is refused."""

from ido_tools.declared import Declared
from ido_tools.fault import BadInput
from ido_tools.hints_locks import lock_hints
from ido_tools.hints_names import name_hint
from ido_tools.hints_price import price_hints
from ido_tools.hints_tokens import token_hint


def hints(code, text, place):
    """Lines on the rule that a source breaks at a byte; none where nothing is found out."""
    try:
        if code == "K7":
            return price_hints(text, place)
        declared = Declared(text)
        said = token_hint(code, declared, place) or name_hint(code, declared, place)
        return [said] if said else lock_hints(code, declared, place)
    except (BadInput, RecursionError, LookupError, ValueError):
        return []

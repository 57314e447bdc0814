"""The names of rules."""

import enum

from . import _calls

# The ends of the formats of numbers, such as "03d".
_NUMERIC = tuple("bcdoxXneEfFgG%")


class Labelled(enum.IntEnum):
    """Numbers that are printed as the labels of rules, and as themselves in a format of numbers."""

    @property
    def label(self) -> str:
        """The number of the rule in the standard, such as "8a"."""
        return _calls.label(self)

    @property
    def text(self) -> str:
        """What the rule says, in one line."""
        return _calls.rule_text(self)

    def __str__(self) -> str:
        return self.label

    def __format__(self, form: str) -> str:
        return format(int(self) if form.endswith(_NUMERIC) else self.label, form)

"""Delay tables as the scripts read them."""
import tomllib
from fractions import Fraction

from texts import fail, lines_of


class Table:
    """A delay table. What isn't there, or isn't a number where one is to be, is an error."""

    def __init__(self, path):
        self.path, self.text = path, "".join(lines_of(path))
        try:
            self.entries = tomllib.loads(self.text)
        except ValueError as error:
            fail(path, f"not a delay table: {error}")

    def at(self, *keys):
        entry = self.entries
        for key in keys:
            if not isinstance(entry, dict) or key not in entry:
                fail(self.path, f"the delay table lacks {'.'.join(keys)}")
            entry = entry[key]
        return entry

    def has(self, *keys):
        entry = self.entries
        for key in keys:
            if not isinstance(entry, dict) or key not in entry:
                return False
            entry = entry[key]
        return True

    def number(self, *keys):
        if type(value := self.at(*keys)) is not int:
            fail(self.path, f"{'.'.join(keys)} is no whole number")
        return value

    def wire_delay(self):
        """The ticks of a length unit of wire."""
        try:
            return Fraction(self.at("wire", "delay"))
        except (ValueError, TypeError, ZeroDivisionError):
            fail(self.path, "wire.delay is no fraction")

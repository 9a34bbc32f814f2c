"""The types of an object, and how to write values of them."""

from __future__ import annotations

from dataclasses import dataclass

from bpfhost.objects.btf import Btf
from bpfhost.objects.layout import spelling
from bpfhost.objects.values import decode, plain, text, texts


@dataclass(frozen=True)
class Types:
    """The types of a .BTF section, by their ids."""

    btf: Btf

    def show(self, type_id: int, data: bytes) -> str:
        """The value of the first bytes as written in C: `{ .src = 167772161, .port = 53 }`.

        Raises ObjectError if there are fewer bytes than the type has, if the type has no values, or if there is no such type.
        """
        return text(decode(self.btf, type_id, data))

    def plain(self, type_id: int, data: bytes) -> object:
        """The value as numbers, strings, lists and dicts, for JSON. Raises the errors of `show`."""
        return plain(decode(self.btf, type_id, data))

    def texts(self, type_id: int, data: bytes) -> object:
        """The value as lists and dicts of what `show` writes, without quotes, for the cells of a table. Raises the errors of `show`."""
        return texts(decode(self.btf, type_id, data))

    def name(self, type_id: int) -> str:
        """The type as written in C. Raises ObjectError if there is none."""
        return spelling(self.btf, type_id)

"""The skins of pages that are made, as crates/mad_page_skin/src has them."""
from __future__ import annotations

import re
from collections.abc import Iterator
from typing import NamedTuple

from project import CRATES

SOURCES = CRATES / "mad_page_skin" / "src"
FIELD = re.compile(r"^ +(\w+): (.*?),(?=\n +(?:\w+: |\.\.|\})|\s*\Z)", re.MULTILINE | re.DOTALL)
FUNCTION = re.compile(r"fn (\w+)\(\) -> (\w+)\n(.*?)^ *}$", re.MULTILINE | re.DOTALL)


class Part(NamedTuple):
    """A field of a part of a skin: the function that makes the part, its type, the field and its value, as they are written."""

    function: str
    kind: str
    field: str
    value: str


def parts_of(skin: str) -> Iterator[Part]:
    """The fields of a made skin, in the order of its source."""
    for function, kind, body in FUNCTION.findall((SOURCES / f"{skin}.rt").read_text()):
        for field, value in FIELD.findall(body):
            yield Part(function, kind, field, value)

"""The apostrophe of the Ukrainian words, and the signs that are said for it."""
import re

import generated

LETTER = 'ʼ'  # as the tables of the specs and the lists of meanings have it
# in the order of the setting's numbers
SIGNS = re.findall(r'"(.)"', re.search(r'^apostrophes = .*', generated.committed('crates/uk/specs/Apostrophes.antt'), re.M).group())


def with_sign(table, sign):
    """A text, or a table of texts, with this sign."""
    return table.replace(LETTER, sign) if isinstance(table, str) else [with_sign(row, sign) for row in table]


def each_sign(words):
    """The words, those with an apostrophe once for each sign."""
    return [text for word in words for text in ([with_sign(word, sign) for sign in SIGNS] if LETTER in word else [word])]

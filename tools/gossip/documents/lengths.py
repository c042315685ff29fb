"""Checks how long the sentences, cells and items of documents are.

A word has a letter or a digit, and is between blanks. What is between backticks counts as one word, and so does a row of such names. The
target of a link doesn't count.
"""
import collections.abc
import re

from gossip.documents.reading import SPAN, Document, Fault, Passage

SENTENCE_WORDS, CELL_WORDS, ITEM_WORDS = 35, 40, 80
TARGET = re.compile(r"\]\([^)\s]*\)")
ITEM = re.compile(r"\A *(?:[-*]|\d+\.) ")
# names in a row, each perhaps with a number
ROW = re.compile(r"\bcode(?::\d+)?(?:, (?:code|[^\s\w]+)(?::\d+)?)+")
# the end of a sentence: a full stop, or a question or exclamation mark, after a word or a bracket and before a blank
ENDS = re.compile(r"(?<=[\w)\]*`\"”%])[.!?](?=[)*_]*(?:\s|$))")


def plain(text: str) -> str:
    """Returns a text with a word in place of what is between backticks, and without the targets of its links."""
    return ROW.sub("code", TARGET.sub("]", re.sub(SPAN, "code", text)))


def words_in(text: str) -> int:
    return sum(1 for word in text.split() if re.search(r"\w", word))


def cells_of(passage: Passage) -> list[str]:
    """Returns the cells of a table row, or the whole text of any other passage."""
    text = plain(passage.text)
    return [cell for cell in text.strip().strip("|").split("|")] if text.lstrip().startswith("|") else [text]


def too_long_in(passage: Passage) -> collections.abc.Iterator[str]:
    """Yields what is too long in a passage: a sentence, a table cell or a list item."""
    cells = cells_of(passage)
    for sentence in (each for cell in cells for each in ENDS.split(ITEM.sub("", cell, count=1))):
        if (count := words_in(sentence)) > SENTENCE_WORDS:
            yield f"a sentence has {count} words, more than {SENTENCE_WORDS}: {' '.join(sentence.split()[:6])} .."
    if len(cells) > 1:
        for count in map(words_in, cells):
            if count > CELL_WORDS:
                yield f"a cell has {count} words, more than {CELL_WORDS}"
    elif ITEM.match(passage.text) and (count := words_in(ITEM.sub("", cells[0]))) > ITEM_WORDS:
        yield f"an item has {count} words, more than {ITEM_WORDS}"


def faults_of_lengths(document: Document, excused: collections.abc.Iterable[str]) -> collections.abc.Iterator[Fault]:
    """Yields what is too long in a document, except in passages that contain an excused text."""
    for passage in document.passages:
        if not any(text in passage.text for text in excused):
            yield from (Fault(document.name, passage.line, fault) for fault in too_long_in(passage))

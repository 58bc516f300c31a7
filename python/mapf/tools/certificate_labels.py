"""The labels that a block or a lemma lists, as the page of a plan holds them: as a text of two or three bytes a label.
"""

from collections.abc import Iterable, Sequence
from dataclasses import dataclass

from .recheck3_labels import INFINITE, Cell, Label

# The cell of an agent, or of each of two, where None is an agent that has arrived for good; the tick; and the label.
Entry = tuple[Sequence[Cell | None], int, Label]

# So many bytes of labels count as a line of the page. The line of a node takes more.
BYTES_OF_LINE = 64


@dataclass(frozen=True)
class Listed:
    """Labels that are listed together: the line of the first, how many there are, and the text of all."""

    line: int
    count: int
    text: str

    def lines(self) -> int:
        """How many lines of the page the text counts as."""
        return -(-len(self.text) // BYTES_OF_LINE)


def listed(line: int, entries: Sequence[Entry], width: int) -> Listed:
    """These entries in their order, of which the first stands in this line, on a map of so many columns."""
    return Listed(line, len(entries), "".join(words_of(entries, width)).strip())


def words_of(entries: Iterable[Entry], width: int) -> Iterable[str]:
    """The words of the entries: 't4' and 'l7' name the tick and the label from here on, of two agents 'u5' the first
    one's cell. Each other word is an entry: by how much the number of its cell exceeds the one before, of the same tick
    and the same 'u', or else 0. '*' is an agent that has arrived for good.
    """
    tick, label, first, last = -1, None, "", 0
    for cells, at, is_label in entries:
        names = ["*" if cell is None else str(cell[1] * width + cell[0]) for cell in cells]
        if at != tick:
            yield f"t{at}"
            tick, first, last = at, "", 0
        if is_label != label:
            yield "linf" if is_label == INFINITE else f"l{is_label}"
            label = is_label
        if len(names) == 2 and names[0] != first:
            yield f"u{names[0]}"
            first, last = names[0], 0
        if names[-1] == "*":
            yield " *"
        else:
            yield f" {int(names[-1]) - last}"
            last = int(names[-1])

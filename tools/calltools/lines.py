"""Lines of a text that anyone may have made: none is read whole that is longer than memory bears."""

from typing import BinaryIO, Iterator

from .errors import BadInput

MOST_LETTERS = 8_192
# Of a report: two parties of 1,048,576 pictures each have less.
MOST_OF_REPORT = 1 << 26
# Of the times of 16,777,216 entries.
MOST_OF_TIMES = 1 << 29


def lines_in(file: BinaryIO, path: str, most: int) -> Iterator[str]:
    """The lines of a file, each with its end, which is LF. Longer ones are refused, and more bytes than the most."""
    number = size = 0
    while line := file.readline(MOST_LETTERS + 1):
        number, size = number + 1, size + len(line)
        if len(line) > MOST_LETTERS:
            raise BadInput(path, f"line {number}", f"it is longer than {MOST_LETTERS:,} letters")
        if size > most:
            raise BadInput(path, f"line {number}", f"the file is longer than {most:,} bytes")
        text = line.decode("ascii", "replace")
        yield text[:-2] + "\n" if text.endswith("\r\n") else text

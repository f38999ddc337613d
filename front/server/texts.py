"""The text of a document, and its places: an offset counts characters, a position has a line and units of UTF-16 in it, as the protocol has them."""
import bisect
import re

END = re.compile(r"\r\n|\n|\r")  # of a line, by the protocol


def units(text):
    """How many units of UTF-16 a text has."""
    return len(text) if text.isascii() else len(text.encode("utf-16-le", "surrogatepass")) // 2


def characters(text, count):
    """How many characters of a text stand in so many units, or fewer where it ends. A character that is parted counts as after the place."""
    if text.isascii():
        return min(count, len(text))
    octets = text.encode("utf-16-le", "surrogatepass")[:2 * count]
    whole = octets.decode("utf-16-le", "surrogatepass")
    return len(whole) - (1 if whole and not text.startswith(whole) else 0)


class Text:
    """A text with the offsets at which its lines begin."""

    def __init__(self, text):
        self.text = text
        self.begins = [0, *[it.end() for it in END.finditer(text)]]

    def line(self, number):
        """The begin and the end of a line, without what ends it."""
        begin = self.begins[number]
        if number + 1 == len(self.begins):
            return begin, len(self.text)
        end = self.begins[number + 1] - 1
        return begin, end - (self.text[end - 1:end + 1] == "\r\n" and end > begin)

    def line_of(self, offset):
        """The number of the line in which an offset is."""
        return bisect.bisect_right(self.begins, offset) - 1

    def position(self, offset):
        """The position of an offset. One inside of what ends a line is that line's end."""
        number = self.line_of(offset)
        begin, end = self.line(number)
        return {"line": number, "character": units(self.text[begin:min(offset, end)])}

    def range(self, start, end):
        return {"start": self.position(start), "end": self.position(end)}

    def offset(self, position):
        """The offset of a position. One that is beyond a line, or beyond the text, is the end of that."""
        number, character = position["line"], position["character"]
        if number >= len(self.begins):
            return len(self.text)
        begin, end = self.line(max(0, number))
        return begin + characters(self.text[begin:end], max(0, character))

    def changed(self, change):
        """The text after a change: a whole one, or one of a range."""
        if change.get("range") is None:
            return Text(change["text"])
        start, end = sorted(self.offset(change["range"][it]) for it in ("start", "end"))
        return Text(self.text[:start] + change["text"] + self.text[end:])

    def of_lines(self, line, column):
        """The offset of a line and a column as the program counts them, from 1, where only a line feed ends a line. Or None."""
        begin = 0
        for _ in range(line - 1):
            begin = self.text.find("\n", begin) + 1
            if begin == 0:
                return None
        return min(begin + column - 1, len(self.text))

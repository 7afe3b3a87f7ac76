"""What all parts of the meaning share: how a run ends, lines, and texts of JSON."""
import json

MARK = b"\xef\xbb\xbf"


class Ended(Exception):
    """The run ends here: the status, and the words on standard error."""


class Refused(Exception):
    """A request or a head is refused: the object that answers it."""


def compact(value):
    """JSON without spaces, with keys in byte order and no escapes but those that JSON demands."""
    return json.dumps(value, ensure_ascii=False, separators=(",", ":"), sort_keys=True)


def text_or_none(data):
    """The text that has these bytes in UTF-8."""
    try:
        return data.decode()
    except UnicodeDecodeError:
        return None


def lines_of(data):
    """The lines: LF ends one, with one CR before it; the last needs no ending, and a CR at its end is then its own."""
    *ended, last = data.removeprefix(MARK).split(b"\n")
    return [line.removesuffix(b"\r") for line in ended] + [last] * (last != b"")

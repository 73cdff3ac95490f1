"""What a page of docs/ shows of bytes, and what is wrong if others came."""
import re

SHOWN_RECORD = "␞"
HEX = re.compile(r"[0-9a-f]{2}( [0-9a-f]{2})*")
MOST_SHOWN = 2_000  # letters of what is told as wrong


class Wrong(Exception):
    pass


def compare(number, wanted, got):
    if got != wanted:
        raise Wrong(f"line {number}: wanted {short(wanted)}\n        came   {short(got)}")


def short(text):
    return text if not isinstance(text, str) or len(text) <= MOST_SHOWN else f"{text[:200]} .. {text[-200:]}"


def without_remark(line):
    return line.split("   #")[0].rstrip()


def bytes_of(text):
    """What a line shows of bytes: those of a text, or such that are no text."""
    return bytes.fromhex(text) if HEX.fullmatch(text) else text.replace(SHOWN_RECORD, "\x1e").encode()


def shown(data):
    """The same of bytes that came."""
    try:
        text = data.decode()
    except UnicodeDecodeError:
        return data.hex(" ")
    return text.replace("\x1e", SHOWN_RECORD)

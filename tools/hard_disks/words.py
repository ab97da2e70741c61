"""What the words of commands are read as: each function takes a word, or refuses it."""
import math
import re
from argparse import ArgumentTypeError


def positive(text):
    value = float(text)
    if not 0 < value < float("inf"):
        raise ArgumentTypeError(f"{text} isn't above 0")
    return value


def not_negative(text):
    value = float(text)
    if not 0 <= value < float("inf"):
        raise ArgumentTypeError(f"{text} isn't 0 or more")
    return value


def whole(least, most):
    """A reader of whole numbers of a range."""

    def read(text):
        if not re.fullmatch(r"[+-]?[0-9]{1,18}", text) or not least <= int(text) <= most:
            raise ArgumentTypeError(f"{text} isn't a whole number from {least} to {most}")
        return int(text)

    return read


def fractions(text):
    return [positive(part) for part in text.split(",")]


def sizes(text):
    """1:0.7,1.4:0.3 as pairs of a relative diameter and a share."""
    try:
        pairs = [part.split(":", 1) if ":" in part else (part, 1) for part in text.split(",")]
        found = [(positive(size), positive(share)) for size, share in pairs]
        if not all(1e-6 <= it <= 1e6 for pair in found for it in pair):
            raise ArgumentTypeError(f"{text} has a size or a share that isn't from 1e-6 to 1e6")
        return found
    except ValueError:
        raise ArgumentTypeError(f"{text} isn't of the form 1:0.7,1.4:0.3") from None


def by_measure(text):
    """gr=4,sk=9 as a number for each measure; 4 alone is for the only one that takes the option."""
    found = {}
    for part in text.split(","):
        name, _, number = part.rpartition("=")
        found[name] = positive(number)
    return found


def bounds(text):
    """0.9:3 as two numbers."""
    numbers = text.split(":")
    if len(numbers) != 2 or not all(math.isfinite(float(it)) for it in numbers) or float(numbers[0]) >= float(numbers[1]):
        raise ArgumentTypeError(f"{text} isn't of the form FROM:TO, with FROM below TO")
    return tuple(map(float, numbers))


def bounds_of(text):
    """Z=1:3 as the name of a panel and two numbers; 1:3 alone is for all panels."""
    name, _, numbers = text.rpartition("=")
    return name, bounds(numbers)


def window(text):
    """0:10,5:15 as four numbers."""
    across, comma, up = text.partition(",")
    if not comma:
        raise ArgumentTypeError(f"{text} isn't of the form LEFT:RIGHT,BOTTOM:TOP")
    return *bounds(across), *bounds(up)

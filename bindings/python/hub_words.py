"""The words of `hub-group`: how its arguments are read and its answers printed, as hub does (docs/HUB.md)."""
import os
import sys

from raspteal import AXIS, BUTTON, FULL, UPPER_HALF, Element, Uuid, pairs

# The source's names of buttons and axes, by number.
NAMES = {
    False: "Unknown South East C North West Z LeftTrigger RightTrigger LeftTrigger2 RightTrigger2 Select Start Mode "
           "LeftThumb RightThumb DPadUp DPadDown DPadLeft DPadRight".split(),
    True: "Unknown LeftStickX LeftStickY LeftZ RightStickX RightStickY RightZ DPadX DPadY".split(),
}
KEY, ABS = 1, 3
KINDS = {KEY: "a button, which is 1 and four hexadecimal digits, as 10130",
         ABS: "an axis, which is 3 and four hexadecimal digits, as 30000"}


class WrongUse(Exception):
    """Arguments that are not understood, in words: status 2, and nothing was called."""


# ---- Printing


def shown(text):
    """A text that others wrote: no control byte reaches the terminal, and where it is not UTF-8, none over 127."""
    text = text.encode("utf-8", "surrogateescape") if isinstance(text, str) else text
    try:
        text.decode()
        utf8 = True
    except UnicodeDecodeError:
        utf8 = False

    def is_control(i, b):
        if b < 127 or b == 127 or not utf8:
            return b < 32 or b >= 127
        return b == 0xC2 and text[i + 1] < 0xA0 or b < 0xA0 and text[i - 1] == 0xC2

    return b"".join(b"\\x%02x" % b if is_control(i, b) else bytes([b]) for i, b in enumerate(text))


def put(stream, *parts):
    """Parts without a space between, and a line end."""
    parts = (p.encode("utf-8", "surrogateescape") if isinstance(p, str) else p for p in parts)
    stream.buffer.write(b"".join(parts) + b"\n")


def say(*parts):
    put(sys.stdout, *parts)


def complain(*parts):
    put(sys.stderr, *parts)
    sys.stderr.flush()


def ident(element):
    """`a`, or the source's name where an element has no ident."""
    names = NAMES[bool(element.is_axis)]
    return names[element.number] if " " in str(element) and element.number < len(names) else str(element)


def named(element):
    """`South (a)`"""
    names = NAMES[bool(element.is_axis)]
    name = names[element.number] if element.number < len(names) else str(element)
    return name if " " in str(element) else f"{name} ({element})"


def bound(e):
    """`RightTrigger2 (righttrigger), upper half in, inverted`"""
    halves = [f", {'upper' if half == UPPER_HALF else 'lower'} half {side}"
              for half, side in ((e.input, "in"), (e.output, "out")) if half != FULL]
    return named(e.element) + "".join(halves) + (", inverted" if e.inverted else "")


def say_pairs(line):
    """The pairs of a line, where no codes are given."""
    told = pairs(line)
    say("no lists are given (buttons=.., axes=..), ",
        "so these are the pairs of the line:" if told else "and the line has no pairs")
    for p in told:
        kind = {AXIS: "axis", BUTTON: "button"}.get(p.kind, "hat")
        say(f"{kind} {p.number}", f", direction {p.direction}" if kind == "hat" else "", f"  {bound(p)}")


def say_map(map, line):
    """The entries, then name, hat flags and default flag."""
    for e in map:
        say(f"{e.code:x}  {bound(e)}")
    say("name '", shown(map.name_in(line)), f"', hat flags {map.hats_mapped}, "
        f"default {'on' if map.is_default else 'off'}")


def complain_refused(told, cause=None):
    """A refusal, with its cause or its place, and what can be done."""
    text = f"refused {told.number}: {told.meaning}"
    text += "" if told.place is None else f" (place {told.place})"
    complain(text, "" if cause is None else f": {cause}")
    if told.number == 24:
        complain("  name an organiser, party=1 to party=255, or leave party= out: then it is the hall's line")


# ---- Arguments


def pad_of(text):
    try:
        return Uuid(os.fsencode(text))
    except ValueError:
        words = b": no UUID; it has 32 hexadecimal digits, or 36 characters with hyphens"
        raise WrongUse(shown(text) + words) from None


def code_of(text):
    """The number that 1 to 8 hexadecimal digits spell, after 0x or not; else None."""
    digits = text[2:] if text.startswith("0x") else text
    good = 1 <= len(digits) <= 8 and all(c in "0123456789abcdefABCDEF" for c in digits)
    return int(digits, 16) if good else None


def of_kind(text, code, *kinds):
    if code >> 16 not in kinds:
        raise WrongUse(shown(text) + f": no code of {KINDS[kinds[0]]}".encode())
    return code


def codes_of(text, kind):
    """`10130,10133-10137`; a longer list than 1025 is cut there, and refused for its length as it would be whole."""
    codes = []
    for part in text.split(",") if text else []:
        low, _, high = part.partition("-")
        ends = code_of(low), code_of(high if "-" in part else low)
        if None in ends:
            raise WrongUse(shown(part) + b": no code or range of codes; a code has 1 to 8 hexadecimal digits")
        first, last = (of_kind(part, end, kind) for end in ends)
        if last < first:
            raise WrongUse(shown(part) + b": the range ends before it starts")
        codes += range(first, min(last, first + 1024) + 1)
    return codes[:1025]


def element_of(pair, key):
    """The element of an SDL ident or of the source's name."""
    try:
        return Element.named(key)
    except ValueError:
        for is_axis, names in NAMES.items():
            if key in names:
                return Element(is_axis, names.index(key))
    raise WrongUse(shown(pair) + b": no element has this name")


def party_of(text):
    """An organiser's number. 0 is the library's to refuse."""
    if not (text.isascii() and text.isdigit() and int(text) < 256):
        raise WrongUse(b"party=" + shown(text) + b": a league organiser is a number from 1 to 255; "
                       b"without party= the lines are the hall's")
    return int(text)


class Arguments:
    """The words behind a command's own: party=, and for maps buttons=, axes=, ELEMENT=CODE and `anyway`."""

    def __init__(self, words, lists=False, slots=False):
        self.party, self.buttons, self.axes, self.bound, self.anyway = None, [], [], {}, False
        for word in words:
            key, equals, rest = word.partition("=")
            if key == "party" and equals:
                if self.party is not None:
                    raise WrongUse(shown(word) + b": the party is given twice")
                self.party = party_of(rest)
            elif lists and equals and key == "buttons":
                self.buttons += codes_of(rest, KEY)
            elif lists and equals and key == "axes":
                self.axes += codes_of(rest, ABS)
            elif slots and word == "anyway":
                self.anyway = True
            elif slots:
                self.bind(word, key, rest)
            else:
                raise WrongUse(b"here the arguments are buttons=.., axes=.. and party=.. only" if lists else
                               shown(word) + b": here the argument is party=.. only")

    def bind(self, pair, key, rest):
        code = code_of(rest)
        if code is None:
            raise WrongUse(shown(pair) + b": not of the form ELEMENT=CODE; a code has 1 to 8 hexadecimal digits")
        element = element_of(pair, key)
        of_kind(rest, code, *((ABS, KEY) if element.is_axis else (KEY, ABS)))
        if element in self.bound:
            raise WrongUse(shown(pair) + b": the element is given twice")
        self.bound[element] = code

    def order(self):
        """The elements that are bound: the buttons by number, then the axes."""
        return sorted(self.bound, key=lambda e: (e.is_axis, e.number))

    def not_listed(self, code):
        """Which element's code is not in its list, in words."""
        element = next(e for e in self.order() if self.bound[e] == code and (e.is_axis or code not in self.buttons))
        kind, key = ("an axis", "axes") if element.is_axis else ("a button", "buttons")
        return f"{ident(element)} is {kind}; {code:x} is not in {key}="

    def check_whole(self):
        """A save that loses something is done only with `anyway`."""
        if self.anyway:
            return
        if not self.bound:
            raise WrongUse(b"No element is given (as a=10130): the line would bind nothing.\n"
                           b"Add 'anyway' to save it all the same.")
        order = self.order()
        for n, first in enumerate(order):
            for second in order[n + 1:]:
                if self.bound[first] == self.bound[second]:
                    raise WrongUse(f"One code is given to two elements, {named(first)} and {named(second)}: when the "
                                   "line is read, only the second has it.\n"
                                   "Add 'anyway' to save it all the same.".encode())

#!/usr/bin/env python3
"""Makes a sheet or a day log, in bytes, from text.

    maker.py sheet SHEET.txt OUT
    maker.py day SHEET.txt DAY.txt OUT

A sheet in text has an item a line; items are numbered from 0 in this order:

    entry NAME
    figure NAME RULE KEEP SPREAD = PARENT PARENT ...

A sheet of up to 1024 items is of edition 1. One of more, up to 4096, is of edition 2, and the maker
says so. A line before the items asks for an edition:

    edition 2

RULE, and how many parents it takes:

    sum, smallest, largest, count    1 to 16
    difference, share, at-least      2
    choice                           3

KEEP is keep or nokeep. SPREAD is defer or renew; forget, of sheets from before version 5.0.0, is
retired and not taken. A PARENT is the name of an earlier item, or # and its number. The = stands
alone, and blanks, not commas, separate parents. An entry has level 0, and a figure is one level
above its highest parent; 64 is the highest level. A name has 1 to 16 characters, none a blank, all
ASCII. It is not # alone, and # with digits only if that is the item's own number.

A day in text has a call a line, in the order in which they are made:

    post ITEM NUMBER        post ITEM null
    ask ITEM                keep ITEM         drop ITEM         step ITEM

An ITEM is a name, or # and a number. A name that several items carry is not taken; the number is.
A NUMBER is of whole grams, such as 1000 or 1,000, and may be negative. Calls that the engine
refuses, as a drop of an entry, can be written too. A day log has up to 65536 bytes: 14 for a post,
5 for any other call.

Both are in UTF-8, with or without a byte order mark. Blank lines are skipped. A # that stands alone
begins a comment, up to the end of its line; one with something right before or after it does not:
#5 is item 5, and #cod and cod# are names.

    entry A  # what was allotted

All mistakes are shown, each with its line, and nothing is written. A line that is wrong still gives
its name to the lines after it.

OUT is replaced as a whole, or left as it was; its mode is kept, and its owner and group as far as
may be. It cannot be one of the texts, or write-protected. To write to standard output give
/dev/stdout. A maker that is killed may leave a file .maker-... beside OUT, which may be removed.

Exit status: 0 written, 1 not written, 2 wrong usage, 130 interrupted.
"""

import codecs
import contextlib
import errno
import io
import os
import re
import stat
import sys
import tempfile
from collections import namedtuple

USAGE = """\
usage: maker.py sheet SHEET.txt OUT
       maker.py day SHEET.txt DAY.txt OUT
maker.py --help says how the texts are written"""

# edition: its most items
EDITIONS = {1: 1024, 2: 4096}
MAX_LEVEL = 64
MAX_NAME = 16
MAX_DAY = 65536  # bytes that the day program takes, of a sheet and of a log
MAX_ITEM_NUMBER = 65535
EFFECTIVE = os.access in os.supports_effective_ids
MAX_LISTED = 8  # items of one name, in a message

# word: code, least and most parents
RULES = {
    "sum": (1, 1, 16),
    "difference": (2, 2, 2),
    "smallest": (3, 1, 16),
    "largest": (4, 1, 16),
    "share": (5, 2, 2),
    "choice": (6, 3, 3),
    "count": (7, 1, 16),
    "at-least": (8, 2, 2),
}
KEEPS = {"nokeep": 0, "keep": 1}
SPREADS = {"defer": 0, "renew": 1}
RETIRED_SPREAD = "forget"
PLACES = {"rule": RULES, "keep": KEEPS, "spread": SPREADS}
CALLS = {"post": 16, "ask": 17, "keep": 18, "drop": 19, "step": 20}

ITEM_NUMBER = re.compile("#[0-9]+")
# after a 0 a comma is more likely a decimal one
POSTED_NUMBER = re.compile("[+-]?([0-9]+|[1-9][0-9]{0,2}(,[0-9]{3})+)")
POSTED = "a whole number of grams such as 1000 or 1,000, or null"
LINE_END = re.compile(rb"\r\n|\r|\n")
NOT_TEXT = re.compile(rb"[\x00-\x08\x0e-\x1f]")

# The level is None where it cannot be told, for a mistake on this line or an earlier one.
Item = namedtuple("Item", "level tag content")


class Line:
    """The words of a line before its comment, and what is wrong with them."""

    def __init__(self, words):
        self.commented = "#" in words
        self.words = words[: words.index("#")] if self.commented else words
        self.mistakes = {}  # the keys, in their order, each once

    def wrong(self, what):
        self.mistakes[what] = True

    def ill_formed(self, form, least, hint=""):
        """Says how a line of so many words is written, and what a # in its way means."""
        hint = hint or next(filter(None, map(comment_hint, self.words)), "")
        if self.commented and len(self.words) < least:
            hint = "; a # that stands alone begins a comment"
        self.wrong(form + hint)


class Sheet:
    """The items, the numbers that each name has, and the edition that is asked for, if one is."""

    def __init__(self):
        self.items = []
        self.numbers = {}
        self.asked = None
        self.doubtful = set()  # names from wrong lines
        self.unclear = 0  # lines that may have been meant as items
        self.absent = False  # there are no items to look for

    def add(self, item, name):
        self.numbers.setdefault(name, []).append(len(self.items))
        self.items.append(item)

    def edition(self):
        """The one asked for, or the lowest that has room for the items."""
        return self.asked or min(e for e, most in EDITIONS.items() if len(self.items) <= most)


def field(tag, content):
    return bytes([tag]) + len(content).to_bytes(2, "little") + content


def is_digits(word):
    return word.isascii() and word.isdigit()


def number_of(digits):
    """The number in digits; of very many digits, one that is too large for any place."""
    digits = digits.lstrip("0") or "0"
    return int(digits) if len(digits) <= 20 else 10**20


def quoted(word):
    """The word as it was typed, but for what cannot be printed."""

    def shown(character):
        if character.isprintable():
            return character
        code = ord(character)
        # a byte that is not UTF-8 was read as 0xDC00 and the byte
        return f"\\x{code - 0xDC00:02x}" if 0xDC80 <= code <= 0xDCFF else ascii(character)[1:-1]

    strange = any("\udc80" <= character <= "\udcff" for character in word)
    return f"'{''.join(map(shown, word))}'{' (not UTF-8)' if strange else ''}"


def comment_hint(word):
    """What a word with # is, for who meant a comment; nothing for other words."""
    if "#" not in word:
        return ""
    if not word.startswith("#"):
        return f"; a comment needs a blank before its #, which {quoted(word)} has not"
    sort = "the number of an item" if ITEM_NUMBER.fullmatch(word) else "a name"
    return f"; a comment is # and a blank, but {quoted(word)} is {sort}"


def item_hint(word):
    if is_digits(word):
        return f"; by number it is #{word}"
    return comment_hint(word) or ("; blanks, not commas, separate words" if "," in word else "")


def before_comment(words):
    """The words of an ill-formed line, up to a # that may have been meant to begin a comment."""
    for at, word in enumerate(words):
        is_item = ITEM_NUMBER.fullmatch(word) or (at == 1 and word.startswith("#"))
        if "#" in word and not is_item:
            front = word[: word.index("#")]
            return words[:at] + ([front] if front else [])
    return words


def choose(line, words, word, what):
    if words is SPREADS and word == RETIRED_SPREAD:
        line.wrong(
            f"{quoted(word)} is retired: edition 1 treats it as defer, edition 2 refuses it;"
            " write defer or renew"
        )
    elif word not in words:
        choice = f"it is one of {', '.join(words)}"
        line.wrong(f"{quoted(word)} is no {what}; {choice}{comment_hint(word)}")
    return words.get(word)


def tell_several(line, word, found):
    numbers = ", ".join(f"#{number}" for number in found[:MAX_LISTED])
    more = f" and {len(found) - MAX_LISTED} more" if len(found) > MAX_LISTED else ""
    line.wrong(f"several items are named {quoted(word)}: {numbers}{more}; write the number")


def item_number(line, word, sheet, where=""):
    """The number of the item that the word names; with # it may be beyond the items.

    None if it cannot be told. A name from a wrong line is no mistake again, nor is that of an item
    beyond all that a sheet has, which is one already.
    """
    found = sheet.numbers.get(word, [])
    if ITEM_NUMBER.fullmatch(word):
        number = number_of(word[1:])
        if number <= MAX_ITEM_NUMBER:
            return number
        line.wrong(f"{word} is above {MAX_ITEM_NUMBER}")
    elif word in sheet.doubtful or sheet.absent:
        return None
    elif len(found) == 1:
        return found[0] if found[0] <= MAX_ITEM_NUMBER else None
    elif found:
        tell_several(line, word, found)
    else:
        line.wrong(f"there is no item named {quoted(word)}{where}{item_hint(word)}")
    return None


def parent_number(line, word, sheet):
    number = item_number(line, word, sheet, " on an earlier line")
    own = len(sheet.items)
    if number is not None and number >= own + sheet.unclear:
        line.wrong(f"parent {word} is not an earlier item; this one is #{own}")
        return None
    return None if sheet.unclear and ITEM_NUMBER.fullmatch(word) else number


def may_be_own_number(name, sheet):
    """Lines that may have been meant as items leave some choice."""
    number = number_of(name[1:])
    own = len(sheet.items)
    return own <= number <= own + sheet.unclear and name == f"#{number}"


def read_name(line, name, sheet):
    if not all("!" <= c <= "~" for c in name):
        line.wrong(f"the name {quoted(name)} has a character that is not printable ASCII")
    elif len(name) > MAX_NAME:
        line.wrong(f"the name {quoted(name)} has {len(name)} characters, {MAX_NAME} are the most")
    elif ITEM_NUMBER.fullmatch(name) and not may_be_own_number(name, sheet):
        line.wrong(
            f"the name {quoted(name)} is read as the number of an item; name this one otherwise,"
            f" or by its own number, #{len(sheet.items)}"
        )
    return name.encode("ascii", "replace")


def read_entry(line, sheet):
    formed = len(line.words) == 2
    if not formed:
        line.ill_formed("an entry is written: entry NAME", 2)
    name = b""
    for word in (line.words if formed else before_comment(line.words))[1:2]:
        name = read_name(line, word, sheet)
    return Item(0, 2, name)


def read_parents(line, words, rule, sheet):
    """The numbers of the parents, None for one that cannot be told."""
    parents = []
    for word in words:
        parents.append(parent_number(line, word, sheet))
        if parents[-1] is None and "#" in word and not ITEM_NUMBER.fullmatch(word):
            return parents  # what follows may be a comment
    joined = any(n is None and "," in word for n, word in zip(parents, words))
    if rule in RULES and not joined:
        _, least, most = RULES[rule]
        if not least <= len(parents) <= most:
            wanted = str(least) if least == most else f"{least} to {most}"
            line.wrong(f"{rule} takes {wanted} parents, not {len(parents)}")
    return parents


def level_of(line, parents, sheet):
    levels = [None if parent is None else sheet.items[parent].level for parent in parents]
    level = 1 + max((known for known in levels if known is not None), default=0)
    if level > MAX_LEVEL:
        line.wrong(f"{quoted(line.words[1])} has level {level}, {MAX_LEVEL} is the highest")
    return None if None in levels else level


def split_figure(words):
    """The words before the = of an ill-formed figure, those after it, and a hint.

    The = may be part of another word. Without one, parents are from the fifth word after figure on.
    """
    if "=" in words[2:]:
        at = words.index("=", 2)
        return words[:at], words[at + 1 :], ""
    for at, word in enumerate(words[2:], 2):
        if "=" in word:
            front, _, after = word.partition("=")
            before = words[:at] + ([front] if front else [])
            parents = ([after] if after else []) + words[at + 1 :]
            return before, parents, "; the = stands alone, with a blank before it and one after"
    return words[:5], words[5:], ""


def check_figure(line, sheet):
    """Says how a figure is written, and what is wrong with those of its words that are there.

    A word that is right in another place is not told of: what is wrong is its place.
    """
    front, parents, hint = split_figure(before_comment(line.words))
    line.ill_formed("a figure is written: figure NAME RULE KEEP SPREAD = PARENT ...", 7, hint)
    for name in front[1:2]:
        read_name(line, name, sheet)
    for (what, words), word in zip(PLACES.items(), front[2:]):
        if not any(word in others for others in PLACES.values()):
            choose(line, words, word, what)
    read_parents(line, parents, None, sheet)


def read_figure(line, sheet):
    words = line.words
    if len(words) < 7 or words[5] != "=" or "#" in "".join(words[2:5]):
        return check_figure(line, sheet)
    name = read_name(line, words[1], sheet)
    rule, keep, spread = (
        choose(line, PLACES[what], word, what) for what, word in zip(PLACES, words[2:5])
    )
    parents = read_parents(line, words[6:], words[2], sheet)
    level = level_of(line, parents, sheet)
    if line.mistakes or None in parents:
        return Item(level, 3, b"")
    numbers = b"".join(parent.to_bytes(2, "little") for parent in parents)
    return Item(level, 3, bytes([rule[0], keep, spread, len(parents)]) + numbers + name)


def read_edition(line, sheet):
    if len(line.words) != 2 or line.words[1] not in map(str, EDITIONS):
        line.ill_formed("an edition is written: edition 1, or edition 2", 2)
    elif sheet.items or sheet.asked:
        line.wrong("an edition is asked for once, before the items")
    else:
        sheet.asked = int(line.words[1])


def check_room(line, sheet):
    """Sees that the edition has room for one more item; if none was asked for, that any has."""
    edition = sheet.asked or max(EDITIONS)
    if len(sheet.items) == EDITIONS[edition]:
        hint = f"; edition 2 has up to {EDITIONS[2]}" if edition == 1 else ""
        line.wrong(f"a sheet of edition {edition} has at most {EDITIONS[edition]} items{hint}")


def read_item(line, read, sheet):
    """Adds the item, also of a wrong line, which then has a number and a name but no level."""
    check_room(line, sheet)
    item = read(line, sheet)
    name = "".join(line.words[1:2])
    if line.mistakes:
        sheet.doubtful.update((name, name.partition("#")[0]))
        item = Item(None, None, b"")
    sheet.add(item, name)


def read_line(line, sheet):
    first = line.words[0]
    sort = first.lower()
    if first not in ("entry", "figure", "edition"):
        wanted = "a line begins with entry, figure or edition"
        line.wrong(f"{wanted}, not {quoted(first)}{comment_hint(first)}")
    if sort == "edition":
        read_edition(line, sheet)
    elif sort in ("entry", "figure"):
        read_item(line, read_entry if sort == "entry" else read_figure, sheet)
    elif not first.startswith("#"):
        sheet.unclear += 1
        sheet.doubtful.update(line.words[1:2])


def posted(line, word):
    """The kind and number bytes of a posted value. The engine itself tests the range."""
    number = 0
    if word.lower() == "null":
        return bytes([1]) + bytes(8)
    if POSTED_NUMBER.fullmatch(word):
        digits = word.lstrip("+-").replace(",", "")
        number = -number_of(digits) if word[0] == "-" else number_of(digits)
    else:
        line.wrong(f"{quoted(word)} cannot be posted; type {POSTED}{comment_hint(word)}")
    if not -(2**63) <= number < 2**63:
        line.wrong(f"{word} does not fit 64 bits")
        number = 0
    return bytes([3]) + number.to_bytes(8, "little", signed=True)


def read_call(line, sheet):
    """The bytes of the call; if it is wrong, others, as many as it has if that is known."""
    words = line.words
    call = words[0]
    tag = choose(line, CALLS, call, "call")
    length, form, value = 2, f"{call} ITEM", b""
    if call == "post":
        length, form, value = 3, f"post ITEM NUMBER; NUMBER is {POSTED}", bytes(9)
    if tag is not None and len(words) != length:
        line.ill_formed(f"this call is written: {form}", length)
    if line.mistakes:
        words = before_comment(words)[:2]
    item = item_number(line, words[1], sheet) if len(words) > 1 else None
    if len(words) > 2:
        value = posted(line, words[2])
    return b"" if tag is None else field(tag, (item or 0).to_bytes(2, "little") + value)


def text_of(path):
    """The text of a file; an OSError says why there is none."""
    with open(path, "rb") as file:
        data = file.read()
    if data.startswith((codecs.BOM_UTF16_LE, codecs.BOM_UTF16_BE)):
        raise OSError(errno.EILSEQ, "this is text in UTF-16; save it as UTF-8")
    found = NOT_TEXT.search(data)
    if found:
        number = len(LINE_END.split(data[: found.start()]))
        what = f"line {number} has the control byte {found[0][0]}, at offset {found.start()}"
        raise OSError(errno.EILSEQ, f"this is no text in UTF-8: {what}")
    return data.decode("utf-8-sig", errors="surrogateescape")


def read_lines(path, read, mistakes):
    """What each line with words gives; what is wrong with them is added to the mistakes.

    None if there is no text.
    """
    try:
        text = text_of(path)
    except OSError as error:
        mistakes.append(f"{path}: {error.strerror}")
        return None
    done = []
    for number, words in enumerate(map(str.split, io.StringIO(text, newline=None)), 1):
        line = Line(words)
        if line.words:
            done.append(read(line))
        mistakes += [f"{path}:{number}: {what}" for what in line.mistakes]
    return done


def read_sheet(path, mistakes):
    sheet = Sheet()
    done = read_lines(path, lambda line: read_line(line, sheet), mistakes)
    sheet.absent = not sheet.items
    if sheet.absent and done is not None and not sheet.unclear:
        mistakes.append(f"{path}: a sheet has at least one item")
    return sheet


def sheet_bytes(sheet):
    head = field(1, sheet.edition().to_bytes(2, "little") + len(sheet.items).to_bytes(2, "little"))
    return head + b"".join(field(item.tag, item.content) for item in sheet.items) + field(4, b"")


def remarks(sheet, length):
    """What is to be known of a sheet of so many bytes."""
    edition = sheet.edition()
    if edition > 1 and not sheet.asked:
        yield f"{len(sheet.items)} items, so the sheet is of edition {edition}"
    if length > MAX_DAY:
        yield f"the sheet has {length} bytes; the day program takes {MAX_DAY}"


def day_bytes(path, sheet, mistakes):
    day = b"".join(read_lines(path, lambda line: read_call(line, sheet), mistakes) or [])
    length = len(day)
    if length > MAX_DAY:
        mistakes.append(f"{path}: the day log has {length} bytes; the day program reads {MAX_DAY}")
    return day


def make(what, paths, mistakes):
    """The bytes, unless there are mistakes."""
    sheet = read_sheet(paths[0], mistakes)
    if what == "day":
        return day_bytes(paths[1], sheet, mistakes)
    if mistakes:
        return b""
    result = sheet_bytes(sheet)
    for remark in remarks(sheet, len(result)):
        print(f"{paths[0]}: {remark}", file=sys.stderr)
    return result


def show(mistakes):
    count = len(mistakes)
    print(*mistakes, sep="\n", file=sys.stderr)
    print(f"{count} mistake{'' if count == 1 else 's'}; nothing is written", file=sys.stderr)


def refuse_place(paths, out):
    """Ends the maker if it cannot write there, whatever the texts say."""
    if out == "":
        sys.exit("OUT is empty; give the name of a file")
    if out == "-":
        sys.exit("-: for standard output give /dev/stdout, for a file of this name ./-")
    if out.endswith("/") and not os.path.isdir(out):
        sys.exit(f"{out}: this is the name of a folder, which is not there; give that of a file")
    for path in paths:
        if os.path.exists(path) and os.path.exists(out) and os.path.samefile(path, out):
            sys.exit(f"{out}: this file is the text {path}, which is read; write to another")


def status_of(path):
    """The status of what stands there; None if nothing does."""
    try:
        return os.stat(path)
    except FileNotFoundError:
        return None


def mode_of_new():
    mask = os.umask(0)
    os.umask(mask)
    return 0o666 & ~mask


def is_standard_output(status):
    try:
        return os.path.samestat(status, os.fstat(1))
    except OSError:
        return False


def file_beside(path):
    """A new file in the folder of another, open, and its path."""
    folder = os.path.dirname(path)
    try:
        return tempfile.mkstemp(prefix=".maker-", dir=folder)
    except OSError as error:
        what = f"no file can be made in the folder {folder}: {error.strerror}"
        raise OSError(error.errno, what) from None


def take_over(handle, old):
    """Gives the file the mode of the old one, and its owner and group as far as that is allowed."""
    for owner, group in ((-1, old.st_gid), (old.st_uid, -1)):
        with contextlib.suppress(PermissionError):
            os.fchown(handle, owner, group)
    os.fchmod(handle, old.st_mode & 0o777)


def replace_file(path, data, old):
    """Writes beside the file, and puts that in its place: a crash leaves the old one or the new."""
    handle, beside = file_beside(path)
    try:
        with open(handle, "wb") as out:
            out.write(data)
            out.flush()
            if old is None:
                os.fchmod(handle, mode_of_new())
            else:
                take_over(handle, old)
            os.fsync(handle)
        os.replace(beside, path)
    except BaseException:
        os.unlink(beside)
        raise


def write_data(path, data):
    """Through a link the file that it points to is replaced.

    Standard output, a pipe or a device is written to.
    """
    old = status_of(path)
    if old is not None and is_standard_output(old):
        with open(1, "wb", closefd=False) as out:
            out.write(data)
    elif old is not None and not stat.S_ISREG(old.st_mode):
        with open(path, "wb") as out:
            out.write(data)
    elif old is not None and not os.access(path, os.W_OK, effective_ids=EFFECTIVE):
        raise OSError(errno.EACCES, "it is write-protected")
    else:
        replace_file(os.path.realpath(path), data, old)


def write_file(path, data):
    try:
        write_data(path, data)
    except OSError as error:
        sys.exit(f"{path}: {error.strerror}")


def main(words):
    if "--help" in words or "-h" in words:
        if sys.stdout is None:
            raise OSError(errno.EBADF, "it is closed")
        print(__doc__.strip())
        return 0
    if (len(words), *words[:1]) not in ((3, "sheet"), (4, "day")):
        print(USAGE, file=sys.stderr)
        return 2
    what, *paths, out = words
    refuse_place(paths, out)
    mistakes = []
    result = make(what, paths, mistakes)
    if mistakes:
        show(mistakes)
        return 1
    write_file(out, result)
    return 0


def run(words):
    """As main, and sees that what was said was written; a reader that went away needs no word."""
    try:
        status = main(words)
        if sys.stdout is not None:
            sys.stdout.flush()
        return status
    except KeyboardInterrupt:
        return 130
    except OSError as error:
        if not isinstance(error, BrokenPipeError):
            with contextlib.suppress(OSError):
                what = f"standard output was not written: {error.strerror}"
                print(f"maker.py: {what}", file=sys.stderr)
        if sys.stdout is not None:
            os.dup2(os.open(os.devnull, os.O_WRONLY), 1)  # for what is left to be flushed
        return 1


if __name__ == "__main__":
    sys.exit(run(sys.argv[1:]))

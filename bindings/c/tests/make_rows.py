"""Writes the rows of the conformance suite (crates/interpolator_vectors/ROWS.md) as a table for rows.c.

usage: make_rows.py FILE.rows ..

A row goes into the table if it has a format, and if C can pass its context: a name or an item with one
view, or with one list and nothing else; or if it has a view, as a format of one argument. How many are
left out is written as a comment.
"""
import re
import sys

TRAITS = ["display", "debug", "binary", "octal", "lower_hex", "upper_hex", "lower_exp", "upper_exp", "iter"]
SLOTS = {name: 1 << k for k, name in enumerate(TRAITS[:8])}
SLOTS["debug_display"] = SLOTS["debug"] | SLOTS["display"]
SLOTS["integer"] = 255
SLOTS["float"] = SLOTS["debug"] | SLOTS["display"] | SLOTS["lower_exp"] | SLOTS["upper_exp"]
CODES = {"MissingTraitImpl": 1, "Fmt": 2, "Parse": 3, "MissingValue": 4, "UnsupportedOption": 5, "NoMemory": 6}
BROKEN = {"FormatSpecUnclosed": 1, "InvalidWidth": 4, "InvalidPrecision": 5, "Fill": 6, "Iter": 7, "RangeBound": 8}
NUMBERS = {"Empty": 1, "InvalidDigit": 2, "PosOverflow": 3, "NegOverflow": 4}
SIGNED = {"i8": 6, "i16": 7, "i32": 8, "i64": 9, "i128": 10}
# the longest text of a row that a compiler has to take as one string
LONGEST = 4000
WORD = re.compile(r'\s*(?:"((?:[^"\\]|\\.)*)"|([()])|([^\s()"]+))')
ESCAPE = re.compile(r'\\(u\{([0-9a-fA-F]+)\}|.)')


class LeftOut(Exception):
    """A row that the table has no form for."""


def unescaped(text):
    plain = {"n": "\n", "r": "\r", "t": "\t", "0": "\0"}
    return ESCAPE.sub(lambda it: chr(int(it[2], 16)) if it[2] else plain.get(it[1], it[1]), text)


def words_of(line):
    """The words of a line: ('text', ..), ('(',), (')',), or ('word', ..)."""
    words, at = [], 0
    while line[at:].strip():
        found = WORD.match(line, at)
        at = found.end()
        if found[1] is not None:
            words.append(("text", unescaped(found[1])))
        elif found[2]:
            words.append((found[2], ""))
        else:
            words.append(("word", found[3]))
    return words


def text_from(words):
    """The text at the front of the words, with `* number` and `+`, taken off them."""
    text = ""
    while True:
        kind, part = words.pop(0)
        if kind != "text":
            raise LeftOut("no text")
        while words[:1] == [("word", "*")]:
            words.pop(0)
            part *= int(words.pop(0)[1])
        text += part
        if words[:1] != [("word", "+")]:
            return text
        words.pop(0)


def value(words):
    """What is under a name, or an item: (kind, slots, text, number, natural, upper, items), or with
    a float for the number."""
    if not words:
        return None
    if words[0] == ("word", "list"):
        words.pop(0)
        items = []
        while words:
            if words.pop(0)[0] != "(":
                raise LeftOut("slots beside a list")
            depth, inner = 1, []
            while depth:
                word = words.pop(0)
                depth += {"(": 1, ")": -1}.get(word[0], 0)
                inner.append(word)
            items.append(value(inner[:-1]))
        return (11, 0, b"", 0, 0, 0, items)
    mask = 0
    for slot in words.pop(0)[1].split(","):
        if slot not in SLOTS:
            raise LeftOut("a repeated item")
        mask |= SLOTS[slot]
    kind = words.pop(0)[1]
    made = None
    if kind in SIGNED:
        number = int(words.pop(0)[1])
        if kind == "i128":
            made = (10, mask, b"", number >> 64, number & (2**64 - 1), 0, [])
        else:
            made = (SIGNED[kind], mask, b"", number, 0, 0, [])
    elif kind[0] == "u" and kind[1:].isdigit():
        number = int(words.pop(0)[1])
        made = (5 if kind == "u128" else 4, mask, b"", 0, number & (2**64 - 1), number >> 64, [])
    elif kind in ("f64", "f32"):
        made = (13 if kind == "f64" else 14, mask, b"", words.pop(0)[1], 0, 0, [])
    elif kind == "decimal":
        units, scale = int(words.pop(0)[1]), int(words.pop(0)[1])
        made = (15, mask, b"", units >> 64, units & (2**64 - 1), scale, [])
    elif kind == "truth":
        made = (2, mask, b"", 0, int(words.pop(0)[1] == "true"), 0, [])
    elif kind == "character":
        made = (3, mask, b"", 0, ord(text_from(words)), 0, [])
    elif kind in ("text", "plain"):
        text = text_from(words).encode()
        if len(text) > LONGEST:
            raise LeftOut("a long text")
        made = (1 if kind == "plain" else 0, mask, text, 0, 0, 0, [])
    elif kind == "failed":
        made = (0, mask, b"\xff", 0, 0, 0, [])
    elif kind == "not_implemented":
        made = (99, mask, b"", 0, 0, 0, [])
    if made is None or words:
        raise LeftOut("more than one view, or a list beside one")
    return made


LETTERS = dict(zip(TRAITS, ["", "?", "b", "o", "x", "X", "e", "E"]))


def format_of(trait, words):
    """The format of one argument, `v`, under a trait and a spec."""
    text = ""
    words = list(words)
    while words:
        kind, word = words.pop(0)
        if word == "fill":
            text = words.pop(0)[1]
        elif word in ("x?", "X?"):
            trait = word
        else:
            text += {"width": "", "precision": "."}.get(word, word)
    return "{v:%s%s}" % (text, LETTERS.get(trait, trait))


def fault_of_view(kind, trait, format):
    """The fault of a view under a format of one argument."""
    place = len(format.encode()) - 1
    return (1, TRAITS.index(trait), place) if kind == "NotImplemented" else (2, 0, place)


def fault_from(words):
    """The code, the detail and the place of a fault; zeros for `ok`."""
    kind, *rest = [word[1] for word in words]
    if kind == "ok":
        return (0, 0, 0)
    if kind not in CODES:
        raise LeftOut("no fault of a format")
    detail = 0
    if kind == "MissingTraitImpl":
        detail = TRAITS.index(rest[0])
    elif kind == "Parse" and rest[0] == "Expected":
        detail = {"}": 2, "(": 3}[rest[1]]
    elif kind == "Parse":
        detail = BROKEN[rest[0]] + 16 * NUMBERS.get(rest[1], 0)
    return (CODES[kind], detail, int(rest[-1]) if rest else 0)


class Table:
    """The fields and items of a context, flat: level by level."""

    def __init__(self, names):
        self.fields, self.items, self.left_out = [], [], None
        level = []
        for name, facts in names.items():
            try:
                if len(name) > LONGEST:
                    raise LeftOut("a long name")
                self.fields.append([name, value(list(facts)), 0, 0])
                level.append(self.fields[-1])
            except LeftOut as why:
                self.left_out = str(why)
        while level:
            below = []
            for owner in level:
                if owner[1] is not None and owner[1][0] == 11:
                    owner[2] = len(self.items)
                    for item in owner[1][6]:
                        self.items.append(["", item, 0, 0])
                        below.append(self.items[-1])
                    owner[3] = len(self.items)
            level = below


def literal(data):
    """Bytes as a string of C: what is not plain as three octal digits, after which any character may come."""
    plain = lambda byte: 32 <= byte < 127 and byte not in b'"\\?'
    return '"' + "".join(chr(byte) if plain(byte) else "\\%03o" % byte for byte in data) + '"'


def real(word):
    """A float as C writes it."""
    return {"NaN": "NAN", "inf": "HUGE_VAL", "-inf": "-HUGE_VAL"}.get(word) or "%s%s" % (
        word, "" if set(word) & set(".e") else ".0")


def field_of(name, made, first, end):
    # what has no slot filled: a list slot of its own kind is not there, so a kind that is unknown
    # with a slot that no format can reach stands for it
    kind, slots, text, number, natural, upper, _ = made if made else (99, 256, b"", 0, 0, 0, [])
    name = name.encode()
    reals = {13: "%s,0", 14: "0,%s"}.get(kind)
    reals, number = (reals % real(number), 0) if reals else ("0,0", number)
    signed = "INT64_MIN" if number == -(2**63) else "%dLL" % number
    return "{{%s,%d},{%s,%d},0,0,%d,%d,%s,%dULL,%dULL,%d,%d,%s,0}" % (
        literal(name), len(name), literal(text), len(text), kind, slots, signed, natural, upper, first, end, reals)


def main(files):
    contexts, rows, left_out = [Table({})], [], 0
    for file in files:
        context, names, row = 0, None, None

        def close():
            nonlocal names, context, row, left_out
            if names is not None:
                contexts.append(Table(names))
                context = len(contexts) - 1
                names = None
            if row is not None and "view" in row:
                view = [("word", "integer")] + row["view"]
                trait = row["trait"]
                format = format_of(trait, row.get("spec", []))
                contexts.append(Table({"v": view}))
                made = {"name": row["name"], "format": format.encode()}
                if "text" in row:
                    made["text"] = row["text"]
                if "view_fault" in row:
                    made["fault"] = fault_of_view(row["view_fault"], trait, format)
                if contexts[-1].left_out or row["left_out"] or trait == "iter":
                    left_out += 1
                else:
                    rows.append((file.split("/")[-1], made, len(contexts) - 1))
            elif row is not None:
                if "format" in row and not contexts[context].left_out and not row["left_out"]:
                    rows.append((file.split("/")[-1], row, context))
                elif "format" in row:
                    left_out += 1
            row = None

        for line in open(file, encoding="utf-8", newline="\n").read().split("\n"):
            if not line.strip() or line.lstrip().startswith("#"):
                continue
            words = words_of(line)
            if line[0] != " ":
                close()
                if words[0][1] == "context":
                    names = {}
                else:
                    row = {"left_out": False, "name": words[1][1] if len(words) > 1 and words[1][0] == "text" else ""}
                continue
            if row is None:
                name = text_from(words) if words[0][0] == "text" else words.pop(0)[1]
                names[name] = names.get(name, []) + words
                continue
            try:
                key = words.pop(0)[1]
                if key in ("format", "text"):
                    row[key] = text_from(words).encode()
                    if words or len(row[key]) > LONGEST:
                        raise LeftOut(key)
                elif key in ("view", "spec"):
                    row[key] = words
                elif key == "trait":
                    row[key] = words[0][1]
                elif key == "fault" and "view" in row:
                    row["view_fault"] = words[0][1]
                elif key in ("fault", "sample", "check"):
                    row[key] = fault_from(words)
                elif key == "faults":
                    row[key] = int(words[0][1])
                elif key == "bytes":
                    row[key] = min(int(words[0][1]), 1 << 16)
                elif key in ("room", "line"):
                    raise LeftOut("a room in characters, or a line")
                elif key == "arguments":
                    row[key] = [int(word[1]) for word in words if word[0] == "word"]
            except (LeftOut, IndexError, ValueError):
                row["left_out"] = True
        close()
    print("/* Made by make_rows.py: %d rows; %d are left out, whose context C has no form for. */" % (len(rows), left_out))
    for k, table in enumerate(contexts):
        for what, given in (("fields", table.fields), ("items", table.items)):
            print("static const interpolator_field %s_%d[] = {%s};" % (
                what, k, ",\n".join(field_of(*one) for one in given) or field_of("", None, 0, 0)))
    print("static const row rows[] = {")
    for file, row, context in rows:
        table = contexts[context]
        text = row.get("text", b"")
        arguments = row.get("arguments")
        faults = [row.get("fault", (0, 0, 0)), row.get("sample", (-1, 0, 0)), row.get("check", (-1, 0, 0))]
        print("{%s, {%s, %d}, fields_%d, %d, items_%d, %d, %d, {%s, %d}, %s, %d, %d, %d, {%s}}," % (
            literal(("%s: %s" % (file, row["name"])).encode()), literal(row["format"]), len(row["format"]),
            context, len(table.fields), context, len(table.items), int("text" in row), literal(text), len(text),
            ", ".join("{%d, %d, %d}" % fault for fault in faults), row.get("faults", -1), row.get("bytes", -1),
            len(arguments) if arguments is not None else -1, ",".join(map(str, arguments or [0]))))
    print("};")


main(sys.argv[1:])

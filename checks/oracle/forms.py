"""The forms of rules, and debug texts.

A rule is a call p(m, i): what the bytes m hold from place i on. It gives a value, and the place behind what it took; or it raises
Denied, or Waiting.
"""


class Denied(Exception):
    """No bytes behind these make the rule yield."""


class Waiting(Exception):
    """More bytes may make the rule yield: so many, where a literal lacks them, else nobody knows how many."""

    def __init__(self, lacking=None):
        super().__init__()
        self.lacking = lacking


# Debug texts, as Rust's derived `Debug` writes them.

ESCAPED = {"\0": "\\0", "\t": "\\t", "\n": "\\n", "\r": "\\r", "\\": "\\\\"}


def escaped(character, quote):
    if character == quote:
        return "\\" + quote
    if character in ESCAPED:
        return ESCAPED[character]
    if ord(character) < 32 or ord(character) == 127:
        return "\\u{%x}" % ord(character)
    return character


def shown_text(text):
    return '"' + "".join(escaped(it, '"') for it in text) + '"'


def shown_character(character):
    return "'" + escaped(character, "'") + "'"


def shown_list(items):
    return "[" + ", ".join(items) + "]"


def shown_texts(texts):
    return shown_list(shown_text(it) for it in texts)


def shown_bytes(given):
    return shown_list(str(it) for it in given)


def maybe_shown(show, value):
    return "None" if value is None else f"Some({show(value)})"


def itself(value):
    return value


def record(name, /, **fields):
    return name + " { " + ", ".join(f"{field}: {value}" for field, value in fields.items()) + " }"


# Forms.


def exactly(tag):
    """Exactly these bytes."""

    def p(m, i):
        for k, byte in enumerate(tag):
            if i + k >= len(m):
                raise Waiting()
            if m[i + k] != byte:
                raise Denied()
        return tag, i + len(tag)

    return p


def lower(byte):
    return byte + 32 if 65 <= byte <= 90 else byte


def word(text):
    """These letters in either case."""
    tag = text.encode()

    def p(m, i):
        for k, byte in enumerate(tag):
            if i + k >= len(m):
                raise Waiting()
            if lower(m[i + k]) != lower(byte):
                raise Denied()
        return m[i : i + len(tag)], i + len(tag)

    return p


def run0(is_of_class):
    def p(m, i):
        j = i
        while j < len(m) and is_of_class(m[j]):
            j += 1
        if j == len(m):
            raise Waiting()
        return m[i:j], j

    return p


def run1(is_of_class):
    def p(m, i):
        if i < len(m) and not is_of_class(m[i]):
            raise Denied()
        return run0(is_of_class)(m, i)

    return p


def sequence(*parts):
    """One behind another; the list of their values."""

    def p(m, i):
        values = []
        for part in parts:
            value, i = part(m, i)
            values.append(value)
        return values, i

    return p


def only(k, *parts):
    """One behind another; the value of the k-th, from 0."""
    return mapped(lambda values: values[k], sequence(*parts))


def mapped(f, part):
    def p(m, i):
        value, j = part(m, i)
        return f(value), j

    return p


def tested(holds, part):
    def p(m, i):
        value, j = part(m, i)
        if not holds(value):
            raise Denied()
        return value, j

    return p


def choice(*parts):
    def p(m, i):
        for part in parts:
            try:
                return part(m, i)
            except Denied:
                pass
        raise Denied()

    return p


def maybe(part):
    def p(m, i):
        try:
            return part(m, i)
        except Denied:
            return None, i

    return p


def many(part):
    def p(m, i):
        values = []
        while True:
            try:
                value, i = part(m, i)
            except Denied:
                return values, i
            values.append(value)

    return p


def some(part):
    return mapped(lambda values: [values[0]] + values[1], sequence(part, many(part)))


def some_by(part, separator):
    return mapped(lambda values: [values[0]] + values[1], sequence(part, many(only(1, separator, part))))


def any_by(part, separator):
    return mapped(lambda values: values or [], maybe(some_by(part, separator)))


def names(pairs):
    """The first word that stands there, as the name that is paired with it."""
    return choice(*[mapped(lambda _, name=name: name, word(text)) for text, name in pairs])

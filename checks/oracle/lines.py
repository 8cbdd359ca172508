"""Made lines: sound ones, ones with small faults, and cut or mangled ones. The same for the same seed."""

import random

NUMBERS = [
    b"0",
    b"007",
    b"4294967295",
    b"4294967296",
    b"18446744073709551615",
    b"18446744073709551616",
    b"99999999999999999999999",
    b"00000000000000000000000004294967295",
]
SCRAPS = [
    *[bytes([it]) for it in b'"\\(){}[]<> \t\r\n09:,./+*%-=_\'aZ\x00\x7f\x80\xff'],
    *[b"\r\n", b"NIL", b"INBOX", b"TEXT", b"HEADER", b"BODY", b"RFC822", b"{3}\r\n", b"{0}\r\n", *NUMBERS],
    *["é".encode(), "😀".encode(), b"\xe2\x82", b"\xed\xa0\x80", b"\xc0\x80"],
]


class Lines:
    def __init__(self, seed):
        self.random = random.Random(seed)
        # How often a part of a line has a small fault.
        self.fault = 0.0

    def line(self):
        self.fault = self.pick([0.0, 0.0, 0.03])
        kind = self.random.random()
        if kind < 0.06:
            line = b"+" + self.pick([b"", b" "]) + self.outcome()
        elif kind < 0.14:
            line = self.pick([b"a1", self.atom(), self.bare()]) + self.space() + self.status()
        elif kind < 0.55:
            line = b"* " + self.data() + self.pick([b"", b"", b" ", b"   "])
        else:
            line = b"* " + self.number() + self.case(" FETCH ") + self.listed(self.attribute, 1, 4)
        line += b"\r\n"
        while self.chance(0.3):
            line = self.mangled(line)
        return line

    def mangled(self, line):
        start = self.random.randrange(len(line) + 1)
        end = min(len(line), start + self.random.randrange(1, 13))
        scrap = self.pick(SCRAPS)
        return self.pick(
            [
                line[:start],
                line[:start] + line[start + 1 :],
                line[:start] + line[end:],
                line[:start] + scrap + line[start:],
                line[:start] + scrap + line[start + 1 :],
                line[:end] + line[start:],
                line + scrap,
            ]
        )

    # Small parts.

    def chance(self, part):
        return self.random.random() < part

    def pick(self, them):
        return self.random.choice(them)

    def some(self, make, least, most):
        return [make() for _ in range(self.random.randrange(least, most + 1))]

    def case(self, text):
        if not self.chance(0.15):
            return text.encode()
        return "".join(self.pick([it.lower(), it.upper()]) for it in text).encode()

    def word(self, *texts):
        return self.case(self.pick(texts))

    def space(self):
        return self.pick([b"", b"  ", b"\t"]) if self.chance(self.fault) else b" "

    def blank(self):
        return self.pick([b"", b"  ", b"\t", b" \t "]) if self.chance(0.1) else b" "

    def spaced(self, *parts):
        line = parts[0]
        for part in parts[1:]:
            line += self.space() + part
        return line

    def blanks(self, *parts):
        line = parts[0]
        for part in parts[1:]:
            line += self.blank() + part
        return line

    def listed(self, make, least=0, most=3):
        them = self.some(make, least, most)
        return b"(" + (self.spaced(*them) if them else b"") + (b" " if self.chance(self.fault) else b"") + b")"

    def number(self):
        if self.chance(0.05):
            return self.pick(NUMBERS)
        return str(self.random.randrange(10 ** self.random.randrange(1, 10))).encode()

    def raw(self, alphabet=b"abcXYZ019 /.-_@[](){}<>%*+"):
        made = bytes(self.pick(alphabet) for _ in range(self.random.randrange(7)))
        return made + self.pick(SCRAPS[-5:]) if self.chance(0.08) else made

    def quoted(self):
        return b'"' + self.raw() + (self.pick([b'\\"', b"\\\\"]) if self.chance(0.1) else b"") + b'"'

    def literal(self):
        content = self.raw(b'abc\r\n\x00"\\()NIL{} \xff')
        lacking = self.pick([-1, 1, 100]) if self.chance(self.fault) else 0
        return b"{%d}\r\n" % max(0, len(content) + lacking) + content

    def string(self):
        return self.quoted() if self.chance(0.75) else self.literal()

    def nil(self):
        return self.case("NIL")

    def nstring(self):
        return self.nil() if self.chance(0.35) else self.string()

    def atom(self):
        made = bytes(self.pick(b"abcXYZ019/.-_@<>+$[=&\x7f") for _ in range(self.random.randrange(1, 7)))
        return made + self.pick(SCRAPS[-5:]) if self.chance(0.04) else made

    def bare(self):
        return self.atom() + (b"]" if self.chance(0.1) else b"")

    def astring(self):
        return self.bare() if self.chance(0.5) else self.string()

    def flag(self):
        return self.pick([b"\\Seen", b"\\Answered", b"\\*", b"\\", b"$Forwarded", self.bare(), b"\\" + self.atom()])

    def range(self):
        return self.number() + (b":" + self.number() if self.chance(0.5) else b"")

    def set(self):
        return b",".join(self.some(self.range, 1, 3))

    def mailbox(self):
        return self.pick([self.case("inbox"), b'"inbox"', b"{5}\r\nInBoX", self.astring()])

    # Lines.

    def capability(self):
        return self.pick([self.case("IMAP4rev1"), self.case("AUTH=") + self.atom(), self.atom(), b"IMAP4rev12"])

    def capabilities(self):
        return self.spaced(self.case("CAPABILITY"), *self.some(self.capability, 0, 4))

    def code(self):
        plain = "ALERT PARSE READ-ONLY READ-WRITE TRYCREATE UIDNOTSTICKY BADCHARSET".split()
        counted = ["UIDVALIDITY", "UIDNEXT", "UNSEEN", "HIGHESTMODSEQ", "METADATA LONGENTRIES", "METADATA MAXSIZE"]
        return self.pick(
            [
                self.word(*plain, "METADATA TOOMANY", "METADATA NOPRIVATE"),
                self.spaced(self.word(*counted), self.number()),
                self.spaced(self.case("BADCHARSET"), self.listed(self.astring, 1)),
                self.spaced(self.case("PERMANENTFLAGS"), self.listed(self.flag)),
                self.spaced(self.case("APPENDUID"), self.number(), self.set()),
                self.spaced(self.case("COPYUID"), self.number(), self.set(), self.set()),
                self.capabilities(),
                self.atom(),
            ]
        )

    def outcome(self):
        text = self.pick([b"", b" ", b" done", b"x", b"[x", self.raw(), b"\xff\xfex", "é".encode()])
        return b"[" + self.code() + (b"" if self.chance(self.fault) else b"]") + text if self.chance(0.5) else text

    def status(self):
        status = self.word("OK", "NO", "BAD", "PREAUTH", "BYE")
        return status if self.chance(0.1) else self.spaced(status, self.outcome())

    def name_attribute(self):
        known = "Noinferiors Noselect Marked Unmarked All Archive Drafts Flagged Junk Sent Trash".split()
        return b"\\" + self.word(*known, "HasNoChildren", "", "All2", "Noin") if self.chance(0.95) else self.flag()

    def status_item(self):
        items = "HIGHESTMODSEQ MESSAGES RECENT UIDNEXT UIDVALIDITY UNSEEN SIZE".split()
        return self.spaced(self.word(*items), self.number())

    def gmail_item(self):
        labels = self.listed(lambda: self.pick([self.flag(), self.quoted()]))
        return self.pick(
            [
                self.spaced(self.case("X-GM-LABELS"), labels),
                self.spaced(self.word("X-GM-MSGID", "X-GM-THRID"), self.number()),
            ]
        )

    def entry(self):
        start = self.pick([b"/private", b"/shared", b"/shared/admin", b"/x"])
        middle = self.pick([b"", b"/comment", b"/vendor", b"/vendor/a", b"/comment/"])
        end = self.pick([b"", b"", b"/a", b"/a*b", b"//", "/é".encode(), b"x"])
        entry = start + middle + end
        if self.chance(0.5):
            return entry
        if self.chance(0.5):
            return b'"' + entry + self.pick([b"", b" x"]) + b'"'
        entry += self.pick([b"", b"\r*", b" *", b"\n"])
        return b"{%d}\r\n" % len(entry) + entry

    def annotation(self):
        return self.spaced(self.entry(), self.pick([self.nil(), self.quoted(), self.literal(), self.atom()]))

    def resource(self):
        name = self.pick([self.word("STORAGE", "MESSAGE"), self.astring()])
        return self.blanks(name, self.number(), self.number())

    def rights(self):
        return self.pick([b"lrswipkxteacdn", b"lrs", b"z", b'"l\'r\xc3\xa9"', b'""', self.astring()])

    def pair(self):
        return self.blanks(self.pick([b'"a"', b'"b"', self.string()]), self.nstring())

    def acl_entry(self):
        return self.blanks(self.astring(), self.rights())

    def data(self):
        delimiter = self.pick([self.quoted(), self.nil(), b'"/"'])
        return self.pick(
            [
                self.status,
                self.capabilities,
                self.gmail_item,
                lambda: self.number() + self.word(" EXISTS", " RECENT", " EXPUNGE"),
                lambda: self.spaced(self.case("FLAGS"), self.listed(self.flag)),
                lambda: self.spaced(
                    self.word("LIST", "LSUB"), self.listed(self.name_attribute), delimiter, self.mailbox()
                ),
                lambda: self.spaced(self.case("STATUS"), self.mailbox(), self.listed(self.status_item)),
                lambda: self.spaced(self.word("SEARCH", "SORT"), *self.some(self.number, 0, 3)),
                lambda: self.spaced(self.case("ENABLED"), *self.some(self.atom, 0, 3)),
                lambda: self.spaced(self.case("METADATA"), self.quoted(), self.listed(self.annotation, 1, 2)),
                lambda: self.spaced(self.case("METADATA"), self.quoted(), *self.some(self.entry, 0, 2)),
                lambda: self.blanks(self.case("VANISHED"), *self.some(lambda: b"(EARLIER)", 0, 1), self.set()),
                lambda: self.blanks(
                    self.case("QUOTA"), self.astring(), b"(" + self.blanks(b"", *self.some(self.resource, 0, 2))[1:] + b")"
                ),
                lambda: self.blanks(self.case("QUOTAROOT"), *self.some(self.astring, 1, 3)),
                lambda: self.blanks(
                    self.case("ID"),
                    self.pick([self.nil(), b"(" + self.blanks(*self.some(self.pair, 1, 3)) + self.pick([b"", b" "]) + b")"]),
                ),
                lambda: self.blanks(self.case("ACL"), self.mailbox(), *self.some(self.acl_entry, 0, 2)),
                lambda: self.blanks(
                    self.case("LISTRIGHTS"), self.mailbox(), self.astring(), self.rights(), *self.some(self.rights, 0, 3)
                ),
                lambda: self.blanks(self.case("MYRIGHTS"), self.mailbox(), self.rights()),
            ]
        )()

    # Attributes of a message.

    def section(self):
        text = self.pick(
            [
                self.word("HEADER", "TEXT"),
                self.spaced(self.word("HEADER.FIELDS", "HEADER.FIELDS.NOT"), self.listed(self.astring)),
            ]
        )
        part = b".".join(self.some(self.number, 1, 3))
        path = self.pick([b"", text, part, part + b"." + self.pick([text, self.case("MIME")])])
        return b"[" + path + b"]" + (b"<" + self.number() + b">" if self.chance(0.3) else b"")

    def address(self):
        return b"(" + self.spaced(*[self.nstring() for _ in range(4)]) + b")"

    def addresses(self):
        if self.chance(0.5):
            return self.nil()
        return b"(" + self.pick([b"", b" "]).join(self.some(self.address, 1, 2)) + self.pick([b"", b" "]) + b")"

    def envelope(self):
        strings = [self.nstring() for _ in range(4)]
        lists = [self.addresses() for _ in range(6)]
        return b"(" + self.spaced(*strings[:2], *lists, *strings[2:]) + b")"

    def parameters(self):
        return self.nil() if self.chance(0.5) else self.listed(lambda: self.spaced(self.string(), self.string()), 1, 2)

    def encoding(self):
        known = b'"' + self.word("7BIT", "8BIT", "BINARY", "BASE64", "QUOTED-PRINTABLE") + b'"'
        return self.pick([known, known, self.nil(), b"{4}\r\n7BIT", self.string()])

    def fields(self):
        return self.spaced(self.parameters(), self.nstring(), self.nstring(), self.encoding(), self.number())

    def extension(self, depth=3):
        kinds = [self.number, self.nstring]
        if depth:
            kinds.append(lambda: self.listed(lambda: self.extension(depth - 1), 1, 2))
        return self.pick(kinds)()

    def extension_data(self, first):
        made = [
            first(),
            self.nil() if self.chance(0.4) else b"(" + self.spaced(self.string(), self.parameters()) + b")",
            self.nstring() if self.chance(0.5) else self.listed(self.string, 1, 2),
            self.nstring(),
            self.extension(),
            self.extension(),
        ]
        made = made[: self.pick([0, 1, 2, 3, 4, 5, 5, 6 if self.fault else 5])]
        return self.spaced(b"", *[it for it in made if not self.chance(self.fault)])

    def body(self, depth=3):
        kinds = [self.body_text, self.body_basic]
        if depth:
            kinds += [lambda: self.body_message(depth - 1), lambda: self.body_multipart(depth - 1)]
        return b"(" + self.pick(kinds)() + b")"

    def body_text(self):
        line = self.spaced(self.case('"TEXT"'), self.string(), self.fields(), self.number())
        return line + self.extension_data(self.nstring)

    def body_basic(self):
        return self.spaced(self.string(), self.string(), self.fields()) + self.extension_data(self.nstring)

    def body_message(self, depth):
        kind = self.case('"MESSAGE" "RFC822"')
        line = self.spaced(kind, self.fields(), self.envelope(), self.body(depth), self.number())
        return line + self.extension_data(self.nstring)

    def body_multipart(self, depth):
        bodies = b"".join(self.some(lambda: self.body(depth), 1, 2))
        return self.spaced(bodies, self.string()) + self.extension_data(self.parameters)

    def attribute(self):
        identifier = b"(" + self.bare() + b")"
        value = self.pick([self.nstring(), b"(" + self.raw() + b")", self.atom(), self.raw(), self.number()])
        return self.pick(
            [
                self.gmail_item,
                lambda: self.spaced(self.case("BODYSTRUCTURE"), self.body()),
                lambda: self.spaced(self.case("BODYSTRUCTURE"), self.body()),
                lambda: self.spaced(self.case("BODY") + self.section(), self.nstring()),
                lambda: self.spaced(self.case("ENVELOPE"), self.envelope()),
                lambda: self.spaced(self.word("RFC822", "RFC822.HEADER", "RFC822.TEXT"), self.nstring()),
                lambda: self.spaced(self.case("INTERNALDATE"), self.string()),
                lambda: self.spaced(self.case("FLAGS"), self.listed(self.flag)),
                lambda: self.spaced(self.case("MODSEQ"), b"(" + self.number() + b")"),
                lambda: self.spaced(self.word("RFC822.SIZE", "UID"), self.number()),
                lambda: self.spaced(self.case("EMAILID"), identifier),
                lambda: self.spaced(self.case("THREADID"), self.pick([self.nil(), identifier])),
                lambda: self.spaced(self.case("SAVEDATE"), self.nstring()),
                lambda: self.spaced(self.pick([self.atom(), b"BODY", b"BODYX", b"RFC822.X", b"UIDX"]), value),
            ]
        )()

"""Canonical texts, written a second time, apart from the definitions of `specs/`: the table of docs/GRAMMAR.md.

A value is what its debug text says: `read` takes such a text apart, and `canonical` writes the canonical text of a response.
"""

import re

# Debug texts, as Rust's derived `Debug` writes them.

TOKEN = re.compile(
    r"""(?P<space>[ ]+)|"(?P<text>(?:\\.|[^"\\])*)"|'(?P<character>(?:\\(?:u\{[0-9a-f]+\}|.)|[^'\\]))'"""
    r"""|(?P<range>\d+\.\.=\d+)|(?P<number>\d+)|(?P<name>\w+)|(?P<mark>[][(){},:])""",
    re.DOTALL,
)
ESCAPE = re.compile(r"\\(?:u\{([0-9a-f]+)\}|(.))", re.DOTALL)
PLAIN = {"n": "\n", "r": "\r", "t": "\t", "0": "\0"}


def unescaped(text):
    return ESCAPE.sub(lambda it: chr(int(it[1], 16)) if it[1] else PLAIN.get(it[2], it[2]), text)


class Named:
    """A variant or a struct: its name, and its fields by their order or by their names."""

    def __init__(self, kind, fields=(), by_name=None):
        self.kind = kind
        self.fields = fields
        self.by_name = by_name or {}

    def __getattr__(self, field):
        return self.by_name[field]

    def __getitem__(self, k):
        return self.fields[k]


class Reader:
    def __init__(self, text):
        self.tokens = [it for it in TOKEN.finditer(text) if it.lastgroup != "space"]
        self.at = 0

    def next_is(self, mark):
        return self.at < len(self.tokens) and self.tokens[self.at].group() == mark

    def take(self, mark):
        assert self.next_is(mark), self.tokens[self.at :][:3]
        self.at += 1

    def items(self, end, item):
        found = []
        while not self.next_is(end):
            found.append(item())
            if not self.next_is(end):
                self.take(",")
        self.take(end)
        return found

    def pair(self):
        key = self.value()
        self.take(":")
        return key, self.value()

    def value(self):
        token = self.tokens[self.at]
        self.at += 1
        kind, given = token.lastgroup, token[token.lastgroup]
        if kind in ("text", "character"):
            return unescaped(given)
        if kind == "number":
            return int(given)
        if kind == "range":
            return tuple(map(int, given.split("..=")))
        if given == "[":
            return self.items("]", self.value)
        if given == "(":
            return tuple(self.items(")", self.value))
        if given == "{":
            return self.items("}", self.pair)
        if given == "None":
            return None
        if given in ("true", "false"):
            return given == "true"
        if self.next_is("("):
            self.take("(")
            fields = self.items(")", self.value)
            return fields[0] if given == "Some" else Named(given, fields)
        if self.next_is("{"):
            self.take("{")
            return Named(given, by_name={key.kind: value for key, value in self.items("}", self.pair)})
        return Named(given)


def read(text):
    return Reader(text).value()


# Strings and lists.


def in_bytes(value):
    return value.encode() if isinstance(value, str) else bytes(value)


def plain(value):
    return str(value).encode()


def literal(value):
    content = in_bytes(value)
    return b"{%d}\r\n%s" % (len(content), content)


def in_quotes(text):
    return b'"' + in_bytes(text) + b'"'


def maybe(write, value):
    return b"NIL" if value is None else write(value)


def nstring(value):
    return maybe(literal, value)


def by_space(write, values):
    return b" ".join(map(write, values))


def listed(write, values):
    return b"(" + by_space(write, values) + b")"


def behind_spaces(write, values):
    return b"".join(b" " + write(it) for it in values)


# Items of several lines.


def status(value):
    return value.kind.upper().encode()


def capability(value):
    if value.kind == "Imap4rev1":
        return b"IMAP4rev1"
    return (b"AUTH=" if value.kind == "Auth" else b"") + in_bytes(value[0])


def capabilities(values):
    word = b"CAPABILITY" if any(it.kind == "Imap4rev1" for it in values) else b"ENABLED"
    return word + behind_spaces(capability, values)


def flags(values):
    return listed(in_bytes, values)


FLAG = re.compile(r'\\[^\x00-\x1f(){ %*"\\\]]*|[^\x00-\x1f(){ %*"\\]+')


def label(text):
    return in_bytes(text) if FLAG.fullmatch(text) else in_quotes(text)


def member(value):
    return b"%d:%d" % value[0] if value.kind == "UidRange" else plain(value[0])


def uid_set(values):
    return b",".join(map(member, values))


def ranges(values):
    return b",".join(b"%d:%d" % it for it in values)


LETTERS = {
    "Lookup": "l",
    "Read": "r",
    "Seen": "s",
    "Write": "w",
    "Insert": "i",
    "Post": "p",
    "CreateMailbox": "k",
    "DeleteMailbox": "x",
    "DeleteMessage": "t",
    "Expunge": "e",
    "Administer": "a",
    "Annotation": "n",
    "OldCreate": "c",
    "OldDelete": "d",
}


def rights(values):
    return literal("".join(LETTERS.get(it.kind) or it[0] for it in values))


# Response codes and outcomes.

CODES = {
    "Alert": b"ALERT",
    "BadCharset": b"BADCHARSET",
    "Parse": b"PARSE",
    "PermanentFlags": b"PERMANENTFLAGS",
    "ReadOnly": b"READ-ONLY",
    "ReadWrite": b"READ-WRITE",
    "TryCreate": b"TRYCREATE",
    "UidValidity": b"UIDVALIDITY",
    "UidNext": b"UIDNEXT",
    "Unseen": b"UNSEEN",
    "HighestModSeq": b"HIGHESTMODSEQ",
    "AppendUid": b"APPENDUID",
    "CopyUid": b"COPYUID",
    "UidNotSticky": b"UIDNOTSTICKY",
    "MetadataLongEntries": b"METADATA LONGENTRIES",
    "MetadataMaxSize": b"METADATA MAXSIZE",
    "MetadataTooMany": b"METADATA TOOMANY",
    "MetadataNoPrivate": b"METADATA NOPRIVATE",
}


def code(value):
    if value.kind == "Capabilities":
        return capabilities(value[0])
    parts = [it for it in value.fields if it is not None]
    if value.kind == "BadCharset":
        parts = [listed(literal, it) for it in parts]
    elif value.kind == "PermanentFlags":
        parts = [flags(it) for it in parts]
    else:
        parts = [uid_set(it) if isinstance(it, list) else plain(it) for it in parts]
    return b" ".join([CODES[value.kind], *parts])


def outcome(value):
    found = b"" if value.code is None else b"[" + code(value.code) + b"]"
    if value.information is None:
        return found
    return (found + b" " if found else b"") + in_bytes(value.information)


def status_line(value):
    said = outcome(value.outcome)
    return status(value.status) + (b" " + said if said else b"")


def is_bracketed(value):
    """Whether the value is a line without a code whose information begins with a bracket: such a text may be read as a code."""
    said = value[0] if value.kind == "Continue" else value.by_name.get("outcome")
    return said is not None and said.code is None and (said.information or "").startswith("[")


# Data of mailboxes, and the lines of extensions.

NAME_ATTRIBUTES = {"NoInferiors": b"\\Noinferiors", "NoSelect": b"\\Noselect"}


def name_attribute(value):
    if value.kind == "Extension":
        return in_bytes(value[0])
    return NAME_ATTRIBUTES.get(value.kind) or b"\\" + value.kind.encode()


def status_item(value):
    return value.kind.upper().encode() + b" " + plain(value[0])


def annotation(value):
    return literal(value.entry) + b" " + nstring(value.value)


def gmail(value):
    if value.kind == "GmailLabels":
        return b"X-GM-LABELS " + listed(label, value[0])
    return {"GmailMsgId": b"X-GM-MSGID ", "GmailThrId": b"X-GM-THRID "}[value.kind] + plain(value[0])


MAILBOX_DATA = {
    "Flags": lambda v: b"FLAGS " + flags(v[0]),
    "Exists": lambda v: plain(v[0]) + b" EXISTS",
    "Recent": lambda v: plain(v[0]) + b" RECENT",
    "List": lambda v: b"LIST %s %s %s"
    % (listed(name_attribute, v[0].name_attributes), maybe(in_quotes, v[0].delimiter), literal(v[0].name)),
    "Status": lambda v: b"STATUS " + literal(v.mailbox) + b" " + listed(status_item, v.status),
    "Search": lambda v: b"SEARCH" + behind_spaces(plain, v[0]),
    "Sort": lambda v: b"SORT" + behind_spaces(plain, v[0]),
    "MetadataSolicited": lambda v: b"METADATA " + in_quotes(v.mailbox) + b" " + listed(annotation, v.values),
    "MetadataUnsolicited": lambda v: b"METADATA " + in_quotes(v.mailbox) + b" " + by_space(literal, v.values),
    "GmailLabels": gmail,
    "GmailMsgId": gmail,
    "GmailThrId": gmail,
}


def resource(value):
    name = value.name
    bare = {"Storage": b"STORAGE", "Message": b"MESSAGE"}.get(name.kind) or literal(name[0])
    return b"%s %d %d" % (bare, value.usage, value.limit)


def identity(pairs):
    if pairs is None:
        return b"NIL"
    in_order = sorted(pairs, key=lambda it: it[0].encode())
    if not in_order:
        return b"(" + literal("") + b" NIL)"
    return listed(lambda it: literal(it[0]) + b" " + literal(it[1]), in_order)


def acl_entry(value):
    return literal(value.identifier) + b" " + rights(value.rights)


# FETCH.


def section(value):
    if value is None:
        return b"[]"
    if value.kind == "Full":
        return b"[" + value[0].kind.upper().encode() + b"]"
    numbers, text = value.fields
    said = b".".join(map(plain, numbers))
    return b"[" + said + (b"" if text is None else b"." + text.kind.upper().encode()) + b"]"


def address(value):
    return listed(nstring, [value.name, value.adl, value.mailbox, value.host])


def addresses(values):
    return maybe(lambda them: b"(" + b"".join(map(address, them)) + b")", values)


def envelope(value):
    v = value.by_name
    return b"(%s)" % b" ".join(
        [nstring(v["date"]), nstring(v["subject"])]
        + [addresses(v[it]) for it in ("from", "sender", "reply_to", "to", "cc", "bcc")]
        + [nstring(v["in_reply_to"]), nstring(v["message_id"])]
    )


def param(values):
    return maybe(lambda them: listed(lambda it: literal(it[0]) + b" " + literal(it[1]), them), values)


ENCODINGS = {
    "SevenBit": b'"7BIT"',
    "EightBit": b'"8BIT"',
    "Binary": b'"BINARY"',
    "Base64": b'"BASE64"',
    "QuotedPrintable": b'"QUOTED-PRINTABLE"',
}


def encoding(value):
    return ENCODINGS.get(value.kind) or literal(value[0])


def fields(common, other):
    return b" ".join(
        [
            param(common.ty.params),
            nstring(other.id),
            nstring(other.description),
            encoding(other.transfer_encoding),
            plain(other.octets),
        ]
    )


def disposition(value):
    return maybe(lambda it: b"(" + literal(it.ty) + b" " + param(it.params) + b")", value)


def extension(value):
    if value.kind == "Num":
        return plain(value[0])
    return nstring(value[0]) if value.kind == "Str" else listed(extension, value[0])


def extension_data(first, common, last):
    language = maybe(lambda them: listed(literal, them), common.language)
    parts = [first, disposition(common.disposition), language, nstring(common.location)]
    return b" ".join(parts + ([] if last is None else [extension(last)]))


def body(value):
    common = value.common
    subtype = literal(common.ty.subtype)
    if value.kind == "Multipart":
        parts = [b"".join(map(body, value.bodies)), subtype, extension_data(param(common.ty.params), common, value.extension)]
        return b"(" + b" ".join(parts) + b")"
    ends = extension_data(nstring(value.other.md5), common, value.extension)
    described = fields(common, value.other)
    if value.kind == "Text":
        parts = [b'"TEXT"', subtype, described, plain(value.lines), ends]
    elif value.kind == "Message":
        parts = [b'"MESSAGE" "RFC822"', described, envelope(value.envelope), body(value.body), plain(value.lines), ends]
    else:
        parts = [literal(common.ty.ty), subtype, described, ends]
    return b"(" + b" ".join(parts) + b")"


def body_section(value):
    origin = b"" if value.index is None else b"<%d>" % value.index
    return b"BODY" + section(value.section) + origin + b" " + nstring(value.contents)


ATTRIBUTES = {
    "BodySection": body_section,
    "BodyStructure": lambda v: b"BODYSTRUCTURE " + body(v[0]),
    "Envelope": lambda v: b"ENVELOPE " + envelope(v[0]),
    "InternalDate": lambda v: b"INTERNALDATE " + literal(v[0]),
    "Flags": lambda v: b"FLAGS " + flags(v[0]),
    "ModSeq": lambda v: b"MODSEQ (%d)" % v[0],
    "Rfc822": lambda v: b"RFC822 " + nstring(v[0]),
    "Rfc822Header": lambda v: b"RFC822.HEADER " + nstring(v[0]),
    "Rfc822Size": lambda v: b"RFC822.SIZE " + plain(v[0]),
    "Rfc822Text": lambda v: b"RFC822.TEXT " + nstring(v[0]),
    "Uid": lambda v: b"UID " + plain(v[0]),
    "GmailLabels": gmail,
    "GmailMsgId": gmail,
    "GmailThrId": gmail,
    "EmailId": lambda v: b"EMAILID (" + in_bytes(v[0]) + b")",
    "ThreadId": lambda v: b"THREADID " + maybe(lambda it: b"(" + in_bytes(it) + b")", v[0]),
    "SaveDate": lambda v: b"SAVEDATE " + nstring(v[0]),
    "Unknown": lambda v: b"X NIL",
}


def attribute(value):
    return ATTRIBUTES[value.kind](value)


# Lines.

DATA = {
    "Data": status_line,
    "MailboxData": lambda v: MAILBOX_DATA[v[0].kind](v[0]),
    "Expunge": lambda v: plain(v[0]) + b" EXPUNGE",
    "Fetch": lambda v: plain(v[0]) + b" FETCH " + listed(attribute, v[1]),
    "Capabilities": lambda v: capabilities(v[0]),
    "Vanished": lambda v: b"VANISHED" + (b" (EARLIER)" if v.earlier else b"") + b" " + ranges(v.uids),
    "Quota": lambda v: b"QUOTA " + literal(v[0].root_name) + b" " + listed(resource, v[0].resources),
    "QuotaRoot": lambda v: b"QUOTAROOT " + literal(v[0].mailbox_name) + behind_spaces(literal, v[0].quota_root_names),
    "Id": lambda v: b"ID " + identity(v[0]),
    "Acl": lambda v: b"ACL " + literal(v[0].mailbox) + behind_spaces(acl_entry, v[0].acls),
    "ListRights": lambda v: b"LISTRIGHTS "
    + b" ".join([literal(v[0].mailbox), literal(v[0].identifier), rights(v[0].required)])
    + (b" " + rights(v[0].optional) if v[0].optional else b""),
    "MyRights": lambda v: b"MYRIGHTS " + literal(v[0].mailbox) + b" " + rights(v[0].rights),
}


def canonical(value):
    """The canonical text of a response."""
    if value.kind == "Continue":
        return b"+ " + outcome(value[0]) + b"\r\n"
    if value.kind == "Done":
        return in_bytes(value.tag[0]) + b" " + status_line(value) + b"\r\n"
    return b"* " + DATA[value.kind](value) + b"\r\n"

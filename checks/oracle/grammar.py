"""The grammar of docs/GRAMMAR.md, written a second time, apart from the definitions of `specs/`.

The value of a rule is the debug text of what `Response::parse` reads there, or what such a text is made of.
"""

import sys

from forms import *

sys.setrecursionlimit(50_000)

MOST_32 = 4_294_967_295
MOST_64 = 18_446_744_073_709_551_615
MOST_LEVELS = 100

# Classes, numbers, strings.


def is_text_char(byte):
    return byte not in b"\0\r\n"


def is_quoted_char(byte):
    return is_text_char(byte) and byte not in b'"\\'


def is_atom_char(byte):
    return byte >= 32 and byte not in b'(){ %*"\\]'


def is_astring_char(byte):
    return is_atom_char(byte) or byte == ord("]")


def is_tag_char(byte):
    return is_astring_char(byte) and byte != ord("+")


def is_digit(byte):
    return byte in b"0123456789"


def is_blank(byte):
    return byte in b" \t"


def is_utf8(given):
    try:
        given.decode()
        return True
    except UnicodeDecodeError:
        return False


def decoded(given):
    return given.decode(errors="replace")


def in_utf8(part):
    return mapped(bytes.decode, tested(is_utf8, part))


SP = exactly(b" ")
CRLF = exactly(b"\r\n")
blanks0 = run0(is_blank)
blanks1 = run1(is_blank)

number = tested(lambda n: n <= MOST_32, mapped(int, run1(is_digit)))
number_64 = tested(lambda n: n <= MOST_64, mapped(int, run1(is_digit)))
shown_number = mapped(str, number)
shown_number_64 = mapped(str, number_64)

quoted_part = choice(run1(is_quoted_char), exactly(b"\\\\"), exactly(b'\\"'))
quoted = mapped(b"".join, only(1, exactly(b'"'), many(quoted_part), exactly(b'"')))
literal_header = only(1, exactly(b"{"), number, exactly(b"}"), CRLF)


def literal(m, i):
    count, start = literal_header(m, i)
    if len(m) - start < count:
        raise Waiting(count - (len(m) - start))
    return m[start : start + count], start + count


string = choice(quoted, literal)
astring = choice(run1(is_astring_char), string)
nil = mapped(lambda _: None, word("NIL"))
nstring = choice(nil, string)
atom = in_utf8(run1(is_atom_char))
text = run0(is_text_char)

quoted_utf8 = mapped(decoded, quoted)
string_utf8 = mapped(decoded, string)
astring_utf8 = mapped(decoded, astring)
nstring_utf8 = choice(nil, string_utf8)

range_of_numbers = mapped(lambda v: (v[0], v[2]), sequence(number, exactly(b":"), number))
sequence_set = some_by(choice(range_of_numbers, mapped(lambda n: (n, n), number)), exactly(b","))
uid_range = mapped(lambda ends: f"UidRange({min(ends)}..={max(ends)})", range_of_numbers)
uid_set = mapped(shown_list, some_by(choice(uid_range, mapped("Uid({})".format, number)), exactly(b",")))


def listed(part):
    return only(1, exactly(b"("), any_by(part, SP), maybe(SP), exactly(b")"))


def nonempty_listed(part):
    return only(1, exactly(b"("), some_by(part, SP), blanks0, exactly(b")"))


def behind(text, part):
    return only(1, word(text), part)


def spaced(part):
    return only(1, SP, part)


def variant(name, text, part):
    """A word and a value, as a variant with that value's text."""
    return mapped(lambda value: f"{name}({value})", behind(text, part))


# Items of several lines.

status = names([("OK", "Ok"), ("NO", "No"), ("BAD", "Bad"), ("PREAUTH", "PreAuth"), ("BYE", "Bye")])


def shown_atom(name):
    return f"Atom({shown_text(name)})"


capability = choice(
    names([("IMAP4REV1", "Imap4rev1")]),
    mapped(lambda name: f"Auth({shown_text(name)})", behind("AUTH=", atom)),
    mapped(shown_atom, atom),
)
capability_data = tested(lambda them: "Imap4rev1" in them, behind("CAPABILITY", many(spaced(capability))))
enabled_data = mapped(lambda them: [shown_atom(it) for it in them], behind("ENABLED", many(spaced(atom))))

backslash_word = in_utf8(mapped(b"".join, sequence(exactly(b"\\"), run0(is_atom_char))))
flag = choice(backslash_word, in_utf8(run1(is_astring_char)))
flag_perm = choice(mapped(bytes.decode, exactly(b"\\*")), flag)
flag_list = mapped(shown_texts, listed(flag_perm))

gmail_label_list = behind("X-GM-LABELS ", mapped(shown_texts, listed(choice(flag, quoted_utf8))))
gmail_msgid = behind("X-GM-MSGID ", shown_number_64)
gmail_thrid = behind("X-GM-THRID ", shown_number_64)
gmail_items = [
    mapped("GmailLabels({})".format, gmail_label_list),
    mapped("GmailMsgId({})".format, gmail_msgid),
    mapped("GmailThrId({})".format, gmail_thrid),
]

mailbox = mapped(lambda name: "INBOX" if name.isascii() and name.upper() == "INBOX" else name, astring_utf8)

# Response codes and outcomes.

charsets = maybe(spaced(nonempty_listed(astring_utf8)))
code = choice(
    names([("ALERT", "Alert")]),
    mapped(lambda them: f"BadCharset({maybe_shown(shown_texts, them)})", behind("BADCHARSET", charsets)),
    mapped(lambda them: f"Capabilities({shown_list(them)})", capability_data),
    names([("PARSE", "Parse")]),
    variant("PermanentFlags", "PERMANENTFLAGS ", flag_list),
    variant("UidValidity", "UIDVALIDITY ", shown_number),
    variant("UidNext", "UIDNEXT ", shown_number),
    variant("Unseen", "UNSEEN ", shown_number),
    names([("READ-ONLY", "ReadOnly"), ("READ-WRITE", "ReadWrite"), ("TRYCREATE", "TryCreate")]),
    variant("HighestModSeq", "HIGHESTMODSEQ ", shown_number_64),
    variant("AppendUid", "APPENDUID ", mapped(", ".join, sequence(shown_number, spaced(uid_set)))),
    variant("CopyUid", "COPYUID ", mapped(", ".join, sequence(shown_number, spaced(uid_set), spaced(uid_set)))),
    names([("UIDNOTSTICKY", "UidNotSticky")]),
    variant("MetadataLongEntries", "METADATA LONGENTRIES ", shown_number_64),
    variant("MetadataMaxSize", "METADATA MAXSIZE ", shown_number_64),
    names([("METADATA TOOMANY", "MetadataTooMany"), ("METADATA NOPRIVATE", "MetadataNoPrivate")]),
)


def shown_outcome(values):
    found, information = values
    text = decoded(information) if found is None else decoded(information)[1:]
    shown = shown_text(text) if information else None
    return record("Outcome", code=maybe_shown(itself, found), information=maybe_shown(itself, shown))


outcome = mapped(shown_outcome, sequence(maybe(only(1, exactly(b"["), code, exactly(b"]"))), text))
no_outcome = shown_outcome((None, b""))
status_line = sequence(status, mapped(lambda found: found or no_outcome, maybe(spaced(outcome))))

# Data of mailboxes.

name_attribute = choice(
    names(
        [
            ("\\Noinferiors", "NoInferiors"),
            ("\\Noselect", "NoSelect"),
            ("\\Marked", "Marked"),
            ("\\Unmarked", "Unmarked"),
            ("\\All", "All"),
            ("\\Archive", "Archive"),
            ("\\Drafts", "Drafts"),
            ("\\Flagged", "Flagged"),
            ("\\Junk", "Junk"),
            ("\\Sent", "Sent"),
            ("\\Trash", "Trash"),
        ]
    ),
    mapped(lambda name: f"Extension({shown_text(name)})", backslash_word),
)


def shown_list_data(values):
    attributes, delimiter, name = values
    fields = record(
        "MailboxListData",
        name_attributes=shown_list(attributes),
        delimiter=maybe_shown(shown_text, delimiter),
        name=shown_text(name),
    )
    return f"List({fields})"


delimiter = choice(quoted_utf8, nil)
list_data = mapped(shown_list_data, sequence(listed(name_attribute), spaced(delimiter), spaced(mailbox)))

status_item = choice(
    variant("HighestModSeq", "HIGHESTMODSEQ ", shown_number_64),
    variant("Messages", "MESSAGES ", shown_number),
    variant("Recent", "RECENT ", shown_number),
    variant("UidNext", "UIDNEXT ", shown_number),
    variant("UidValidity", "UIDVALIDITY ", shown_number),
    variant("Unseen", "UNSEEN ", shown_number),
)
status_data = mapped(
    lambda v: record("Status", mailbox=shown_text(v[0]), status=shown_list(v[1])),
    behind("STATUS ", sequence(mailbox, spaced(listed(status_item)))),
)


def numbered(name, text):
    return mapped(lambda n: f"{name}({n})", only(0, shown_number, word(text)))


def numbers(name, text):
    them = only(0, many(spaced(shown_number)), maybe(SP))
    return mapped(lambda found: f"{name}({shown_list(found)})", behind(text, them))


mailbox_datum = choice(
    variant("Flags", "FLAGS ", flag_list),
    numbered("Exists", " EXISTS"),
    behind("LIST ", list_data),
    behind("LSUB ", list_data),
    status_data,
    numbered("Recent", " RECENT"),
    numbers("Search", "SEARCH"),
    *gmail_items,
    numbers("Sort", "SORT"),
)

# METADATA.


def is_component(byte):
    return 26 <= byte <= 127 and byte not in b"*%/"


def ends_an_entry(path):
    """Whether this may stand behind the part of an entry that is fixed."""
    if not path or path[0] in b" \r":
        return True
    return path[0] == ord("/") and all(it == ord("/") or is_component(it) for it in path.split(b"\r")[0])


def is_named(path):
    """Whether a path names a component: a slash, and one byte of it at least."""
    return ends_an_entry(path) and len(path) > 1 and path[0] == ord("/") and is_component(path[1])


def is_comment_or_vendor(path):
    if path.startswith(b"/comment") and ends_an_entry(path[len(b"/comment") :]):
        return True
    return path.startswith(b"/vendor") and is_named(path[len(b"/vendor") :])


def is_entry(path):
    if path.startswith(b"/private") and is_comment_or_vendor(path[len(b"/private") :]):
        return True
    if path.startswith(b"/shared/admin") and ends_an_entry(path[len(b"/shared/admin") :]):
        return True
    return path.startswith(b"/shared") and is_comment_or_vendor(path[len(b"/shared") :])


entry = mapped(decoded, tested(is_entry, astring))
entry_value = choice(nil, quoted_utf8, mapped(decoded, literal))
annotation = mapped(
    lambda v: record("Metadata", entry=shown_text(v[0]), value=maybe_shown(shown_text, v[1])),
    sequence(entry, spaced(entry_value)),
)


def metadata(name, shown, values):
    return mapped(
        lambda v: record(name, mailbox=shown_text(v[0]), values=shown(v[1])),
        behind("METADATA ", sequence(quoted_utf8, spaced(values))),
    )


metadata_solicited = metadata("MetadataSolicited", shown_list, nonempty_listed(annotation))
metadata_unsolicited = metadata("MetadataUnsolicited", shown_texts, any_by(entry, SP))

# The lines of other extensions.


def blank(part):
    return only(1, blanks1, part)


vanished = mapped(
    lambda v: record(
        "Vanished",
        earlier="false" if v[0] is None else "true",
        uids=shown_list(f"{start}..={end}" for start, end in v[1]),
    ),
    behind("VANISHED", sequence(maybe(blank(word("(EARLIER)"))), blank(sequence_set))),
)

resource_name = choice(names([("STORAGE", "Storage"), ("MESSAGE", "Message")]), mapped(shown_atom, astring_utf8))
resource = mapped(
    lambda v: record("QuotaResource", name=v[0], usage=v[1], limit=v[2]),
    sequence(resource_name, blank(shown_number_64), blank(shown_number_64)),
)
resources = only(1, exactly(b"("), any_by(resource, blanks1), exactly(b")"))
quota = mapped(
    lambda v: f"Quota({record('Quota', root_name=shown_text(v[0]), resources=shown_list(v[1]))})",
    behind("QUOTA", sequence(blank(astring_utf8), blank(resources))),
)
quota_root = mapped(
    lambda v: f"QuotaRoot({record('QuotaRoot', mailbox_name=shown_text(v[0]), quota_root_names=shown_texts(v[1]))})",
    behind("QUOTAROOT", sequence(blank(astring_utf8), many(blank(astring_utf8)))),
)


def shown_id(pairs):
    found = {key: value for key, value in pairs if value is not None}
    shown = ", ".join(sorted(f"{shown_text(key)}: {shown_text(value)}" for key, value in found.items()))
    return "Id(Some({" + shown + "}))"


pair = sequence(string_utf8, blank(nstring_utf8))
pairs = only(1, exactly(b"("), some_by(pair, blanks1), blanks0, exactly(b")"))
id_line = behind("ID", blank(choice(mapped(shown_id, pairs), mapped(lambda _: "Id(None)", nil))))

RIGHTS = {
    "l": "Lookup",
    "r": "Read",
    "s": "Seen",
    "w": "Write",
    "i": "Insert",
    "p": "Post",
    "k": "CreateMailbox",
    "x": "DeleteMailbox",
    "t": "DeleteMessage",
    "e": "Expunge",
    "a": "Administer",
    "n": "Annotation",
    "c": "OldCreate",
    "d": "OldDelete",
}
rights = mapped(lambda text: [RIGHTS.get(it) or f"Custom({shown_character(it)})" for it in text], astring_utf8)
acl_entry = mapped(
    lambda v: record("AclEntry", identifier=shown_text(v[0]), rights=shown_list(v[1])),
    sequence(astring_utf8, blank(rights)),
)
acl = mapped(
    lambda v: f"Acl({record('Acl', mailbox=shown_text(v[0]), acls=shown_list(v[2]))})",
    behind("ACL", sequence(blank(mailbox), blanks0, any_by(acl_entry, blanks1))),
)
list_rights = mapped(
    lambda v: "ListRights("
    + record(
        "ListRights",
        mailbox=shown_text(v[0]),
        identifier=shown_text(v[1]),
        required=shown_list(v[2]),
        optional=shown_list(it for group in v[4] for it in group),
    )
    + ")",
    behind("LISTRIGHTS", sequence(blank(mailbox), blank(astring_utf8), blank(rights), blanks0, any_by(rights, blanks1))),
)
my_rights = mapped(
    lambda v: f"MyRights({record('MyRights', mailbox=shown_text(v[0]), rights=shown_list(v[1]))})",
    behind("MYRIGHTS", sequence(blank(mailbox), blank(rights))),
)

# Sections and envelopes.


def maybe_bytes(value):
    return maybe_shown(shown_bytes, value)


def maybe_text(value):
    return maybe_shown(shown_text, value)


fields_of_header = sequence(word("HEADER.FIELDS"), maybe(word(".NOT")), spaced(listed(astring)))
section_msgtext = choice(
    mapped(lambda _: "Header", fields_of_header),
    names([("HEADER", "Header"), ("TEXT", "Text")]),
)
section_part = some_by(shown_number, exactly(b"."))
section_text = maybe(only(1, exactly(b"."), choice(section_msgtext, names([("MIME", "Mime")]))))
path = choice(
    mapped("Full({})".format, section_msgtext),
    mapped(
        lambda v: f"Part({shown_list(v[0])}, {maybe_shown(itself, v[1])})",
        sequence(section_part, section_text),
    ),
)
section = mapped(lambda found: maybe_shown(itself, found), only(1, exactly(b"["), maybe(path), exactly(b"]")))

ADDRESS = ["name", "adl", "mailbox", "host"]
address = mapped(
    lambda v: record("Address", **{field: maybe_bytes(it) for field, it in zip(ADDRESS, v)}),
    only(1, exactly(b"("), sequence(nstring, spaced(nstring), spaced(nstring), spaced(nstring)), exactly(b")")),
)
addresses = choice(nil, only(1, exactly(b"("), some(only(0, address, maybe(SP))), exactly(b")")))
shown_addresses = mapped(lambda them: maybe_shown(shown_list, them), addresses)
shown_nstring = mapped(maybe_bytes, nstring)

ENVELOPE = ["date", "subject", "from", "sender", "reply_to", "to", "cc", "bcc", "in_reply_to", "message_id"]
envelope_fields = [shown_nstring] * 2 + [shown_addresses] * 6 + [shown_nstring] * 2
envelope = mapped(
    lambda v: record("Envelope", **dict(zip(ENVELOPE, v))),
    only(1, exactly(b"("), sequence(envelope_fields[0], *map(spaced, envelope_fields[1:])), exactly(b")")),
)

# Body structures.

parameters = nonempty_listed(
    mapped(
        lambda v: f"({shown_text(v[0])}, {shown_text(v[1])})",
        sequence(string_utf8, spaced(string_utf8)),
    )
)
param = mapped(lambda them: maybe_shown(shown_list, them), choice(nil, parameters))

ENCODINGS = [
    ("7BIT", "SevenBit"),
    ("8BIT", "EightBit"),
    ("BINARY", "Binary"),
    ("BASE64", "Base64"),
    ("QUOTED-PRINTABLE", "QuotedPrintable"),
]
encoding = choice(
    mapped(lambda _: "SevenBit", nil),
    only(1, exactly(b'"'), names(ENCODINGS), exactly(b'"')),
    mapped(lambda name: f"Other({shown_text(name)})", string_utf8),
)

FIELDS = ["param", "id", "description", "encoding", "octets"]
shown_nstring_utf8 = mapped(maybe_text, nstring_utf8)
body_fields = mapped(
    lambda v: dict(zip(FIELDS, v)),
    sequence(
        param,
        spaced(shown_nstring_utf8),
        spaced(shown_nstring_utf8),
        spaced(encoding),
        spaced(shown_number),
    ),
)

disposition = choice(
    nil,
    mapped(
        lambda v: record("ContentDisposition", ty=shown_text(v[0]), params=v[1]),
        only(1, exactly(b"("), sequence(string_utf8, spaced(param)), exactly(b")")),
    ),
)
language = choice(
    mapped(lambda one: None if one is None else [one], nstring_utf8),
    nonempty_listed(string_utf8),
)


def extension(level):
    """A number, a text, or a list of extensions; lists may nest so deep."""
    return choice(
        mapped("Num({})".format, number),
        mapped(lambda text: f"Str({maybe_text(text)})", nstring_utf8),
        extension_list(level),
    )


def extension_list(level):
    def p(m, i):
        if level == 0:
            raise Denied()
        return mapped(lambda them: f"List({shown_list(them)})", nonempty_listed(extension(level - 1)))(m, i)

    return p


EXTENSIONS = ["first", "disposition", "language", "location", "extension"]


def extension_data(first):
    """The fields behind the others: each after a space, and left out with it where it is denied."""
    return mapped(
        lambda v: dict(zip(EXTENSIONS, v)),
        sequence(
            mapped(lambda found: found or "None", maybe(spaced(first))),
            mapped(lambda found: maybe_shown(itself, found), maybe(spaced(disposition))),
            mapped(lambda found: maybe_shown(shown_texts, found), maybe(spaced(language))),
            mapped(maybe_text, maybe(spaced(nstring_utf8))),
            mapped(lambda found: maybe_shown(itself, found), maybe(spaced(extension(MOST_LEVELS)))),
        ),
    )


ext_1part = extension_data(shown_nstring_utf8)
ext_mpart = extension_data(param)


def common(ty, subtype, params, ext):
    return record(
        "BodyContentCommon",
        ty=record("ContentType", ty=shown_text(ty), subtype=shown_text(subtype), params=params),
        disposition=ext["disposition"],
        language=ext["language"],
        location=ext["location"],
    )


def single(fields, ext):
    return record(
        "BodyContentSinglePart",
        id=fields["id"],
        md5=ext["first"],
        description=fields["description"],
        transfer_encoding=fields["encoding"],
        octets=fields["octets"],
    )


def part(kind, ty, subtype, fields, ext, **more):
    return record(
        kind,
        common=common(ty, subtype, fields["param"], ext),
        other=single(fields, ext),
        **more,
        extension=ext["extension"],
    )


body_text = mapped(
    lambda v: part("Text", "TEXT", v[1], v[2], v[4], lines=v[3]),
    sequence(word('"TEXT"'), spaced(string_utf8), spaced(body_fields), spaced(shown_number), ext_1part),
)
body_basic = mapped(
    lambda v: part("Basic", v[0], v[1], v[2], v[3]),
    sequence(string_utf8, spaced(string_utf8), spaced(body_fields), ext_1part),
)


def body_message(level):
    return mapped(
        lambda v: part("Message", "MESSAGE", "RFC822", v[1], v[5], envelope=v[2], body=v[3], lines=v[4]),
        sequence(
            word('"MESSAGE" "RFC822"'),
            spaced(body_fields),
            spaced(envelope),
            spaced(body(level)),
            spaced(shown_number),
            ext_1part,
        ),
    )


def body_multipart(level):
    return mapped(
        lambda v: record(
            "Multipart",
            common=common("MULTIPART", v[1], v[2]["first"], v[2]),
            bodies=shown_list(v[0]),
            extension=v[2]["extension"],
        ),
        sequence(some(body(level)), spaced(string_utf8), ext_mpart),
    )


def body(level):
    """A body, in which bodies may nest so deep."""

    def p(m, i):
        if level == 0:
            raise Denied()
        kinds = choice(body_text, body_message(level - 1), body_basic, body_multipart(level - 1))
        return only(1, exactly(b"("), kinds, exactly(b")"))(m, i)

    return p


# FETCH.

body_section = mapped(
    lambda v: record("BodySection", section=v[0], index=maybe_shown(itself, v[1]), contents=maybe_bytes(v[2])),
    behind("BODY", sequence(section, maybe(only(1, exactly(b"<"), shown_number, exactly(b">"))), spaced(nstring))),
)
identifier = only(1, exactly(b"("), in_utf8(run1(is_astring_char)), exactly(b")"))
unknown = mapped(
    lambda _: "Unknown",
    sequence(
        in_utf8(run1(is_atom_char)),
        SP,
        choice(
            sequence(exactly(b"("), run0(lambda byte: byte != ord(")")), exactly(b")")),
            nstring,
            run1(lambda byte: byte not in b" )"),
        ),
    ),
)
attribute = choice(
    body_section,
    variant("BodyStructure", "BODYSTRUCTURE ", body(MOST_LEVELS)),
    variant("Envelope", "ENVELOPE ", envelope),
    variant("InternalDate", "INTERNALDATE ", mapped(shown_text, string_utf8)),
    variant("Flags", "FLAGS ", flag_list),
    variant("ModSeq", "MODSEQ ", only(1, exactly(b"("), shown_number_64, exactly(b")"))),
    variant("Rfc822", "RFC822 ", shown_nstring),
    variant("Rfc822Header", "RFC822.HEADER ", only(1, maybe(SP), shown_nstring)),
    variant("Rfc822Size", "RFC822.SIZE ", shown_number),
    variant("Rfc822Text", "RFC822.TEXT ", shown_nstring),
    variant("Uid", "UID ", shown_number),
    *gmail_items,
    variant("EmailId", "EMAILID ", mapped(shown_text, identifier)),
    variant("ThreadId", "THREADID ", mapped(maybe_text, choice(nil, identifier))),
    variant("SaveDate", "SAVEDATE ", shown_nstring_utf8),
    unknown,
)
fetch = mapped(
    lambda v: f"Fetch({v[0]}, {shown_list(v[2])})",
    sequence(shown_number, word(" FETCH "), nonempty_listed(attribute)),
)

# Lines.


def capabilities(them):
    return mapped(lambda found: f"Capabilities({shown_list(found)})", them)


def of_mailbox(datum):
    return mapped("MailboxData({})".format, datum)


data = choice(
    mapped(lambda v: record("Data", status=v[0], outcome=v[1]), status_line),
    of_mailbox(mailbox_datum),
    numbered("Expunge", " EXPUNGE"),
    fetch,
    capabilities(capability_data),
    capabilities(enabled_data),
    of_mailbox(metadata_solicited),
    of_mailbox(metadata_unsolicited),
    vanished,
    quota,
    quota_root,
    id_line,
    acl,
    list_rights,
    my_rights,
)
tag = in_utf8(run1(is_tag_char))
response = choice(
    mapped("Continue({})".format, only(2, exactly(b"+"), maybe(SP), outcome, CRLF)),
    only(1, exactly(b"* "), data, many(SP), CRLF),
    mapped(
        lambda v: record("Done", tag=f"RequestId({shown_text(v[0])})", status=v[1][0], outcome=v[1][1]),
        sequence(tag, spaced(status_line), CRLF),
    ),
)


def answer(m):
    """What `Response::parse` answers on these bytes, and how many it consumes."""
    try:
        value, end = response(m, 0)
        return f"{value} of {end}"
    except Denied:
        return "Error"
    except Waiting as waiting:
        return "Incomplete(Unknown)" if waiting.lacking is None else f"Incomplete(Size({waiting.lacking}))"

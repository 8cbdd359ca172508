"""Responses as terms of the checker's language, so that it can compute their canonical texts by the definitions of `specs/`."""

USES = """\
use Rattle.std.specs.Prelude.{ℕ, true, false, None, Some, [], ◌∷◌}
use Rattle.std.specs.Fmt.{digits}
use Rattle.std.specs.Str.{is_utf8, chars}
use lib.Utf8.{encode}
use Rattle.std.proofs.Common.{◌≡◌, refl}
use Rattle.imap_grammar.specs.Text.{as_text}
use Rattle.imap_grammar.specs.Ranges.{fresh}
use Rattle.imap_shared.specs.Capabilities as capability
use Rattle.imap_shared.specs.UidSets as member
use Rattle.imap_shared.specs.declared.types.statuses.Status.TheVariants as status
use Rattle.imap_shared.specs.declared.types.rights.AclRight.TheVariants as right
use Rattle.imap_data.specs.Codes as code
use Rattle.imap_data.specs.Names as name
use Rattle.imap_data.specs.DatumValues as datum
use Rattle.imap_data.specs.declared.types.counts.StatusAttribute.TheVariants as item
use Rattle.imap_extensions.specs.Quotas as resource
use Rattle.imap_body_types.specs.ExtensionValues as extension
use Rattle.imap_body_types.specs.declared.shapes.fields.ContentEncoding.TheVariants as encoding
use Rattle.imap_body_types.specs.BodyValues as body
use Rattle.imap_sections.specs.SectionValues as path
use Rattle.imap_sections.specs.declared.types.sections.MessageSection.TheVariants as section
use Rattle.imap_body.specs.AttributeValues as attribute
use Rattle.imap_proto.specs.Responses as response
use Rattle.imap_proto.specs.LineTexts.{canonical_bytes}
"""


def listed(write, values):
    return "(" + " ∷ ".join([*map(write, values), "[]"]) + ")"


def maybe(write, value):
    return "None" if value is None else f"(Some {write(value)})"


def record(**fields):
    return "(record { " + "; ".join(f"{field} = {term}" for field, term in fields.items()) + " })"


def in_bytes(value):
    return listed(str, value.encode() if isinstance(value, str) else value)


def text(value):
    return f"(as_text {in_bytes(value)})"


def texts(values):
    return listed(text, values)


def number(value):
    return str(value)


def numbers(values):
    return listed(number, values)


def applied(head, *terms):
    return f"({' '.join([head, *terms])})" if terms else head


def a_range(ends):
    return f"(fresh {ends[0]} {ends[1]})"


def status(value):
    return f"status.{value.kind}"


def capability(value):
    return applied(f"capability.{value.kind}", *map(text, value.fields))


def capabilities(values):
    return listed(capability, values)


def member(value):
    return applied(f"member.{value.kind}", (a_range if value.kind == "UidRange" else number)(value[0]))


def members(values):
    return listed(member, values)


CODES = {
    "BadCharset": [lambda it: maybe(texts, it)],
    "Capabilities": [capabilities],
    "PermanentFlags": [texts],
    "AppendUid": [number, members],
    "CopyUid": [number, members, members],
}


def code(value):
    return applied(f"code.{value.kind}", *[write(it) for write, it in zip(CODES.get(value.kind, [number]), value.fields)])


def outcome(value):
    return record(code=maybe(code, value.code), information=maybe(text, value.information))


def name_attribute(value):
    return applied(f"name.{value.kind}", *map(text, value.fields))


def list_data(value):
    return record(
        name_attributes=listed(name_attribute, value.name_attributes),
        delimiter=maybe(text, value.delimiter),
        name=text(value.name),
    )


def status_item(value):
    return applied(f"item.{value.kind}", number(value[0]))


def annotation(value):
    return record(entry=in_bytes(value.entry), value=maybe(in_bytes, value.value))


def datum(value):
    if value.kind == "List":
        return applied("datum.Listed", list_data(value[0]))
    if value.kind == "Status":
        return applied("datum.Status", text(value.mailbox), listed(status_item, value.status))
    if value.kind == "MetadataSolicited":
        return applied("datum.MetadataSolicited", text(value.mailbox), listed(annotation, value.values))
    if value.kind == "MetadataUnsolicited":
        return applied("datum.MetadataUnsolicited", text(value.mailbox), texts(value.values))
    write = texts if value.kind in ("Flags", "GmailLabels") else numbers if value.kind in ("Search", "Sort") else number
    return applied(f"datum.{value.kind}", write(value[0]))


def resource(value):
    name = applied(f"resource.{value.name.kind}", *map(text, value.name.fields))
    return record(name=name, usage=number(value.usage), limit=number(value.limit))


def rights(values):
    return listed(lambda it: applied(f"right.{it.kind}", *[str(ord(letter)) for letter in it.fields]), values)


def acl_entry(value):
    return record(identifier=text(value.identifier), rights=rights(value.rights))


def a_path(value):
    if value.kind == "Full":
        return applied("path.Full", f"section.{value[0].kind}")
    return applied("path.Part", numbers(value[0]), maybe(lambda it: f"section.{it.kind}", value[1]))


def address(value):
    return record(**{it: maybe(text, value.by_name[it]) for it in ("name", "adl", "mailbox", "host")})


def envelope(value):
    lists = ("from", "sender", "reply_to", "to", "cc", "bcc")
    return record(
        **{
            field: maybe((lambda them: listed(address, them)) if field in lists else text, it)
            for field, it in value.by_name.items()
        }
    )


def params(values):
    return maybe(lambda them: listed(lambda it: f"({text(it[0])}, {text(it[1])})", them), values)


def content_type(value):
    return record(ty=text(value.ty), subtype=text(value.subtype), params=params(value.params))


def disposition(value):
    return record(ty=text(value.ty), params=params(value.params))


def common(value):
    return record(
        ty=content_type(value.ty),
        disposition=maybe(disposition, value.disposition),
        language=maybe(texts, value.language),
        location=maybe(text, value.location),
    )


def single(value):
    return record(
        id=maybe(text, value.id),
        md5=maybe(text, value.md5),
        description=maybe(text, value.description),
        transfer_encoding=applied(f"encoding.{value.transfer_encoding.kind}", *map(text, value.transfer_encoding.fields)),
        octets=number(value.octets),
    )


def joined(write, more, none, values):
    """A list that is a type of its own."""
    return none if not values else applied(more, write(values[0]), joined(write, more, none, values[1:]))


def extension(value):
    if value.kind == "Num":
        return applied("extension.Num", number(value[0]))
    if value.kind == "Str":
        return applied("extension.Str", maybe(text, value[0]))
    return applied("extension.Listed", joined(extension, "extension.one_extension", "extension.no_extensions", value[0]))


def body(value):
    last = maybe(extension, value.extension)
    if value.kind == "Multipart":
        return applied("body.Multipart", common(value.common), joined(body, "body.one_body", "body.no_bodies", value.bodies), last)
    both = common(value.common), single(value.other)
    if value.kind == "Text":
        return applied("body.TextBody", *both, number(value.lines), last)
    if value.kind == "Message":
        return applied("body.Message", *both, envelope(value.envelope), body(value.body), number(value.lines), last)
    return applied("body.Basic", *both, last)


ATTRIBUTES = {
    "BodyStructure": body,
    "Envelope": envelope,
    "Flags": texts,
    "InternalDate": text,
    "Rfc822": lambda it: maybe(text, it),
    "Rfc822Header": lambda it: maybe(text, it),
    "Rfc822Text": lambda it: maybe(text, it),
    "GmailLabels": texts,
    "EmailId": text,
    "ThreadId": lambda it: maybe(text, it),
    "SaveDate": lambda it: maybe(text, it),
}


def attribute(value):
    if value.kind == "BodySection":
        parts = maybe(a_path, value.section), maybe(number, value.index), maybe(text, value.contents)
        return applied("attribute.BodySection", *parts)
    return applied(f"attribute.{value.kind}", *map(ATTRIBUTES.get(value.kind, number), value.fields))


def response(value):
    """A response; none where it is an ID but `NIL`, since the checker doesn't compute the order of a map."""
    kind = value.kind
    head = f"response.{kind}"
    if kind == "Done":
        return applied(head, in_bytes(value.tag[0]), status(value.status), outcome(value.outcome))
    if kind == "Data":
        return applied("response.«Data»", status(value.status), outcome(value.outcome))
    if kind == "Vanished":
        return applied(head, "true" if value.earlier else "false", listed(a_range, value.uids))
    if kind == "Fetch":
        return applied(head, number(value[0]), listed(attribute, value[1]))
    if kind == "Id":
        return None if value[0] is not None else applied(head, "None")
    v = value[0]
    if kind in ("Continue", "MailboxData", "Capabilities", "Expunge"):
        write = {"Continue": outcome, "MailboxData": datum, "Capabilities": capabilities, "Expunge": number}[kind]
        return applied(head, write(v))
    if kind == "Quota":
        return applied(head, record(root_name=text(v.root_name), resources=listed(resource, v.resources)))
    if kind == "QuotaRoot":
        return applied(head, record(mailbox_name=text(v.mailbox_name), quota_root_names=texts(v.quota_root_names)))
    if kind == "Acl":
        return applied(head, record(mailbox=text(v.mailbox), acls=listed(acl_entry, v.acls)))
    more = {} if kind == "MyRights" else {"identifier": text(v.identifier), "required": rights(v.required), "optional": rights(v.optional)}
    return applied(head, record(mailbox=text(v.mailbox), **(more or {"rights": rights(v.rights)})))

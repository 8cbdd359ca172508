"""The public calls that may answer want of memory, read off the sources.

A call may answer it where its answer names `AllocError` or an error that has the variant `OutOfMemory`, or where it is
a reader's answer (`Err` has the variant `Failure`) and the call is given the memory to take, as `alloc` or in an `Input`.

A call is named by its crate, the module `at` where it stands there, its type, and its name:
`imap_shared::at::flag_list`, `imap_data::MailboxDatum::clone`. The type has its parameters where calls of one name differ in them alone.
"""

import re
# The crates whose items a program uses; the others are reached through what these export.
ROOTS = ["imap_proto", "imap_command", "imap_report", "imap_session"]

READS = re.compile(r"\b(IResult|Reached|ParseResult|Err>)")
FUNCTION = re.compile(r"^( *)pub fn (\w+)", re.M)


class Call:
    """A public function: its crate, whether it stands in `at`, its type if it has one, its name and its parameters."""

    def __init__(self, crate, at, owner, name, parameters):
        self.crate, self.at, self.owner, self.name, self.parameters = crate, at, owner, name, parameters

    def named(self, with_parameters):
        parts = [self.crate] + (["at"] if self.at else [])
        if self.owner:
            parts.append(self.owner if with_parameters else re.sub(r"<.*", "", self.owner))
        return "::".join(parts + [self.name])


def sources(top):
    """The source files of the libraries, each with its crate; neither the tests are one, nor the callers of `imap_uses`."""
    for path in sorted((top / "crates").glob("*/src/**/*.rt")):
        crate = path.relative_to(top / "crates").parts[0]
        if crate not in ("imap_uses", "imap_vectors"):
            yield crate, path, path.read_text()


def wanting(top):
    """The names of the errors that have a variant for want of memory."""
    errors = {"AllocError"}
    for _, _, text in sources(top):
        for name, body in re.findall(r"^pub enum (\w+) \{(.*?)^\}", text, re.M | re.S):
            if re.search(r"^ +OutOfMemory,", body, re.M):
                errors.add(name)
    return errors


def signature(text, start):
    """The parameters and the answer of the function that begins here."""
    head = re.split(r"\n *(?:requires|ensures|decreases|where)\b|\{\n|\{\}|;\n", text[start:], maxsplit=1)[0]
    parameters, _, answer = " ".join(head.split()).rpartition(" -> ")
    return parameters, answer


def owner(text, indent, start):
    """The type whose method begins here, without its path and lifetimes; nothing where it is a function of a module."""
    found = re.findall(r"^impl\b(.*?) \{$", text[:start], re.M) if indent else []
    if not found:
        return None
    name = re.sub(r"^<.*?> (?=[A-Z])|^ ", "", found[-1]).split(" for ")[-1].split("::")[-1]
    return re.sub(r"<(, )*>", "", re.sub(r"'\w+(, )?", "", name))


def calls(top):
    """The calls, in the order of the crates' names and files."""
    errors = re.compile(r"\b(" + "|".join(sorted(wanting(top))) + r")\b")
    found = []
    for crate, path, text in sources(top):
        at = "at" in path.relative_to(top / "crates" / crate / "src").parts
        for function in FUNCTION.finditer(text):
            parameters, answer = signature(text, function.start())
            if errors.search(answer) or READS.search(answer) and re.search(r"\balloc: Global|\bInput<", parameters):
                of = owner(text, function.group(1), function.start())
                found.append(Call(crate, at, of, function.group(2), parameters))
    return found


def names(found):
    """The calls by their names, in their order."""
    plain = [call.named(False) for call in found]
    return {call.named(plain.count(call.named(False)) > 1): call for call in found}


def exported(top):
    """The names that the roots export from the crates below them."""
    out = set()
    for crate in ROOTS:
        head = top / "crates" / crate / "src" / "lib.rt"
        text = head.read_text() if head.exists() else ""
        for uses in re.findall(r"^ *pub use ([^;]*);", text, re.M):
            out.update(re.findall(r"\b\w+\b", uses))
    return out


def of_programs(top, found):
    """Those of the calls that a program can make through the roots: what these define, and what they export. What is
    generic in a trait that they don't export, or is of a type with such parameters, is none of them."""
    out = exported(top)
    inner = {
        name
        for crate, _, text in sources(top) if crate not in ROOTS
        for name in re.findall(r"^pub (?:struct|enum|trait|type) (\w+)", text, re.M)
    } - out
    return [
        call for call in found
        if call.crate in ROOTS
        or not call.at
        and (re.sub(r"<.*", "", call.owner or "") or call.name) in out
        and not inner & set(re.findall(r"\w+", (call.owner or "") + call.parameters))
    ]

"""Judges the cases of `run`: `judge.py TOP SAID..`, with a file for each program, of what its cases wrote."""

import re
import sys
from collections import Counter
from pathlib import Path

import calls

REFUSED = "refused "

# What no call of the program is named for, since a library makes it of another one alone: with the call that makes it.
UNDER = {
    "imap_body::Parts::push_unboxed": "imap_body::attribute",
    "imap_body::AttributeSpans::unescaped": "imap_body::SpannedAttribute::unescaped",
    "imap_body::AttributeSpans::value": "imap_body::SpannedAttribute::value",
    "imap_body::attribute_values_at": "imap_body::attribute_list",
    "imap_bytes::at::astring_utf8": "imap_bytes::astring_utf8",
    "imap_bytes::at::quoted_utf8": "imap_bytes::quoted_utf8",
    "imap_envelopes::Input::text": "imap_bodystructure::body_fields",
    "imap_envelopes::at::envelope": "imap_envelopes::envelope",
    "imap_envelopes::at::list_of_one": "imap_envelopes::envelope",
    "imap_envelopes::kept_text": "imap_bodystructure::body_fields",
    "imap_envelopes::kept_pair": "imap_bodystructure::body_fields",
    "imap_envelopes::kept_encoding": "imap_bodystructure::body_fields",
    "imap_body_types::BodyStructure::try_map": "imap_body_types::BodyStructure::into_owned",
    "imap_body_types::BodyStructure::value": "imap_body::SpannedAttribute::value",
    "imap_body_types::Envelope::try_map": "imap_body_types::Envelope::into_owned",
    "imap_body_types::mapped_envelope": "imap_body_types::BodyStructure::into_owned",
    "imap_body_types::mapped_optional_text": "imap_body_types::BodyStructure::into_owned",
    "imap_body_types::mapped_texts": "imap_body_types::BodyStructure::into_owned",
    "imap_body_types::SpannedText::named_in": "imap_bodystructure::body_fields",
    "imap_bodystructure::at::body": "imap_bodystructure::body_structure",
    "imap_bodystructure::at::body_structure": "imap_bodystructure::body_structure",
    "imap_bodystructure::at::extension": "imap_bodystructure::body_extension",
    "imap_bodystructure::at::body_extension": "imap_bodystructure::body_extension",
    "imap_bodystructure::at::body_ext_1part": "imap_bodystructure::body_structure",
    "imap_bodystructure::at::body_ext_mpart": "imap_bodystructure::body_structure",
    "imap_bodystructure::at::body_fld_param": "imap_bodystructure::body_fields",
    "imap_bodystructure::at::body_fields": "imap_bodystructure::body_fields",
    "imap_bodystructure::at::spaced_fields": "imap_bodystructure::body_structure",
    "imap_shared::at::mailbox": "imap_shared::mailbox",
}


def cases(path):
    """The lines of each case."""
    found = []
    for line in path.read_text(errors="replace").splitlines():
        if line.startswith("== "):
            found.append([])
        elif found:
            found[-1].append(line)
    return found


def told(case):
    """What came of the calls, and the calls that answered want of memory."""
    refused = [line.removeprefix(REFUSED).partition(", ")[0] for line in case if line.startswith(REFUSED)]
    return [line for line in case if not line.startswith(REFUSED)], refused


def faults_of_cases(found):
    """What is wrong with the cases, how many growths each call met, and how many were made good: std's `collect` asks
    for room for all items first, and goes on without it."""
    wrong, met, made_good = [], Counter(), 0
    ample, refused = told(found[-1] if found else [])
    if refused or not ample:
        wrong.append("there are more growths than are refused, or a call always wants memory: see `refuse`")
    wrong += [f"with ample memory: {line}" for line in ample if ": Err(" in line]
    growths = max((k for k, case in enumerate(found) if told(case)[1]), default=-1) + 1
    for k, case in enumerate(found, 1):
        lines, refused = told(case)
        met.update(refused)
        made_good += not refused and k <= growths
        if len(refused) > 1:
            wrong.append(f"growth {k}: want of memory is answered {len(refused)} times, by {refused}")
        wrong += [f"growth {k}: {line}" for line in lines if line not in ample][:3]
        if lines != ample and not any(line not in ample for line in lines):
            wrong.append(f"growth {k}: lines are missing, or there twice")
    return wrong, met, made_good


def made(program, name, call):
    """Whether the program makes the call that it names so: the call stands behind one of its names, before the next."""
    of = rf"(?:\b{re.sub('<.*', '', call.owner)}(?:::<\w+>)?::|\.)" if call.owner else r"\b"
    parts = program.split(f'"{name}"')[1:]
    return any(re.search(of + call.name + r"\(", re.split(r'"imap_\w+::', part)[0]) for part in parts)


def faults_of_list(top, met):
    """Which public calls are missing."""
    program = "\n".join(part.read_text() for part in sorted((top / "checks" / "refusals" / "program").glob("*.txt")))
    found = calls.calls(top)
    names = calls.names(found)
    outer = calls.of_programs(top, found)
    wrong = []
    for name, call in names.items():
        inner = UNDER.get(name) if call not in outer else None
        if inner is None and not made(program, name, call):
            wrong.append(f"{name} is not called")
        elif not met[inner or name]:
            wrong.append(f"{name} met no growth")
    wrong += [f"{name} is no public call that may answer want of memory" for name in UNDER if name not in names]
    return wrong


def main():
    top, wrong, met = Path(sys.argv[1]), [], Counter()
    for said in sys.argv[2:]:
        found = cases(Path(said))
        faults, of_program, made_good = faults_of_cases(found)
        refused = sum(of_program.values())
        print(f"{Path(said).stem}: {refused} growths in {len(found)} cases, and {made_good} that were made good")
        wrong += faults
        met += of_program
    for call, growths in sorted(met.items()):
        print(f"{growths:4} {call}")
    wrong += faults_of_list(top, met)
    for line in wrong[:40]:
        print(line)
    print(f"{sum(met.values())} growths were refused, of {len(met)} calls; {len(wrong)} faults")
    sys.exit(bool(wrong))


main()

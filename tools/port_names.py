#!/usr/bin/env python3
"""Spells the repository's own definitions, fields and lemmas in snake case, as today's Rattle does. Run once, after port.py.

usage: tools/port_names.py [FOLDER] [--show]

A dash and a change to a capital within a name become an underscore. Names of source functions, fields and types, exported
names, strings, inputs and outputs stay. With --show it changes nothing and lists each new name, and the places where a new name
was there before.
"""
import glob
import os
import re
import sys

ID = r"[^\s(){}.,;:\[\]\"`λ@|«»]+"
TOKEN = re.compile(r"(?<![^\s(){}.,;:\[\]\"`λ@|«»])" + ID)
DECLARED = re.compile(r"^(?:(?:abbrev|unfoldable|pub|private|data|record)\s+)*(" + ID + r")\s+(?:\{|\(|:)")
FIELD = re.compile(r"^\s+pub (" + ID + r") :")
INNER = re.compile(r"^\s+(" + ID + r") : ")

# Lemmas whose new name would be that of the definition that they speak of, by crate; of no crate, wherever they stand.
OTHERWISE = {
    "body-of": "body_of_lem",
    "body-size": "body_size_lem",
    "by-ending": "by_ending_lem",
    "frame-rest": "frame_rest_lem",
    "hex-digit": "hex_digit_lem",
    "hunted-more": "hunted_more_lem",
    "is-squawk": "is_squawk_lem",
    "kind-in": "kind_in_lem",
    "octal-digits": "octal_digits_lem",
    "seen-told": "seen_told_lem",
}
# Names that stand indented, in a module with parameters, as parameters, or as other names of imports.
INDENTED = """
    answerFor bodySize crcAccum fieldColumns fieldsRow headerAfter headerBefore highItem highRun inRanges itsLine itsStore
    lowItem lowRun meantValue messageAfter messageBefore offsetsFrom outputAtFlag receiverAnswer refusalOf refusedRead
    rightLength structColumns structOctet structOffsets structOffsetsFrom structRowFrom structRowOf structRowTo structRuns
    structSize textItem valueIn verdictOf withLine
""".split()
# Names that port.py turned by itself, since a library had them so: in definitions, and not in must-fail edits.
TURNED = """
    answerIn bitOf bitsOf bodyOf callOf closedIn endAt endOf frameOf headerAt idOf idsOf inputOf isLine isPlain isRefused
    isSet isSome isYes kindOf lastOf leftOf lowFirst markOf membersOf noRow noWord numberOf positionOf readBy readingOf
    roomFor roomsOf rowOf scaleOf stateOf unitOf upFrom upTo wordsIn a-lt add-done after-call after-open all-blocks all-left
    all-lines all-moved among-none answer-back as-long as-written at-flag at-least at-most at-sum at-zero bad-more below-two
    bits-at bits-back body-at bounded-at by-answer by-blocks by-cases by-code by-digits by-end by-field by-flag by-kind
    by-last by-length by-tests by-word call-same close-spec closed-same copied-more copy-spec count-none count-same
    decimal-digit digit-room digits-of down-lt dynamic-back eight-is either-end f-lt field-at fields-within fill-spec
    filled-none first-frame flag-small frame-back frame-closed frame-found frame-is frame-refused from-first from-start
    from-zero goes-on going-on halves-lt has-room head-first header-is header-read held-back held-carried held-small high-is
    i-lt in-all in-four in-place in-table in-three is-carried is-found is-lawful is-whole its-own known-in last-bit
    left-alone left-at line-taken low-of made-of mul-left named-in narrow-back no-answer no-body no-digit no-field no-header
    no-index no-kind no-lines no-more no-one no-other no-payload no-room no-zero none-found none-left none-more none-of
    none-so-far not-own not-zeros number-lt of-format one-digit-more one-more ones-step other-length pair-lt pair-put
    pair-step pairs-lt part-length part-moved part-room pass-spec passed-none past-first paste-more put-32 put-all put-as
    put-first put-spec read-behind read-more read-spec reads-none reads-so record-is refusal-is rest-part row-back
    row-before row-drop row-same row-typed row-within run-ends run-small runs-append same-at same-digits same-id same-length
    same-numbers same-of same-read same-seen scaled-fits seen-all sent-back sent-is set-before set-more sets-more size-is
    slice-back some-id some-left some-read split-runs static-read step-spec store-spec stored-more sub-used sum-fits sum-is
    sum-same sum-zeros table-is table-step take-none tests-agree text-at too-far too-long too-short top-xor turn-spec
    turned-on two-at-once two-digits two-is typed-spec whole-is whole-length within-all words-left wrapped-sum write-spec
    writes-as written-as xor-assoc
""".split()
WITHIN = {
    "c_mavlink": {"found_as": "answered"},
    "field_layout": {"text_at": "text_at_lem"},
    # a variable: the word is a tactic's today
    "thm_kind_examples": {"ground": "air_or_ground"},
    "ucp_messages": {"ground": "air_or_ground"},
    "thm_c_mavlink": {"as_written": "as_written_lem", "read_as": "read_messages"},
    "thm_c_ucp": {"written_as": "written_as_lem"},
    "thm_ucp_receiver": {
        "at_flag": "at_flag_lem",
        "bad-escape": "bad_escape_lem",
        "check-sent": "check_sent_lem",
        "escape-last": "escape_last_lem",
        "last-of": "last_of_lem",
        "read_more": "read_more_lem",
    },
}


def snake(name):
    if name in OTHERWISE:
        return OTHERWISE[name]
    parts = []
    for part in name.split("-"):
        part = re.sub(r"(?<=[a-z])([A-Z])", lambda m: "_" + m[1].lower(), part)
        part = re.sub(r"(?<=\d)([A-Z])(?=[a-z])", lambda m: "_" + m[1].lower(), part)
        parts.append(part.lower())
    return "_".join(parts)


def is_old(name):
    return bool(re.fullmatch(r"[a-z][A-Za-z0-9'-]*(?:_[A-Za-z0-9'-]+)*", name)) and ("-" in name or re.search(r"[a-z0-9][A-Z]", name) is not None)


def antt_files(top):
    for part in ("specs", "proofs"):
        yield from sorted(glob.glob(f"{top}/crates/*/{part}/**/*.antt", recursive=True))


def by_function(path):
    return os.path.basename(path) in ("Proof.antt", "Answers.antt", "Invariants.antt")


def declared(top):
    names = set()
    for path in antt_files(top):
        if by_function(path):
            continue
        for line in open(path, encoding="utf-8"):
            if line.lstrip().startswith("--") or line.startswith("use "):
                continue
            for form in (DECLARED, FIELD, INNER):
                m = form.match(line)
                if m and is_old(m[1]):
                    names.add(m[1])
    return {name: snake(name) for name in names | set(INDENTED)}


def turned(text, names):
    return re.sub(r"(?<!proofs\.)" + TOKEN.pattern, lambda m: names.get(m[0], m[0]), text)


def quoted(text, names):
    """Prose: what stands between backticks, and outside of them a name that no English word is spelled like."""
    camel = {old: new for old, new in names.items() if "-" not in old and re.search("[A-Z_]", old)}
    return "".join(turned(part, names if i % 2 else camel) for i, part in enumerate(re.split(r"(`[^`\n]*`)", text)))


def antt(text, names):
    lines = []
    for line in text.split("\n"):
        at = line.find("--") if re.match(r"^\s*--", line) else line.find(" -- ")
        code, comment = (line, "") if at < 0 else (line[:at], line[at:])
        lines.append(turned(code, names) + quoted(comment, names))
    return "\n".join(lines)


def rt(text, names):
    """Code has no name of ours: they stand in ghost lines, in clauses and in comments."""
    lines, depth = [], 0
    for line in text.split("\n"):
        clause = depth > 0 or re.match(r"^\s*(?:requires|ensures|ghost)\b", line)
        at = line.find("//")
        code, comment = (line, "") if at < 0 else (line[:at], line[at:])
        if clause:
            depth = max(depth + code.count("{") - code.count("}"), 0)
            code = turned(code, names)
        lines.append(code + quoted(comment, names))
    return "\n".join(lines)


def edit(text, names):
    """A must-fail edit, as port.py turns files of definitions and proofs: names, projections, paths; of code in its clauses."""
    of_antt = re.search(r"^file: .*\.antt$", text, re.M) is not None
    if not of_antt:
        return turned(text, {old: new for old, new in names.items() if "-" not in old})
    lines = []
    for line in text.split("\n"):
        if not line.startswith(("old: ", "new: ")):
            lines.append(line)
            continue
        line = line[:5] + turned(line[5:], {old: snake(old) for old in TURNED} | names)
        line = re.sub(r"Rattle·([\w.]+)", r"Rattle.\1", line)
        line = re.sub(r"(?<=[\w')}]) \.(?=[a-z])", ".", line)
        line = re.sub(r"\(([\w'-]+(?:\.[\w'-]+)+)\)", r"\1", line)
        lines.append(line)
    return "\n".join(lines)


def all_files(top):
    for path in antt_files(top):
        yield path, antt
    for path in sorted(glob.glob(f"{top}/crates/*/src/**/*.rt", recursive=True)):
        yield path, rt
    for path in sorted(glob.glob(f"{top}/crates/*/must-fail/*.edit")):
        yield path, edit


def main():
    words = [w for w in sys.argv[1:] if w != "--show"]
    top = words[0] if words else "."
    names = declared(top)
    for path, turn in all_files(top):
        text = open(path, encoding="utf-8").read()
        if "--show" in sys.argv:
            there = set(TOKEN.findall(text))
            for old in sorted(there & set(names)):
                if names[old] in there:
                    print(f"meets: {path}: {old} -> {names[old]}")
            continue
        crate = os.path.relpath(path, top).split(os.sep)[1]
        new = turn(text, names | WITHIN.get(crate, {}))
        if new != text:
            open(path, "w", encoding="utf-8").write(new)
    if "--show" in sys.argv:
        back = {}
        for old, new in sorted(names.items()):
            back.setdefault(new, []).append(old)
        for new, olds in sorted(back.items()):
            if len(olds) > 1:
                print(f"falls together: {' '.join(olds)} -> {new}")
        print(len(names), "names")


if __name__ == "__main__":
    main()

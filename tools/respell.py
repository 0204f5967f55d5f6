#!/usr/bin/env python3
"""Brings the names of definitions, fields and lemmas of this repository to the kit's spelling, once.

usage: python3 tools/respell.py [--list] [FOLDER]

Words are in snake case: statesInHand becomes states_in_hand, where-defined becomes where_defined. Facts and types are in
camel case: In-table becomes InTable, and a definition whose value is a type gets a capital. A capital word of a lemma's
name, as T3 in at-T3, is another name, and keeps its dash. Run it after the kit's port.py, at the top of the repository.

Functions, types, fields and parameters of src/ keep their names, and so do strings and comments, but for names that are
no words of English, like statesInHand. A clause's label is spelt in proofs as it is in src/. What a name becomes is decided by where it is declared, so the script does the same
in each checkout of the same files.
"""

import os
import re
import sys

# Where the rule gives a name that something else beside it has, or that a field of src/ has.
CHOSEN = {
    "at-power-up": "at_power_up_lem",
    "at-start": "at_start_lem",
    "by-jam": "by_jam_lem",
    "ended_by": "ended_by_lem",
    "ended-by": "ended_by_lem",
    "ends_at": "EndsAtTick",
    "endsAt": "EndsAtTick",
    "carried-out": "is_carried_out",
    "states-of": "states_of_lem",
    "tableStates": "table_states_of",
}

# Parameters and variables of definitions.
VARIABLES = {
    "inHand": "in_hand",
    "openedReady": "opened_ready",
    "goneOn": "gone_on",
    "inHandBefore": "in_hand_before",
    "inHandAfter": "in_hand_after",
}

WORD = r"[^\s(){}\[\];,.:\"«»λ⌜⌝|!@#&]+"
TOKEN = re.compile(r'"(?:\\.|[^"\\])*"|' + WORD)
DECLARED = re.compile(r"^(?P<indent> *)(?:unfoldable |abbrev |package )*(?:pub )?(?:record |data )?(?:pub )?(?P<name>" + WORD + r")(?: \([^)]*\)| \{[^}]*\})* : ?(?P<type>.*)$")
GENERATED = re.compile(r"^(?:goal\.|invariant|decreases)")


def files(root, endings):
    for folder, dirs, names in os.walk(os.path.join(root, "crates")):
        dirs[:] = sorted(d for d in dirs if d != "out")
        for f in sorted(names):
            if f.endswith(endings):
                yield os.path.join(folder, f)


def declarations(path):
    """Each name that an .antt file declares, with its type."""
    with open(path, encoding="utf-8") as f:
        lines = f.read().split("\n")
    for i, line in enumerate(lines):
        m = DECLARED.match(line)
        if not m or line.lstrip().startswith(("--", "use ")):
            continue
        kind = m["type"]
        for more in lines[i + 1:]:
            if not more.startswith(m["indent"] + "    "):
                break
            kind += " " + more.strip()
        yield m["name"], kind.strip()


def snake(part):
    return re.sub(r"(?<=[a-z0-9'])([A-Z])", lambda m: "_" + m[1].lower(), part)


def camel(part):
    return part[:1].upper() + part[1:]


def respelt(name, kind):
    parts = [p for p in name.split("-")]
    if name[0].isupper():
        return "".join(camel(p) for p in parts)
    if re.search(r"(?:^|→ )Type 0$", kind):
        return "".join(camel(p) for p in parts)
    out = snake(parts[0])
    for p in parts[1:]:
        out += ("-" + p) if p[:1].isupper() else ("_" + snake(p))
    return out


def labels(root):
    """The labels of clauses, in the form that older proofs cite, with dashes."""
    found = {}
    for path in files(root, (".rt",)):
        with open(path, encoding="utf-8") as f:
            for label in re.findall(r"\b(?:ensures|requires|ghost) (\w*_\w*)(?= *[{:=])", f.read()):
                found[label.replace("_", "-")] = label
    return found


def names(root):
    said = {}
    for path in files(root, (".antt",)):
        for name, kind in declarations(path):
            if GENERATED.match(kind) or GENERATED.match(name):
                continue
            new = CHOSEN.get(name) or respelt(name, kind)
            if new == name and name not in said:
                continue
            said.setdefault(name, {}).setdefault(new, []).append(os.path.relpath(path, root))
    return said


def turned(text, new, ghost_only):
    """The text with the names of `new`; of Rust, only what proofs read."""
    out, depth, inside = [], 0, False
    for line in text.split("\n"):
        mark = "//" if ghost_only else "--"
        at = -1
        for m in re.finditer(r'"(?:\\.|[^"\\])*"|' + re.escape(mark), line):
            if m[0] == mark and (ghost_only or m.start() == 0 or line[m.start() - 1] == " "):
                at = m.start()
                break
        code, comment = (line, "") if at < 0 else (line[:at], line[at:])
        if ghost_only:
            if not inside and re.match(r"\s*(?:pub )?(?:ghost |requires|ensures|#!?\[tactic)", code):
                inside, depth = True, 0
            if inside:
                code = TOKEN.sub(lambda m: new.get(m[0], m[0]), code)
                depth += len(re.findall(r"[{(\[]", code)) - len(re.findall(r"[})\]]", code))
                inside = depth > 0
        else:
            code = TOKEN.sub(lambda m: new.get(m[0], m[0]), code)
        comment = TOKEN.sub(lambda m: new.get(m[0], m[0]) if re.search(r"[a-z][A-Z]", m[0]) else m[0], comment)
        out.append(code + comment)
    return "\n".join(out)


def main(argv):
    root = os.path.abspath(next((a for a in argv if not a.startswith("--")), "."))
    said = names(root)
    new, wrong = {}, 0
    for name, forms in sorted(said.items()):
        if len(forms) > 1:
            print(f"{name}: " + "; ".join(f"{k} in {', '.join(sorted(set(v)))}" for k, v in forms.items()))
            wrong += 1
        new[name] = next(iter(forms))
    if "--list" in argv:
        for name in sorted(new):
            if new[name] != name:
                print(f"{name} -> {new[name]}")
        return 0
    if wrong:
        return 1
    new = VARIABLES | labels(root) | {k: v for k, v in new.items() if k != v}
    changed = 0
    for path in files(root, (".antt", ".rt")):
        with open(path, encoding="utf-8") as f:
            text = f.read()
        after = turned(text, new, path.endswith(".rt"))
        if after != text:
            changed += 1
            with open(path, "w", encoding="utf-8") as f:
                f.write(after)
    print(f"respell: {len(new)} names, {changed} files")
    return 0


if __name__ == "__main__":
    raise SystemExit(main(sys.argv[1:]))

#!/usr/bin/env python3
"""Turns each old proofs/F/Proof.antt of a crate that answers goals through `tie` into Invariants.antt and Answers.antt.

usage: tools/port/answers.py CRATE_FOLDER NAMES.json      NAMES.json: what `rattle check --generated DIR --old-names` wrote of the crate

An answer that only searches is left out: the check tries that itself. An answer that speaks of no goal of today's is left out too, and named.
"""

import json
import os
import re
import sys

WORD = r"[^\s(){}\[\].,;:@\"«»⌜⌝|→`]+"
IDENT = re.compile(r"(?<![^\s(){}\[\],;:«»|→λ≡])(" + WORD + ")")


def plain(name):
    return re.sub(r"[-_]", "", name)


def blocks(text):
    """The file's declarations: [comment lines, name, signature, rest], in order, with its `use` lines apart."""
    uses, decls, note, current = [], [], [], None
    for line in text.split("\n"):
        if line.startswith("use ") or line.startswith("pub use "):
            uses.append(line)
            current = None
        elif not line.strip():
            if current is not None:
                current = None
        elif line.startswith("--"):
            if not line.endswith("meets its contract. Assumes nothing."):
                note.append(line)
            current = None
        elif line[0] in " )}" and decls:
            decls[-1]["lines"].append(line)
        else:
            m = re.match(r"^(?:(abbrev|unfoldable) )?(?:(pub) )?(\S+) : ", line)
            if m:
                decls.append({"note": note, "mark": m.group(1), "name": m.group(3), "lines": [line]})
                note = []
            elif line.startswith("unfolding ") or re.match(r"^\S+(?: |$)", line):
                decls[-1]["lines"].append(line)
            current = decls[-1]
    return uses, decls


class Names:
    def __init__(self, table):
        self.needs = {}
        self.by_new = {}
        for old, new in table["needs"]:
            self.needs.setdefault(plain(old), new)
            self.by_new[plain(new)] = new
        self.steps = {}
        self.clash = set()
        for _, _, (old, new), _, _ in table["places"]:
            if old:
                key = plain(old)
                if self.steps.get(key, new) != new:
                    self.clash.add(key)
                self.steps[key] = new
        self.loops = [(old, new, params) for (old, new), params in table["loops"]]
        self.changed = table["changed"]
        self.args = [(a.strip("."), b.strip(".")) for a, b in table["args"]]

    def need(self, word):
        key = plain(word)
        for k in (key, re.sub(r"^(overflow|nonzero)", "", key)):
            if k in self.needs:
                return self.needs[k]
        return self.by_new.get(key)


def flat(text, names, said, where):
    """A path into the facts of a goal: no `.before`, and today's name of the step."""

    def path(m):
        head, rest = m.group(1), m.group(2)
        parts = rest.split(".")[1:]
        while parts and parts[0] == "before":
            parts = parts[1:]
        if parts:
            key = plain(parts[0])
            fixed = ("args", "ranges", "requires", "wellformed", "typeinv", "before", "auto")
            if key in names.steps and key not in fixed:
                if key in names.clash:
                    said.append(f"{where}: step {parts[0]} is named twice")
                parts[0] = names.steps[key]
            elif key == "typeinv":
                parts[0] = "type_inv"
            parts = [{"type-inv": "type_inv", "well-formed": "well_formed"}.get(p, p) for p in parts]
            if parts[0] in ("args", "ranges") and len(parts) > 1:
                for a, b in names.args:
                    ka, kb = a.split(" "), b.split(" ")
                    if len(ka) == 2 and ka[0].strip(".") == parts[0] and plain(ka[1].strip(".")) == plain(parts[1]):
                        parts[1] = kb[1].strip(".")
                        break
        return ".".join([head, *parts])

    return re.sub(r"(?<![\w'.-])([cslpwbtedq])((?:\.[^\s(){}\[\].,;:«»]+)+)", path, text)


def invariant(decl, names, kind, said, where):
    sig, body = decl["lines"][0], decl["lines"][1:]
    loop = re.search(rf"tie\.{kind}-(\S+)", sig).group(1)
    for (old, new, params), changed in zip(names.loops, names.changed):
        if plain(old) == plain(loop) or plain(new) == plain(loop) or len(names.loops) == 1:
            break
    else:
        said.append(f"{where}: no loop {loop}")
        return None
    text = "\n".join(body)
    m = re.match(r"(\S+)((?: [^=\s]+)*) =", text)
    binders = m.group(2).split()
    target = [f"l.initial.{p}" if c else f"l.{p}" for p, c in zip(params, changed)]
    target += [f"l.{p}" for p, c in zip(params, changed) if c]
    if len(binders) != len(target):
        said.append(f"{where}: {decl['name']} binds {binders}, not {target}")
    swap = dict(zip(binders, target))
    rest = text[m.end() :]
    rest = IDENT.sub(lambda k: swap.get(k.group(1), k.group(1)), rest)
    name = f"{kind}-{new}"
    lines = [f"abbrev pub {name} : goal.{name}"]
    return "\n".join(decl["note"] + lines) + f"\n{name} l ={rest}"


def used(uses, text):
    """The imports that a text needs."""
    words = set(re.findall(WORD, text)) | set(re.findall(r"[^\s(){}\[\],;]+", text))
    out = []
    for line in uses:
        m = re.match(r"^((?:pub )?use \S+?)\.\{(.*)\}$", line)
        if not m:
            tail = re.search(r"(?: as (\S+))?$", line).group(1) or line.split(".")[-1]
            if tail in words or re.search(rf"(?<![\w'-]){re.escape(tail)}\.", text):
                out.append(line)
            continue
        keep = []
        for item in m.group(2).split(","):
            item = item.strip()
            name = item.split(" as ")[-1]
            if "◌" in name:
                marks = [p for p in name.split("◌") if p]
                if all(p in text for p in marks):
                    keep.append(item)
            elif name == "[]":
                keep += [item] if "[]" in text else []
            elif name in words or name in text.split() or re.search(rf"(?<![\w'-]){re.escape(name)}(?![\w'-])", text):
                keep.append(item)
        if keep:
            out.append(f"{m.group(1)}.{{{', '.join(keep)}}}")
    return out


def turn(folder, crate, path, names, said):
    with open(os.path.join(folder, "Proof.antt"), encoding="utf-8") as f:
        text = f.read()
    if "tie.spec" not in text:
        said.append(f"{path}: a walk")
        return
    uses, decls = blocks(text)
    uses = [u for u in uses if f".{path}.Statement" not in u and f".{path}.Tie" not in u]
    given, answers, helpers = [], [], []
    # `tie.spec` has the answers in the order of the old needs; a loop's two come first
    for d in decls:
        sig = d["lines"][0]
        whole = "\n".join(d["lines"])
        if "statement M" in sig:
            continue
        for kind in ("invariant", "decreases"):
            if f"tie.{kind}-" in sig.split(" : ", 1)[1]:
                it = invariant(d, names, kind, said, path)
                if it:
                    given.append(it)
                break
        else:
            m = re.search(r"tie\.Need-(\S+)", sig)
            if not m:
                if re.search(r"\btie\.", whole):
                    said.append(f"{path}: helper {d['name']} speaks of tie")
                helpers.append((d, flat(whole, names, said, path)))
                continue
            new = names.need(m.group(1)) or names.need(d["name"])
            body = "\n".join(d["lines"][1:])
            lhs, rhs = re.match(r"(?:unfolding [^\n]*\n)?(\S+[^=\n]*?) =(?: |\n|$)", body), None
            rhs = body[lhs.end() :].strip() if lhs else ""
            if re.fullmatch(r"search (rules|needs)|tt", rhs) and "unfolding" not in body:
                continue
            if not new:
                said.append(f"{path}: no goal for {m.group(1)}: {rhs[:60]!r}")
                continue
            unfolding = re.match(r"(unfolding [^\n]*)\n", body)
            lines = [f"pub {new} : goal.{new}"]
            if unfolding:
                lines.append(unfolding.group(1))
            arrow = body[lhs.end() - 1 :].rstrip()
            answers.append("\n".join(d["note"] + lines) + f"\n{new} c =" + flat(arrow, names, said, path))
    head = [l for l in text.split("\n")[:3] if l.startswith("-- `")]
    if given:
        body = "\n\n".join(given)
        lines = used(uses, body) + [f"use Rattle.{crate}.proofs.{path}.Given as goal"]
        with open(os.path.join(folder, "Invariants.antt"), "w", encoding="utf-8") as f:
            f.write("\n".join(lines) + "\n\n" + body + "\n")
    need = "\n\n".join(answers)
    kept = []
    for d, t in reversed(helpers):
        if re.search(rf"(?<![\w'.-]){re.escape(d['name'])}(?![\w'-])", need + "".join(kept)):
            kept.insert(0, "\n".join(d["note"] + [t]))
    if answers:
        body = "\n\n".join(kept + answers)
        lines = used(uses, body) + [f"use Rattle.{crate}.proofs.{path}.Goals as goal"]
        with open(os.path.join(folder, "Answers.antt"), "w", encoding="utf-8") as f:
            f.write("\n".join(lines) + "\n\n" + body + "\n")
    os.remove(os.path.join(folder, "Proof.antt"))
    if not os.listdir(folder):
        os.rmdir(folder)


def main(crate_folder, names_file):
    crate = os.path.basename(os.path.realpath(crate_folder))
    with open(names_file, encoding="utf-8") as f:
        table = json.load(f)
    said = []
    top = os.path.join(crate_folder, "proofs")
    for folder, _, files in sorted(os.walk(top)):
        if "Proof.antt" not in files:
            continue
        path = os.path.relpath(folder, top).replace(os.sep, ".")
        key = f"Rattle-{crate}-proofs.{path}.Lts"
        if key not in table:
            said.append(f"{path}: no names")
            continue
        turn(folder, crate, path, Names(table[key]), said)
    print("\n".join(said))


if __name__ == "__main__":
    main(*sys.argv[1:3])

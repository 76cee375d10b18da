#!/usr/bin/env python3
"""Spells this repository's own definitions, fields, constructors and lemmas as today's Rattle does: in snake case, with a dash
only between two names in a lemma. Types, modules and what src/ declares keep their spelling.

usage: tools/respell.py [--list]

Run once, at the top, after port.py. It renames in crates/*/specs, crates/*/proofs, the clauses and ghost uses of crates/*/src, and
crates/*/must-fail, in place. --list prints the names, old and new, and those that would fall together, and writes nothing.
"""
import collections
import os
import re
import sys

# names that would fall together with another, or that read badly
OWN = {
    "FLASH-BEGIN": "flash_begin_command", "FLASH-DATA": "flash_data_command", "FLASH-END": "flash_end_command",
    "MEM-BEGIN": "mem_begin_command", "MEM-END": "mem_end_command", "MEM-DATA": "mem_data_command",
    "SYNC": "sync_command", "WRITE-REG": "write_reg_command", "READ-REG": "read_reg_command",
    "SPI-ATTACH": "spi_attach_command", "SPI-FLASH-MD5": "spi_flash_md5_command",
    "END": "end_byte", "ESC": "esc_byte", "ESC-END": "esc_end_byte", "ESC-ESC": "esc_esc_byte",
    "F": "aux_f", "G": "aux_g", "H": "aux_h", "I": "aux_i",
    "HEADER": "header_length",
    "flash-begin": "good_flash_begin", "memory-begin": "good_memory_begin",
    "power-on": "a_power_on", "power-off": "a_power_off",
    "core-over": "core_over_lem", "tells-over": "tells_over_lem", "answer-buffer": "answer_buffer",
    "by_bytes": "fed_by_bytes", "by_runs": "fed_by_runs",
}
# the kinds of a command and what tells them, declared several to a line; they have the names of the grammar's tests, which one file renames
KINDS = ("loader_errors", "loader_effects", "loader_history", "loader_claims")
OF_KINDS = {
    "flash-begin": "flash_begin", "memory-begin": "memory_begin", "flash-end": "flash_end", "memory-end": "memory_end",
    "write-reg": "write_reg", "spi-attach": "spi_attach", "flash-digest": "flash_digest",
    "is-flash-begin": "is_flash_begin", "is-flash-data": "is_flash_data", "is-flash-end": "is_flash_end", "is-sync": "is_sync",
    "is-write-reg": "is_write_reg", "is-read-reg": "is_read_reg", "is-flash-digest": "is_flash_digest", "is-unknown": "is_unknown",
}
BESIDE = {"flashBegin": "good_flash_begin", "memoryBegin": "good_memory_begin", "flashEnd": "good_flash_end"}
# the library's names of today for the tests that definitions and clauses write
TESTS = {"eqb": "nat_eq", "leb": "nat_le", "ltb": "nat_lt"}
KNOWN = set("""length take drop set append get_or replicate reverse map nil cons zero one suc add sub mul div mod min max cond and or not
true false filter fold sum eqb leb ltb pow""".split())
TOKEN = re.compile(r"[^\s(){}\[\],;.λ⌜⌝\"`]+")
DECLARED = re.compile(r"\s*(?:abbrev |unfoldable |pub )*(record |data |ruleset |mod )?([^\s(){}:,;]+)(?: \{[^}]*\})* (:|=)\s")


def texts(folder):
    for d, ds, fs in os.walk(folder):
        ds[:] = sorted(x for x in ds if x != "out")
        for f in sorted(fs):
            yield os.path.join(d, f)


def snake(part):
    part = re.sub(r"([a-z0-9])([A-Z])", r"\1_\2", part)
    return part.lower()


def spelled(name, lemma, known):
    if name in OWN:
        return OWN[name]
    if re.match(r"^[A-Z][A-Z0-9]*(-[A-Z0-9]+)*$", name):
        return name.lower().replace("-", "_")
    if name[0].isupper() and "-" not in name:
        return name
    parts = [p if p[:1].isupper() else snake(p) for p in name.split("-")]
    out = parts[0]
    for left, right in zip(parts, parts[1:]):
        joins = lemma and (left in known or left[:1].isupper()) and (right in known or right[:1].isupper()) and left + "_" + right not in known
        out += ("-" if joins else "_") + right
    return out


def declared():
    """Each own name, with whether it stands in proofs/ alone, and where."""
    where = collections.defaultdict(set)
    for p in texts("crates"):
        if p.endswith(".antt"):
            for line in open(p, encoding="utf-8"):
                m = DECLARED.match(line)
                if p.endswith("/Proof.antt") and re.search(r" : (tie\.|\{M : Type 1\})", line):
                    continue
                if m and not line.lstrip().startswith("--") and m.group(1) not in ("record ", "data ", "mod "):
                    where[m.group(2)].add(p)
    return where


def clauses(text):
    """The stretches of a source file that are antt: its ghost uses and clauses."""
    for m in re.finditer(r"(?m)^\s*ghost use [^;]*;|^\s*(?:requires|ensures|ghost)\b[^{;\n]*\{", text):
        end = m.end()
        if text[end - 1] == "{":
            depth = 1
            while depth:
                depth += {"{": 1, "}": -1}.get(text[end], 0)
                end += 1
        yield m.start(), end


def turned(text, names):
    return TOKEN.sub(lambda m: names.get(m.group(), m.group()), text)


def turned_comments(text, names):
    """In a comment the names that can be nothing else: with a capital behind a small letter, or in backticks."""
    sure = {o: n for o, n in names.items() if re.search(r"[a-z][A-Z]", o)}
    text = re.sub(r"`[^`\n]*`", lambda m: TOKEN.sub(lambda t: names.get(t.group(), t.group()), m.group()), text)
    return re.sub(r"[A-Za-z0-9]+", lambda m: sure.get(m.group(), m.group()), text)


def turned_antt(text, names):
    out = []
    for line in text.split("\n"):
        at = line.find("--") if re.match(r"\s*--", line) else -1
        out.append(turned_comments(line, names) if at >= 0 else turned(line, names))
    return "\n".join(out)


def turned_rt(text, names):
    out, last = "", 0
    for start, end in clauses(text):
        out += comments_of(text[last:start], names) + turned_clause(text[start:end], names)
        last = end
    return out + comments_of(text[last:], names)


def turned_clause(text, names):
    return "\n".join(turned_comments(l, names) if l.lstrip().startswith("//") else turned(l, names) for l in text.split("\n"))


def comments_of(text, names):
    return "\n".join(turned_comments(l, names) if l.lstrip().startswith("//") else l for l in text.split("\n"))


def turned_edit(text, names):
    out, code, now = [], False, names
    for line in text.split("\n"):
        if line.startswith("file:"):
            code = line.strip().endswith(".rt")
            now = names | TESTS if code or "specs/" in line else names
        if line.startswith(("old:", "new:")):
            if not code or re.search(r"\b(ghost use|ensures|requires)\b|[≡λ]", line):
                line = turned(line, now)
        elif line.startswith("#"):
            line = turned_comments(line, names)
        out.append(line)
    return "\n".join(out)


def names_in(path, names):
    """The names that a file respells."""
    if "/specs/" in path or path.endswith(".rt"):
        names = names | TESTS
    if path.split("/")[1] in KINDS:
        names = names | OF_KINDS
    if path.endswith("loader_history/proofs/Sessions.antt"):
        names = names | BESIDE
    if "/listing_lines/" in path:
        names = names | {"used-then": "used_then"}
    return names


def imported(path, text):
    """The grammar's tests, imported under other names where the kinds of a command stand beside them."""
    if path.endswith("loader_history/proofs/Sessions.antt"):
        for old, new in (("flash_begin", "good_flash_begin"), ("memory_begin", "good_memory_begin"), ("flash_end", "good_flash_end")):
            text = re.sub(r"(?m)^(use Rattle\.grammar\.specs\.Grammar\.\{.*)\b" + new + r"\b", r"\1" + old + " as " + new, text)
    return text


def main():
    where = declared()
    in_specs = {n for n, ps in where.items() if any("/specs/" in p for p in ps)}
    functions = set()
    for p in texts("crates"):
        if p.endswith(".rt"):
            functions |= set(re.findall(r"\bfn ([a-z_0-9]+)", open(p, encoding="utf-8").read()))
    known = KNOWN | functions | {snake(n) for n in in_specs if "-" not in n and n[0].islower()}
    taken = {spelled(n, False, known) for n in in_specs}
    libraries = set()
    for p in texts("crates"):
        if p.endswith(".antt"):
            for path, items in re.findall(r"(?m)^ *(?:pub )?use ([^{;\n]*)\.\{([^}]*)\}", open(p, encoding="utf-8").read()):
                if not path.startswith("Rattle.") or path.startswith("Rattle.std."):
                    libraries |= set(items.replace(" ", "").split(","))
    names = {}
    for n in where:
        if n == "tt" or not re.match(r"^[A-Za-z◌][A-Za-z0-9_'◌-]*$", n):
            continue
        new = n
        if "◌" in n:
            new = "◌".join(snake(p) for p in n.split("◌"))
            if new != n:
                names[n.strip("◌")] = new.strip("◌")
        else:
            new = spelled(n, n not in in_specs, known)
            if n not in in_specs and new in taken:
                new += "_lem"
            if n in libraries:
                if new != n and "--list" in sys.argv:
                    print("a library's too:", n, sorted(where[n])[0])
                continue
        if new != n:
            names[n] = new
    # what falls together, file by file
    together = collections.defaultdict(set)
    for p in texts("crates"):
        if p.endswith((".antt", ".rt")):
            text = open(p, encoding="utf-8").read()
            if p.endswith(".rt"):
                text = "\n".join(text[a:b] for a, b in clauses(text))
            text = re.sub(r"(?m)^( *(?:ghost |pub )*use )[^{;\n]*\.(?=\{)", r"\1", text)
            text = re.sub(r"(?m)^ *(?:ghost |pub )*use [^{;\n]*$", "", text)
            text = re.sub(r"(?m)^ *--.*$|^ *(pub )?mod .*$", "", text)
            text = re.sub(r"(?<=[\w')])\.[\w'-]+", "", text)
            olds = collections.defaultdict(set)
            for t in set(TOKEN.findall(text)):
                olds[names.get(t, t)].add(t)
            for new, os_ in olds.items():
                if len(os_) > 1:
                    together[new, tuple(sorted(os_))].add(p)
    if "--list" in sys.argv:
        for n in sorted(names):
            print(n, names[n], sep="\t")
        for (new, os_), ps in sorted(together.items()):
            print("together:", new, os_, len(ps), sorted(ps)[0])
        return
    for p in texts("crates"):
        turn = {".antt": turned_antt, ".rt": turned_rt, ".edit": turned_edit}.get(os.path.splitext(p)[1])
        if turn:
            old = open(p, encoding="utf-8").read()
            new = imported(p, turn(old, names_in(p, names)))
            if new != old:
                open(p, "w", encoding="utf-8").write(new)


main()

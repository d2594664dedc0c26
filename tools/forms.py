#!/usr/bin/env python3
"""Counts the places of older forms in crates/*/src, for docs/DESIGN-PASS.md.

    tools/forms.py [CRATE ..] [--list]

A count for each point, in a row for each crate; with --list also the places. It reads the source's text: a place is somewhere to look, not a verdict.
"""
import os, re, sys

WORD = re.compile(r"[A-Za-z_]\w*|\d[\w_]*|'[a-z]+")
TYPE = re.compile(r"\b([iu](8|16|32|64)|usize)\b")
KEY = set("fn pub mut let if else return for in while loop match as impl struct enum const self Self true false break continue requires ensures ref move where use".split())


def functions(text):
    """(name, line, signature, clauses, body) of each function."""
    out = []
    for m in re.finditer(r"^[ \t]*(?:pub(?:\([a-z]+\))? )?(?:unsafe )?(?:extern \"C\" )?(?:const )?fn (\w+)", text, re.M):
        depth, i, n = 0, m.end(), len(text)
        while i < n and not (text[i] in "{;" and depth == 0):
            depth += text[i] in "(["; depth -= text[i] in ")]"
            if re.match(r"\s(requires|ensures)\b", text[i:i + 10]):
                break
            i += 1
        head = text[m.start():i]
        clauses = ""
        while True:
            c = re.match(r"\s*(requires|ensures)\*?( \w+)? \{", text[i:])
            if not c:
                break
            j, d = i + c.end(), 1
            while d:
                d += text[j] == "{"; d -= text[j] == "}"; j += 1
            clauses += text[i:j]
            i = j
        b = text.find("{", i)
        if b < 0 or text[i:b].strip():
            out.append((m.group(1), text.count("\n", 0, m.start()) + 1, head, clauses, ""))
            continue
        j, d = b + 1, 1
        while d and j < n:
            d += text[j] == "{"; d -= text[j] == "}"; j += 1
        out.append((m.group(1), text.count("\n", 0, m.start()) + 1, head, clauses, text[b:j]))
    return out


def skeleton(head, body):
    """A function's text with its names, types and numbers by the sequence in which they come."""
    text = re.sub(r"//.*", "", head[head.index("("):] + body)
    text = re.sub(r"\s+", " ", re.sub(r",(\s*[)\]}])", r"\1", text))
    seen = {}

    def name(m):
        w = m.group(0)
        if w in KEY:
            return w
        return "T" if TYPE.fullmatch(w) else "0" if w[0].isdigit() else seen.setdefault(w, "v%d" % len(seen))
    return re.sub(r" ?([^\w ]) ?", r"\1", WORD.sub(name, text))


def parameters(head):
    inner = head[head.index("(") + 1:head.rindex(")")] if "(" in head and ")" in head else ""
    return [re.sub(r"\s+", " ", p).strip() for p in re.split(r",\s*(?![^\[<(]*[\]>)])", inner) if p.strip()]


def main():
    args = [a for a in sys.argv[1:] if a != "--list"]
    show = "--list" in sys.argv
    top = os.path.join(os.path.dirname(os.path.abspath(__file__)), "..", "crates")
    rows, places = {}, []
    twins, together, facts = {}, {}, {}

    def put(point, crate, where, what):
        rows.setdefault(crate, {}).setdefault(point, 0)
        rows[crate][point] += 1
        places.append((point, crate, where, what))

    for crate in args or sorted(os.listdir(top)):
        src = os.path.join(top, crate, "src")
        for d, _, names in os.walk(src):
            for f in sorted(names):
                path = os.path.join(d, f)
                where = crate + "/" + os.path.relpath(path, src)
                text = open(path, encoding="utf-8").read()
                bare = re.sub(r"//.*", "", text)
                for m in re.finditer(r"^(?:pub )?enum (\w+) \{(.*?)^\}", bare, re.M | re.S):
                    if re.search(r"\b(Refused|None|Err|Failed)\b", m.group(2)):
                        put("1", crate, where, "enum %s of the shape of Result" % m.group(1))
                for m in re.finditer(r"\b(refused|lent|exchanged|found): (u16|u8|bool),\n", bare):
                    put("1", crate, where, "field %s: a flag or number beside a value" % m.group(1))
                for m in re.finditer(r"^(?:pub )?const (\w+): u(?:8|16) = \d+;", bare, re.M):
                    if not re.search(r"MAX|MOST|LIMIT|HIGHEST|OLDEST|NEWEST|SINCE|SIZE|NAMES", m.group(1)):
                        put("1", crate, where, "const %s: a number for a kind, a refusal, a way or a field" % m.group(1))
                for name, line, head, clauses, body in functions(text):
                    at = "%s:%d %s" % (where, line, name)
                    if re.search(r"-> u16$", head.strip()) and ("number (" in clauses or re.search(r"[A-Z]+_[A-Z]+;|refused", body)):
                        put("1", crate, at, "answers a refusal's number")
                    if re.search(r"\b(kind|by|field|state|due): u(8|16)\b", head):
                        put("1", crate, at, "takes a number for a kind, a way or a state")
                    if body.count("\n") >= 2:
                        twins.setdefault(skeleton(head, body), []).append((crate, at))
                    for m in re.finditer(r"\b(while|loop)\b[^\n]*\{", body):
                        put("3", crate, at, "a loop that is not a for")
                    for m in re.finditer(r"for (\w+) in [^{]*\.\.[^{]*\{", body):
                        put("3", crate, at, "a for over numbers" + (", which are indices" if re.search(r"\[[^\]]*\b%s\b[^\]]*\]" % m.group(1), body) else ""))
                    flat = re.sub(r"\s+", " ", body)
                    if re.fullmatch(r"\{ -?\(?[\w.]+( as \w+)\)? \}", flat):
                        put("4", crate, at, "a conversion by hand")
                    if re.search(r"(\w+)\[([^\]]+)\] = \w+\[[^\]]+\];", flat) and re.search(r"\b(while|for)\b", flat):
                        put("4", crate, at, "a copy by hand")
                    if re.search(r"\w+\[[^\]]+\] != \w+\[[^\]]+\]", flat):
                        put("4", crate, at, "an equality by hand")
                    if re.fullmatch(r"\{ if (\w+) <=? (\w+) \{ (\1|\2) \} else \{ (\1|\2) \} \}|\{ if (\w+) <=? (\w+) \{ return (\5|\6); \} (\5|\6) \}", flat):
                        put("4", crate, at, "a minimum by hand")
                    if re.search(r"print_(decimal|hex)|put_decimal\(", flat):
                        put("4", crate, at, "printing by hand")
                    ps = parameters(head)
                    for i in range(len(ps) - 1):
                        together.setdefault((crate, ps[i], ps[i + 1]), []).append(at)
                    for c in re.findall(r"requires(?: \w+)? \{(.*?)\}(?=\s*(?:requires|ensures|$))", clauses, re.S):
                        for fact in re.split(r"\s×\s", re.sub(r"\s+", " ", c)):
                            fact = re.sub(r"\.(old|now|new)\b", "", fact.strip(" ()"))
                            facts.setdefault((crate, fact), []).append(at)
                    if re.search(r"\b(early|first|rest|lent|loses|by): (bool|u8)\b", head):
                        put("7", crate, at, "a flag that chooses a step")
                    if len(re.findall(r"if (?:\w+ == b\"|\w+\.\w+ == b'|\w+ == b'|word\b)", body)) > 2 or body.count("=> ") > 6:
                        put("7", crate, at, "a switch on which step to run")
                for m in re.finditer(r"struct (\w+)[^{;]*\{(.*?)^\}", bare, re.M | re.S):
                    fields = re.findall(r"(\w+): ([^,]+),", m.group(2))
                    if any("[" in t and "&" not in t for _, t in fields) and any(n in ("count", "length", "size") for n, _ in fields):
                        put("6", crate, where, "struct %s: a buffer with its length beside it" % m.group(1))
                    if sum(t.startswith("&") and "[" in t for _, t in fields) > 1:
                        put("6", crate, where, "struct %s: parallel arrays" % m.group(1))
        proofs = os.path.join(top, crate, "proofs")
        for d, _, names in os.walk(proofs):
            if "Answers.antt" in names:
                text = open(os.path.join(d, "Answers.antt"), encoding="utf-8").read()
                for m in re.finditer(r"^pub (\S+) : goal\.", text, re.M):
                    put("8", crate, os.path.relpath(d, top), "answer %s" % m.group(1))
    for group in twins.values():
        if len(group) > 1:
            for crate, at in group:
                put("2", crate, at, "twin of " + ", ".join(a for _, a in group if a != at)[:150])
    for (crate, a, b), ats in together.items():
        if len(ats) > 2:
            put("5", crate, crate, "`%s, %s` together in %d functions" % (a, b, len(ats)))
    for (crate, fact), ats in facts.items():
        if len(set(ats)) > 2:
            put("5", crate, crate, "`%s` asked by %d functions" % (fact, len(set(ats))))
    points = "12345678"
    print("| crate | " + " | ".join(points) + " |\n|" + "---|" * (len(points) + 1))
    for crate in sorted(rows):
        print("| %s | %s |" % (crate, " | ".join(str(rows[crate].get(p, 0)) for p in points)))
    print("| all | %s |" % " | ".join(str(sum(r.get(p, 0) for r in rows.values())) for p in points))
    if show:
        for p in sorted(places):
            print("%s  %-24s %s: %s" % (p[0], p[1], p[2], p[3]))


main()

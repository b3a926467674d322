#!/usr/bin/env python3
"""The lists at the end of docs/DESIGN-PASS.md: each public signature, clause, type invariant, definition and theorem that changed, old and new.

usage: changes.py OLD NEW [REMARKS]   OLD a commit of the repository NEW (a folder); REMARKS: changes.remarks beside this script. Prints markdown.
       changes.py --gone OLD NEW      only the names of what is gone and has no remark
       changes.py --dump OLD NEW      what was found (JSON)
"""
import collections, json, os, re, subprocess, sys, tempfile

HOME = {  # crates that went into another
    "checks": "loader", "listing": "loader", "signs": "reader", "phrases": "reader", "spelling": "writer", "lines": "report",
    "placing": "matching", "stepping": "matching", "parting": "matching", "packing": "reading",
}
PROGRAMS = {"slots", "examples_run"}
WIDE = 158


# ---------------------------------------------------------------- reading files
def closing(t, i, a="{", b="}"):
    deep = 0
    for k in range(i, len(t)):
        deep += (t[k] == a) - (t[k] == b)
        if not deep:
            return k
    raise SystemExit("changes: no closing " + a)


def plain(t):
    """Rattle code without comments, its literals' braces blanked, attributes kept."""
    t = re.sub(r"//[^\n]*", "", t)
    return re.sub(r"b?'(?:\\.|[^'\\\n])'", lambda m: m[0].replace("{", "\x01").replace("}", "\x02"), t)


def squeeze(t):
    t = re.sub(r"\s+", " ", t).strip()
    t = t.replace("( ", "(").replace(" )", ")").replace(",)", ")")
    return t.replace("\x01", "{").replace("\x02", "}")


TYPE = re.compile(r"((?:#\[[^\n]*\]\s*)*)(pub )?(struct|enum|trait|type|const|static) ([A-Za-z_0-9]+)")
IMPL = re.compile(r"impl\b([^{;]*)\{")
CLAUSE = re.compile(r"\s*(requires|ensures|returns|decreases)\*?(?: ([A-Za-z_][A-Za-z0-9_-]*))?\s*\{")


def code(text, file):
    """(functions, types): name -> dict."""
    t = plain(text)
    fns, types = {}, {}

    def function(m, owner, pub):
        i = m.end()
        # the head ends where a clause starts, or the body's brace, or a semicolon
        j, deep = i, 0
        while True:
            c = t[j]
            if c in "([":
                deep += 1
            elif c in ")]":
                deep -= 1
            elif not deep and (c in "{;" or re.match(r"\s(requires|ensures|returns|decreases)\b", t[j:])):
                break
            j += 1
        sig = squeeze(t[i:j])
        clauses = []
        while True:
            n = CLAUSE.match(t, j)
            if not n:
                break
            e = closing(t, n.end() - 1)
            clauses.append((n[1], n[2] or "", squeeze(t[n.end():e])))
            j = e + 1
        while t[j] not in "{;":
            j += 1
        e = closing(t, j) if t[j] == "{" else j
        fns[(owner + "::" if owner else "") + m[2]] = {"pub": pub, "sig": sig, "clauses": clauses, "file": file}
        return e + 1

    def body(i, end, owner, trait):
        while i < end:
            m = re.compile(r"\b(pub(?:\(crate\))? )?(?:const )?(?:extern .C. )?fn ([a-z_0-9]+)|\b(pub )?(struct|enum|trait|type|const|static) ([A-Za-z_0-9]+)|\bimpl\b|\bghost (?!use\b)([a-z_A-Z0-9]+)|#!?\[[^\n]*\]|\bghost use\b[^;]*;|\buse\b[^;]*;|\bmod [a-z_]+;|\bmod [a-z_]+ \{").search(t, i, end)
            if not m:
                return
            s = m[0]
            if s.startswith("#") or "use" in s.split()[:2] and s.endswith(";") or s.startswith("mod ") and s.endswith(";"):
                i = m.end()
            elif m[2]:
                i = function(m, owner, bool(m[1]) and "crate" not in (m[1] or "") or trait)
            elif m[4]:
                kind, name = m[4], m[5]
                if kind in ("const", "static", "type"):
                    e = t.index(";", m.end())
                    if not trait:
                        types[(owner + "::" if owner else "") + kind + " " + name] = {"pub": bool(m[3]), "text": squeeze(t[m.start():e]), "file": file}
                    i = e + 1
                elif kind == "trait":
                    o = t.index("{", m.end())
                    e = closing(t, o)
                    types["trait " + name] = {"pub": bool(m[3]), "text": squeeze(t[m.start():o]) + " { " + squeeze(t[o + 1:e]) + " }", "file": file}
                    i = e + 1
                else:
                    j = m.end()
                    while t[j] not in "{;(":
                        j += 1
                    if t[j] == "{":
                        e = closing(t, j)
                        inside = squeeze(t[j + 1:e])
                        types[kind + " " + name] = {"pub": bool(m[3]), "text": squeeze(t[m.start():j]) + " { " + inside + " }", "file": file}
                        i = e + 1
                    else:
                        e = t.index(";", j)
                        types[kind + " " + name] = {"pub": bool(m[3]), "text": squeeze(t[m.start():e]), "file": file}
                        i = e + 1
            elif s == "impl":
                n = IMPL.match(t, m.start())
                head = squeeze(n[1])
                o = n.end() - 1
                e = closing(t, o)
                bare = re.sub(r"^<[^>]*>\s*", "", head)
                tr = " for " in bare
                name = re.sub(r"<'[^>]*>", "", bare)
                ghosts = re.findall(r"ghost ([A-Za-z_]+) = (\{(?:[^{}]|\{[^{}]*\})*\});", t[o:e])
                if tr:
                    types["impl " + squeeze(name)] = {"pub": True, "text": "impl " + bare + " { " + " ".join(f"{a} = {squeeze(b)};" for a, b in ghosts) + " }", "file": file}
                body(o + 1, e, squeeze(name), tr)
                i = e + 1
            elif s.endswith("{"):
                i = closing(t, m.end() - 1) + 1
            elif m[6]:
                i = t.index(";", m.end()) if ";" in t[m.end():end] else end
            else:
                i = m.end()

    body(0, len(t), "", False)
    return fns, types


HEAD = re.compile(r"^((?:abbrev |unfoldable |opaque )?)(pub )?(data |record )?([^\s(){}:]+)( |$)")


def laws(text, file):
    """name -> dict of the definitions and theorems of an .antt file; those in a module with its parameters."""
    out, comment, item, n = collections.OrderedDict(), [], None, 0
    stack = []  # (indent of the members, parameters, "module" or "mutual", kind)
    lines = text.split("\n")

    def done():
        nonlocal item
        if item and item["name"] not in out:
            out[item["name"]] = item
        item = None

    while n < len(lines):
        line = lines[n]
        n += 1
        if not line.strip():
            done()
            comment = []
            continue
        deep = len(line) - len(line.lstrip())
        while stack and deep < stack[-1][0] and not (item and line.strip()[0] in ")}"):
            done()
            stack.pop()
        base = stack[-1][0] if stack else 0
        if deep > base or line.strip()[0] in ")}":
            if item:
                item["lines"].append(line[base:])
            continue
        line = line[base:]
        if line.startswith("--"):
            done()
            comment.append(line[2:].strip())
            continue
        if re.match(r"^module\b", line):
            done()
            head = line
            while not re.search(r"\bwhere$", head.rstrip()):
                head += "\n" + lines[n][base:]
                n += 1
            stack.append((base + 2, re.sub(r"^module\s+_\s*|\s*where$", "", re.sub(r"\s+", " ", head)), "module", ""))
            comment = []
            continue
        m = re.match(r"^((?:abbrev |unfoldable )?)mutual\b", line)
        if m:
            done()
            stack.append((base + 2, "", "mutual", m[1].strip()))
            continue
        if re.match(r"^(use|pub use|pub mod|mod)\b", line):
            done()
            comment = []
            continue
        if line.startswith("unfolding "):
            if item:
                item["lines"].append(line)
            continue
        m = HEAD.match(line)
        if not m:
            if item:
                item["lines"].append(line)
            continue
        name = m[4]
        if item and name == item["name"]:
            item["lines"].append(line)
            continue
        done()
        item = {"name": name, "pub": bool(m[2]), "data": (m[3] or m[1] or "").strip(), "lines": [line], "file": file,
                "under": [s[1] for s in stack if s[2] == "module"], "comment": " ".join(comment)}
        comment = []
    done()
    for d in out.values():
        ls = [l for l in (re.sub(r"\s+--.*", "", l) for l in d.pop("lines")) if l.strip()]
        k = 1
        while k < len(ls) and ls[k][0] in " )}":
            k += 1
        under = "".join(f"in module {u}:\n" for u in d.pop("under"))
        d["text"] = under + "\n".join(ls)
        d["statement"] = d["text"] if d["data"] else under + "\n".join(ls[:k])
    return out


def tree(root):
    out = {}
    top = os.path.join(root, "crates")
    for c in sorted(os.listdir(top)):
        e = out[c] = {"fns": {}, "types": {}, "specs": {}, "proofs": {}}
        open_mods = {"lib", "main"}
        for where, dirs, files in os.walk(os.path.join(top, c)):
            dirs[:] = sorted(d for d in dirs if d != "out")
            for f in sorted(files):
                p = os.path.join(where, f)
                rel = os.path.relpath(p, os.path.join(top, c))
                with open(p, encoding="utf-8") as h:
                    text = h.read()
                if f.endswith(".rt"):
                    open_mods |= set(re.findall(r"^pub mod ([a-z_]+);", text, re.M))
                    a, b = code(text, rel)
                    e["fns"].update(a)
                    e["types"].update(b)
                elif f.endswith(".antt") and f != "Lib.antt":
                    part = rel.split("/")[0]
                    for n, d in laws(text, rel[len(part) + 1:-5]).items():
                        e[part][rel[len(part) + 1:-5] + "." + n] = d
        closed = {n.split()[-1] for n, x in e["types"].items() if not x["pub"] and n.split()[0] in ("struct", "enum", "trait")}
        for n, x in list(e["fns"].items()) + list(e["types"].items()):
            owner = re.split(r"[ <:]", re.sub(r"^impl ", "", n).split(" for ")[-1])[0]
            if os.path.basename(x["file"])[:-3] not in open_mods or owner in closed:
                x["pub"] = False
    return out


def old_tree(new, commit):
    with tempfile.TemporaryDirectory() as d:
        a = subprocess.Popen(["git", "archive", commit], cwd=new, stdout=subprocess.PIPE)
        subprocess.run(["tar", "-x", "-C", d], stdin=a.stdout, check=True)
        docs = ""
        for f in ["README.md"] + [os.path.join("docs", f) for f in sorted(os.listdir(os.path.join(d, "docs"))) if f.endswith(".md") and f != "PORT.md"]:
            with open(os.path.join(d, f), encoding="utf-8") as h:
                docs += h.read()
        return tree(d), order(d), docs


def order(root):
    with open(os.path.join(root, "crates.txt")) as f:
        return [l.split(":")[0].split()[0] for l in f if ":" in l and not l.startswith("#")]


# ---------------------------------------------------------------- what was written by hand
def remarks(path):
    """`KIND NAME: text` says what states a gone one's promise now; `map KIND OLD = NEW` where the new one is; `note SECTION CRATE: text`; `named OLD: where`."""
    said, maps, unused = {}, {}, set()
    with open(path, encoding="utf-8") as f:
        for l in f:
            l = l.rstrip("\n")
            if not l or l.startswith("#"):
                continue
            m = re.match(r"map (fn|type|def|law) (.+?) = (.+)$", l)
            if m:
                maps[m[1], m[2]] = m[3]
                unused.add((m[1], m[2]))
                continue
            m = re.match(r"(fn|type|def|law|laws|note|named) (.+?): (.*)$", l)
            if not m:
                raise SystemExit("changes: remark not understood: " + l)
            said[m[1], m[2]] = m[3]
            unused.add((m[1], m[2]))
    return said, maps, unused


# ---------------------------------------------------------------- comparing and printing
def norm(t):
    return re.sub(r"\s+", " ", t).strip()


def fold(line, lead):
    """A code line folded to the width, `lead` before each part."""
    room = WIDE - len(lead)
    out, pad = [], ""
    indent = re.match(r" *", line)[0]
    while len(line) > room:
        k = line.rfind(" ", len(indent) + 40, room)
        if k < 0:
            break
        out.append(lead + line[:k])
        line = indent + "    " + line[k + 1:]
    out.append(lead + line)
    return out


def diff(old, new, context=2):
    """Two lists of lines as one block; equal lines far from a change are left out."""
    import difflib
    out = []
    ops = difflib.SequenceMatcher(None, old, new, autojunk=False).get_opcodes()
    for k, (op, a, b, c, d) in enumerate(ops):
        if op == "equal":
            part = old[a:b]
            first, last = k == 0, k == len(ops) - 1
            keep = 1 if first else context
            if len(part) > 2 * context + 1:
                head = part[:1] if first else part[:1]
                tail = [] if last else part[-1:]
                for l in head:
                    out += fold(l, "  ")
                out.append("  ..")
                for l in tail:
                    out += fold(l, "  ")
            else:
                for l in part:
                    out += fold(l, "  ")
        else:
            for l in old[a:b]:
                out += fold(l, "- ")
            for l in new[c:d]:
                out += fold(l, "+ ")
    return out


def fn_lines(name, x):
    return [("pub " if x["pub"] else "") + "fn " + name + x["sig"]] + [f"    {k}{' ' + l if l else ''} {{ {t} }}" for k, l, t in x["clauses"]]


def type_lines(x):
    t = x["text"]
    m = re.match(r"(.*?) \{ (.*) \}$", t)
    if not m or len(t) <= 100:
        return [t]
    parts, deep, last = [], 0, ""
    for ch in m[2]:
        deep += (ch in "([{") - (ch in ")]}")
        last += ch
        if ch in ",;" and not deep:
            parts.append(last.strip())
            last = ""
    if last.strip():
        parts.append(last.strip())
    return [m[1] + " {"] + ["    " + p for p in parts] + ["}"]


def block(lines):
    while lines and not lines[-1]:
        lines = lines[:-1]
    return ["```diff"] + lines + ["```"]


def prose(text):
    import textwrap
    return textwrap.wrap(text, WIDE, break_long_words=False, break_on_hyphens=False) + [""]


def grouped(pairs):
    """Names of one file behind it: `crate/File`: a, b. A pair is (old crate/File.name, new crate/File.name or None)."""
    by = collections.OrderedDict()
    for a, b in pairs:
        f, w = a.rsplit(".", 1) if "." in a else (a, "")
        g, v = b.rsplit(".", 1) if b and "." in b else (b, "")
        by.setdefault((f, g if g != f else None), []).append(w if not v or v == w else f"{w} ({v})")
    return "; ".join(f"`{f}`" + (f" (now `{g}`)" if g else "") + (": " if ws[0] else "") + ", ".join(ws) for (f, g), ws in by.items())


def entry(head, lines, remark):
    """An entry of a block: its name and what states its promise now, then old and new."""
    return fold(head + (": " + remark if remark else ""), "# ") + lines + [""]


class Lists:
    def __init__(self, commit, new, remarks_path):
        self.old, self.old_order, self.docs = old_tree(new, commit)
        self.new, self.order = tree(new), order(new)
        self.said, self.maps, self.unused = remarks(remarks_path)
        self.silent = []
        self.out = []
        self.by_name = collections.defaultdict(list)
        for c, e in self.new.items():
            for part in ("specs", "proofs"):
                for n, x in e[part].items():
                    self.by_name[n.split(".")[-1]].append((c, part, n, x))

    def home(self, c):
        return HOME.get(c, c)

    def say(self, kind, name, needed=True):
        if (kind, name) in self.said:
            self.unused.discard((kind, name))
            return self.said[kind, name]
        if needed:
            self.silent.append(f"{kind} {name}")
        return None

    def mapped(self, kind, name):
        self.unused.discard((kind, name))
        return self.maps.get((kind, name))

    def crates(self):
        """New crates in order, each with the old ones that went into it."""
        for c in self.order:
            yield c, [o for o in self.old_order if self.home(o) == c]

    def title(self, c, olds):
        more = [o for o in olds if o != c]
        return f"#### {c}" + (f" (before: {', '.join(([c] if c in olds else []) + more)})" if more else "" if olds else " (new)")

    # ---- functions and types
    def functions(self):
        used = set()
        for c, olds in self.crates():
            body, moved = [], []
            for o in olds:
                if o in PROGRAMS:
                    continue
                at = (o + "::") if o != c else ""
                for n, x in self.old[o]["types"].items():
                    if not x["pub"]:
                        continue
                    to = self.mapped("type", f"{o}::{n}")
                    d, m = (to.split("::", 1) if to else (c, n))
                    y = self.new[d]["types"].get(m)
                    if y and y["pub"]:
                        used.add((d, m))
                        if y["text"] == x["text"] and d == o:
                            continue
                        if y["text"] == x["text"]:
                            moved.append((f"{o}::{n}", f"{d}::{m}"))
                            continue
                    r = self.say("type", f"{o}::{n}", not (y and y["pub"]))
                    head = f"{at}{n}" + (f" is {d}::{m}" if y and (m != n or d != c) else "" if y else ", gone")
                    body += entry(head, diff(type_lines(x), type_lines(y) if y else []), r)
                for n, x in self.old[o]["fns"].items():
                    if not x["pub"] or " for " in n:
                        continue
                    to = self.mapped("fn", f"{o}::{n}")
                    d, m = (to.split("::", 1) if to else (c, n))
                    y = self.new[d]["fns"].get(m)
                    if not y and to and " for " not in to:
                        raise SystemExit(f"changes: no {to}")
                    if y:
                        used.add((d, m))
                    if y and y["pub"] and y["sig"] == x["sig"] and y["clauses"] == x["clauses"]:
                        if d != o or m != n:
                            moved.append((f"{o}::{n}", f"{d}::{m}"))
                        continue
                    far = f" is {d + '::' if d != c else ''}{m}" if y and (m != n or d != c) else ""
                    r = self.say("fn", f"{o}::{n}", not (y and y["pub"]))
                    head = f"{at}{n}" + far + ("" if not y or y["pub"] else ", no longer public") + ("" if y else ", gone")
                    body += entry(head, diff(fn_lines(n, x), fn_lines(m, y) if y else [], 9), r)
            fresh = []
            if c not in PROGRAMS:
                for n, x in self.new[c]["types"].items():
                    if x["pub"] and (c, n) not in used and not any(n in self.old[o]["types"] for o in olds):
                        fresh += [l for t in type_lines(x) for l in fold(t, "+ ")]
                for n, x in self.new[c]["fns"].items():
                    if x["pub"] and " for " not in n and (c, n) not in used and not self.claimed("fn", c, n):
                        fresh += [l for t in fn_lines(n, x) for l in fold(t, "+ ")]
            self.put(c, olds, "functions", body, moved, fresh)

    def put(self, c, olds, section, body, moved, fresh):
        if not body and not moved and not fresh:
            return
        self.out += [self.title(c, olds), ""]
        note = self.say("note", f"{section} {c}", False)
        if note:
            self.out += [note, ""]
        if moved:
            self.out += prose("The same at a new place: " + grouped(moved) + ".")
        self.out += block(body + (["# new"] + fresh if fresh else [])) + [""] if body or fresh else []

    def claimed(self, kind, c, n):
        return any(k == kind and v == f"{c}::{n}" for (k, _), v in self.maps.items())

    # ---- definitions and theorems
    def find(self, o, part, n, x, key):
        c = self.home(o)
        to = self.mapped("def" if part == "specs" else "law", f"{o}/{n}")
        if to == "-":
            return None
        if to:
            d, m = to.split("/", 1)
            for p in ("specs", "proofs"):
                if m in self.new[d][p]:
                    return d, p, m, self.new[d][p][m]
            raise SystemExit(f"changes: no {to}")
        some = self.by_name.get(n.split(".")[-1], [])
        base = os.path.basename(n.split(".")[0])
        for test in (lambda q: q[0] == c and q[1] == part and q[2] == n,
                     lambda q: q[0] == c and q[1] == part and os.path.basename(q[2].split(".")[0]) == base,
                     lambda q: norm(q[3][key]) == norm(x[key]),
                     lambda q: q[0] == c and q[1] == part):
            for q in some:
                if test(q):
                    return q
        return None

    def definitions(self):
        used = set()
        plan = []
        for c, olds in self.crates():
            body, moved = [], []
            for o in olds:
                for n, x in self.old[o]["specs"].items():
                    q = self.find(o, "specs", n, x, "text")
                    if q:
                        used.add(q[:3])
                    if q and norm(q[3]["text"]) == norm(x["text"]):
                        if (q[0], q[2]) != (o, n):
                            moved.append((f"{o}/{n}", f"{q[0]}/{q[2]}"))
                        continue
                    head = n if o == c else o + "/" + n
                    if q and (q[0], q[2]) != (c, n):
                        head += f" is {q[2] if q[0] == c else q[0] + '/' + q[2]}"
                    if not q:
                        head += ", gone"
                    r = self.say("def", f"{o}/{n}", not q)
                    body += entry(head, diff(x["text"].split("\n"), q[3]["text"].split("\n") if q else []), r)
            plan.append((c, olds, body, moved))
        for c, olds, body, moved in plan:
            fresh = []
            for n, x in self.new[c]["specs"].items():
                if (c, "specs", n) not in used:
                    fresh.append(f"# {n}")
                    fresh += [l for t in x["text"].split("\n") for l in fold(t, "+ ")]
            self.put(c, olds, "definitions", body, moved, fresh)

    def named(self, o, n):
        f, w = n.rsplit(".", 1)
        return bool(self.say("named", f"{o}/{n}", False)) or any(f"`{o}/{k}.{w}`" in self.docs for k in (f, os.path.basename(f)))

    def theorems(self):
        first, rest = [], []
        for c, olds in self.crates():
            some, moved, gone, last = [], [], [], None
            for o in olds:
                for n, x in self.old[o]["proofs"].items():
                    folder = os.path.dirname(n)
                    if not x["pub"] or folder:
                        continue
                    q = self.find(o, "proofs", n, x, "statement")
                    named = self.named(o, n)
                    if q and norm(q[3]["statement"]) == norm(x["statement"]) and q[3]["pub"]:
                        if (q[0], q[2]) != (o, n):
                            moved.append((f"{o}/{n}", f"{q[0]}/{q[2]}"))
                        continue
                    if not q:
                        gone.append((o, n, named))
                        continue
                    head = f"{o}/{n}" + (f" is {q[0]}/{q[2]}" if (q[0], q[2]) != (o, n) else "") + ("" if q[3]["pub"] else ", no longer pub")
                    r = self.say("law", f"{o}/{n}", False)
                    a, b = ([l for l in t.split("\n") if l.startswith("in module")] for t in (x["statement"], q[3]["statement"]))
                    under = [] if (a, b) == last and not named else diff(a, b, 3)
                    if (a, b) == last and not named and (a or b):
                        head += " (in the same module)"
                    if not named:
                        last = (a, b)
                    a, b = ([l for l in t.split("\n") if not l.startswith("in module")] for t in (x["statement"], q[3]["statement"]))
                    it = entry(head, under + diff(a, b, 3), r)
                    if named:
                        first += it
                    else:
                        some += it
            if some or moved or gone:
                rest += [self.title(c, olds), ""]
                if gone:
                    by = collections.OrderedDict()
                    for o, n, named in gone:
                        own = self.say("law", f"{o}/{n}", False)
                        by.setdefault(own or self.say("laws", o, True) or "?", []).append((f"{o}/{n}", None))
                    for r, ns in by.items():
                        rest += prose("Gone: " + grouped(ns) + ". In their place: " + r + ".")
                if moved:
                    rest += prose("The same at a new place: " + grouped(moved) + ".")
                rest += block(some) + [""] if some else []
        self.out += ["### Theorems of proofs/ that changed", "", "#### Those that README and docs/ named", ""] + block(first) + ["", "#### The others, by crate", ""]
        self.out += [l.replace("#### ", "##### ", 1) if l.startswith("#### ") else l for l in rest]

    def write(self):
        self.out += ["### Public signatures, clauses and types", ""]
        self.functions()
        self.out += ["### Definitions of specs/", "", "Those under `Inner/` are cited by inner contracts and proofs only.", ""]
        self.definitions()
        self.theorems()


def main(argv):
    gone = argv[:1] == ["--gone"]
    dump = argv[:1] == ["--dump"]
    argv = argv[gone or dump:]
    if len(argv) < 2:
        print(__doc__)
        return 2
    if dump:
        o, _, _ = old_tree(argv[1], argv[0])
        print(json.dumps({"old": o, "new": tree(argv[1])}, ensure_ascii=False))
        return 0
    path = argv[2] if len(argv) > 2 else os.path.join(os.path.dirname(os.path.realpath(__file__)), "changes.remarks")
    l = Lists(argv[0], argv[1], path)
    l.write()
    if gone:
        for s in dict.fromkeys(l.silent):
            print("no remark:", s)
        for s in sorted(l.unused):
            print("remark that fits nothing:", *s)
        return 1 if l.silent or l.unused else 0
    text = re.sub(r"\n{3,}", "\n\n", "\n".join(l.out)) + "\n"
    sys.stdout.write(text)
    return 0


if __name__ == "__main__":
    raise SystemExit(main(sys.argv[1:]))

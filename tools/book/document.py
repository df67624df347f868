"""What the pages are made of beside the crates: document 000 and the map upon it, the list of pages, the header, the worked numbers.
A map that is wrong is refused by tools/book/map-check; here what does not fit is left out, so that its lines stand unclaimed."""
import configparser, re, struct

DOCUMENTS = ["document_000.rs", "document_000_lanczos.rs"]

class Line:
    """A line of document 000. `claim` is the definition that stands for it, `why` says why none does."""
    def __init__(self, document, number, text, function):
        self.document, self.number, self.text, self.function, self.indent = document, number, text, function, len(text) - len(text.lstrip())
        self.carried = bool(function) and bool(text.strip()) and not text.strip().startswith("//")
        self.claim, self.why, self.id = None, "", ("l" if "lanczos" in document else "r") + str(number)

def read_document(path):
    out, function, indent = [], "", ""
    for number, text in enumerate(path.read_text().splitlines(), 1):
        m = re.match(r"( *)(?:pub(?:\(crate\))? )?fn (\w+)", text)
        if m and not function:
            indent, function = m.groups()
        out.append(Line(path.name, number, text, function))
        function = "" if text == indent + "}" else function
    return out

def read_map(path, tree, documents):
    """Puts map.txt upon the documents' lines and the tree's definitions; gives the kinds, why a definition may have no line."""
    kinds, where = {}, {(d.file, d.key[2]): d for d in tree.decls.values()}
    for raw in path.read_text().splitlines():
        text, _, note = raw.partition(" # ")
        w = text.split()
        if raw.startswith("#") or len(w) < 3:
            continue
        if w[0] == "kind":
            kinds[w[1]] = " ".join(w[2:])
        elif w[0] == "tie" and (w[1], w[2]) in where:
            where[w[1], w[2]].ties += [(where[w[3], x], note) for x in w[4:] if (w[3], x) in where]
        elif w[0] == "new":
            for d in (d for (file, name), d in where.items() if file == w[2] and (name in w[3:] or "*" in w[3:]) and not d.lines):
                d.new = d.new or w[1]
        elif w[0] in DOCUMENTS and len(w) > 3:
            d = where.get((w[2], w[3]))
            for a, b in re.findall(r"(\d+)(?:-(\d+))?", w[1]):
                for line in documents[w[0]][int(a) - 1:int(b or a)]:
                    if d and not line.claim:
                        line.claim = d
                        d.lines.append(line)
                    elif w[2] == "-":
                        line.why = " ".join(w[3:])
            if d and note:
                d.note = "; ".join(x for x in (d.note, note) if x)
    return kinds

class Page:
    """A call or a family of calls, as pages.ini has it. `defs` are the definitions of its contracts, `words` those of its theorems alone, `links` both."""
    def __init__(self, slug="", fields={}):
        self.slug, self.title, self.href, self.defs, self.words, self.links = slug, fields.get("title", slug), slug + ".html", [], [], set()
        self.gives, self.section, self.scope = (fields.get(x, "") for x in ("gives", "section", "scope"))
        self.c, self.rattle, self.theorems, self.rows, self.shown, self.rust, self.home = (
            fields.get(x, "").split() for x in ("c", "rattle", "theorems", "rows", "shown", "rust", "home"))
        self.refuses = {l.split()[0]: l.split()[1:] for l in fields.get("refuses", "").strip().split("\n") if l}

def read_pages(path):
    ini = configparser.ConfigParser(interpolation=None)
    ini.read_string(path.read_text())
    return [Page(slug, ini[slug]) for slug in ini.sections()]

class Header:
    """include/crewelmarsh.h: calls by name (comment, prototype), answers by number (NAME, short text, comment), sections by their first line."""
    def __init__(self, text):
        comment = r"/\*((?:(?!\*/).)*)\*/"
        strip = lambda c: re.sub(r"\n {0,3}\*? ?", "\n", "\n" + c.strip().lstrip("* ")).strip("\n")
        calls = re.findall(comment + r"\n((?:static inline )?(?:struct \w+|size_t) crewelmarsh_(\w+)\([^;{]*\))", text, re.S)
        short = dict(re.findall(r"case (CREWELMARSH_\w+): return \"(.*)\";", text))
        self.calls = {name: (strip(c), prototype.strip()) for c, prototype, name in calls}
        self.answers = {n: (name, short[name], " ".join(c.split()))
                        for c, name, n in re.findall(comment + r"\s*(CREWELMARSH_\w+) = (\d+)", text, re.S) if name in short}
        self.sections = {strip(c).split("\n")[0]: strip(c) for c in re.findall(comment, text, re.S)}

    def parts(self, call):
        """A call's comment in three: what it says first, its arguments as [names, text], its answers."""
        text, _, answers = self.calls[call][0].partition("\nAnswers")
        first, arguments = [], []
        for l in text.split("\n"):
            m = re.match(r"(\w[\w, .]*?)(?: {2,}|(?<=right_side) )(\S.*)$", l) or arguments and re.match(r"(\w+)$()", l)
            if m:
                arguments.append([m[1], m[2] or "likewise"])
            elif l.startswith("     ") and arguments:
                arguments[-1][1] += " " + l.strip()
            else:
                first.append(l)
        return "\n".join(first).strip(), arguments, answers

def worked(tree, name):
    """The rows of this kind of the table of worked numbers (promises/specs/Worked.antt): of each its arguments with their values, bits as numbers."""
    def value(d, x):
        x = x.strip()
        named = tree.resolve(d, x)
        if named:
            return value(named, " ".join(named.text[1:]).split("= ", 1)[1])
        if x[0] == "(" or "∷" in x:
            zeros = re.match(r"\(replicate (\d+) 0\)", x)
            return f"{zeros[1]} times 0" if zeros else ", ".join(value(d, y) for y in x.strip("()").split("∷") if y.strip() != "[]")
        number = struct.unpack(">d", bytes.fromhex(x[2:].replace("_", "")))[0] if x[:2] == "0x" else x
        return re.sub(r"(?<!-0)\.0$", "", str(number)).replace("nan", "NaN").replace("inf", "infinity").replace("[]", "")
    kind = next(l for d in tree.decls.values() if (d.name, d.kind) == ("Row", "data") for l in d.text if l.split()[0] == name)
    head = ["answer array" if (n, many) == ("answer", "List") else "answer" if n == "number" else "steps" if (name, n) == ("steps", "k") else n
            for names, many in re.findall(r"\(([^:()]*) : (List)?", kind) for n in names.split()]
    found = [(d, m[1]) for d in tree.decls.values() if d.crate == "promises" and d.module in ("Worked", "proofs/Worked")
             for l in d.stated() for m in [re.match(rf"\s*(?:∷|\()\s*{name} (.*)", l)] if m]
    return [list(zip(head, (value(d, x) for x in re.findall(r"\([^)]*\)|[^\s()]+", text)))) for d, text in found]

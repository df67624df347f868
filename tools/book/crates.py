"""The crates as a reader meets them: definitions and theorems of specs/, structs and functions of src/, and which of them each one names.
They are cut as tools/believe cuts them, and names are followed as it follows them."""
import re

def plain(name): return name.replace("◌", "") or name  # `◌⊕◌` is used as `⊕`
def module_of(path): return path.stem if path.parts[-2] == "specs" else f"{path.parts[-2]}/{path.stem}"
def words(line): return [w for w in re.split(r"[(){},; ]+", re.sub(r" -- .*|^ *(requires|ensures)( \w+)? (?={)", "", line)) if w]

# a function, struct or enum of src/, up to the } that stands as far in as it does
ITEM = (r'(?P<comment>(?:^ *(?://|#\[).*\n)*)^(?P<text>(?P<in> *)(?:pub )?(?:(?:extern "C" )?(?P<fn>fn \w+)|(?:struct|enum) (?P<type>\w+))'
        r"(?:.*\}$|.*\n(?:.*\n)*?(?P=in)\}.*$))")

class Decl:
    """A definition, a theorem, a struct or a function. The map puts `lines` of document 000, `new`, `note` and `ties` in (document.py)."""
    def __init__(self, path, name, kind, comment, text):
        self.crate, self.module, self.name, self.kind, self.comment, self.text = path.parts[-3], module_of(path), name, kind, comment, text
        self.file, self.key = "/".join(path.parts[-3:]), (self.crate, self.module, plain(name))
        self.id = re.sub(r"[^\w-]", lambda m: "-" if m[0] in ". /" else "u%x" % ord(m[0]), "-".join(self.key), flags=re.A)
        self.label = re.match(r"t(\d+)_", name) if self.crate == "promises" else None  # of a theorem
        self.home = self.fixity = self.new = self.note = ""
        self.lines, self.ties = [], []

    def stated(self):
        """Its lines before the first equation; of a function those before the body."""
        ends = {"{"} if self.kind == "fn" else {self.name, "unfolding", "where"}
        return self.text[:next((k for k, l in enumerate(self.text) if k and l.split()[:1] and l.split()[0] in ends), None)]

    def says(self):
        """The lines whose names are followed: of a function its requires and ensures, of a theorem its statement, else all."""
        if self.kind == "fn":
            head = self.stated()
            return head[next((k for k, l in enumerate(head) if re.match(r" *(requires|ensures)", l)), len(head)):]
        return [self.home] + self.stated() if self.label else self.text

    def bound(self):
        """Names that are bound in it: before a colon in brackets, between its name and `=`, fields, after let and λ."""
        out = {x for part in re.findall(r"[({]([^(){}:]+) : ", " ".join(self.text)) for x in part.split()} if self.label else set()
        for l in self.text[1:]:
            w = [x for x in re.split(r"[(){},; ]+", l) if x]
            if self.kind == "record" and w[:1] == ["pub"]:
                out.add(w[1])
            elif w and plain(w[0]) == plain(self.name):
                out.update(w[1:w.index("=") if "=" in w else len(w)])
            out.update(b for a, b in zip(w, w[1:]) if a == "let")
            out.update(x for part in re.findall(r"λ ([^.:]+)", l.replace("(", " ")) for x in part.split())
        return out

class Tree:
    """All of crates.txt, and `more` files. `wings` are its families: name -> (sentence, crates); `uses` has what each crate uses."""
    def __init__(self, root, more):
        self.decls, self.imports, self.uses, self.wings, self.refs, self.bounds = {}, {}, {}, {}, {}, {}
        for line in (root / "crates.txt").read_text().splitlines():
            wing, crate = re.match(r"# (\w[\w ]*): (.*)", line), re.match(r"(\w+)(?: staticlib)?:(.*)", line)
            if wing and "NAME" not in line:
                self.wings[wing[1]] = wing[2], []
            elif crate:
                self.uses[crate[1]] = [c for c in crate[2].split() if (root / "crates" / c).is_dir()]
                self.wings.setdefault(next(reversed(self.wings), "crates"), ("", []))[1].append(crate[1])
        for crate in self.uses:
            base = root / "crates" / crate
            for folder, lib, cut in (("src", "lib.rt", self.source), ("specs", "Lib.antt", self.spec), ("proofs", "Lib.antt", self.spec)):
                if folder == "proofs" and crate != "promises":  # of others those files alone that something names
                    continue
                if (base / folder / lib).exists():
                    cut(base / folder / lib)
                    for module in re.findall(r"^(?:pub )?mod (\w+)", (base / folder / lib).read_text(), re.M):
                        cut(base / folder / (module + lib[3:]))
        for file in dict.fromkeys([f"{crate}/{module}.antt" for crate, module, *_ in self.imports.values() if module.startswith("proofs/") and crate in self.uses] + more):
            self.spec(root / "crates" / file)
        self.functions = [d for d in self.decls.values() if d.kind == "fn"]

    def use(self, line, here):
        """An import: names of a file of specs/ or of another crate's proofs/, of a type of src/, or a whole file under another name."""
        m = re.match(r"(?:ghost )?use Rattle\.(\w+)\.(?:specs\.|(?=proofs))([\w.]+?)(?:\.\{(.*)\}| as (\w+))", line)
        if m and m[4]:
            self.imports[here + (m[4] + ".",)] = m[1], m[2]
        elif m:
            *path, last = m[2].split(".")
            for name, other in (n.split(" as ") if " as " in n else (n, n) for n in re.split(r", *", m[3])):
                declared = m[1], "src/" + (path[1] if len(path) > 1 else "lib"), last
                self.imports[here + (plain(other),)] = declared if path[:1] == ["declared"] else (m[1], m[2].replace(".", "/"), plain(name))

    def spec(self, path):
        current, blank, comment, within, fixity = None, False, [], "", {}  # within: the module around
        for l in path.read_text().splitlines():
            indent, said, w, k = len(l) - len(l.lstrip(" ")), l.lstrip().startswith("--"), l.split(), 0
            if not w or l.startswith("use "):
                self.use(l, (path.parts[-3], module_of(path)))
                blank, comment = current is not None, []
                continue
            within = within if indent or said else ""
            base = 2 if within else 0
            while w[k] in ("unfoldable", "abbrev", "pub", "record", "data") and k + 1 < len(w):
                k += 1
            kind = next((x for x in ("record", "data") if x in w[:k]), "")
            if re.match(r" *-- ----|module _", l):
                current, comment, within = None, [], within if said else l
            elif said and (current is None or blank or indent <= base):
                current, comment = None, comment + [l]
            else:
                if indent == base and w[0].startswith("infix"):
                    fixity[plain(w[2])] = l
                elif not said and indent == base and (kind or w[k + 1:k + 2] == [":"]):
                    current = Decl(path, w[k], kind, comment, [l])
                    self.decls[current.key], current.home, current.fixity = current, within, fixity.get(plain(w[k]), "")
                elif current is not None:
                    current.text += ["", l] if blank and indent > base else [l]
                blank, comment = False, []

    def source(self, path):
        text = path.read_text()
        for l in text.splitlines():
            self.use(l, (path.parts[-3], module_of(path)))
        for m in re.finditer(ITEM, text, re.M):
            d = Decl(path, m["fn"] or m["type"], "fn" if m["fn"] else "struct", m["comment"].splitlines(), m["text"].splitlines())
            self.decls.setdefault(d.key, d)

    def resolve(self, d, word):
        """The declaration that a word of d means, if it is one of ours."""
        word, here = plain(word.rstrip(".")), (d.crate, d.module)
        if d not in self.bounds:
            self.bounds[d] = d.bound()
        if not word or word.startswith(".") or word in self.bounds[d]:
            return None
        alias = re.match(r"(\w+\.)(.+)", word)
        if alias and here + (alias[1],) in self.imports:
            return self.decls.get(self.imports[here + (alias[1],)] + (alias[2],))
        if alias:  # a field of something
            return self.resolve(d, alias[1][:-1])
        own = self.decls.get(here + (word,)) if d.kind not in ("fn", "struct") else None
        return next((x for x in (own, self.decls.get(self.imports.get(here + (word,)))) if x and x is not d), None)

    def named(self, d):
        """What d names, in the order in which it does."""
        if d not in self.refs:
            found = [self.resolve(d, w) for l in d.says() for w in words(l)]
            self.refs[d] = [x for x in dict.fromkeys(found) if x and x.kind != "fn"]
        return self.refs[d]

    def reach(self, starts):
        """All that these name, and what that names, in reading order: crates, files and definitions as they stand."""
        seen, todo = set(), list(starts)
        while todo:
            d = todo.pop()
            todo += self.named(d) if d not in seen else []
            seen.add(d)
        return [d for d in self.decls.values() if d in seen and d.kind != "fn"]

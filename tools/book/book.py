#!/usr/bin/env python3
"""The book: what a reader must believe, beside document 000, as pages.

    python3 -X utf8 book.py [OUT]     writes the pages to OUT (default build/book); run at the repository's root, as by `make book`

It reads crates.txt, crates/*/{src,specs,must-fail}, include/crewelmarsh.h, docs/PROMISES.md, docs/SCOPE.md, oracle/src/document_000*.rs, and
map.txt and pages.ini beside it. Python 3 and its standard library, no network. The exit code is 1 where a page names what is not there.
"""
import html, pathlib, re, sys
from crates import Tree, plain
from document import DOCUMENTS, Header, Page, read_document, read_map, read_pages, worked

HERE, ROOT, PAGES = pathlib.Path(__file__).resolve().parent, pathlib.Path("."), "tools/book/pages.ini"
faults = []
def fault(text): return faults.append(text) or []

# ---- pieces of HTML
def esc(text): return html.escape(str(text), quote=False)
def a(href, text): return f'<a href="{href}">{text}</a>'
def dim(text, end="\n"): return f'<span class="dim">{esc(text)}</span>{end}' if text else ""
def fold(summary, body, more=""): return f"<details{more}><summary>{summary}</summary>{body}</details>\n"

def inline(text, labels=()):
    """The little Markdown that comments and documents have: `code`, **bold**; these labels become links."""
    text = re.sub(r"\*\*([^*]+)\*\*", r"<b>\1</b>", re.sub(r"`([^`]+)`", r"<code>\1</code>", esc(text)))
    return re.sub(r"\bT\d+\b", lambda m: a("theorems.html#" + m[0], m[0]) if m[0] in labels else m[0], text)

def table(rows, head=()):
    top = "<tr class=h>" + "".join(f"<th>{h}</th>" for h in head) + "</tr>" if head else ""
    return f"<table>{top}" + "".join("<tr>" + "".join(f"<td>{c}</td>" for c in r) + "</tr>\n" for r in rows) + "</table>" if rows else ""

def prose(comment):
    """A comment as a paragraph, without its marks."""
    text = " ".join(re.sub(r"^\s*(--|//)\s?", "", l) for l in comment if not l.startswith("#["))
    return f"<p>{inline(text)}</p>" if text else ""

class Book:
    def __init__(self):
        self.documents, self.pages = {n: read_document(ROOT / "oracle/src" / n) for n in DOCUMENTS}, read_pages(HERE / "pages.ini")
        self.tree = t = Tree(ROOT, [p.shown[0] for p in self.pages if p.shown])
        self.kinds = read_map(HERE / "map.txt", t, self.documents)
        self.hues = {c: k * 1800 // len(t.wings) % 360 for k, (_, crates) in enumerate(t.wings.values()) for c in crates}
        self.header = Header((ROOT / "include/crewelmarsh.h").read_text())
        self.scope, promises = (ROOT / "docs/SCOPE.md").read_text(), (ROOT / "docs/PROMISES.md").read_text()
        self.rows = {r[0]: r[1:] for r in re.findall(r"^\| (T\d+) \| (.*?) \| (.*?) \|", promises, re.M)}
        stated = [(int(d.label[1]), d) for d in t.decls.values() if d.label]
        self.theorems = {f"T{n}": [d for k, d in stated if k == n] for n in sorted({n for n, _ in stated})}
        functions = {f"{f.crate}::{f.module[4:]}::{f.name[3:]}".replace("::lib::", "::"): f for f in t.functions}
        self.on, self.cited = {}, {}  # definition -> its first page; -> the functions whose contract names it, those that equal it first
        for p in self.pages:
            p.starts = [f for c in p.c for name, f in functions.items() if re.fullmatch(f"crewelmarsh::crewelmarsh_{c}_abi\\d+", name)]
            p.starts += [functions[x] for x in p.rattle if x in functions or fault(f"{PAGES}: [{p.slug}]: there is no function {x}: give its name of now")]
            p.stated = [d for n, d in stated if {d.module.split("/")[-1], f"{d.module.split('/')[-1]}:T{n}"} & set(p.theorems)]
            p.defs = t.reach(p.starts)
            p.words = [d for d in t.reach(x for d in p.stated for x in t.named(d)) if d not in p.defs]
            p.links = set(p.defs + p.words)
            self.on = {**{d: p for d in p.links}, **self.on}
        for f in t.functions:
            for d in t.named(f):
                other = not re.search(r"≡ \(*" + re.escape(d.name) + r"[ )}]", " ".join(f.says()))
                self.cited[d] = sorted(self.cited.get(d, []) + [(other, f)], key=lambda x: x[0])

    def linked(self, d, lines, page):
        """Lines of d, each name that is a definition of the book a link to it."""
        def word(t):
            x = self.tree.resolve(d, t) if t and t[0] not in "(){},; " else None
            if x in page.links or x in self.on:
                return a(f"{'' if x in page.links else self.on[x].href}#{x.id}", esc(t))
            own = plain(t) == plain(d.name) and d.kind != "fn"
            return f"<b>{esc(t)}</b>" if own else dim(t, "") if t in ("abbrev", "unfoldable", "pub", "unfolding") else esc(t)
        rows = [("", l, "") if re.match(r" *(--|//)", l) else l.partition(" -- ") for l in lines]
        return "\n".join("".join(map(word, re.split(r"([(){},; ]+)", code))) + dim(mark + comment, "") for code, mark, comment in rows)

    # ---- definitions
    def rust(self, lines):
        """Lines of document 000 by function, dedented, with numbers that lead there. Up to three lines between them are shown too, dimmed."""
        out = ""
        for document, function in dict.fromkeys((l.document, l.function) for l in lines):
            part, rows = sorted((l for l in lines if l.function == function), key=lambda l: l.number), []
            cut = min(l.indent for l in part)
            for l, last in zip(part, part[:1] + part):
                gap = [g for g in self.documents[document][last.number:l.number - 1] if g.text.strip()]
                rows += [f'<span class="ln">{g.number}</span>{dim(g.text[cut:], "")}' for g in gap] if len(gap) < 4 else ['<span class="ln">⋮</span>']
                rows.append(f'<a class="ln" href="document-000.html#{l.id}">{l.number}</a>{esc(l.text[cut:])}')
            out += f'<span class="fn">{function}</span><pre>' + "\n".join(rows) + "</pre>"
        return f'<div class="rs">{out}</div>'

    def definition(self, d, page, depth=0, order=0):
        lines = [l for l in d.lines if l.function in page.rust]
        why = f"no line: {d.new}" if d.new else "lines of another function" if d.lines else '<b class="bad">no line, and map.txt does not say why</b>'
        beside = self.rust(lines) if lines else f'<div class="none">{why}</div>' if page.rust and d in page.defs else ""
        tied = "".join(f'<div class="tie"><p>{inline(says)}</p><pre>{self.linked(x, x.stated(), page)}</pre>{dim(x.file)}</div>' for x, says in d.ties)
        code = "".join(fold(f"<code>{f.name}</code> {f.file}", f'<pre class="box">{self.linked(f, f.comment + f.text, page)}</pre>', ' class="code"')
                       for _, f in self.cited.get(d, [])[:0 if d.new == "notation" else 4])
        text = f"{dim(d.home)}{dim(d.fixity)}{self.linked(d, d.text, page)}"
        note = f'<p class="note">{inline(d.note)}</p>' if d.note and lines else ""
        return fold(f"<b>{esc(d.name)}</b> {dim(d.file)}",
                    f'<div class="pair"><div>{prose(d.comment)}<pre>{text}</pre>{note}{tied}{code}</div>{beside}</div>',
                    f' class="def" open id="{d.id}" data-n="{esc(d.name.lower())}" style="--h:{self.hues[d.crate]};--i:{depth};--o:{order}"')

    def top_down(self, page):
        """definition -> (depth, heading), as the Rust has them: a function's head, then the steps inside it. What has no line stands behind the
        first that names it; notation, and what the Rust takes from a library, come last."""
        out, first = {}, {d: min(((page.rust.index(l.function), l.number) for l in d.lines if l.function in page.rust), default=None) for d in page.defs}
        def put(d, depth, heading, late):
            if d not in out and (late or d.new not in ("notation", "library")):
                out[d] = min(depth, 8), heading
                for x in self.tree.named(d):
                    if not first[x]:
                        put(x, depth + 1, heading, late)
        for d in (d for f in page.starts for d in self.tree.named(f) if not first[d]):
            put(d, 0, page.title, False)
        for d in sorted((d for d in page.defs if first[d]), key=first.get):
            lines = [l for l in d.lines if l.function == page.rust[first[d][0]]]
            put(d, min(l.indent for l in lines) // 4, lines[0].function, False)
        for d in reversed(page.defs):
            put(d, 0, "notation, and what the Rust calls" if page.rust else "notation", True)
        return out

    def definitions(self, page):
        """All of a page, as they stand from the top down; --o has their order from the bottom up, by files, which the switch turns on."""
        out, last, place = [], "", {d: k for k, d in enumerate(page.defs)}
        for d, (depth, heading) in self.top_down(page).items():
            out += [f'<h3 class="down">{esc(heading)}</h3>'] * (heading != last) + [self.definition(d, page, depth, 2 * place[d] + 1)]
            last = heading
        files = {d.file: 2 * place[d] for d in reversed(page.defs)}
        return "".join(out + [f'<h3 class="up" style="--o:{k}">{file}</h3>' for file, k in files.items()])

    # ---- a call's page
    def box(self, page):
        """Of each call the prototype, the arguments with their sizes, what it refuses in which order; then what is worked out."""
        out = ""
        for call in page.c:
            first, arguments, answers = self.header.parts(call)
            refuses = [(n, *self.header.answers[n]) for n in page.refuses.get(call, [])]
            for n in (r[0] for r in refuses if not re.search(rf"\b{r[0]}\b", self.header.calls[call][0])):
                fault(f"{PAGES}: [{page.slug}]: the header's comment of {call} does not speak of {n}: take it out, or mend the header")
            out += (f'<h3 id="{call}">crewelmarsh_{call}</h3><pre class="box">{esc(self.header.calls[call][1])};</pre><p class="said">{inline(first)}</p>'
                    + table([(f"<code>{names}</code>", inline(text)) for names, text in arguments])
                    + f"<p>It refuses, in this order{', 8 to 10 as the run meets them' * ('8' in page.refuses.get(call, []))}:</p>" * bool(refuses)
                    + table([(f"<b>{n}</b>", esc(short), fold(dim(name, ""), inline(text))) for n, name, short, text in refuses])
                    + (fold("places and counts, as the header has them", f"<pre>Answers{esc(answers)}</pre>") if answers else ""))
        return f'<section class="call">{out}<h3 id="worked">Worked</h3>{self.worked(page)}</section>'

    def worked(self, page):
        computed = '<p class="dim">Computed and proved (T6, T39). Where a row does not say: limit 60, edition 1, flags set; answer, place, index, count 0.</p>'
        cells = ["".join(f"<span><i>{name}</i> <code>{value or 'none'}</code></span> " for name, value in r) for k in page.rows for r in worked(self.tree, k)]
        rows = [f'<p class="row">{x}</p>' for x in cells]
        if page.scope:
            found = [f"<p>{inline(x)}</p>" for x in self.scope.split("\n\n") if page.scope in x]
            rows += found or fault(f"{PAGES}: [{page.slug}]: docs/SCOPE.md has no paragraph with: {page.scope}")
        if page.shown:
            shown = [d for d in self.tree.decls.values() if d.file == page.shown[0] and d.name in page.shown]
            rows += [prose(d.comment) + f'<pre>{self.linked(d, d.stated() if "≡" in "".join(d.stated()) else d.text, page)}</pre>' for d in shown]
        return computed * bool(cells) + "".join(rows[:5]) + (fold(f"{len(rows) - 5} more", "".join(rows[5:])) if len(rows) > 5 else "")

    def statements(self, ds, page):
        return "".join(f'<div class="theorem">{prose(d.comment)}<pre>{dim(d.home)}{self.linked(d, d.stated(), page)}</pre></div>' for d in ds)

    def edits(self, page):
        """The must-fail edits of the crates that have the page's definitions, or functions that they are the contract of."""
        out, used = [], {d.crate for d in page.defs + page.words} | {f.crate for d in page.defs for _, f in self.cited.get(d, [])}
        for path in (path for c in self.tree.uses if c in used for path in sorted((ROOT / "crates" / c / "must-fail").glob("*.edit"))):
            parts = re.split(r"^(old|new|file): ?", path.read_text(), flags=re.M)[1:]
            out.append(f'<div class="edit"><b>{esc(path.stem.replace("_", " "))}</b> ' + "".join(
                dim(f"{path.parts[-3]}/{x.strip()}") if of == "file" else f'<pre class="{of}">{esc(x.rstrip())}</pre>' for of, x in zip(parts[::2], parts[1::2])) + "</div>")
        return f"<p>{len(out)} edits of these crates: green is what stands there, red what the prover must refuse.</p>" + "".join(out)

    def call(self, p):
        read = ("From the top down they stand as the Rust does, a function before its steps, with the lines of document 000 that each one is."
                if p.rust else "Document 000 has no such call: the scope alone decides it.")
        kinds = fold("why some have no line", table([(f"<b>{k}</b>", esc(v)) for k, v in self.kinds.items()])) if p.rust else ""
        parts = {
            "In C": (fold(f"the header on {p.section.lower()}", f'<pre class="box">{esc(self.header.sections[p.section])}</pre>') if p.section else "") + self.box(p),
            "Contract": "<p>What is returned, and every lent array at exit, is the definition's outcome. No <code>requires</code>: it holds for every input.</p>"
                        + "".join(f'<pre class="box">{self.linked(f, f.stated(), p)}</pre>' for f in p.starts),
            "Definitions": f"<p>All {len(p.defs)} that the contract reaches. {read}</p>{kinds}{(HERE / 'tools.html').read_text()}"
                           f'<div class="defs{" two" if p.rust else ""}">{self.definitions(p)}</div>',
            "Theorems": "".join(f'<h3 id="{label}">{a(f"theorems.html#{label}", label)}</h3>' + self.statements([d for d in ds if d in p.stated], p)
                                for label, ds in self.theorems.items() if set(ds) & set(p.stated)),
            "Words of the theorems": fold(f"{len(p.words)} definitions that only the theorems above speak of; the contract does not reach them",
                                          "".join(self.definition(d, p) for d in p.words)),
            "Wrong versions": self.edits(p)}
        return self.page(p.title, p.href, f'<p class="lead">{esc(p.gives)}.</p><p>{" · ".join(a("#" + k.split()[0], k) for k in parts)}</p>'
                         + "".join(f'<h2 id="{k.split()[0]}">{k}</h2>\n{body}' for k, body in parts.items()))

    # ---- the other pages
    def page(self, title, href, body):
        links = {"index.html": "The book", **{p.href: p.title for p in self.pages}, "theorems.html": "theorems", "document-000.html": "document 000"}
        nav = " ".join(f"<b>{esc(t)}</b>" if h == href else a(h, esc(t)) for h, t in links.items())
        return (HERE / "page.html").read_text().replace("TITLE", esc(title)).replace("<!-- nav -->", nav).replace("<!-- body -->", body)

    def document(self):
        lines, home = [l for ls in self.documents.values() for l in ls if l.carried], {f: p.href for p in self.pages for f in p.home}
        claimed, why = sum(bool(l.claim) for l in lines), sum(bool(l.why) for l in lines)
        lost = f'<b class="bad">{len(lines) - claimed - why}</b> are' if claimed + why < len(lines) else "none is"
        out = [(HERE / "document.html").read_text().format(claimed=claimed, lines=len(lines), why=why, lost=lost)]
        for name, ls in self.documents.items():
            out.append(f'<h2>{name}</h2><div class="doc">')
            for l, last in zip(ls, [ls[0]] + ls):
                number, tag, kind = f'<span class="ln">{l.number}</span>', inline(l.why), "x" if l.why else "lost" if l.carried else "out"
                if l.claim and l.carried:
                    href, kind = f"{home[l.function]}#{l.claim.id}", f'in" style="--h:{self.hues[l.claim.crate]}'
                    number, tag = f'<a class="ln" href="{href}">{l.number}</a>', a(href, esc(l.claim.name)) if l.claim is not last.claim else ""
                out.append(f'<div id="{l.id}" class="l {kind}">{number}<code>{esc(l.text) or " "}</code><span class="d">{tag}</span></div>')
            out.append("</div>")
        return self.page("document 000", "document-000.html", "\n".join(out))

    def all_theorems(self):
        page, out = Page("theorems"), '<p class="lead">Every theorem with a label, in full: the crate <code>promises</code>.</p>'
        words = [d for d in self.tree.reach(x for ds in self.theorems.values() for d in ds for x in self.tree.named(d)) if d not in self.on]
        page.links = set(words)
        for label, ds in self.theorems.items():
            of, says = self.rows.get(label) or fault(f"docs/PROMISES.md: there is no row of {label}: add one") or ("", "")
            at = " · ".join(a(f"{p.href}#{label}", esc(p.title)) for p in self.pages if set(ds) & set(p.stated))
            out += f'<h3 id="{label}">{label} <span class="dim">of {inline(of)}</span></h3><p>{inline(says, self.theorems)}</p><p>{at}</p>{self.statements(ds, page)}'
        return self.page("Theorems", "theorems.html", out + "<h2>Words of the programs' theorems</h2>" + "".join(self.definition(d, page) for d in words))

    def index(self):
        wings, believed, layers = self.tree.wings, {d for p in self.pages for d in p.defs}, {}
        of = {c: w for w, (_, crates) in wings.items() for c in crates}
        layer = lambda w: 1 + max((layer(of[u]) for c in wings[w][1] for u in self.tree.uses[c] if of[u] != w), default=-1)
        for w, (sentence, crates) in wings.items():
            layers[layer(w)] = (layers.get(layer(w), "") + f'<div class="wing" style="--h:{self.hues[crates[0]]}">{esc(w)}<small>{esc(sentence)}</small>'
                                f'<small>{len(crates)} crate{"s" * (len(crates) > 1)}, {sum(d.crate in crates for d in believed) or "no"} definitions</small></div>')
        demands = re.split(r"^\d\. ", self.scope.split("## The three demands", 1)[1].split("\n\n", 2)[1], flags=re.M)[1:]
        calls = [("<br>".join(a(f"{p.href}#{c}", f"<code>crewelmarsh_{c}</code>") for c in p.c), esc(p.gives), len(p.defs),
                  ", ".join(f"<code>{f}</code>" for f in p.home) or "none") for p in self.pages]
        return self.page("Crewelmarsh, to be read", "index.html", (HERE / "index.html").read_text().replace("COUNT", str(len(believed)))
                         .replace("<!-- demands -->", "".join(f"<li>{inline(x)}</li>" for x in demands))
                         .replace("<!-- calls -->", table(calls, ["in C", "what it gives", "definitions", "document 000"]))
                         .replace("<!-- wings -->", "".join(f'<div class="layer">{layers[k]}</div>' for k in sorted(layers, reverse=True))))

def main():
    book, out = Book(), pathlib.Path(sys.argv[1] if len(sys.argv) > 1 else "build/book")
    pages = {"index.html": book.index(), "theorems.html": book.all_theorems(), "document-000.html": book.document()}
    pages.update({p.href: book.call(p) for p in book.pages})
    out.mkdir(parents=True, exist_ok=True)
    for name, text in {**pages, **{x: (HERE / x).read_text() for x in ("book.css", "book.js")}}.items():
        (out / name).write_text(text)
    sys.stderr.writelines(f"book: {f}\n" for f in faults)
    print(f"book: {len(pages)} pages, {sum(len(x.encode()) for x in pages.values()) // 1024} KiB, in {out}")
    return bool(faults)

if __name__ == "__main__":
    sys.exit(main())

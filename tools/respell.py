#!/usr/bin/env python3
"""Brings the repository's own names of antt to today's spelling. usage: respell.py [--check] [--fmt] [--table FILE]  (at the top of the repository)

Read are the declarations of crates/*/specs and crates/*/proofs. Rewritten are those files, the clauses, `ghost use` items, tactic attributes and
comments of crates/*/src, and crates/*/must-fail/*.edit. A name in camel case becomes snake case, and a fact or type UpperCamel; a dash stays only
between two definitions (or facts, which keep their capital) that the lemma's own signature has; a lemma that would have its function's name ends in
`_lem`; a middle dot goes from an import's alias. Names from elsewhere (std, what Rattle makes, Rust's own) stay. If two names would fall together
in a file, or a name with a word of antt, they are listed and nothing is written. A second run changes nothing.
--check writes nothing; --fmt runs `rt fmt` in each crate that changed; --table writes the rows 'crate, old, new' to FILE.
"""
import collections, glob, os, re, subprocess, sys

EXCEPTIONS = {
    "takenOver": "slots_taken_over",  # the constructor `taken-over` beside it becomes `taken_over`; it answers the slots
    # fields that readers of specs/ meet, which would end in `_lem` beside a function of their name
    "two-step": "at_two_step",
    "one-step": "at_one_step",
    "is-sync": "kind_is_sync",
    "tick-counts": "same_tick_counts",
}
WORDS = {"getD": "get_or"}  # a part of lemma names that cites a word of std by an older name
PROSE = {"correctionField", "majorSdoId"}  # in a comment these are the PTP standard's fields
SIGNS = {"add": "+", "mul": "*", "sub": "-", "append": "++", "le": "≤", "lt": "<", "and": "&&", "cons": "∷", "nil": "[]"}
RESERVED = set("data record deriving module where use mod pub package open as unfoldable abbrev axiom unfold unfolding ruleset mutual infix elim let in do"
               " rw simp search grw cc omega grind hlevel assumption ground cap result goal self refl yes no arith".split())
NAME = r'[^\s(){}.;,@"«»]+'
TOKEN = re.compile(NAME)
QUIET = re.compile(r'"(?:[^"\\\n]|\\.)*"|(?<![^\s(){}.;,@"«»])--[^\n]*|\{-.*?-\}', re.S)
RUST = re.compile(r"""//[^\n]*|/\*.*?\*/|[bc]?r(#*)".*?"\1|[bc]?"(?:\\.|[^"\\])*"|b?'(?:\\u\{[0-9a-fA-F_]+\}|\\x..|\\.|[^'\\])'|'?\w+|\s+|.""", re.S)
CLAUSE = re.compile(r"(?:requires|ensures|decreases|invariant)\s*\*?\s*(?:\w+\s*)?\{|ghost\s*(?:\w+\s*(?::\s*(?:(?:owns|lends)\s*)?|=\s*))?\{|#\[tactic\(|ghost\s+use\b")
USE = re.compile(r"(?m)((?:^|;|(?<=ghost ))\s*(?:pub )?use )(Rattle\.(\w+)\.(specs|proofs)\.)?([^\s{;]*?)\.?(\{[^}]*\}|(?= as )|;|$)")
ONE = r'[^\s(){}.;,@"«»:=|→λ]+'
DECLARED = re.compile(rf"(?m)^( *)((?:(?:pattern|unfoldable|abbrev|axiom|pub|record|data) )*)({ONE}(?: {ONE})*)(?: \{{[\wℓκ, ]+\}})?((?: +\([^\n]*?\)| +\{{[^\n]*?\}})*) +:(?=\s)")
HUMPED, DASHED = r"(?=[a-z]).*?[a-z0-9][A-Z]", r"(?!.*◌).*?[\w']-[\w']"
humped, dashed, ill = (re.compile(r).match for r in (HUMPED, DASHED, f"{HUMPED}|{DASHED}|.*′"))
camel = lambda word: "".join(p[:1].upper() + p[1:] for p in re.split("[-_]", word))
is_own = lambda use: bool(use[2]) and f"crates/{use[3]}/{use[4]}/{use[5]}".replace(".", "/") in FILES  # a use line of one of FILES
FILES = {p[: -len(".antt")] for f in ("specs", "proofs") for p in glob.glob(f"crates/*/{f}/**/*.antt", recursive=True)}


def read(path):
    with open(path, encoding="utf-8") as f:
        return f.read()


def write(path, text):
    with open(path, "w", encoding="utf-8") as f:
        f.write(text)


def snake(word):
    return re.sub(r"(?<=[a-z0-9])(?=[A-Z])|(?<=[A-Z])(?=[A-Z][a-z])", "_", word).lower() if word.isascii() else word


def joined(name, heads):
    """A dashed name: the dash stays between two parts that the signature has (heads: a part, and how it is spelled there); else `_` joins them."""
    words, parts = [WORDS.get(p, snake(p)) for p in name.replace("′", "'").split("-")], []
    while words:
        n = next((n for n in range(len(words), 1, -1) if "_".join(words[:n]) in heads), 1)
        parts.append("_".join(words[:n]))
        del words[:n]
    out = parts[0]
    for a, b in zip(parts, parts[1:]):
        out += ("-" if a in heads and b in heads else "_") + b
    return "-".join(heads.get(p, p) for p in out.split("-")) if "-" in out else out


def imports(bare):
    """Names that a file's use lines bring in: from modules of the repository, and from elsewhere."""
    own, foreign = set(), set()
    for m in USE.finditer(bare):
        for item in re.findall(r"[^\s{},;][^{},;]*", m[6]):
            (own if is_own(m) else foreign).add(item.split(" as ")[-1].strip())
    return own, foreign - own


class Module:
    """A file of antt: what it declares (name: kind and signature) and what it imports."""

    def __init__(self, path):
        self.path, self.text = path, read(path)
        self.walk = path.count("/") > 3  # below proofs/F, the proof of a function: what it declares is Rattle's
        self.bare = QUIET.sub(lambda m: re.sub(r"[^\n]", " ", m[0]), self.text)
        self.own, self.foreign = imports(self.bare)
        self.declared, block, inside = {}, 0, ""
        for m in DECLARED.finditer(self.bare):
            more = re.match(rf"[^\n]*(?:\n(?: {{{len(m[1]) + 1},}}[^\n]*|(?= *\n)))*", self.bare[m.end() :])[0]
            names, kind, sig = m[3].split(), inside if m.start() < block else "word", more.split("\n\n")[0]
            if re.search(r"(record|data) $", m[2]):
                kind, block, inside = "type", m.end() + len(more), "field" if "record" in m[2] else "constructor"
                sig = "→" if "record" in m[2] and re.search(r"\((?![\w ]* : Type)", m[4]) else ""  # of values: a fact, and no type of data
            elif kind == "word" and re.search(r"(?:^|→)\s*Type\s*\S*\s*$", sig):
                kind = "fact"
            if not self.walk and names[0] not in ("let", "in", "use", "rw", "ap"):
                self.declared |= {n: (kind, sig) for n in names if n not in self.declared}


def table(modules):
    """Every spelling that turns, old: new. A spelling turns one way in the whole repository: where declarations differ, the way that keeps the dash."""
    found = collections.defaultdict(set)
    types = {n for m in modules for n, (kind, _) in m.declared.items() if kind in ("fact", "type")}
    facts = {n for m in modules for n, (kind, sig) in m.declared.items() if kind in ("fact", "type") and "→" in sig}
    for m in modules:
        known = {*m.own, *m.foreign, *m.declared}
        for name, (kind, sig) in m.declared.items():
            new = EXCEPTIONS.get(name, name)
            if kind in ("fact", "type"):
                new = camel(name) if ill(name) or name[0].islower() else name
            elif new == name and ill(name):
                words = set(TOKEN.findall(sig)) if kind != "constructor" else set()
                heads = {snake(w): w for w in words & facts} | {snake(w): snake(w) for w in words & known - types}
                new = joined(name, heads | {w: w for w, sign in SIGNS.items() if sign in words})
            found[name].add(new)
    chosen = {old: max(new, key=lambda w: (w.count("-"), w)) for old, new in found.items()}
    return {old: new for old, new in chosen.items() if new != old}


class Turner:
    """Turns the names of one file. `seen` has, for each word of the new text, its old spellings; `here` what turns otherwise in this file: aliases."""

    def __init__(self, names, known, own, foreign, local):
        self.names, self.known, self.own, self.foreign, self.local = names, known, own, foreign, local
        self.here, self.clashes, self.seen = {}, [], collections.defaultdict(set)

    def word(self, m):
        word, text, at = m[0], m.string, m.start()
        dotted, before = text[at - 1 : at] == ".", re.search(rf"({NAME})\.$", text[max(0, at - 80) : at])
        if word in self.here and not dotted:
            new = self.here[word]
        elif before[1] in self.foreign and before[1][0].isupper() if before else word in self.foreign:
            new = word
        elif dotted or word in self.known or not ill(word):
            new = self.names.get(word, word)
        else:  # a name that is bound here: a parameter, a let
            new = joined(word, {}) if self.local and not word[0].isupper() and not re.search(r"[^\w'′-]", word) else word
        sets_field = re.match(" = ", text[m.end() :]) and re.search(r"record(?: \S+)? \{[^{}]*$", text[:at])
        if not dotted and not sets_field and text[m.end() : m.end() + 4] != " as ":
            self.seen[new].add(word)
        return new

    def item(self, m, own=True):
        old, shown = self.names.get(m[1], m[1]) if own else m[1], TOKEN.sub(self.word, m[3] or m[1])
        return old if old == shown else f"{old} as {shown}"

    def code(self, text):
        """Code without comments: of a use line only what stands in its braces, and an item 'x as x' that comes of it is written 'x'."""
        out, at = [], 0
        for m in USE.finditer(text):
            items = re.sub(r"([^\s{},]+)( as ([^\s{},]+))?", lambda i: self.item(i, is_own(m)), m[6]) if m[2] else m[6]
            out += [TOKEN.sub(self.word, text[at : m.start()]), text[m.start() : m.start(6)], items]
            at = m.end()
        return "".join(out) + TOKEN.sub(self.word, text[at:])

    def comment(self, text):
        """A comment: names in camel case, and others in back quotes."""
        name = lambda w: self.names[w] if w in self.names and w not in self.foreign else w
        text = re.sub(r"(?<![\w'-])[a-z][\w'-]*", lambda m: name(m[0]) if humped(m[0]) and m[0] not in PROSE else m[0], text)
        return re.sub(r"`([^`\s]+)`", lambda m: "`" + name(m[1]) + "`", text)

    def antt(self, text):
        out, at = [], 0
        for m in QUIET.finditer(text):
            out += [self.code(text[at : m.start()]), m[0] if m[0][0] == '"' else self.comment(m[0])]
            at = m.end()
        return "".join(out) + self.code(text[at:])

    def rt(self, text):
        """A file of Rust. A name that it binds (a parameter, a let, a field) hides a word of the clauses, which then comes under an alias."""
        pieces, at = [], 0
        while at < len(text):
            m, clause = RUST.match(text, at), CLAUSE.match(text, at)
            end = m.end()
            if clause and clause[0].endswith("use"):
                pieces.append(("code", text[at : (end := text.index(";", at) + 1)]))
            elif clause and (m[0] == "#" or m[0].isalpha() and not text[at - 1 : at].isalnum()):
                depth, end = 1, clause.end()
                while depth:
                    depth += {"{": 1, "(": 1, "[": 1, "}": -1, ")": -1, "]": -1}.get(text[end], 0)
                    end += 1
                pieces += [("rust", clause[0]), ("tactic" if m[0] == "#" else "code", text[clause.end() : end])]
            else:
                pieces.append(("comment" if m[0][:2] in ("//", "/*") else "quoted" if m[0][-1:] == '"' else "rust", m[0]))
            at = end
        rust = re.sub(r"\b(pub )?(use|mod) [^;]*;", "", "".join(t for kind, t in pieces if kind == "rust"))
        bound = RESERVED | {m[1] for m in re.finditer(r"(?<![.:\w])(?<!fn )([a-z_]\w*)\b(?!\(|::|!)", rust)}
        for use in USE.finditer("".join(t for kind, t in pieces if kind == "code")):
            for item in re.findall(r"[^\s{},;][^{},;]*", use[6]) if use[2] else ():
                old, _, alias = item.partition(" as ")
                new, (head, dot, tail) = self.names.get(old, old), alias.partition("·")
                if dot or not alias and new != old and new in bound:
                    tail = snake(use[5].split(".")[-1]) if tail in ("", "spec") else tail
                    plain = alias.endswith("·spec") and new not in bound
                    self.here[alias or old] = new if plain else head + camel(tail) if head[:1].isupper() else f"{tail}_{new}"
        self.clashes = [a for a in self.here.values() if a in bound]
        how = {"code": self.code, "comment": self.comment, "tactic": lambda t: re.sub(r"(?<=::)[^\s:(),]+", lambda m: self.names.get(m[0], m[0]), t)}
        return "".join(how.get(kind, str)(t) for kind, t in pieces)


def turned(names, modules, known):
    """Of each file its path, its text, the text as it becomes, and its Turner."""
    for m in modules:
        t = Turner(names, known, m.own, m.foreign, not m.walk)
        yield m.path, m.text, t.antt(m.text), t
    for path in sorted(glob.glob("crates/*/src/**/*.rt", recursive=True)):
        t = Turner(names, known, *imports(read(path)), False)
        yield path, read(path), t.rt(read(path)), t
    for path in sorted(glob.glob("crates/*/must-fail/*.edit")):
        text = read(path)
        of = path.split("/must-fail/")[0] + "/" + re.search(r"(?m)^file: (.*)", text)[1]
        body = read(of) if os.path.exists(of) else ""
        t = Turner(names, known, *imports(body), of.endswith(".antt"))
        if of.endswith(".rt"):
            t.rt(body)  # for its aliases
        line = lambda l: t.comment(l) if l[:1] == "#" else l[:5] + TOKEN.sub(t.word, l[5:]) if l[:4] in ("old:", "new:") else l
        new, t.seen, t.clashes = "\n".join(map(line, text.split("\n"))), {}, []  # an edit binds nothing
        yield path, text, new, t


def main(argv):
    modules = [Module(p + ".antt") for p in sorted(FILES)]
    names, known = table(modules), {name for m in modules for name in m.declared}
    kinds = {name: {m.declared[name][0] for m in modules if name in m.declared} for name in known if dashed(name)}
    for last in (False, True):
        files, bad, lemmas = list(turned(names, modules, known)), [], {}
        for path, _, _, t in files:
            bad += [f"{path}: the alias {a} is a name of Rust there" for a in t.clashes]
            for new, olds in t.seen.items():
                lemma = [o for o in olds if kinds.get(o, {""}) <= {"word", "field"}]
                if len(olds) == 2 and len(lemma) == 1 and not last:
                    lemmas[lemma[0]] = new + "_lem"
                elif len(olds) > 1 or new in RESERVED and olds != {new}:
                    bad.append(f"{path}: {', '.join(sorted(olds))} would become {new}")
        names |= lemmas
        if not lemmas:
            break
    if bad:
        return "\n".join(bad)
    crate = lambda path: path.split("/")[1]
    changed = [(path, new) for path, old, new, _ in files if old != new]
    rows = {(crate(m.path), old, names[old]) for m in modules for old in m.declared if old in names}
    rows |= {(crate(p), old, new) for p, _, _, t in files for old, new in t.here.items()}
    rows |= {(crate(p), old + " (local)", new) for p, _, _, t in files for new, olds in t.seen.items() for old in olds if old not in known and old not in t.here and old != new}
    lines = ["\t".join(row) for row in sorted(rows)]
    print(*lines, f"respell: {len(rows)} names, {len(changed)} files" + (" would change" if "--check" in argv else " changed"), sep="\n")
    if "--table" in argv:
        write(argv[argv.index("--table") + 1], "".join(line + "\n" for line in lines))
    for path, new in changed if "--check" not in argv else ():
        write(path, new)
    for c in sorted({crate(path) for path, _ in changed}) if "--fmt" in argv and "--check" not in argv else ():
        subprocess.run(["rt", "fmt"], cwd=f"crates/{c}", stdout=subprocess.DEVNULL)


if __name__ == "__main__":
    sys.exit(main(sys.argv[1:]))

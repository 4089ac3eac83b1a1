"""The public calls of the libraries of crates.txt, for scripts that compare pages with them."""
import os
import re

TOP = os.path.dirname(os.path.dirname(os.path.abspath(__file__)))
LAST_LAYER = "# tests, rows and benches"
FN = re.compile(r"((?:^ *///.*\n)*)((?:^ *#\[.*\n)*)^ *(pub )?(?:const )?(?:extern \"C\" )?fn (\w+)", re.M)
OWNER = re.compile(r"^(?:pub )?(?:impl(?:<.*?>)? (?:(\S+(?:<.*?>)?) for )?(\w+)|trait (\w+))", re.M)
CLAUSE = re.compile(r"\s*(requires|ensures)\s*(\w*)\s*\{")


class Call:
    """One function: its name as its callers know it, its doc comment, what it returns, and its clauses."""

    def __init__(self, name, doc, text):
        self.name, self.doc = name, doc
        self.result, self.clauses = head_of(text)

    def clauses_of(self, kind):
        return [(name, text) for its, name, text in self.clauses if its == kind]


def read(file):
    with open(f"{TOP}/{file}", encoding="utf-8") as it:
        return it.read()


def libraries():
    """Returns the libraries of crates.txt except those of its last layer, by layer, lowest first."""
    found = []
    for line in read("crates.txt").split(LAST_LAYER)[0].splitlines():
        layer, crate = re.match(r"# (.*)", line), re.match(r"\w+", line)
        if layer:
            found.append((layer[1], []))
        elif crate and os.path.isfile(f"{TOP}/crates/{crate[0]}/src/lib.rt"):
            found[-1][1].append(crate[0])
    return [layer for layer in found if layer[1]]


def modules(at, path=(), is_public=True):
    """Returns of each module of a crate that isn't only of tests its path, its text and whether it is reached."""
    text = re.sub(r"(?m)^[ \t]*//(?!/).*\n", "", read(f"{at}.rt"))
    yield path, text, is_public
    folder = os.path.dirname(at) if not path else at
    for test, public, name in re.findall(r"(?m)^(#\[cfg\(test\)\]\n)?(pub )?mod (\w+);", text):
        if not test:
            yield from modules(f"{folder}/{name}", (*path, name), is_public and bool(public))


def exported(texts):
    """Returns the names that `pub use` lines export."""
    found = set()
    for names in re.findall(r"(?m)^pub use ([^;]+);", texts):
        found.update(re.findall(r"(\w+)\s*(?=[,}]|$)", names))
    return found


def after(text, start, opening, closing):
    """Returns the place behind the bracket that closes the one at the start."""
    depth = 0
    for place in range(start, len(text)):
        if text[place] == opening:
            depth += 1
        elif text[place] == closing and text[place - 1 : place + 1] != "->":
            depth -= 1
            if not depth:
                return place + 1
    return len(text)


def head_of(text):
    """Returns what a function returns, and its clauses, each by its kind, name and text."""
    place = re.search(r"\bfn \w+", text).end()
    if text[place] == "<":
        place = after(text, place, "<", ">")
    place = after(text, place, "(", ")")
    end = re.compile(r"\n *(?:requires|ensures|where)\b| *\{|;$", re.M).search(text, place)
    result = text[place : end.start() if end else len(text)].partition("->")[2].strip()
    found, place = [], end.start() if end else len(text)
    if re.match(r"\s*where\b", text[place:]):
        place = re.compile(r"\n *(?=requires|ensures|\{)").search(text, place).start()
    clause = CLAUSE.match(text, place)
    while clause:
        place = after(text, clause.end() - 1, "{", "}")
        found.append((clause[1], clause[2], text[clause.end() : place - 1].strip()))
        clause = CLAUSE.match(text, place)
    return result, found


def events_of(text):
    """Returns where impls, traits and functions begin and end, in the order of the text."""
    found = [(it.start(), "owner", it) for it in OWNER.finditer(text)]
    found += [(it.start(), "function", it) for it in FN.finditer(text)]
    found += [(it.start(), "end", it) for it in re.finditer(r"(?m)^\}", text)]
    return [(kind, it) for _, kind, it in sorted(found, key=lambda it: it[0])]


def functions_of(text):
    """Returns of each function of a file its doc comment, its name, its text, and the head of its impl or trait."""
    owner = None
    for kind, it in events_of(text):
        if kind == "function":
            yield it, [line.strip()[3:].strip() for line in it[1].splitlines()], text[it.end() - len(f"fn {it[4]}") :], owner
        else:
            owner = it if kind == "owner" else None


def calls(crate):
    """Returns the public calls of a crate, by name: those of a module or a type that is reached, and its exports."""
    found, all_modules = {}, list(modules(f"crates/{crate}/src/lib"))
    names = exported("\n".join(text for _, text, is_public in all_modules if is_public))
    types = {name for _, text, is_public in all_modules for name in
             re.findall(r"(?m)^pub (?:struct|enum|trait) (\w+)", text) if is_public or name in names}
    for path, text, is_public in all_modules:
        for it, doc, body, owner in functions_of(text):
            is_export, function = 'extern "C"' in it[0], it[4]
            if owner:
                of, is_trait = owner[2] or owner[3], bool(owner[3])
                name = f"{of}::{function}" if of in types and not owner[1] and (it[3] or is_trait) else None
            else:
                is_named = is_export or function in names
                name = function if is_named else "::".join((*path, function))
                name = name if it[3] and (is_public or is_named) else None
            if name:
                found[name] = Call(name, doc, body)
    return found

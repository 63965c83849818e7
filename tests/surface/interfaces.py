"""Reads the public items of a library from its interface, which the compiler wrote where it built the library: items with their heads,
fields, variants, derives, and the names of their clauses. It reads the text of a source as well: bodies and clauses are passed over.
"""
import pathlib
import re

TOKEN = re.compile(r"//[^\n]*|/\*.*?\*/|(\"(?:\\.|[^\"\\])*\"|'(?:\\.|[^'\\\n])'|'\w+|\w+|::|->|=>|\.\.=|\.\.|\S)", re.S)
# What no space follows, what none goes before, and words that a bracket stands apart from.
OPENS = ("(", "[", "<", "::", "&", "!", "#")
ENDS = (",", ";", ")", "]", ">", "?", ":", "::", ".", "!")
WORDS = ("for", "mut", "dyn", "impl", "where", "as", "const")
CLOSES = {"(": ")", "[": "]", "{": "}"}


class Item:
    """What a module declares: its kind, its name, its head as text, and what stands within it."""

    def __init__(self, kind, name, module, head=""):
        self.kind, self.name, self.module, self.head = kind, name, module, head
        self.is_public = False
        self.derives, self.ghosts, self.requires, self.ensures, self.members = [], [], [], [], []
        # Of an `impl`: its type and its trait, each as a path of words, and without what stands between angle brackets.
        self.type = self.trait = None
        self.generics, self.of, self.arguments, self.symbol = "", "", [], None
        # Of a `use`: what it imports, as pairs of a name and a path.
        self.imports = []


def tokens_of(text):
    """The tokens of a text. An empty pair of angle brackets, which macros write, says nothing."""
    found = []
    for it in TOKEN.finditer(text):
        if it[1] == ">" and found and found[-1] == "<":
            found.pop()
        elif it[1]:
            found.append(it[1])
    return found


def joined(tokens):
    """The text of tokens on one line, spaced as the formatter of sources spaces them."""
    text = ""
    tokens = [it for at, it in enumerate(tokens) if it != "," or tokens[at + 1 : at + 2] not in (["}"], [">"])]
    for at, it in enumerate(tokens):
        before = tokens[at - 1] if at else ""
        is_close = not text or before in OPENS or it in ENDS
        is_close = is_close or it in ("<", "(", "[") and re.match(r"\w|>|::", before) and before not in WORDS
        text += it if is_close else " " + it
    return text


class Reader:
    """A walk over tokens."""

    def __init__(self, tokens):
        self.tokens, self.at = tokens, 0

    def peek(self, ahead=0):
        return self.tokens[self.at + ahead] if self.at + ahead < len(self.tokens) else ""

    def take(self):
        self.at += 1
        return self.tokens[self.at - 1]

    def group(self):
        """The tokens within the brackets that begin here."""
        opens, begins, depth = self.peek(), self.at + 1, 0
        while self.at < len(self.tokens):
            it = self.take()
            depth += (it in CLOSES) - (it in CLOSES.values())
            if depth == 0:
                return self.tokens[begins : self.at - 1]
        raise ValueError(f"a {opens} isn't closed")

    def angles(self):
        """The tokens of what stands between angle brackets, with these, or none."""
        if self.peek() != "<":
            return []
        begins, depth = self.at, 0
        while True:
            it = self.take()
            depth += (it == "<") - (it == ">")
            if depth == 0:
                return self.tokens[begins : self.at]

    def until(self, *ends):
        """The tokens before the first of these that stands in no bracket."""
        begins, depth = self.at, 0
        while self.at < len(self.tokens):
            it = self.peek()
            if depth == 0 and it in ends:
                break
            depth += (it in CLOSES) - (it in CLOSES.values())
            self.at += 1
        return self.tokens[begins : self.at]


def split(tokens, mark=","):
    """The parts of tokens between the marks that stand in no bracket."""
    parts, depth, angles = [[]], 0, 0
    for it in tokens:
        depth += (it in CLOSES) - (it in CLOSES.values())
        if depth == 0:
            angles += (it == "<") - (it == ">")
        if it == mark and depth == 0 and angles == 0:
            parts.append([])
        else:
            parts[-1].append(it)
    return [it for it in parts if it]


def attributes(reader):
    """The derives that the attributes name which stand here."""
    derives = []
    while reader.peek() == "#":
        reader.take()
        if reader.peek() == "!":
            reader.take()
        within = reader.group()
        if within and within[0] in ("derive", "derive_where"):
            derives += [joined(it) for it in split(within[2:-1])]
    return derives


def visibility(reader):
    """Whether what follows is public to all."""
    if reader.peek() != "pub":
        return False
    reader.take()
    if reader.peek() == "(":
        reader.group()
        return False
    return True


def fields(tokens):
    """The public fields, and `..` where there are others; fields that are ghosts apart, by name."""
    shown, ghosts, has_others = [], [], False
    for part in split(tokens):
        reader = Reader(part)
        attributes(reader)
        is_public = visibility(reader)
        if reader.peek() == "ghost":
            reader.take()
            ghosts.append(reader.take())
        elif is_public:
            shown.append(joined(part[reader.at :]))
        else:
            has_others = True
    return shown + [".."] * has_others, ghosts


def variants(tokens):
    shown = []
    for part in split(tokens):
        reader = Reader(part)
        attributes(reader)
        shown.append(joined(part[reader.at :]))
    return shown


def imports(tokens, path=()):
    """What the tree of a `use` imports: pairs of a name and a path."""
    found = []
    for part in split(tokens):
        if part[-1] == "}":
            at = part.index("{")
            found += imports(part[at + 1 : -1], (*path, *[it for it in part[:at] if it != "::"]))
            continue
        name = part[-1]
        whole = [it for it in (part[: part.index("as")] if "as" in part else part) if it != "::"]
        if whole[-1] == "self":
            whole = whole[:-1]
            name = path[-1] if name == "self" else name
        found.append((name, (*path, *whole)))
    return found


def clauses(reader, item):
    """The clauses of a function, by name."""
    while reader.peek() in ("requires", "ensures", "ghost"):
        word = reader.take()
        into = {"requires": item.requires, "ensures": item.ensures}.get(word, [])
        if reader.peek() == "*":
            reader.take()
        into.append(reader.take() if reader.peek() != "{" else "..")
        if reader.peek() == ":":
            reader.take()
        reader.group()


def function(reader, item):
    """Reads a function behind its word `fn`."""
    item.name = reader.take()
    head = [*reader.angles()]
    parameters = reader.group()
    head += ["(", *[it for at, part in enumerate(split(parameters)) for it in [*[","] * (at > 0), *part]], ")"]
    head += reader.until("requires", "ensures", "ghost", "{", ";")
    if head[-1] == ",":
        head.pop()
    item.head = item.name + joined(head)
    clauses(reader, item)
    if reader.peek() == "{":
        reader.group()
    elif reader.peek() == ";":
        reader.take()


def bare(tokens):
    """The words of a type's path, without what stands between angle brackets."""
    kept, depth = [], 0
    for it in tokens:
        depth -= it == ">"
        if depth == 0 and it != "mut" and re.match(r"\w", it):
            kept.append(it)
        depth += it == "<"
    return kept


def arguments(tokens):
    """The type arguments of a path's last name, each by the last word before its own."""
    if tokens[-1] != ">" or "<" not in tokens:
        return []
    return [(bare(it) or [joined(it)])[-1] for it in split(tokens[tokens.index("<") + 1 : -1]) if not it[0].startswith("'")]


def members(tokens, module, owner):
    """What a trait or an `impl` has within it: its functions, constants and types, and the names of its ghosts."""
    reader, found, ghosts = Reader(tokens), [], []
    while reader.peek():
        derives = attributes(reader)
        is_public = visibility(reader)
        word = reader.take()
        if word == "ghost":
            if reader.peek() != "use":
                ghosts.append(reader.peek())
            reader.until(";")
            reader.take()
            continue
        while word in ("unsafe", "default", "final") or word == "const" and reader.peek() == "fn":
            word = reader.take()
        item = Item(word, "", module)
        item.is_public, item.derives = is_public, derives
        if word == "fn":
            function(reader, item)
        elif word in ("const", "type"):
            item.name = reader.peek()
            head = reader.until("=", ";")
            if reader.peek() == "=":
                reader.until(";")
            reader.take()
            item.head = joined(head)
        else:
            raise ValueError(f"{'::'.join(module)}: `{word}` isn't known within `{owner}`")
        found.append(item)
    return found, ghosts


def items_of(tokens, module):
    """The items of a module."""
    reader, found = Reader(tokens), []
    while reader.peek():
        derives = attributes(reader)
        is_public = visibility(reader)
        if not reader.peek():
            break
        word = reader.take()
        if word == "ghost":
            reader.until(";")
            reader.take()
            continue
        while word in ("unsafe", "extern") or word.startswith('"') or word == "const" and reader.peek() == "fn":
            word = reader.take()
        item = Item(word, "", module)
        item.is_public, item.derives = is_public, derives
        if word == "fn":
            function(reader, item)
        elif word == "mod":
            item.name = reader.take()
            item.head = item.name
            if reader.peek() == "{":
                item.members = items_of(reader.group(), (*module, item.name))
                item.type = "inline"
            else:
                reader.take()
        elif word == "use":
            tree = reader.until(";")
            reader.take()
            item.head, item.imports = joined(tree), imports(tree)
        elif word in ("const", "static", "type"):
            item.name = reader.peek()
            head = reader.until("=", ";")
            if reader.peek() == "=" and word == "type":
                head = [*head, *reader.until(";")]
            elif reader.peek() == "=":
                reader.until(";")
            reader.take()
            item.head = joined(head)
        elif word in ("struct", "enum"):
            item.name = reader.take()
            head = [item.name, *reader.angles()]
            if reader.peek() == "where":
                head += reader.until("{", "(", ";")
            item.head = joined(head)
            if reader.peek() == "{":
                within = reader.group()
                shown, item.ghosts = fields(within) if word == "struct" else (variants(within), [])
                item.head += " { " + ", ".join(shown) + " }" if shown else " {}"
            elif reader.peek() == "(":
                shown, _ = fields(reader.group())
                item.head += "(" + ", ".join(shown) + ")"
                reader.take()
            else:
                reader.take()
        elif word == "trait":
            item.name = reader.take()
            item.head = joined([item.name, *reader.until("{")])
            item.members, item.ghosts = members(reader.group(), module, item.name)
        elif word == "impl":
            generics = reader.angles()
            head = reader.until("{", "where")
            bounds = reader.until("{")
            bounds = bounds if bounds != ["where"] else []
            # (an interface says by which name symbols know an `impl` of a trait)
            if "as" in head[-2:-1]:
                item.symbol, head = head[-1], head[:-2]
            of = split_for(head)
            item.trait = bare(of[0]) if len(of) == 2 else None
            item.type = bare(of[-1])
            item.generics, item.of, item.arguments = joined([*generics, *bounds]), joined(of[-1]), arguments(of[0])
            item.head = "impl" + joined(generics) + " " + joined([*head, *bounds])
            item.name = item.head
            item.members, item.ghosts = members(reader.group(), module, item.head)
        else:
            raise ValueError(f"{'::'.join(module)}: `{word}` isn't known: {joined(reader.tokens[reader.at - 1 : reader.at + 9])}")
        found.append(item)
    return found


def split_for(head):
    """The trait and the type of an `impl`, or its type."""
    depth = 0
    for at, it in enumerate(head):
        depth += (it == "<") - (it == ">")
        if it == "for" and depth == 0:
            return [head[:at], head[at + 1 :]]
    return [head]


def module_of(name, module):
    """A public module, as an item."""
    item = Item("mod", name, module, name)
    item.is_public = True
    return item


def implementations_of(file, module):
    """The `impl`s of a source, those of modules within it too."""
    found, todo = [], items_of(tokens_of(file.read_text()), module)
    while todo:
        it = todo.pop()
        found += [it] if it.kind == "impl" else []
        todo += it.members if it.kind == "mod" else []
    return found


class Library:
    """A library by its modules."""

    def __init__(self, name, top=None):
        self.name, self.modules = name, {}
        if top is not None:
            self.read(pathlib.Path(top), (name,), pathlib.Path(top).parent)

    def read(self, file, module, folder):
        self.enter(items_of(tokens_of(file.read_text()), module), module, folder)

    def enter(self, items, module, folder):
        self.modules[module] = items
        for it in items:
            if it.kind == "mod" and it.type == "inline":
                self.enter(it.members, (*module, it.name), folder / it.name)
            elif it.kind == "mod":
                files = [folder / f"{it.name}.rt", folder / it.name / "mod.rt"]
                file = next((one for one in files if one.is_file()), None)
                if file is not None:
                    self.read(file, (*module, it.name), folder / it.name)

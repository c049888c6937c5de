"""The functions of a crate, read off its text: their names as a check prints them, and where they stand. The text is
laid out by `rt fmt`, so a function ends at a brace that stands as far in as the function does."""

import re
from dataclasses import dataclass

HEAD = re.compile(r"( *)(?:pub(?:\([a-z]+\))? )?(?:const |unsafe |async )*fn (\w+)")
TYPE = re.compile(r"^(?:pub(?:\([a-z]+\))? )?(?:struct|enum) (\w+)", re.M)
# What a function may stand in: an impl of a type, or of a trait for a type, or a trait.
IMPL = re.compile(r"(?:unsafe )?impl\b")
TRAIT = re.compile(r"(?:pub(?:\([a-z]+\))? )?(?:unsafe )?trait (\w+)")
TEXT = re.compile(r'//[^\n]*|b?r#"[\s\S]*?"#|b?"(?:\\[\s\S]|[^"\\])*"|b?\'(?:\\.[^\']*|[^\\\'\n])\'')


def without_texts(text):
    """Code without its comments, strings and characters, each replaced by as many spaces; lines stay where they are."""
    return TEXT.sub(lambda it: re.sub(r"[^\n]", " ", it[0]), text)


@dataclass
class Function:
    """A function: its full name, its last name, the type and the trait that it stands in (or ""), its file, the number
    of its first line, attributes included, and of the one behind its last, the number of the line where its body begins
    (the same, where it has none), and the name under which it is proved if it calls itself."""

    name: str
    last: str
    of_type: str
    of_trait: str
    path: str
    first: int
    end: int
    body: int
    cycle: str

    def has_body(self):
        return self.body < self.end


def module_of(crate, path):
    """The path of the module that a file of src/ is, as in `redo_script::lexer::runs`."""
    inside = path[len("src/") : -len(".rt")].removesuffix("/mod")
    return "::".join([crate, *([] if inside in ("lib", "main") else inside.split("/"))])


def bare(text):
    """A type's text without references, lifetimes and what stands in angle brackets."""
    text = re.sub(r"'\w+\s*", "", text).replace("&", " ").replace("mut ", " ")
    while "<" in text:
        shorter = re.sub(r"<[^<>]*>", "", text)
        if shorter == text:
            break
        text = shorter
    return text.strip()


def last_of(text):
    """The last name of a type's path: `Error` of `io::Error`."""
    return bare(text).split("::")[-1].strip()


def arguments(text):
    """The types in a trait's own angle brackets, in order."""
    inner = text.partition("<")[2].rpartition(">")[0]
    found, depth, start = [], 0, 0
    for at, sign in enumerate(inner + ","):
        depth += (sign == "<") - (sign == ">")
        if sign == "," and not depth:
            found.append(inner[start:at])
            start = at + 1
    return [it.strip() for it in found if it.strip() and not it.strip().startswith("'")]


def split_impl(head):
    """The text of the trait ("" where there is none) and of the type of an impl's head."""
    rest = head.partition("impl")[2]
    if rest.startswith("<"):
        depth = 0
        for at, sign in enumerate(rest):
            # (an arrow's bracket closes nothing)
            depth += (sign == "<") - (sign == ">" and rest[at - 1] != "-")
            if not depth:
                rest = rest[at + 1 :]
                break
    rest = re.split(r"\bwhere\b|\{", rest)[0]
    trait, found, of = rest.partition(" for ")
    return (trait.strip(), of.strip()) if found else ("", rest.strip())


def owner_of_impl(head):
    """The name under which a check prints the methods of an impl, its type, and its trait."""
    trait, of = split_impl(head)
    kind = last_of(of)
    if not trait:
        return kind, kind, ""
    name = last_of(trait)
    if name == "Drop":
        return kind, kind, name
    parts = [part for it in arguments(trait) for part in bare(it).split("::")]
    return kind + name + "".join(it[:1].upper() + it[1:] for it in parts), kind, name


def head_of(rows, number):
    """The text of an item's head, which may take several lines."""
    for end in range(number, len(rows)):
        if "{" in rows[end] or rows[end].endswith(";"):
            break
    return " ".join(it.strip() for it in rows[number : end + 1])


def end_of(rows, number, indent):
    """The number of the line behind a function that begins at this line, and of the line where its body begins, which
    is the end where it has none."""
    body = None
    for at in range(number, len(rows)):
        row = rows[at]
        depth = len(row) - len(row.lstrip())
        if not row.strip() or depth > indent:
            continue
        if at > number and (depth < indent or HEAD.match(row)):
            return at, at if body is None else body
        if row.strip() == "}":
            return at + 1, at if body is None else body
        if row.rstrip().endswith(("{}", "}")):
            return at + 1, at
        if row.rstrip().endswith("{"):
            body = at if row.strip() == "{" else at + 1
    return len(rows), len(rows) if body is None else body


def functions_in(crate, path, text):
    """The functions of a file of src/, in order."""
    module, found = module_of(crate, path), []
    code = without_texts(text)
    rows, owner = code.split("\n"), ("", "", "")
    for number, row in enumerate(rows):
        if row and not row[0].isspace():
            if IMPL.match(row):
                owner = owner_of_impl(head_of(rows, number))
            elif TRAIT.match(row):
                owner = TRAIT.match(row)[1], "", TRAIT.match(row)[1]
            elif row.startswith("}"):
                owner = "", "", ""
        head = HEAD.match(row)
        if head:
            end, body = end_of(rows, number, len(head[1]))
            inside, of, trait = owner if head[1] else ("", "", "")
            name = "::".join([module, *([inside] if inside else []), head[2]])
            cycle = cycle_of(rows, number) or head[2]
            found.append(Function(name, head[2], of, trait, path, first_of(rows, number), end, body, cycle))
    return found


def first_of(rows, number):
    """The number of the first line of the attributes above a function, where a check says that its goals stand, or of
    its own line."""
    while number and rows[number - 1].strip() and not rows[number - 1].rstrip().endswith(("{", "}", ";")):
        number -= 1
    return number


def cycle_of(rows, number):
    """The name that the attributes above a function give to its cycle of calls, or ""."""
    while number and re.match(r"\s*(#\[.*)?$", rows[number - 1]):
        number -= 1
        found = re.search(r"#\[cycle\((\w+)\)\]", rows[number])
        if found:
            return found[1]
    return ""


class Functions:
    """The functions of a crate, from the texts of src/ by their paths."""

    def __init__(self, crate, texts):
        self.crate = crate
        texts = {path: text for path, text in sorted(texts.items()) if path.startswith("src/")}
        self.all = [it for path, text in texts.items() for it in functions_in(crate, path, text)]
        self.name_by_types(texts)
        self.by_name = {}
        for it in self.all:
            self.by_name.setdefault(it.name, []).append(it)

    def name_by_types(self, texts):
        """Names the methods of types by the modules of the types, wherever their impls stand, as a check does."""
        homes = {}
        for path, text in texts.items():
            for of_type in TYPE.findall(without_texts(text)):
                homes.setdefault(of_type, set()).add(module_of(self.crate, path))
        for it in self.all:
            if it.of_type and it.of_trait in ("", "Drop") and len(homes.get(it.of_type, ())) == 1:
                it.name = "::".join([*homes[it.of_type], it.of_type, it.last])

    def at(self, path, line):
        """The function in whose text this line of a file stands, or None. Functions are told apart by their names."""
        found = next((it for it in self.all if it.path == path and it.first <= line < it.end), None)
        return found if found and len(self.by_name[found.name]) == 1 else None

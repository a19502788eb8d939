"""Where the bodies of functions are in the sources of a crate."""
import os
import re

# Comments, texts and characters, in which a brace is no brace; then brackets, semicolons and words.
TOKEN = re.compile(
    r"""//[^\n]*|/\*.*?\*/|b?r(?P<fence>\#*)".*?"(?P=fence)|b?"(?:[^"\\]|\\.)*"|b?'(?:[^'\\\n]|\\[^\n']+)'|[][(){};]|\w+|.""",
    re.DOTALL,
)
COMMENT = re.compile(r"//[^\n]*|/\*.*?\*/", re.DOTALL)
FUNCTION = re.compile(r"\bfn\s+(\w+)")
# What stands before the braces of a clause of a contract.
CLAUSE = re.compile(r"(?:\b(?:requires|ensures)\s*\*?\s*\w*|\bghost\s+\w+\s*:)\s*\Z")
MODULE = re.compile(r"\bmod\s+(\w+)\s*\Z")
# An `impl` of a type's own methods, with the name of the type.
METHODS = re.compile(r"\bimpl\b\s*(?:<.*?>)?\s*(?:\w+::)*(\w+)\s*(?:<[^{]*>)?\s*(?:\bwhere\b.*)?\Z", re.DOTALL)
TYPE = re.compile(r"^ *(?:pub(?:\([a-z]+\))? )?(?:struct|enum) (\w+)", re.MULTILINE)


class Body:
    """The body of a function. `path` is the function's, as the prover names it; `owner` is the type whose method it is, or None; `head` is
    its text up to the body. `item`, `start` and `end` are places in the file: of the head, of the body's first brace, and past its last."""

    def __init__(self, path, owner, head, item, start, end):
        self.path, self.name, self.owner, self.head = "::".join(path), path[-1], owner, head
        self.item, self.start, self.end = item, start, end

    def is_const(self):
        """Whether a value may be computed of it before any proof."""
        return bool(re.search(r"\bconst\s+fn\b", self.head))


class Reader:
    """Reads the items of one source file, and finds the bodies of its functions."""

    def __init__(self, text):
        self.text, self.tokens, self.next, self.found = text, [*TOKEN.finditer(text)], 0, []

    def past_brackets(self):
        """Reads to the end of the brackets that are open, and answers where that is."""
        depth = 1
        while depth:
            token = self.tokens[self.next][0]
            depth += (token in ("(", "[", "{")) - (token in (")", "]", "}"))
            self.next += 1
        return self.tokens[self.next - 1].end()

    def read_items(self, path, owner=None):
        """Reads items up to the brace that ends them, or to the end of the file."""
        item = self.tokens[self.next].start() if self.next < len(self.tokens) else 0
        while self.next < len(self.tokens):
            token = self.tokens[self.next]
            self.next += 1
            if token[0] == "}":
                return
            if token[0] == ";":
                item = token.end()
            elif token[0] in ("(", "["):
                self.past_brackets()
            elif token[0] == "{" and self.read_braces(path, owner, item, token.start()):
                item = self.tokens[self.next - 1].end()

    def read_braces(self, path, owner, item, start):
        """Reads what is in the braces that begin here, and answers whether the item ends with them."""
        head = COMMENT.sub("", self.text[item:start])
        function = FUNCTION.search(head)
        if function and CLAUSE.search(head):
            self.past_brackets()
            return False
        if function:
            self.found.append(Body([*path, function[1]], owner, head, item, start, self.past_brackets()))
        elif module := MODULE.search(head):
            self.read_items([*path, module[1]])
        elif " for " not in head and (methods := METHODS.search(head)):
            self.read_items([*path, methods[1]], methods[1])
        else:
            self.past_brackets()
        return True


def module_of(file):
    """The path of the module in a file, by the file's path below src/."""
    path = file[: -len(".rt")].split("/")
    return [] if path in (["lib"], ["main"]) else path


def bodies_in(text, module=()):
    """The bodies of the functions in the text of a module, except those of traits and of their methods."""
    reader = Reader(text)
    reader.read_items([*module])
    return reader.found


def bodies_of(source):
    """The bodies of the functions in the files below this folder, by file, except those of traits and of their methods."""
    found, types = {}, {}
    for place, _, files in os.walk(source):
        for file in files:
            path = f"{place}/{file}"
            with open(path, encoding="utf-8") as whole:
                text = whole.read()
            module = module_of(os.path.relpath(path, source))
            found[path] = bodies_in(text, module)
            for name in TYPE.findall(text):
                types.setdefault(name, []).append(module)
    for body in (it for bodies in found.values() for it in bodies):
        # methods that stand in another module than their type are named by the type's
        if body.owner and len(types.get(body.owner, [])) == 1:
            body.path = "::".join([*types[body.owner][0], body.owner, body.name])
    return found

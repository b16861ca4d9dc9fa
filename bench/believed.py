#!/usr/bin/env python3
"""Prints what has to be believed: the definitions that the clauses of the top call reach, file by file.

    bench/believed.py              the list, from the lowest crate up
    bench/believed.py --write      writes it between the two marks of docs/DEFINITIONS.md
    bench/believed.py --compare    compares it with what stands there; status 1 where they differ
    bench/believed.py --why NAME   by which names the clauses come to a definition
    bench/believed.py --at FOLDER  of another copy of the repository

The top call is what the program's `main` calls of `slee_run` (crates/slee/src names it): its signature and its clauses. A name
is followed through the `use` line that brings it into its file (`ghost use` in .rt, `use` in .antt): from a clause to a
definition, from there to the definitions that it names, and so on; to a type of the code, and from that to the types of its
parts, or to what contracts see of it (its `Model`); to a trait in a signature, and from that to its clauses. Only names that
are used count, and not those that a proof alone names. Words of std and mathlib come with the toolchain and aren't followed.
"""
import os
import re
import sys

BEGIN = "<!-- made by bench/believed.py: begin -->"
END = "<!-- made by bench/believed.py: end -->"
TOP = "slee_run"
PROGRAM = "slee"

# A text, a word, a hole of an operator, a bracket, or a run of other signs.
TOKEN = re.compile(r'"(?:\\.|[^"\\])*"|[^\W\d][\w\'-]*|\d+|[(){};,.λ]|[^\s\w(){};,.λ"]+')
HEADER = re.compile(r"^((?:pub|abbrev|unfoldable|pattern|mutual|axiom) )*(?P<kind>record |data )?(?P<name>\S+)")
STARTS = re.compile(r"^(?:(?:pub|abbrev|unfoldable|pattern|axiom) |(?:record|data) )")


def without_comments(text, sign):
    """The text without what stands behind the sign of a comment, except in a text of the language."""
    kept = []
    for line in text.split("\n"):
        for part in re.finditer(r'"(?:\\.|[^"\\])*"|(?:(?<=\s)|^)' + re.escape(sign), line):
            if part.group() == sign:
                line = line[: part.start()]
                break
        kept.append(line)
    return "\n".join(kept)


def tokens_of(text):
    """The tokens, each with its beginning and its end."""
    return [(found.group(), found.start(), found.end()) for found in TOKEN.finditer(text)]


def is_word(token):
    return token[:1].isalpha() or token[:1] == "_"


def used_names(line):
    """What a `use` line of .antt or a `ghost use` of .rt brings: (name here, module, name there or None for the whole module)."""
    found = re.match(r"(?:pub )?use ([^\s{;]+?)(?:\.\{(.*)\}| as (\S+?))?;?$", " ".join(line.split()))
    if not found:
        sys.exit(f"a line that isn't understood: {line}")
    module, names, alias = found.groups()
    if names is None:
        return [(alias or module.split(".")[-1], module, None)]
    parts = [part.strip() for part in names.split(",") if part.strip()]
    return [(part.split(" as ")[-1], module, part.split(" as ")[0]) for part in parts]


def unfolded(lines):
    """The lines with words on them, those of a `mutual` block as if they stood outside it."""
    inside = False
    for line in lines:
        if not line.strip():
            continue
        if not line[0].isspace():
            inside = bool(re.match(r"(abbrev |unfoldable )?mutual\s*$", line))
            if inside:
                continue
        elif inside:
            line = line[2:]
            if re.match(r"\S+ : ", line):
                line = "abbrev " + line
        yield line


def first_sentence(text):
    """What the comment at the head of a file says first, as it stands in brackets."""
    lines = []
    for line in text.split("\n"):
        if not line.startswith("--"):
            break
        lines.append(line[2:].strip())
    sentence = re.sub(r" \([^)]*\)", "", " ".join(lines)).split(". ")[0].rstrip(".")
    return sentence[:1].lower() + sentence[1:] if sentence[1:2].islower() or sentence[1:2] == " " else sentence


class Spec:
    """A file of specs/: its uses, and the text of each definition by its name."""

    def __init__(self, path):
        with open(path, encoding="utf-8") as file:
            text = file.read()
        self.subject = first_sentence(text)
        self.uses, self.items, self.parts, self.kinds, self.order = {}, {}, {}, {}, []
        self.reexports = []
        chunks = []
        for line in unfolded(without_comments(text, "--").split("\n")):
            if not line[0].isspace():
                chunks.append(line)
            else:
                chunks[-1] += "\n" + line
        current = None
        for chunk in chunks:
            if re.match(r"(pub )?use ", chunk):
                for here, module, there in used_names(chunk):
                    self.uses[here] = (module, there)
                if chunk.startswith("pub use"):
                    self.reexports.append(chunk)
            elif re.match(r"(pub mod|infix[lr]?) ", chunk):
                continue
            elif STARTS.match(chunk):
                header = HEADER.match(chunk)
                current = header.group("name")
                self.kinds[current] = (header.group("kind") or "").strip()
                self.items.setdefault(current, []).append(chunk[header.end():])
                self.order.append(current)
                if self.kinds[current] == "data":
                    for part in re.findall(r"^\s+([^\W\d][\w'-]*)(?= [^\n]*:| *:)", chunk, re.M):
                        self.parts[part] = current
            else:
                head = chunk.split()[0]
                self.items[head if head in self.items else current].append(chunk)


class Code:
    """A file of src/: its uses in clauses and in code, and its text."""

    def __init__(self, path):
        with open(path, encoding="utf-8") as file:
            self.text = without_comments(file.read(), "//")
        self.uses, self.rust = {}, {}
        for line in re.findall(r"^\s*ghost (use [^;]*;)", self.text, re.M):
            for here, module, there in used_names(line):
                self.uses[here] = (module, there)
        for line in re.findall(r"^\s*(?:pub )?use ([^;]*);", self.text, re.M):
            self.take_rust("", line)
        self.declares = {name: kind for kind, name in re.findall(r"\b(struct|enum|trait|type|const) ([A-Za-z_]\w*)", self.text)}

    def take_rust(self, before, tree):
        tree = tree.strip()
        group = re.match(r"(.*?)\{(.*)\}$", tree, re.S)
        if group:
            for part in split_outside(group.group(2)):
                self.take_rust(before + group.group(1).strip(), part)
        elif tree:
            path, _, alias = (before + tree).partition(" as ")
            steps = path.strip().split("::")
            self.rust[alias.strip() or steps[-1]] = (steps[0], steps[-1])


def split_outside(text):
    """Parts between commas that stand in no braces."""
    parts, depth, begun = [], 0, 0
    for at, sign in enumerate(text):
        depth += (sign == "{") - (sign == "}")
        if sign == "," and depth == 0:
            parts.append(text[begun:at])
            begun = at + 1
    return [part for part in parts + [text[begun:]] if part.strip()]


def braced(text, at):
    """The place behind the brace that closes the one at `at`."""
    depth = 0
    for token, begin, end in tokens_of(text[at:]):
        depth += (token == "{") - (token == "}")
        if depth == 0:
            return at + end
    sys.exit("a brace that isn't closed")


class Repository:
    def __init__(self, folder):
        self.folder = folder
        self.crates = sorted(os.listdir(os.path.join(folder, "crates")))
        self.specs, self.codes, self.why = {}, {}, {}

    def spec(self, crate, name):
        key = (crate, name)
        if key not in self.specs:
            path = os.path.join(self.folder, "crates", crate, "specs", name.replace(".", "/") + ".antt")
            self.specs[key] = Spec(path) if os.path.exists(path) else None
        return self.specs[key]

    def code(self, crate, name):
        key = (crate, name)
        if key not in self.codes:
            path = os.path.join(self.folder, "crates", crate, "src", name + ".rt")
            self.codes[key] = Code(path) if os.path.exists(path) else None
        return self.codes[key]

    def files_of(self, crate):
        folder = os.path.join(self.folder, "crates", crate, "src")
        found = []
        for at, _, names in os.walk(folder):
            found += [os.path.relpath(os.path.join(at, name), folder)[:-3] for name in names if name.endswith(".rt")]
        return sorted(found)

    def in_module(self, module, name):
        """The node that a name of a module is, or None where it is of another repository; a whole module where there is no name."""
        steps = module.split(".")
        if steps[0] != "Rattle" or steps[1] not in self.crates:
            return None
        crate, rest = steps[1], steps[3:]
        if steps[2] != "specs":
            return None
        if rest[0] in ("declared", "contracts"):
            return self.in_declared(crate, rest[1:], name)
        if name is None:
            return ("module", crate, ".".join(rest))
        while rest:
            spec = self.spec(crate, ".".join(rest))
            if spec:
                return self.in_spec(crate, ".".join(rest), name)
            name, rest = rest[-1], rest[:-1]
        sys.exit(f"no file for {module}.{{{name}}}")

    def in_spec(self, crate, file, name):
        spec = self.spec(crate, file)
        if name in spec.items:
            return ("spec", crate, file, name)
        if name in spec.parts:
            return ("spec", crate, file, spec.parts[name])
        for chunk in spec.reexports:
            for here, module, there in used_names(chunk):
                if here == name or there is None:
                    return self.in_module(module, there or name)
        sys.exit(f"crates/{crate}/specs/{file} has no {name}")

    def in_declared(self, crate, steps, name):
        """A type or a constant of the code, by the path of its generated module."""
        whole = steps + ([name] if name else [])
        if "TheConstants" in whole:
            at = whole.index("TheConstants")
            file = "/".join(whole[:at]) or "lib"
            return ("const", crate, file, whole[-1]) if at + 1 < len(whole) else None
        for end in range(len(whole), 0, -1):
            file = "/".join(whole[: end - 1]) or "lib"
            code = self.code(crate, file)
            if code and whole[end - 1] in code.declares:
                return ("type", crate, file, whole[end - 1])
        return None

    def in_rust(self, crate, file, name):
        """The type that a name of code is, or None."""
        code = self.code(crate, file)
        if name in code.declares:
            return ("const" if code.declares[name] == "const" else "type", crate, file, name)
        where, there = code.rust.get(name, (None, None))
        if where in ("crate", "super", "self"):
            where = crate
        if where not in self.crates:
            return None
        for other in self.files_of(where):
            kind = self.code(where, other).declares.get(there)
            if kind:
                return ("const" if kind == "const" else "type", where, other, there)
        return None

    # What a piece of text names.

    def look_up(self, place, word):
        """What a word is where it stands: ('spec' | 'code', crate, file)."""
        kind, crate, file = place
        if kind == "code":
            code = self.code(crate, file)
            if word in code.uses:
                return self.in_module(*code.uses[word])
            return self.in_rust(crate, file, word)
        spec = self.spec(crate, file)
        if word in spec.items or word in spec.parts:
            return self.in_spec(crate, file, word)
        if word in spec.uses:
            return self.in_module(*spec.uses[word])
        return None

    def is_part(self, place, word):
        """Whether a word of a pattern is a case and no new name: a case of a `data`, or a variant of the code."""
        kind, crate, file = place
        if kind != "spec":
            return False
        spec = self.spec(crate, file)
        if word in spec.parts:
            return True
        module, there = spec.uses.get(word, ("", None))
        if not module.startswith("Rattle."):
            return False
        if there is None or ".declared." in module:
            return True
        node = self.in_module(module, there)
        return bool(node) and node[0] == "spec" and there in self.spec(node[1], node[2]).parts

    def operators(self, place):
        """Definitions whose names have holes, by their first piece."""
        kind, crate, file = place
        if kind != "spec":
            names = [name for name in self.code(crate, file).uses if "◌" in name]
        else:
            spec = self.spec(crate, file)
            names = [name for name in list(spec.items) + list(spec.uses) if "◌" in name]
        return {[piece for piece in name.split("◌") if piece][0]: name for name in names}

    def names_in(self, place, text, is_equation=False, bound=()):
        """The nodes that a piece names. A name that the piece itself binds is none of them, as far as it is bound."""
        tokens = tokens_of(text)
        operators = self.operators(place)
        scopes, pending, found, at = [set(bound)], [], [], 0
        if is_equation:
            depth = 0
            for last, (token, _, _) in enumerate(tokens):
                depth += (token in "({") - (token in ")}")
                if token == "=" and depth == 0:
                    break
            for index, (token, begin, _) in enumerate(tokens[:last]):
                if not is_word(token):
                    continue
                after_dot = index > 0 and tokens[index - 1][0] == "." and tokens[index - 1][2] == begin
                if after_dot:
                    continue
                if self.is_part(place, token):
                    found += self.qualified(place, tokens, index)
                elif index > 0:
                    scopes[0].add(token)
            at = last
        while at < len(tokens):
            token, begin, end = tokens[at]
            after = tokens[at + 1][0] if at + 1 < len(tokens) else ""
            before = tokens[at - 1] if at else ("", -1, -1)
            if token in ("(", "{"):
                ahead, names = at + 1, []
                while ahead < len(tokens) and is_word(tokens[ahead][0]):
                    names.append(tokens[ahead][0])
                    ahead += 1
                binds = names and ahead < len(tokens) and tokens[ahead][0] == ":"
                pending.append(set(names) if binds else set())
                scopes.append(set())
                if binds:
                    at = ahead
            elif token in (")", "}"):
                if len(scopes) > 1:
                    scopes.pop()
                    scopes[-1] |= pending.pop()
            elif token == "λ":
                while at + 1 < len(tokens) and tokens[at + 1][0] != ".":
                    at += 1
                    scopes[-1].add(tokens[at][0])
            elif token == "let":
                while at + 1 < len(tokens) and tokens[at + 1][0] not in (":", "="):
                    at += 1
                    scopes[-1].add(tokens[at][0])
            elif is_word(token):
                is_field = before[0] == "." and before[2] == begin and before[1] > 0 and not text[before[1] - 1].isspace()
                is_label = after == "=" and len(scopes) > 1
                if after == "←":
                    scopes[-1].add(token)
                elif not is_field and not is_label and not any(token in scope for scope in scopes):
                    if token == "do" and ">>=" in operators:
                        found.append(self.look_up(place, operators[">>="]))
                    found += self.qualified(place, tokens, at)
            if token in operators:
                found.append(self.look_up(place, operators[token]))
            at += 1
        return [node for node in found if node]

    def qualified(self, place, tokens, at):
        """What a word is, or the word behind its dot where it stands for a module."""
        node = self.look_up(place, tokens[at][0])
        if node and node[0] == "module":
            if at + 2 < len(tokens) and tokens[at + 1][0] == "." and tokens[at + 1][1] == tokens[at][2]:
                return [self.in_spec(node[1], node[2], tokens[at + 2][0])]
            return []
        return [node]

    # What a node names.

    def next_of(self, node):
        kind, crate, file, name = node
        if kind == "spec":
            return self.next_of_definition(crate, file, name)
        if kind == "const":
            return []
        return self.next_of_type(crate, file, name)

    def next_of_definition(self, crate, file, name):
        spec, place = self.spec(crate, file), ("spec", crate, file)
        found = []
        for index, chunk in enumerate(spec.items[name]):
            if spec.kinds[name] == "record":
                found += self.names_in_record(place, chunk)
            elif spec.kinds[name] == "data":
                piece = re.sub(r"^(\s+)[^\W\d][\w'-]*((?: [^\W\d][\w'-]*)*) :", r"\1:", chunk, flags=re.M)
                found += self.names_in(place, piece)
            else:
                found += self.names_in(place, chunk, is_equation=index > 0)
        return found

    def names_in_record(self, place, chunk):
        """Each field's type may name the parameters and the fields before it."""
        parts = re.split(r"^\s+(?:pub )?(?=[^\W\d][\w'-]* :)", chunk, flags=re.M)
        found = self.names_in(place, parts[0])
        bound = {name for names in re.findall(r"[({]([^(){}:]+) :", parts[0]) for name in names.split()}
        for part in parts[1:]:
            field, _, kind = part.partition(" :")
            found += self.names_in(place, kind, bound=bound)
            bound.add(field)
        return found

    def next_of_type(self, crate, file, name):
        code, place = self.code(crate, file), ("code", crate, file)
        kind = code.declares[name]
        begun = re.search(rf"\b{kind} {name}\b", code.text)
        if kind == "trait":
            text = code.text[begun.start(): braced(code.text, code.text.index("{", begun.end()))]
            return self.names_of_clauses(place, text, members=True)
        models = []
        for other in self.files_of(crate):
            theirs = self.code(crate, other)
            for model in re.finditer(rf"\bimpl(?:<[^{{]*?>)? Model for {name}\b", theirs.text):
                text = theirs.text[model.start(): braced(theirs.text, theirs.text.index("{", model.end()))]
                models += self.names_of_clauses(("code", crate, other), text, members=True)
                models.append(None)
        if models:
            return [node for node in models if node]
        opened = re.compile(r"[{(;]").search(code.text, begun.end())
        if opened.group() == ";":
            text = code.text[begun.end(): opened.start()]
        elif opened.group() == "(":
            text = code.text[begun.end(): code.text.index(";", opened.start())]
        else:
            text = code.text[begun.end(): braced(code.text, opened.start())]
        words = re.findall(r"\b[A-Z]\w*", re.sub(r"#\[[^\]]*\]", "", text))
        return [node for node in (self.in_rust(crate, file, word) for word in words if word != name) if node]

    def names_of_clauses(self, place, text, members=False):
        """The nodes that clauses and ghost members name, and the types beside them."""
        found = []
        piece = r"\b(?:ensures|requires)(?: \w+)? \{" + (r"|\bghost \w+(?:: | = )\{" if members else "")
        outside, last = "", 0
        for clause in re.finditer(piece, text):
            if clause.start() < last:
                continue
            close = braced(text, clause.end() - 1)
            found += self.names_in(place, text[clause.end(): close - 1])
            outside += text[last: clause.start()]
            last = close
        outside += text[last:]
        outside = re.sub(r"ghost use [^;]*;", "", outside)
        for word in re.findall(r"\b[A-Z]\w*", outside):
            node = self.in_rust(place[1], place[2], word)
            found += [node] if node else []
        return found

    def clauses_of_call(self, crate, file, name):
        """The signature of a public call with its clauses, up to its body."""
        text = self.code(crate, file).text
        begun = re.search(rf"\bpub (?:const )?fn {name}\b", text)
        at = begun.end()
        while True:
            found = re.compile(r"\b(?:ensures|requires)(?: \w+)? \{|[{;]").search(text, at)
            if found.group() in "{;":
                return text[begun.start(): found.start()]
            at = braced(text, found.end() - 1)

    def top_calls(self):
        """The public calls of the top crate that the program names."""
        program = "".join(self.code(PROGRAM, file).text for file in self.files_of(PROGRAM))
        words = set(re.findall(r"\b[a-z_]\w*(?=\()", program))
        shown = self.code(TOP, "lib").rust
        calls = []
        for file in self.files_of(TOP):
            for inside, name in re.findall(r"^( *)pub (?:const )?fn (\w+)", self.code(TOP, file).text, re.M):
                if name in words and (inside or name in shown):
                    calls.append((file, name))
        return calls

    def reached(self):
        calls = self.top_calls()
        if not calls:
            sys.exit("the program calls nothing of the top crate")
        waiting, nodes = [], set()
        for file, name in calls:
            for node in self.names_of_clauses(("code", TOP, file), self.clauses_of_call(TOP, file, name)):
                waiting.append((node, f"the clauses of {name}"))
        while waiting:
            node, by = waiting.pop()
            if node in nodes or node[0] == "module":
                continue
            nodes.add(node)
            self.why[node] = by
            waiting += [(one, node) for one in self.next_of(node)]
        return calls, nodes


def order_of_crates(folder):
    with open(os.path.join(folder, "crates.txt"), encoding="utf-8") as file:
        lines = [line.split("#")[0].strip() for line in file]
    stands = {line.split(":")[0]: line.split(":")[1].split() for line in lines if ":" in line}
    order = []

    def visit(crate):
        if crate in stands and crate not in order:
            for below in stands[crate]:
                visit(below)
            order.append(crate)

    for crate in stands:
        visit(crate)
    return order


def order_of_files(repository, nodes, crate):
    """The files of a crate's definitions, each behind those that it uses."""
    files = sorted({node[2] for node in nodes if node[0] == "spec" and node[1] == crate})
    order = []

    def visit(file, above):
        if file in order or file in above:
            return
        for module, _ in repository.spec(crate, file).uses.values():
            steps = module.split(".")
            if steps[:3] == ["Rattle", crate, "specs"] and steps[3] in files:
                visit(steps[3], above + [file])
        order.append(file)

    for file in files:
        visit(file, [])
    return order


def listing(repository):
    calls, nodes = repository.reached()
    lines = []
    files = {node[1:3] for node in nodes if node[0] == "spec"}
    of_specs = sum(node[0] == "spec" for node in nodes)
    roots = " and ".join(f"`{name}` (`{TOP}/src/{file}.rt`)" for file, name in sorted(calls, reverse=True))
    lines.append(f"{of_specs} definitions in {len(files)} files, and {len(nodes) - of_specs} types, traits and constants of the code. "
                 f"They are reached from the clauses of {roots}.")
    lines.append("")
    for crate in order_of_crates(repository.folder):
        own = [node for node in nodes if node[1] == crate]
        if not own:
            continue
        lines.append(f"- `{crate}`")
        for file in order_of_files(repository, nodes, crate):
            spec = repository.spec(crate, file)
            names = {node[3] for node in own if node[0] == "spec" and node[2] == file}
            told = ", ".join(f"`{name}`" for name in spec.order if name in names)
            subject = f" ({spec.subject})" if spec.subject else ""
            lines.append(f"  - `specs/{file}`{subject}: {told}")
        code = {}
        for node in own:
            if node[0] != "spec":
                code.setdefault(node[2], set()).add(node[3])
        if code:
            told = "; ".join(f"`{file}.rt`: " + ", ".join(f"`{name}`" for name in sorted(code[file])) for file in sorted(code))
            lines.append(f"  - of the code, `src/`: {told}")
    return "\n".join(lines) + "\n"


def names_of_listing(text):
    """Each definition of a list with its crate and file."""
    names, crate = set(), ""
    for line in text.split("\n"):
        found = re.match(r"- `(\w+)`$", line)
        crate = found.group(1) if found else crate
        for file, told in re.findall(r"`(specs/\w+|\w+\.rt)`(?: \([^`]*\))?: ((?:`[^`]*`(?:, )?)*)", line):
            names |= {f"{crate}/{file} {name}" for name in re.findall(r"`([^`]*)`", told)}
    return names


def main():
    words = sys.argv[1:]
    folder = os.path.dirname(os.path.dirname(os.path.abspath(__file__)))
    if "--at" in words:
        folder = words.pop(words.index("--at") + 1)
        words.remove("--at")
    repository = Repository(folder)
    if words[:1] == ["--why"]:
        _, nodes = repository.reached()
        for node in [node for node in nodes if node[3] == words[1]]:
            while isinstance(node, tuple):
                print("/".join(node[1:3]), node[3])
                node = repository.why[node]
            print(node)
        return
    text = listing(repository)
    if not words:
        print(text, end="")
        return
    path = os.path.join(folder, "docs", "DEFINITIONS.md")
    with open(path, encoding="utf-8") as file:
        page = file.read()
    if BEGIN not in page or END not in page:
        sys.exit(f"{path} lacks the marks of the list")
    before, rest = page.split(BEGIN, 1)
    there, after = rest.split(END, 1)
    if words == ["--write"]:
        with open(path, "w", encoding="utf-8") as file:
            file.write(f"{before}{BEGIN}\n{text}{END}{after}")
    elif words == ["--compare"]:
        if there.strip() != text.strip():
            ours, theirs = names_of_listing(text), names_of_listing(there)
            for what, names in (("is reached, and not in the list", ours - theirs), ("is in the list, and not reached", theirs - ours)):
                for name in sorted(names):
                    print(f"{what}: {name}", file=sys.stderr)
            if ours == theirs:
                print("the names are the same, but not their order or the sentences about files", file=sys.stderr)
            sys.exit("docs/DEFINITIONS.md doesn't list what the clauses of the top call reach: read that, and then run bench/believed.py --write")
    else:
        sys.exit(__doc__)


if __name__ == "__main__":
    main()

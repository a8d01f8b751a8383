"""vocabulary: that contracts, definitions and statements mean by a sign or a word of the logic what the logic means; read for tools/audit.

A spec that declares a `◌≡◌` of its own as Unit, and is imported by the source, empties every contract that is written with it: the words
stay, and nothing is said. So it is a fault, in src/, specs/ and proofs/, where

- a sign is declared or bound: a name is made of what `PLAIN` has, so neither `◌≡◌` nor one that looks like it can be made here;
- a file has a character that is not seen, or its code one that is not among `SIGNS`;
- src/ or specs/ import anything under another name, or a file declares what it imports;
- a word of the logic (`HOMES`, and what else src/ and specs/ import from its libraries) is declared or bound, or imported under another
  name or from a place that does not have it from where its own place has it (tools/library.py); the words that are a field's, a case's or a
  bound name here too are in `ALSO_OURS`, and are no definition in specs/. In proofs/ a word may come from any library;
- so too, in src/, specs/ and beside an equality line, with the words that every answer is said by (`ANSWERS`);
- a source imports a word that a clause has of itself (`CLAUSE_WORDS`), or a parameter is called `result`;
- a module, or the short name of one, is called as a library is; a `use` line brings all names, or is not read here; a line `infix`,
  `open` .. is there;
- an equality line names a type of the code's that its file declares, or imports from elsewhere than the code;
- a contract has a comment in it, or a clause that is not `requires { .. }` or `ensures { .. }`, with a name or without, of one plain fact:
  what a comment, a wand or an `or` of memory says is not ensured.

The libraries are read where the toolchain has them: a word that its own place does not have is a fault too, so that none of this is held
of nothing."""
import glob
import os
import re
import unicodedata

from library import has, is_library, mounts, origin

PLAIN = re.compile(r"#?[A-Za-z0-9_ℕℤ₀-₉'?-]+(?:\+[A-Za-z0-9_ℕℤ₀-₉'?-]+)*")
SIGNS = set("→≡∷ℕλ∙≤ℤ×⊥⊎↦←↔»«≢τσ₀₁₂₃₄₅₆₇₈₉◌")

# where src/ and specs/ have the logic's words from
HOMES = {name: module for module, names in {
    "Rattle.std.specs.Prelude": "ℕ zero suc min ◌+◌ ◌-◌ ◌*◌ ◌/◌ ◌%◌ ◌^◌ ◌<◌ ◌≤◌ count_ones T eqb leb ltb Float ℤ pos negsuc nat_abs neg_ℤ"
        " ◌+ℤ◌ ◌-ℤ◌ ◌*ℤ◌ ◌<ℤ◌ ◌≤ℤ◌ length get_or take drop set Option Some None Result Ok Err Bool true false not ◌&&◌ ◌||◌ List [] ◌∷◌ ◌++◌ map reverse ◌↔◌ ◌⊎◌ ◌≡◌ refl",
    "Rattle.std.specs.Borrow": "Bor",
    "Rattle.std.specs.Float": "binary64 fin inf nan",
    "Rattle.std.specs.Float.Ieee": "add div down eq fits le lt mul of_bits of_int rem round size sub to_signed to_unsigned up neg",
    "Rattle.std.specs.Float.Ieee.Exact": "HasValue",
    "Rattle.std.specs.Float.Ieee.Nearest": "closest",
    "Rattle.std.specs.Float.Ieee.Positive": "positive",
    "Rattle.std.specs.Float.Ieee.Scale": "finite",
    "Rattle.std.specs.Int.Signed": "le_z lt_z mag",
    "Rattle.std.proofs.lemmas.List.Edits": "sets",
}.items() for name in names.split()}
# what every file has with no `use` line, and the names of no library but the prover's own
LENT = dict.fromkeys("Unit tt ⊥ Dec Discrete IsProp IsSet Path Id J Type".split(), "the logic")
# what a clause calls the result, and what stands behind a reference
CLAUSE_WORDS = set("result now old new".split())
# words of the logic that this project has too, as a field, a case, a bound name, or a law or a part of a proof
ALSO_OURS = set("add down finite fits inf kept le map nan ones pos positive set size up zero".split())
ALSO_BOUND = {*ALSO_OURS, "length", "take", "T"}
# the words that every answer is said by
ANSWERS = {name: module for module, names in {
    "Rattle.base.specs.Said": "Said gives refuses refusal outcome outcome_by pick and_then One",
    "Rattle.telbijan_answers.specs.Interface": "code result kept field_of number_in detail_in",
}.items() for name in names.split()}
# types of values that equality lines are written with and that no code declares
OUR_TYPES = {"Entry": "Rattle.sorting.specs.Entries"}

USE = re.compile(r"^ *((?:ghost |pub |unfoldable )*)use\s+([^\s{};]+?)(?:(?:\.|::)\{([^}]*)\}|\s+as\s+([^\s;]+))?;?[ ]*$", re.M)
BLOCK, NAMED = r"(record|data|module|mutual|ruleset) +([^\s({]*)", r"((?:(?![=→:|λ] )[^\s(){},;.]+ +)+)(?:\{[^}]*\} +)?:(?= |$)"
DECLARED = re.compile(rf"^( *)(?:abbrev |unfoldable |opaque |axiom )*(?:pub )?(?:{BLOCK}|{NAMED})", re.M)
BOUND = re.compile(r"[({]\s*([^\s(){}:.;,]+(?:\s+[^\s(){}:.;,]+)*)\s+:\s|λ ([^.]*)\.|\blet\s+([^\s:=]+)")
BOUND_SIGN = re.compile(r"[({]([^(){}:]*◌[^(){}:]*)\s:\s|λ ([^.]*◌[^.]*)\.|\blet\s+(\S*◌\S*)")
HEAD = re.compile(r"^( *)(?:pub )?(?:extern \"C\" )?fn (\w+)(.*?)(?:^\1\{$| \{$|(?<=\});$)", re.M | re.S)
# a ghost member of a trait, or of an impl
MEMBER = re.compile(r"^    ghost (\w+)(?:: | = )\{.*?\};$", re.M | re.S)
MARKS = {"_", "abbrev", "pub", "unfoldable", "opaque", "axiom", "let", "in", "use", "mod", "ghost"}


QUOTED = r"b?'(?:\\.|[^'\\])'|\"(?:\\.|[^\"\\])*\""
COMMENT = {".rt": r"//[^\n]*|/\*.*?\*/", ".antt": r"\{-.*?-\}|(?<![^\s(){}.;,])--(?=[ \n-])[^\n]*"}


def code(path):
    """A file without its comments and without what is quoted, which begins none; but for the "C" of a call for C."""
    with open(path) as file:
        text = file.read()
    kind = os.path.splitext(path)[1]
    quoted = QUOTED if kind == ".rt" else r"\"(?:\\.|[^\"\\])*\""
    return re.sub(rf"({quoted})|{COMMENT[kind]}", lambda found: found[1] if found[1] == '"C"' else "", text, flags=re.S)


def is_sign(name):
    return not PLAIN.fullmatch(name)


# ---- a file
class Source:
    """A file of src/, specs/ or proofs/: its code, what it imports by (module, name, name here), and its short names of modules."""

    def __init__(self, path):
        self.path, self.code, self.faults = path, code(path), []
        self.kind = path.split("/")[2]
        self.uses, self.shorts, lines = [], {}, 0
        for marks, module, names, short in USE.findall(self.code):
            lines += 1
            if path.endswith(".rt") and "ghost" not in marks:
                continue
            listed = [each.split() for each in names.split(",") if each.strip()]
            if module.endswith("*") or ["*"] in listed:
                self.fault(f"brings all names of {module}")
            self.shorts |= {short: module} if short else {}
            for name, *renamed in listed:
                inner, _, last = name.rpartition(".")
                self.uses.append((f"{module}.{inner}" if inner else module, last, renamed[-1] if renamed else last))
        if lines != len(re.findall(r"(?<![\w.-])use(?![\w-])", self.code)):
            self.fault("has a `use` line that is not read here")
        self.rest = USE.sub("", self.code)
        lines = re.findall(r"^( *)pub (\S+_one) :(.*?)^\1(?:unfolding [^\n]*\n\1)*\2\b", self.rest, re.M | re.S)
        self.said_by_one = {word for _, _, said in lines if self.kind == "proofs" for word in re.findall(r"[^\s(){}]+", said)}

    def fault(self, said):
        self.faults.append(f"{self.path}: {said}")

    def declared(self):
        """The names that it declares, each with whether that is a definition: neither a field, a case nor a part of a proof."""
        block = None
        for indent, kind, name, names in DECLARED.findall(self.rest):
            block = block if indent else kind
            for each in names.split() if names else [name]:
                if each and each not in MARKS:
                    yield each, not indent or (block in ("module", "mutual") and self.kind == "specs")

    def bound(self):
        if self.path.endswith(".rt"):
            heads = [head for _, _, head in HEAD.findall(self.code)]
            yield from (name for head in heads for name in re.findall(r"(\w+): ", head.split(")")[0]) if name in HOMES)
            yield from (name for head in heads for name in re.findall(r"λ (\w+)|\blet (\S+)", head) for name in name if name)
            return
        for group, binders, name in (BOUND_SIGN if self.kind == "proofs" else BOUND).findall(self.rest):
            yield from re.findall(r"[^\s(){}:,]+", group or name or re.sub(r":[^(){}]*", "", binders))


def sources():
    found = [path for kind in ("src", "specs", "proofs") for path in sorted(glob.glob(f"crates/*/{kind}/**/*", recursive=True))]
    return [Source(path) for path in found if re.search(r"\.(?:rt|antt)$", path)]


# ---- what is wrong
def audit_characters(file):
    with open(file.path, newline="") as opened:
        whole = opened.read()
    unseen = {char for char in set(whole) - set(" \n") if unicodedata.category(char)[0] in "CZM"}
    for char in sorted(unseen):
        file.fault(f"has the character U+{ord(char):04X}, which is not seen")
    for char in sorted({char for char in set(file.code) if ord(char) > 126} - SIGNS - unseen):
        file.fault(f"has the sign {char} (U+{ord(char):04X}), which nothing here is written with")


def audit_words(file, watched):
    imported = {here for _, _, here in file.uses}
    for name, defines in file.declared():
        if defines and name in imported:
            file.fault(f"declares {name}, and imports it")
        if is_sign(name) and name[0] != "«":
            file.fault(f"declares {name}: a sign means what the logic means by it")
        elif name in watched and (name not in ALSO_OURS or (defines and file.kind == "specs")):
            file.fault(f"declares {name}, which is {watched[name]}'s")
    for name in file.bound():
        if "◌" in name:
            file.fault(f"binds {name}: a sign means what the logic means by it")
        elif name in HOMES and name not in ALSO_BOUND and file.kind != "proofs":
            file.fault(f"binds {name}, which is {watched[name]}'s")
    for name in re.findall(r"[^\s(){}.;,@\"«»]*◌[^\s(){}.;,@\"«»]*", file.rest) if file.kind != "proofs" else []:
        file.fault(f"names {name} outside a `use` line")
    if file.path.endswith(".antt"):
        audit_form(file)


def audit_form(file):
    """What could be written in a way that is not read here."""
    for name in re.findall(r"^ *(infix[lr]?|syntax|notation|axiom)\b|(?<![\w.-])(open)(?![\w-])", file.rest, re.M):
        file.fault(f"has a line `{''.join(name)}`")
    for name in re.findall(r"^ *(?:(?:abbrev|unfoldable|pub) )*([^\s(){}]*◌[^\s(){}]*)(?! \{)(?=\s)", file.rest, re.M):
        file.fault(f"declares {name}: a sign means what the logic means by it")
    if re.search(r"^[^\n]*\bwhere +\S", file.rest, re.M):
        file.fault("has more behind `where` on its line")
    with open(file.path) as opened:
        text = opened.read()
    if re.search(r"\{-|(?<![^\s(){}.;,])--[^ \n-]", text):
        file.fault("has a comment that is not a line from -- on")


def audit_imports(file, watched):
    places = {module.split(".")[-1]: module for module in HOMES.values()}
    roots = {*mounts(), "Prim", "Rattle"}
    for short, module in file.shorts.items():
        if short in roots or places.get(short, module) != module:
            file.fault(f"calls {module} {short}, as a library is called")
    for name in re.findall(r"^ *(?:pub )?mod (\S+)", file.rest, re.M) if file.path.endswith(".antt") else []:
        if name in roots:
            file.fault(f"has a module {name}, called as a library is")
    for module, name, here in file.uses:
        elsewhere = not is_library(module)
        home = watched.get(name, module)
        is_home = home == module or (not elsewhere and is_library(home) and origin(home, name) == origin(module, name))
        if here != name and (file.kind != "proofs" or (here in watched and elsewhere) or is_sign(here) or is_sign(name)):
            file.fault(f"imports {name} of {module} as {here}")
        elif not is_home and (file.kind != "proofs" or is_sign(name) or (elsewhere and name not in ALSO_OURS)):
            file.fault(f"imports {name} from {module}, which is {home}'s")
        elif is_sign(name) and elsewhere:
            file.fault(f"imports {name} from {module}, which is no library of the logic")


def audit_types(file, types):
    """An equality line of a function is read by the names of the code's types."""
    if not any("pub " in code(path) for path in glob.glob(f"crates/{file.path.split('/')[1]}/src/**/*.rt", recursive=True)):
        return
    for name in sorted({name for name, defines in file.declared() if defines} & types & file.said_by_one):
        file.fault(f"declares {name} for an equality line, where that is a type of the code's")
    for module, name, here in file.uses:
        if here in types & file.said_by_one and ".specs.declared." not in module and OUR_TYPES.get(here) != module:
            file.fault(f"imports {here} from {module} for an equality line, where that is a type of the code's")


CLAUSE = re.compile(r"\s*(requires|ensures)(?: \w+)? \{")


def clauses_in(head):
    """The clauses of a function's head, each as its kind and its text; None where one is of another form."""
    found, at = [], re.search(r"(?<!\S)(?:requires|ensures|ghost)\b|\Z", head).start()
    while begins := CLAUSE.match(head, at):
        depth, at = 1, begins.end()
        while depth and at < len(head):
            depth += {"{": 1, "}": -1}.get(head[at], 0)
            at += 1
        found.append((begins[1], head[begins.end():at - 1]))
    said = [text for _, text in found if re.search(r"[⌜⌝∗ₛ]|-∗|^\s*λ", text)]
    return None if said or head[at:].strip() else found


def audit_contracts(file):
    with open(file.path) as opened:
        text = opened.read()
    if len(HEAD.findall(file.code)) != len(re.findall(r"\bfn\b", file.code)):
        file.fault("has a function that is not read here")
    for _, name, head in HEAD.findall(text):
        if re.search(r"//|/\*|(?<!\S)--|\{-", head):
            file.fault(f"{name} has a comment in its contract")
        elif clauses_in(head) is None:
            file.fault(f"{name} has a clause that is not one plain fact")
        if "result" in re.findall(r"(\w+): ", head.split(")")[0]):
            file.fault(f"{name} calls a parameter result, as a clause calls what it answers")
    for _, name, here in file.uses:
        if {name, here} & CLAUSE_WORDS:
            file.fault(f"imports {name}, which a clause has of itself")
    if re.search(r"\bghost\b(?! use )", MEMBER.sub("", file.code)):
        file.fault("has something ghost that is no `use` line and no member of a trait or an impl")


def misused(types):
    """The faults of all files; `types` are the names that an equality line takes for types of the code's."""
    files, homes = sources(), dict(HOMES)
    for module, name, _ in [use for file in files if file.kind != "proofs" for use in file.uses]:
        if is_library(module):
            homes.setdefault(name, module)
    faults = [f"vocabulary: {module} of the logic has no {name}" for name, module in sorted(homes.items()) if not has(module, name)]
    for file in files:
        place = "Rattle." + re.sub(r"^crates/|\.\w+$", "", file.path).replace("/", ".")
        answers = {name: module for name, module in ANSWERS.items() if module != place and (file.kind != "proofs" or file.said_by_one)}
        audit_characters(file)
        audit_words(file, {**LENT, **answers, **homes})
        audit_imports(file, {**LENT, **answers, **homes})
        if file.said_by_one:
            audit_types(file, types)
        if file.path.endswith(".rt"):
            audit_contracts(file)
        faults += file.faults
    return faults

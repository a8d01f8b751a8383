"""equality: what an equality line (NAME_one) states, read for tools/audit. With the parameters of the modules around it a line has one of two forms:

    (x .. : DATA) .. → One says s × ..                         of crates/base: says r ≡ s and says r' ≡ s give r ≡ r'
    (x .. r r' : DATA) .. → FACT r → FACT r' → (r ≡ r') × ..    the same written out: a fact of one result, and of another

DATA is a type of values, known by its form (`is_data`), or in the line of a generic function any type, `{A : Type 0}` (`kinds`); any other premise
is a fault. Of a trait's function, or one generic in a trait, the contract is read at each type, with what the trait's ghost members are there, and
(λ x. BODY) t is BODY of t, where BODY has x and binds nothing. What is asked of a result, `says r ≡ s` or each part of FACT,
must be what the contract ensures, with the line's variables replaced by terms of what goes in; and what is equated must be the result and all that
a `&mut` holds after the call. Terms are compared as they are written, but for quotes, the abbreviations of the line's own file, and those
that stand for a relation in the specs of the crate or of a telbijan_ crate below it, or for a lent table in a file Lent.antt of the specs of
a crate below it (`short_names`); a name is the same where both files import it from one place, under whatever name of its module. A contract
is read with these written out (`ensured`), so that an argument that a relation leaves out is not there."""
import re

from library import origin
from vocabulary import clauses_in

# records of columns or of stored numbers, and what makes them: equal where these are
TABLES = {"ItemTable": "item_table", "ListTable": "list_table", "Kbm": "mapping_with", "SclRead": "read_with"}
VALUES = {"ℕ", "ℤ", "Float", "Bool", "Entry", *TABLES}  # and each struct and enum of the sources; lists, options, results, answers and functions of these
ONE = "abbrev pub One : {A B : Type 0} → (A → B) → B → Type 0\nOne {A} {B} says s = (x y : A) → says x ≡ s → says y ≡ s → x ≡ y\n"
# what every contract of a call for C is said by, as it must stand
SAID_IN = "crates/telbijan_answers/specs/Interface.antt"
SAID_BY = {
    "code": "code number detail = detail % 2 ^ 56 * 256 + number % 256\n",
    "result": "result (gives a) = 0\nresult (refuses number detail) = code number detail\n",
    "kept": "kept (gives a) old = a\nkept (refuses number detail) old = old\n",
    "field_of": "field_of part (gives a) = gives (part a)\nfield_of part (refuses number detail) = refuses number detail\n",
}
RESULT = "the result"  # what a contract calls `result`
ONE_OF = "Rattle.base.specs.Said.One"  # where it is imported from
JOINS = {"λ", "let", "in", "if", "then", "else", "match", "case", "with", "where"}
BINDS = {"×", "≡", "+", "-", "*", "/", "%", "^", "++", "∷", "[]", "⊥", "{"}  # signs that join no more than their sides
MAKERS = {("list_table", "Rattle.sorted.specs.Lent.list_table")}  # what makes a table, by its place, where that is a file of short names
LENT = ".specs.Lent"  # the file of specs that has short names for lent tables, in each crate that has such


# ---- names, and what a file takes them from
class Name(str):
    """A word without its module, and the places that it is imported from: none for what is bound or declared beside it, more than one for the same thing handed on."""

    places = frozenset()


def places_of(word):
    return getattr(word, "places", frozenset())


def is_same(term, other):
    """Whether two terms are one, name for name: two words are one name from one place, or both from none."""
    if isinstance(term, tuple) and isinstance(other, tuple):
        return len(term) == len(other) and all(map(is_same, term, other))
    return term == other and (places_of(term) == places_of(other) or not places_of(term).isdisjoint(places_of(other)))


def imports(text):
    """Where a file imports names from: the places of each, and the module that each name of a module stands for."""
    names, modules = {}, {}
    for path, listed, alias in re.findall(r"^(?:ghost |pub |unfoldable )*use ([^\s{};]+?)(?:\.\{([^}]*)\}| as (\S+?))?;?$", text, re.M):
        modules |= {alias: path} if alias else {}
        for name, here in re.findall(r"([^\s,]+)(?: as ([^\s,]+))?", listed):
            names.setdefault((here or name).strip("◌"), set()).add(origin(path, name))
            modules[here or name] = f"{path}.{name}"
    return names, modules


def named(word, names, modules):
    found = re.fullmatch(r"([A-Z]\w*)\.((?:[A-Z]\w*\.)*(\w.*))", word)
    name = Name(found[3] if found else word)
    name.places = frozenset([origin(*f"{modules.get(found[1], found[1])}.{found[2]}".rsplit(".", 1))] if found else names.get(word, ()))
    return name


# ---- terms: a word, or a tuple of terms
PROJECTED = re.compile(r"((?:[A-Z]\w*\.)*[^.]*\.?)((?:\.[^.]+)*)")  # what is named, maybe in a module, and the fields that are taken of it


def closed(parts):
    return parts[0] if len(parts) == 1 else tuple(parts)


def parse(text, known=({}, {})):
    """A text by its parentheses, in a file with these imports; a group in braces begins with one, and x.f, written tight, is (x .f)."""
    groups = [[]]
    for before, word in re.findall(r"(?<=(.))([(){};,]|[^\s(){};,]+)", " " + re.sub(r"[«»]|--[^\n]*", "", text), re.S):
        if word in "({":
            groups.append(["{"] if word == "{" else [])
        elif word in ")}":
            group = groups.pop()
            groups[-1].append(closed(group))
        else:
            found = PROJECTED.fullmatch(word)
            first, fields = found.groups() if found else (word, "")
            if first or before not in ")}" or not fields:
                groups[-1].append(named(first or word, *known))
                fields = fields if first else ""
            for field in re.findall(r"\.[^.]+", fields):
                groups[-1].append((groups[-1].pop(), field))
    return closed(groups[0])


def is_field(term):
    return isinstance(term, tuple) and len(term) == 2 and isinstance(term[1], str) and re.fullmatch(r"\.[^.]+", term[1])


def shown(term):
    if is_field(term):
        return f"{shown(term[0]) if is_field(term[0]) or isinstance(term[0], str) else f'({shown(term[0])})'}{term[1]}"
    return " ".join(f"({shown(each)})" if isinstance(each, tuple) and not is_field(each) else shown(each) for each in term if each != "{") if isinstance(term, tuple) else term


def split(term, sign):
    """The parts of a term between a sign outside all parentheses."""
    parts = [[]]
    for each in term if isinstance(term, tuple) else (term,):
        if each == sign:
            parts.append([])
        else:
            parts[-1].append(each)
    return [closed(part) for part in parts]


def is_joined(term):
    """Whether something outside all parentheses may bind less than × and ≡ do, so that what these join does not stand by itself."""
    signs = [each for each in term if isinstance(each, str)] if isinstance(term, tuple) else []
    return any(each in JOINS or each.endswith(".") or not (each in BINDS or re.search(r"\w", each)) for each in signs)


def factors(term):
    parts = [term] if is_joined(term) else split(term, "×")
    return [term] if len(parts) == 1 else [factor for part in parts for factor in factors(part)]


def sides(factor):
    return [factor] if is_joined(factor) else split(factor, "≡")


def replaced(term, by):
    return tuple(replaced(each, by) for each in term) if isinstance(term, tuple) else by.get(term, term)


def applied(term):
    """A term with each (λ x. BODY) t as BODY of t, where BODY has x in it and binds nothing."""
    if not isinstance(term, tuple):
        return term
    term = tuple(map(applied, term))
    first = term[0] if term else ()
    if len(term) < 2 or not isinstance(first, tuple) or first[0] != "λ" or not re.fullmatch(r"\w+\.", str(first[1])):
        return term
    body = closed(first[2:])
    name, inside = first[1][:-1], words(body)
    return applied(closed((replaced(body, {name: term[1]}), *term[2:]))) if name in inside and inside.isdisjoint(JOINS) else term


def words(term):
    return {word for each in term for word in words(each)} if isinstance(term, tuple) else {term}


def by_columns(term, table):
    """A term with each column of a table, (TABLE .COLUMN), as one word."""
    if isinstance(term, tuple) and len(term) == 2 and term[0] == table and term[1][0] == ".":
        return f"{table}{term[1]}"
    return tuple(by_columns(each, table) for each in term) if isinstance(term, tuple) else term


def abbreviations(text, kind="", module=None):
    """Those of a file that have one equation with plain parameters, and a type that ends so: each by its name, and by the place that
    others import it from, if others do."""
    found = re.findall(rf"^( *)abbrev (?:pub )?(\S+) :[^\n]*{kind}\n\1\2((?: \w+)*) =([^\n]*(?:\n\1 +[^\n]*)*)", text, re.M)
    found = [(name, *rest) for _, name, *rest in found if len(re.findall(rf"^ *{re.escape(name)}(?![^\s({{])", text, re.M)) == 1]
    names, modules = imports(text)
    names |= {name: {f"{module}.{name}"} for name, *_ in found if module}
    return {(name, f"{module}.{name}" if module else None): (words.split(), parse(body, (names, modules))) for name, words, body in found}


def short_names(texts):
    """What these texts, specs by their modules, have for short names of relations and of lent tables, but for what makes a table."""
    names = {}
    for module, text in texts:
        kind = "(?:Type 0|Table)" if module.endswith(LENT) else "Type 0"
        names |= {place: found for place, found in abbreviations(text, kind, module).items() if place not in MAKERS}
    return names


def unfolded(term, meant):
    """A term without these abbreviations."""
    if not isinstance(term, tuple):
        return term
    term = tuple(unfolded(each, meant) for each in term)
    places = places_of(term[0]) if isinstance(term[0], str) else ()
    parameters, body = next((meant[term[0], place] for place in places or (None,) if (term[0], place) in meant), ((), None))
    if not body or len(parameters) != len(term) - 1:
        return term
    return unfolded(replaced(body, dict(zip(parameters, term[1:]))), meant)


# ---- a line
def is_data(kind, types):
    parts = split(kind, "→")
    if len(parts) > 1:
        return all(is_data(part, types) for part in parts)
    if isinstance(kind, str):
        return kind in VALUES or kind in types
    return len(kind) == {"List": 2, "Said": 2, "Option": 2, "Result": 3}.get(kind[0]) and all(is_data(part, types) for part in kind[1:])


def binders(premise):
    """The groups (x .. : KIND) that a premise is, each as its names and its kind; None where it is no such thing."""
    groups = [premise] if ":" in premise else premise
    if isinstance(groups, str) or not all(isinstance(group, tuple) and ":" in group for group in groups):
        return None
    return [split(group[1:] if group[0] == "{" else group, ":") for group in groups]


def modules_around(text, at):
    """The parameters of the modules in which the line at a place of a file stands."""
    found, lines, depth = [], text[:at].split("\n")[:-1], len(re.match(" *", text[at:])[0])
    for number in range(len(lines) - 1, -1, -1):
        begins = len(re.match(" *", lines[number])[0])
        if begins < depth and not re.match(r" *(?:--|$)", lines[number]):
            depth = begins
            found += re.findall(r"\A *(?:pub )?module \S+(.*?)\bwhere\b", "\n".join(lines[number:]), re.S)
    return [parse(parameters, imports(text)) for parameters in found if parameters.strip()]


class Line:
    """The statement at a place of a file: its variables (`inputs`, those that stand for types `kinds`), the results that it equates with others
    (`results`), what it asks of them (`facts`, each by its sides), and what is wrong with its form (`fault`, else None)."""

    def __init__(self, text, at, statement, types, meant):
        self.inputs, self.kinds, self.results, self.facts, self.fault = set(), set(), set(), [], None
        meant = meant | abbreviations(text)
        *premises, conclusion = split(parse(statement, imports(text)), "→")
        asked, tables = [], set()
        for premise in [*modules_around(text, at), *premises]:
            groups = binders(premise)
            if groups is None:
                asked.append(unfolded(premise, meant))
            for names, kind in groups or []:
                if kind == ("Type", "0"):
                    self.kinds |= words(names)
                    continue
                self.inputs |= words(names)
                tables |= words(names) if kind in TABLES else set()
                if not is_data(kind, types | self.kinds):
                    self.wrong(f"asks for {shown(names)} : {shown(kind)}")
        ends = factors(unfolded(conclusion, meant))
        if asked and "One" not in words(conclusion):
            self.written_out(asked, [split(end, "≡") for end in ends])
        else:
            for premise in asked:
                self.wrong(f"asks for {shown(premise)}")
            for end in ends:
                self.one(end)
        for table in tables:
            self.take_apart(table)

    def wrong(self, said):
        self.fault = self.fault or said

    def one(self, end):
        parts = [part for part in end if part[0] != "{"]
        if len(parts) != 3 or parts[0] != "One" or places_of(parts[0]) != {ONE_OF}:
            return self.wrong(f"ends in {shown(end)}, which is not the One of crates/base")
        result, says = f"result {len(self.facts)}", parts[1]
        self.results.add(result)
        given = isinstance(says, tuple) and not is_joined(says) and not is_field(says)  # says is what is given to a function, but for the last
        self.facts.append([applied((*says, result) if given else (says, result)), parts[2]])

    def written_out(self, asked, ends):
        pairs = dict(end for end in ends if len(end) == 2)
        self.results, others = set(pairs), set(pairs.values())
        if len(pairs) != len(ends) or len(others) != len(ends) or self.results & others or not self.inputs >= self.results | others:
            return self.wrong("does not end by equating results with others")
        if len(asked) != 2 or not is_same(asked[1], replaced(asked[0], pairs)) or not words(asked[0]) >= self.results or words(asked[0]) & others:
            return self.wrong(f"asks for {' and '.join(map(shown, asked))}: not the same fact of each result")
        self.inputs -= self.results | others
        self.facts = [sides(factor) for factor in factors(asked[0])]

    def take_apart(self, table):
        """A table that is named by its columns alone is as many variables: it is made of any columns."""
        facts = [[by_columns(side, table) for side in sides] for sides in self.facts]
        found = {word for sides in facts for side in sides for word in words(side)}
        if table not in found:
            self.facts, self.inputs = facts, self.inputs | {word for word in found if word.startswith(f"{table}.")}


# ---- a line against a contract
def ensured(contract, text, meant):
    """What a contract of a file says, each fact by its sides."""
    said = [text for kind, text in clauses_in(contract) or [] if kind == "ensures"]
    return [list(map(applied, sides(factor))) for each in said for factor in factors(unfolded(replaced(parse(each, imports(text)), {"result": RESULT}), meant))]


def ended(term):
    """The `&mut` of which a term is what it holds after the call, `x.new`, and in a definition over what a parameter is `x.exit.now`; else none."""
    if is_field(term) and term[1] == ".new" and isinstance(term[0], str):
        return term[0]
    return term[0][0] if is_field(term) and term[1] == ".now" and is_field(term[0]) and term[0][1] == ".exit" and isinstance(term[0][0], str) else None


def left_in(term):
    """The names of each `&mut` of which a term of a contract says what it holds after the call."""
    if ended(term):
        return {ended(term)}
    return set().union(*map(left_in, term)) if isinstance(term, tuple) else set()


def answers(contract):
    """Whether a contract equates the result with something else."""
    return any(len(fact) == 2 and fact[0] == RESULT and RESULT not in words(fact[1]) for fact in contract)


def outputs(term):
    """The results that a term of a contract is: the result, what a `&mut` holds after the call, a record of such; else none."""
    if term == RESULT:
        return {RESULT}
    if not isinstance(term, tuple):
        return set()
    if ended(term):
        return {ended(term)}
    parts = [outputs(part) for part in term[1:]] if term[0] in TABLES.values() else [set()]
    return set().union(*parts) if all(parts) else set()


def matches(pattern, term, line, bound, inner=frozenset()):
    """Whether a term of a contract is a line's term with its variables replaced; `bound` says by what, and grows. What a λ around the term binds,
    `inner`, is no such thing."""
    if isinstance(pattern, str) and pattern in line.inputs | line.results:
        fits = outputs(term) if pattern in line.results else not words(term) & {RESULT, ".exit", ".new", *inner}
        return bool(fits) and is_same(bound.setdefault(pattern, term), term)
    if isinstance(pattern, str) or isinstance(term, str):
        return is_same(pattern, term)
    inner |= {name[:-1] for sign, name in zip(term, term[1:]) if sign == "λ" and isinstance(name, str)}
    return len(pattern) == len(term) and all(matches(*pair, line, bound, inner) for pair in zip(pattern, term))


def settled(line, contract):
    """The results that a line equates under a contract; None where it asks for what the contract does not ensure."""
    bound = {}
    for fact in line.facts:
        for said in contract:
            trial = dict(bound)
            if len(fact) == len(said) and all(matches(*sides, line, trial) for sides in zip(fact, said)):
                bound = trial
                break
        else:
            return None
    return set().union(*(outputs(bound[result]) for result in line.results))

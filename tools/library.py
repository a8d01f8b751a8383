"""library: the libraries that the toolchain has, for tools/vocabulary.py and tools/equality.py: which modules are theirs, and where a name of
theirs comes from, since many hand on what another declares."""
import functools
import json
import os
import re
import subprocess

HANDED = re.compile(r"^ *(?:unfoldable )?pub use\s+([^\s{};]+?)(?:\.\{([^}]*)\}|\s+as\s+([^\s;]+))?;?[ ]*$", re.M)


@functools.cache
def kit():
    try:
        said = subprocess.run(["rt", "doc"], capture_output=True, text=True, check=True).stdout.split("\n")[0]
        return os.path.join(os.path.dirname(said), "rattle")
    except (OSError, subprocess.CalledProcessError):
        return "/"


@functools.cache
def mounts():
    """The folders of the logic's libraries, by their names."""
    logic = os.path.join(kit(), "logic")
    try:
        with open(os.path.join(logic, "antt-project.json")) as file:
            found = {name: os.path.join(logic, place) for name, place in json.load(file)["mounts"].items()}
    except (OSError, ValueError, KeyError):
        return {}
    return {name: os.path.join(place, "src") if os.path.isdir(os.path.join(place, "src")) else place for name, place in found.items()}


@functools.cache
def own():
    return {re.split(r"\W", line)[0] for line in open("crates.txt") if re.match(r"\w", line)}


def is_library(module):
    first, *rest = module.split(".")
    return first in {*mounts(), "Prim"} or (first == "Rattle" and bool(rest) and rest[0] not in own())


@functools.cache
def text(module):
    """The file of a module as it is named, or nothing."""
    first, *rest = module.split(".")
    if first == "Rattle" and len(rest) > 1:
        path = os.path.join(kit(), rest[0], rest[1], *rest[2:] or ["Lib"])
    else:
        path = os.path.join(mounts().get(first, "/"), *rest or ["Lib"])
    if not os.path.isfile(f"{path}.antt"):
        return ""
    with open(f"{path}.antt") as file:
        return file.read()


@functools.cache
def resolved(module):
    """The module that is named so: itself where it has a file, else the one that the module above it hands on."""
    above, _, last = module.rpartition(".")
    if not above or text(module) or not is_library(module):
        return module
    above = resolved(above)
    if text(f"{above}.{last}"):
        return f"{above}.{last}"
    for other, names, short in HANDED.findall(text(above)):
        if names is not None and not names and (short or other.rpartition(".")[2]) == last:
            return resolved(other)
    return f"{above}.{last}"


@functools.cache
def origin(module, name):
    """Where a name that is imported from a module of a library is declared, as far as files say it."""
    module = resolved(module)
    for other, names, _ in HANDED.findall(text(module)) if is_library(module) else []:
        for listed in names.split(",") if names else []:
            was, *renamed = listed.split(" as ")
            if (renamed[0] if renamed else was).strip() == name:
                return origin(other, was.strip())
    return f"{module}.{name}"


def has(module, name):
    """Whether a library's module has this name; the prover has Prim and the types that code declares itself, and no file."""
    module, _, last = origin(module, name).rpartition(".")
    word = rf"(?<![^\s(){{}},.]){re.escape(last)}(?![^\s(){{}},.])"
    return module.startswith("Prim.Native.") or ".specs.declared." in module or bool(re.search(word, text(module)))

"""Reads definitions: what each file of specs/ declares, from where the words of a file come, and what rests on what.

A clause names words; the file that it stands in says from which file of definitions each word comes. There the definition of the
word stands, with the words that it names in turn. Where a name is also that of a variable, both are taken.
"""
import collections
import functools
import os
import re

TOP = os.path.dirname(os.path.dirname(os.path.realpath(__file__)))
USE = re.compile(r"(?m)^\s*(?:pub |ghost )?use ([\w.]+?)(?:\.\{([^}]*)\}|(?: as (\w+))?);?$")
WORD = re.compile(r"[^\s(){},;]+")
# what a line of a definition declares: a word of its own, a member of a record, or a way to make data
DECLARED = re.compile(r"(?m)^\s*(?:(?:abbrev|pub|unfoldable|data|record) )*([^\s(){}:]+)(?: [^:=]*)? :(?: |$)")


def read(path):
    with open(f"{TOP}/{path}", encoding="utf-8") as file:
        return file.read()


def definitions_of(module):
    """Returns the file of definitions of this repository that a module is, or nothing."""
    name, _, rest = module.removeprefix("Rattle.").partition(".specs.")
    path = f"crates/{name}/specs/{rest.replace('.', '/')}.antt"
    return path if module.startswith("Rattle.") and rest and os.path.exists(f"{TOP}/{path}") else None


def is_type(module):
    """Tells whether a module is a type of the code, as definitions see it."""
    name, _, rest = module.removeprefix("Rattle.").partition(".specs.declared.")
    return bool(rest) and os.path.exists(f"{TOP}/crates/{name}")


class Names:
    """From where the words of a file come."""

    def __init__(self, text):
        self.modules = {}
        self.aliases = {}
        for module, names, alias in USE.findall(text):
            if not names:
                self.aliases[alias or module.split(".")[-1]] = module
            for name in filter(None, map(str.strip, names.split(","))):
                own, _, called = name.partition(" as ")
                self.modules[called or own] = (module, own)

    def named(self, words):
        """Returns each module of which some of these words are, with its own word."""
        parts = words | {word.split(".")[0] for word in words}
        for called, (module, own) in self.modules.items():
            if all(part in parts for part in called.split("◌") if part):
                yield module, own
        for word in words:
            first, _, rest = word.partition(".")
            if rest and first in self.aliases:
                yield self.aliases[first], rest.split(".")[0]


class Subject:
    """A file of definitions."""

    def __init__(self, path):
        text = read(path)
        self.names = Names(text)
        self.definitions = []
        for part in re.split(r"\n\n(?! )", USE.sub("", text)):
            lines = [line for line in part.splitlines() if line.strip() and not line.strip().startswith("--")]
            if lines:
                self.definitions.append("\n".join(lines))

    def places(self, words):
        """Returns the numbers of the definitions of some words."""
        parts = words | {word.split(".")[0] for word in words}
        for number, text in enumerate(self.definitions):
            if any(all(part in parts for part in name.split("◌") if part) for name in DECLARED.findall(text)):
                yield number


@functools.cache
def subject(path):
    return Subject(path)


class Basis:
    """What some statements rest on."""

    def __init__(self):
        self.definitions = collections.defaultdict(set)
        self.types = set()
        self.library = set()

    def add_words(self, names, words):
        """Adds what words of a file name."""
        for module, own in names.named(words):
            path = definitions_of(module)
            if is_type(module):
                self.types.add(module.split(".TheVariants")[0])
            elif path:
                self.add(path, list(subject(path).places({own})) or range(len(subject(path).definitions)))
            else:
                self.library.add((module, own))

    def add(self, path, places):
        """Adds definitions of a file, and all that they rest on."""
        for place in places:
            if place not in self.definitions[path]:
                self.definitions[path].add(place)
                words = set(WORD.findall(subject(path).definitions[place]))
                self.add(path, subject(path).places(words))
                self.add_words(subject(path).names, words)

    def told(self, with_files):
        """Returns lines that tell it."""
        lines = {path: sum(subject(path).definitions[place].count("\n") + 1 for place in places)
                 for path, places in self.definitions.items()}
        crates = collections.Counter()
        for path, count in lines.items():
            crates[path.split("/")[1]] += count
        yield (f"{sum(crates.values())} lines of definitions in {len(lines)} files, {len(self.types)} types of the code, "
               f"{len(self.library)} words of the toolchain's library in {len({module for module, _ in self.library})} files")
        for crate, count in crates.most_common():
            yield f"  {crate} {count}"
            for path in sorted(lines) if with_files else []:
                if path.split("/")[1] == crate:
                    yield f"    {path} {lines[path]}"

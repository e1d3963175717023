"""Which definitions of the specs/ folders clauses cite: a module of tools/check_tables.py.

A file names a definition after a `use` that brings it in. So the words of a source, without its comments and `use`
lines, have the names of all that its clauses cite. A definition cites others in the same way.
"""
import re

USE = re.compile(r"^ *(pub |ghost )?use Rattle\.(\w+)\.specs\.([\w.]+?)(?:\.\{(.*)\};?|\s*)$", re.M)
HEAD = re.compile(r"^( *)(?:module _|(?:abbrev pub|unfoldable pub|pub record|pub data) (\S+))", re.M)
COMMENT = re.compile(r"(?:^|(?<=\s))(?:--|//[/!]?) .*", re.M)
BETWEEN = re.compile(r"[\s(){}\[\],;:]+")


def used(text):
    """What each `use` line names: the file of definitions; the names, each with the one that it has here, if that is
    another; and the word before `use`, if there is one."""
    return [(f"{crate}/specs/{module.replace('.', '/')}.antt",
             [part.strip().partition(" as ")[::2] for part in names.split(",")], how.strip())
            for how, crate, module, names in USE.findall(text)]


def known(text, *hows):
    """The definitions that such `use` lines bring in, by the names that they have here."""
    return {here or name: (file, name) for file, names, how in used(text) if how in hows for name, here in names}


def words(text):
    """The words of a text without its comments and `use` lines. Of `x.f` only x is one: f is a field."""
    return {word.partition(".")[0] for word in BETWEEN.split(COMMENT.sub("", USE.sub("", text)))}


def definitions(text):
    """Each definition of a file, with its words. One in a module has those of the module's variables, too."""
    heads = list(HEAD.finditer(text))
    found, module = {}, set()
    for head, end in zip(heads, [later.start() for later in heads[1:]] + [len(text)]):
        indent, name = head.groups()
        here = words(text[head.start():end])
        if name:
            found[name] = here | module if indent else here
        else:
            module = here
    return found


def citing(file, text):
    """What each definition of a file cites. A name that the file hands on cites what it stands for."""
    defined = definitions(text)
    names = {**known(text, "", "pub"), **{name: (file, name) for name in defined}}
    return {**{(file, here): {definition} for here, definition in known(text, "pub").items()},
            **{(file, name): {names[word] for word in here if word in names} for name, here in defined.items()}}


def cited(sources, graph):
    """The definitions that the sources cite, and all that these cite in turn."""
    found, left = set(), []
    for text in sources:
        here = words(text)
        left += [definition for name, definition in known(text, "ghost").items() if name in here]
    while left:
        definition = left.pop()
        if definition not in found:
            found.add(definition)
            left += graph.get(definition, ())
    return found


def uncited(specs, sources):
    """How many definitions there are, and those that no source cites: the file and the name of each."""
    graph = {}
    for file, text in specs.items():
        graph.update(citing(file, text))
    defined = [(file, name) for file, text in specs.items() for name in definitions(text)]
    found = cited(sources, graph)
    return len(defined), [definition for definition in defined if definition not in found]

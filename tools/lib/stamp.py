"""What out/ holds, and of which sources: a module of tools/build.py and of what asks for its programs.

out/PROVED or out/UNPROVED is beside the programs, and never both: a sentence, then lines of a word and what it is:
  kit K        the kit's line (`rt version`)
  sources S    the SHA-256 of all that the programs are made from
  NAME S       the SHA-256 of the program NAME
"""
import hashlib
import pathlib
import subprocess

TOP = pathlib.Path(__file__).resolve().parent.parent.parent
PROGRAMS = ("g1pause", "g1heap")
PARTS = ("src", "specs", "proofs")
SENTENCES = {
    "PROVED": "The programs beside this file are proved: rt proved each crate that they are made of, and built them.",
    "UNPROVED": "Nothing is proved of the programs beside this file. tools/build.py proves them and builds them anew.",
}


def rows(top=TOP):
    """What each crate of crates.txt uses: of the repository, by name."""
    lines = [line.partition("#")[0].strip() for line in (top / "crates.txt").read_text().splitlines()]
    named = [line.partition(":") for line in lines if line]
    uses = {name.split()[0]: used.split() for name, _, used in named}
    return {name: [word for word in used if word in uses] for name, used in uses.items()}


def lines_of(names, top=TOP):
    """The lines of crates.txt that name these crates."""
    lines = (top / "crates.txt").read_text().splitlines(True)
    return "".join(line for line in lines if line.partition("#")[0].partition(":")[0].split()[:1] in ([name] for name in names))


def needed(names, uses):
    """These crates and all below them, lowest first."""
    found = []
    for name in names:
        found += [below for below in [*needed(uses[name], uses), name] if below not in found]
    return found


def sum_of(path):
    return hashlib.sha256(path.read_bytes()).hexdigest()


def sources(top=TOP, names=PROGRAMS):
    """The SHA-256 of all that these crates are made from."""
    found = hashlib.sha256()
    paths = [top / "crates.txt", top / "HANDLES"]
    for name in needed(names, rows(top)):
        paths += sorted(path for part in PARTS for path in (top / "crates" / name / part).rglob("*") if path.is_file())
    for path in paths:
        found.update(f"{path.relative_to(top)} {sum_of(path)}\n".encode())
    return found.hexdigest()


def tree(top=TOP):
    """The commit that the crates are of, as a short word, or nothing if git does not say."""
    def git(*words):
        done = subprocess.run(["git", *words, "--", "crates", "crates.txt", "HANDLES"], cwd=top, capture_output=True, text=True,
                              check=False)
        return done.stdout.strip() if done.returncode == 0 else ""

    try:
        commit = git("log", "-1", "--format=%h", "--abbrev=8")
        return f"{commit} changed" if commit and git("status", "--porcelain") else commit
    except OSError:  # there is no git
        return ""


def kit():
    return subprocess.run(["rt", "version"], capture_output=True, text=True, check=True).stdout.strip()


def write(out, word, kit_line, sources_sum, files):
    """Writes the stamp, of the kind that the word says, once the files are in place."""
    lines = [SENTENCES[word], f"kit {kit_line}", f"sources {sources_sum}"]
    lines += [f"{name} {sum_of(out / name)}" for name in files]
    (out / word).write_text("\n".join(lines) + "\n")


def read(out, word):
    """The lines of the stamp, by their first word, or none."""
    try:
        lines = (out / word).read_text().splitlines()[1:]
    except FileNotFoundError:
        return {}
    return {name: rest for name, _, rest in (line.partition(" ") for line in lines)}


def is_current(out, word, sources_sum):
    """Whether out/ has the programs of these sources, as the stamp says."""
    said = read(out, word)
    return said.get("sources") == sources_sum and all(
        (out / name).is_file() and said.get(name) == sum_of(out / name) for name in PROGRAMS)

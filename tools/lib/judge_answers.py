"""The answers of the judge's calls as numbers: made of a fault, of a line of g1heap, and of the readings in image_text.py and
losses.py. For tools/test_judge.py."""
import re
import subprocess

import image_text
import losses
from heap_image import MOST_REGIONS, NULL
from opponent import refused

KINDS, STALE = {"split": 4, "joined": 5, "size": 6, "slots": 7, "data": 8}, 20
PLACES = {"region": 1, "root": 2, "slot": 3, "log place": 4}
FIELDS = ("image", "fault", "place", "kind", "at", "root", "slots", "before", "after", "first", "second", "third", "objects",
          "words")


def answer(**fields):
    """The numbers of an answer in their order; what is not said is 0."""
    return [fields.get(name, 0) for name in FIELDS]


def reference(text):
    return int(text.removeprefix("object ")) + 1 if text != "null" else 0


def of_fault(which, line):
    """The answer to 'N: TEXT', a fault of the first image or the second."""
    number, text = line.split(": ")
    named = re.search(r"(region|root|slot|log place) (\d+)$", text)
    place, at = (PLACES[named[1]], int(named[2])) if named else (0, 0)
    return answer(image=which, fault=int(number), place=place, at=at)


def of_difference(line):
    """The answer to a line 'differ ..' of g1heap."""
    roots = re.fullmatch(r"differ roots: (\d+) before, (\d+) after", line)
    if roots:
        return answer(kind=1, first=int(roots[1]), second=int(roots[2]))
    stale = re.fullmatch(r"differ stale at root (\d+)((?: slot \d+)*): (.*?) before; the word (?:still )?is (\d+), .*", line)
    if stale:
        path = [int(slot) for slot in re.findall(r"\d+", stale[2])]
        return answer(kind=STALE, root=int(stale[1]), slots=len(path), before=reference(stale[3]), after=int(stale[4])) + path
    found = re.fullmatch(r"differ (\w+) at root (\d+)((?: slot \d+)*): (.*?) before, (.*?) after(?:; (.*))?", line)
    kind, detail = found[1], [int(number) for number in re.findall(r"\d+", found[6] or "")]
    before, after = reference(found[4]), reference(found[5])
    path = [int(slot) for slot in re.findall(r"\d+", found[3])]
    numbers = {"null": lambda: (0, 0, 0), "split": lambda: (detail[0], detail[1], after - 1),
               "joined": lambda: (detail[1], before - 1, detail[0]), "size": lambda: (*detail, 0),
               "slots": lambda: (*detail, 0), "data": lambda: tuple(detail)}[kind]()
    code = KINDS.get(kind) or (2 if before == NULL else 3)
    return answer(kind=code, root=int(found[2]), slots=len(path), before=before, after=after, first=numbers[0],
                  second=numbers[1], third=numbers[2]) + path


def fault_of(program, named):
    """The status and the answer of `g1heap: FILE: fault N: TEXT`. None if it said something else."""
    found = re.match(r"g1heap: (.*): fault (\d+: .*)\n", program.stderr)
    return [program.returncode] + of_fault(1 if found[1] == str(named) else 2, found[2]) if found else None


def by_heap(heap, before, after):
    """What the call has to say of two files: what `g1heap same` prints, as a status and the numbers of an answer."""
    ran = subprocess.run([heap, "same", before, after], capture_output=True, text=True)
    line = (ran.stdout or ran.stderr).rstrip("\n")
    if ran.returncode == 0:
        objects, words = re.findall(r"\d+", line)
        return [0] + answer(objects=int(objects), words=int(words))
    if ran.returncode == 1:
        return [1] + of_difference(line)
    return fault_of(ran, before) or [ran.returncode, line]


def refused_after(heap, after):
    """What g1_kept has to say of a second text that is no image. Where `g1heap same` compares it, for its words without an
    object, g1_kept refuses it. None if it is an image."""
    ran = subprocess.run([heap, "print", "--summary", after], capture_output=True, text=True)
    found = re.match(r"g1heap: .*: fault (\d+: .*)\n", ran.stderr)
    return [3] + of_fault(2, found[1]) if found else None


def of_loss(loss):
    kind, *three = loss
    return [1] + answer(kind=kind, first=three[0], second=three[1], third=three[2])


def by_rule(before, after, chosen):
    """What g1_kept has to say of two images and a set, from losses.py."""
    taken = set()
    for region in chosen:
        if refused(before, region) or region in taken:
            return [5] + answer(image=1, fault=10, place=1, at=region)
        taken.add(region)
    loss = losses.first(before, after, taken)
    return of_loss(loss) if loss else [0] + answer()


def agrees(heap, before, after, chosen, wanted):
    """Whether `g1heap same --set` says so, too. It compares graphs first, and only then looks at the set."""
    ran = subprocess.run([heap, "same", before, after, "--set", *map(str, chosen)], capture_output=True, text=True)
    if len(set(chosen)) < len(chosen) or any(region >= MOST_REGIONS for region in chosen):
        # The program refuses these regions with its words, whatever the images are.
        return ran.returncode == 2 and not ran.stdout and "for '--set <REGION>...': " in ran.stderr and wanted[0] > 1
    fault, loss = fault_of(ran, before), losses.of_line(ran.stdout.rstrip("\n"))
    if fault or loss:
        return (fault or of_loss(loss)) == wanted
    if ran.returncode == 1:
        refusal = refused_after(heap, after)
        return refusal == wanted if refusal else bool(of_difference(ran.stdout.rstrip("\n"))) and wanted[0] in (1, 5)
    return ran.returncode == wanted[0] == 0 and ran.stdout.endswith("\nkept\n")


def by_text(data, cover):
    """The same of one image, from the reading of image_text.py."""
    fault = image_text.fault_of(data, cover)
    if fault is None:
        return [0] + answer()
    return [4 if fault.startswith("9:") else 3] + of_fault(1, fault)

#!/usr/bin/env python3
"""Reads the pages as a reader does: runs their command lines, and follows their links: check_pages.py [PAGE ..]

With --release FOLDER it reads the pages of an unpacked release, as described at the end.

Without pages: README.md and those of docs/, examples/, examples/*/ and bench/, and all scripts beside them. It needs
the built programs, and takes those of out/, which tools/build.py builds, or those that --program and --heap name.

What is a command: a block of code (indented by four spaces, or fenced) whose first word is one of those in
tools/lib/pages.py. Each of its lines is run by itself, except that some go on: after a backslash at their end, or up
to the last line of a <<END. What such a line is to print is in the block directly behind it, with only empty lines between:
standard output and standard error together, without the lines by which a script says how far it is. A command with no
such block has to end with status 0.
  <!-- figures vary -->        above that block: numbers in it may be others
  <!-- not run: WHY -->        above a block of commands: it is left out, which is said
  <!-- needs: PROGRAM .. -->   anywhere: the page is left out if one of these is not on the path, which is said

Each page runs from top to bottom in one shell, in a fresh checkout: a copy of the repository's files, with the built
programs in out/. None of our programs is on the path of that shell, so a page has to say how it gets them: a page that
calls g1pause or g1heap has to name tools/build.py, which finds them built, and has to put out/ on the path or to write
it. After the page no file may be there that was not, and none may have changed, but those of out/: so a page that
makes a picture which is in the repository has to make the same one again.

Of each page it also looks at the links, to pages, to headings and to files; at the files that sentences name in the
way of `tools/build.py`; and at the scripts that are called, in a block or in a sentence: each is an executable file
that answers --help. Of the scripts, whether each .py file in tools/ is such a script, and none in tools/lib/ is.

The pages of a release run in share/doc/g1pause of a copy of it, with its bin/ on the path. What pages name of the sources
alone, as crates/, need not be there.
The last line is 'N passed, M failed', and the status 0 only if none failed and one passed.
"""
import argparse
import os
import pathlib
import re
import shlex
import shutil
import subprocess
import sys
import tempfile

sys.path.insert(0, str(pathlib.Path(__file__).resolve().parent / "lib"))

import pages  # noqa: E402 (it is in lib/)
import progress  # noqa: E402
from programs import IN_RELEASE  # noqa: E402
import stamp  # noqa: E402

TOP = stamp.TOP
PAGES = ("README.md", "*.md", "docs/*.md", "examples/*.md", "examples/*/*.md", "bench/*.md")
SECONDS = 900  # for one page
SCRIPT = (".py", ".sh")
MODULES = "tools/lib/"
OF_SOURCES = ("crates/", "judge/", "include/", "tools/", "bench/", ".ci/")  # folders of which a release has a part or nothing


def shell_text(steps, folder):
    """A script that runs all steps in one shell, and keeps what each prints, and its status."""
    lines, room = [], shlex.quote(str(folder))
    for at, step in enumerate(steps):
        lines += ["{ " + step.command, f"}} </dev/null >{room}/{at}.out 2>&1", f"echo $? >{room}/{at}.status"]
    return "\n".join(lines) + "\n"


def same_lines(expected, printed, vary):
    if vary:
        expected, printed = ([re.sub(r"\d+", "0", line) for line in lines] for lines in (expected, printed))
    strip = [line.rstrip() for line in expected]
    return strip == [line.rstrip() for line in printed]


def judge(step, folder, at):
    """What is wrong with a step, or None."""
    status_file = folder / f"{at}.status"
    if not status_file.exists():
        return "was not reached"
    status = int(status_file.read_text())
    printed = progress.without_signs((folder / f"{at}.out").read_text(errors="replace").splitlines())
    if step.expected is None:
        return None if status == 0 else f"ended with status {status}: {' / '.join(printed[:3])}"
    if same_lines(step.expected, printed, step.vary):
        return None
    return "\n    ".join(["the page has", *step.expected]) + "\n  " + "\n    ".join(["and it printed", *printed])


def files_of(checkout):
    """The files of the checkout that are in the repository, or would be with the next commit."""
    done = subprocess.run(["git", "ls-files", "-co", "--exclude-standard"], cwd=checkout, capture_output=True,
                          text=True, check=False)
    if done.returncode == 0:
        return [name for name in done.stdout.splitlines() if (checkout / name).is_file()]
    return [str(path.relative_to(checkout)) for path in checkout.rglob("*")
            if path.is_file() and "out" not in path.relative_to(checkout).parts]


def is_release(folder):
    """Whether the folder is that of a release's pages."""
    return folder.parts[-3:] == IN_RELEASE


def copy_of(checkout, target, programs):
    """A fresh checkout in which the programs were built, or a release."""
    if is_release(checkout):
        shutil.copytree(checkout.parents[2], target.parents[2], dirs_exist_ok=True)
        return
    for name in files_of(checkout):
        (target / name).parent.mkdir(parents=True, exist_ok=True)
        shutil.copy2(checkout / name, target / name)
    out = target / "out"
    for name, program in programs.items():
        out.mkdir(exist_ok=True)
        shutil.copy2(program, out / name)
    if set(programs) == set(stamp.PROGRAMS):
        stamp.write(out, "UNPROVED", "any", stamp.sources(target), stamp.PROGRAMS)


def contents(folder):
    return {path.relative_to(folder): path.read_bytes() for path in folder.rglob("*")
            if path.is_file() and not {"out", "__pycache__"} & set(path.relative_to(folder).parts)}


def differences(before, after):
    """What a page left behind, changed or took away."""
    for name in sorted(set(before) | set(after)):
        if name not in before:
            yield f"leaves {name} behind"
        elif name not in after:
            yield f"takes {name} away"
        elif before[name] != after[name]:
            yield f"makes another {name} than the one in the repository"


def bare_path(checkout):
    """The path of a shell that has nothing of the checkout's."""
    folders = os.environ.get("PATH", "").split(":")
    return ":".join(folder for folder in folders if not pathlib.Path(folder).resolve().is_relative_to(checkout))


def path_in(copy, checkout):
    """The path of the shell that runs a page in this copy of the checkout or of the release."""
    return f"{copy.parents[2] / 'bin'}:{bare_path(checkout.parents[2])}" if is_release(copy) else bare_path(checkout)


def run_steps(name, steps, checkout, programs):
    """What is wrong with the commands of a page."""
    wrong = []
    with tempfile.TemporaryDirectory() as room:
        copy, folder = pathlib.Path(room, "checkout", *(IN_RELEASE if is_release(checkout) else ())), pathlib.Path(room) / "answers"
        folder.mkdir()
        copy.mkdir(parents=True)
        copy_of(checkout, copy, programs)
        before = contents(copy)
        environment = dict(os.environ, PATH=path_in(copy, checkout), PYTHONDONTWRITEBYTECODE="1")
        try:
            subprocess.run(["bash", "-c", shell_text(steps, folder)], cwd=copy, env=environment, check=False,
                           timeout=SECONDS)
        except subprocess.TimeoutExpired:
            wrong.append(f"{name}: was ended after {SECONDS} seconds")
        for at, step in enumerate(steps):
            problem = judge(step, folder, at)
            if problem:
                wrong.append(f"{name}:{step.number}: {step.command}\n  {problem}")
        wrong += [f"{name}: {problem}" for problem in differences(before, contents(copy))]
    return wrong


def check_page(name, text, checkout, programs):
    """How many commands of a page are as it says, and what is wrong with the others."""
    steps, left_out = pages.steps_of(text)
    for step, reason in left_out:
        print(f"{name}:{step.number}: not run, {reason}: {step.command}")
    wrong = run_steps(name, steps, checkout, programs)
    if pages.calls_programs(text) and "tools/build.py" not in text:
        wrong.append(f"{name}: calls a program, and does not say that tools/build.py builds it")
    return len(steps), wrong


def wrong_link(page, target):
    """What is wrong with a link, or None."""
    path, _, anchor = target.partition("#")
    if re.match(r"[a-z]+:", target):
        return None
    file = page.parent / path if path else page
    if not file.exists():
        return "there is no such file"
    if anchor and file.suffix == ".md" and anchor not in pages.anchors(file.read_text()):
        return "the page has no such heading"
    return None


def is_of_sources(page, target, checkout):
    """Whether what a page of a release links to or names is in a folder of the sources."""
    path = os.path.relpath(page.parent / target.partition("#")[0], checkout)
    return is_release(checkout) and f"{path}/".startswith(OF_SOURCES)


def check_names(name, page, text, checkout):
    """How many links and names of files a page has, and what is wrong with them."""
    wrong = [f"{name}:{number}: link to {target}: {wrong_link(page, target)}"
             for number, target in pages.links(text) if wrong_link(page, target) and not is_of_sources(page, target, checkout)]
    names = [(number, match.group()) for number, code in pages.words_in(text)
             for match in [pages.OURS.fullmatch(code.split(" ")[0])] if match]
    for number, path in names:
        if "out" not in path.split("/") and not (checkout / path).exists() and not (is_release(checkout) and path.startswith(OF_SOURCES)):
            wrong.append(f"{name}:{number}: there is no {path}")
    return len(pages.links(text)) + len(names), wrong


def answers_help(path):
    """What is wrong with a script that a reader calls, or None."""
    if not os.access(path, os.X_OK):
        return "has no executable bit"
    done = subprocess.run([path, "--help"], stdin=subprocess.DEVNULL, capture_output=True, text=True, check=False,
                          timeout=60, env=dict(os.environ, PYTHONDONTWRITEBYTECODE="1"))
    if done.returncode or path.name not in done.stdout:
        return f"does not answer --help: status {done.returncode}"
    return None


def check_scripts(names, checkout):
    """How many scripts of these names there are, and what is wrong with them."""
    wrong = []
    for name in names:
        problem = answers_help(checkout / name) if (checkout / name).is_file() else None
        if problem:
            wrong.append(f"{name}: {problem}")
    return len(names), wrong


def modules(checkout):
    """What is a module of scripts and can be called, or is a script and can't be."""
    for path in sorted(checkout.glob("tools/*.py")):
        if not os.access(path, os.X_OK):
            yield f"tools/{path.name}: is no script: a module of scripts is in tools/lib/"
    for path in sorted(checkout.glob("tools/lib/*")):
        if path.is_file() and os.access(path, os.X_OK):
            yield f"tools/lib/{path.name}: has the executable bit, and is a module"


def missing(text, programs):
    """The first program that the page needs and that is not there."""
    return next((name for name in pages.needed(text) if name not in programs and not shutil.which(name)), None)


def check_all(files, programs, top=TOP):
    """How many things of these pages are right, and what is wrong."""
    ran, wrong, scripts = 0, [], set()
    for page in progress.over(files, "pages"):
        name = str(page.relative_to(top)) if top in page.parents else str(page)
        text = page.read_text()
        scripts |= {script for _, script in pages.scripts_in(text)
                    if script.endswith(SCRIPT) and not script.startswith(MODULES)}
        found = [check_names(name, page, text, top)]
        if missing(text, programs):
            print(f"{name}: not run, there is no {missing(text, programs)}")
        else:
            found.append(check_page(name, text, top, programs))
        ran += sum(count for count, _ in found)
        problems = [problem for _, wrong_ones in found for problem in wrong_ones]
        for problem in problems:
            print(problem)
        commands = found[1][0] if len(found) > 1 else 0
        print(f"{name}: {commands} commands, {found[0][0]} links and names, {len(problems)} wrong")
        wrong += problems
    count, problems = check_scripts(sorted(scripts), top)
    for problem in problems:
        print(problem)
    print(f"{count} scripts that pages call, {len(problems)} wrong")
    return ran + count, wrong + problems


def given(options):
    """The programs: those that are named, else those of out/ or of the release."""
    named, built = {"g1pause": options.program, "g1heap": options.heap}, options.release / "bin" if options.release else TOP / "out"
    found = {name: pathlib.Path(named[name] or built / name).resolve() for name in stamp.PROGRAMS}
    return {name: program for name, program in found.items() if program.exists()}


def main():
    parser = argparse.ArgumentParser(description=__doc__, formatter_class=argparse.RawDescriptionHelpFormatter)
    parser.add_argument("pages", metavar="PAGE", nargs="*", help="the pages (default: all, and the scripts)")
    parser.add_argument("--program", metavar="FILE", help="g1pause (default: out/g1pause)")
    parser.add_argument("--heap", metavar="FILE", help="g1heap (default: out/g1heap)")
    parser.add_argument("--release", metavar="FOLDER", type=pathlib.Path, help="the pages of this unpacked release")
    options = parser.parse_args()
    top = options.release.resolve().joinpath(*IN_RELEASE) if options.release else TOP
    if not top.is_dir():
        parser.error(f"{options.release} is no unpacked release: there is no {'/'.join(IN_RELEASE)} in it")
    programs = given(options)
    for name in stamp.PROGRAMS:
        if name not in programs:
            parser.error(f"{name} is not built: call tools/build.py, or name it by --program or --heap")
        if shutil.which(name, path=bare_path(TOP)):
            parser.error(f"{name} is on the path, so a page that does not say where it is would pass: take it off")
    files = [pathlib.Path(page).resolve() for page in options.pages] or sorted(
        {page for pattern in PAGES for page in top.glob(pattern)})
    passed, wrong = check_all(files, programs, top)
    if not options.pages and not options.release:
        problems = list(modules(TOP))
        for problem in problems:
            print(problem)
        wrong += problems
    print(f"{max(0, passed - len(wrong))} passed, {len(wrong)} failed")
    return 1 if wrong or not passed else 0


if __name__ == "__main__":
    sys.exit(main())

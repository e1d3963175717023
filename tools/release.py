#!/usr/bin/env python3
"""Makes a release of the programs that tools/build.py proved: release.py FOLDER

It writes FOLDER/g1pause-VERSION-x86_64-linux.tar.gz and the same name with .sha256. In the tar:
  bin/            the programs, stripped; and g1challenge, which is tools/challenge.py
  include/, lib/  the headers and the library of the judge, if the repository has them, with a file for pkg-config; in
                  lib/debug/ the symbols
  share/          manual pages, completion for bash, zsh and fish; in share/doc/g1pause the pages, the examples, and the
                  scripts that the pages call, except those that build or test the sources
  install.sh, uninstall.sh   PREFIX=FOLDER ./install.sh installs all this
  RELEASE         the version, the commit, the kit, and the sums of the programs as rt built them; once installed it is
                  share/g1pause/RELEASE
  SHA256SUMS      the sums of all other files

It refuses programs that are not proved. Those of out/ are, if out/PROVED says so of the sources and of the kit that
are here, if the checkout is that of a commit, without changes, and if rt itself says that its programs are those of
the sources and are these. It refuses a library of the judge that was made without a proof. The same commit, kit and
programs give the same bytes.

It needs rt and git. Statuses: 0 done; 1 refused; 2 usage.
"""
import argparse
import gzip
import hashlib
import io
import pathlib
import re
import shutil
import subprocess
import sys
import tarfile
import tempfile

sys.path.insert(0, str(pathlib.Path(__file__).resolve().parent / "lib"))

import build_judge  # noqa: E402
import completion  # noqa: E402 (it is in lib/)
import manual  # noqa: E402
import pages as page_text  # noqa: E402
import progress  # noqa: E402
import stamp  # noqa: E402
import unproved  # noqa: E402

TOP = stamp.TOP
OUT = TOP / "out"
NOTHING_CHANGED = "nothing has changed since the last proved build"
SECONDS = 120  # that rt may take to say so
# rt ci takes away what rt built before. As long as out/PROVED is right, tools/build.py builds nothing.
ANEW = "remove out/PROVED and call tools/build.py"
SYSTEM = "x86_64-linux"
DOC = "share/doc/g1pause"
# Scripts that a release has no use for.
OF_SOURCES = {"tools/build.py", "tools/build_judge.py", "tools/release.py", "bench/phases.py", "bench/hotspot.py"}
# The scripts of a release that are called by a name of their own.
NAMED = {"g1challenge": "tools/challenge.py"}
IMPORT = re.compile(r"^ *(?:import|from) (\w+)", re.M)


class Refused(Exception):
    """Why there is no release."""


def git(*words):
    done = subprocess.run(["git", *words], cwd=TOP, capture_output=True, text=True, check=False)
    if done.returncode:
        raise Refused(f"git {words[0]}: {done.stderr.strip()}")
    return done.stdout.strip()


def commit_of():
    """The commit that the checkout is, and its time."""
    changed = git("status", "--porcelain")
    if changed:
        raise Refused(f"the checkout has what no commit has: {changed.splitlines()[0].strip()}")
    return git("rev-parse", "HEAD"), int(git("log", "-1", "--format=%ct"))


def ask_proved():
    """Sees that there is out/PROVED, and returns what it says."""
    said = stamp.read(OUT, "PROVED")
    if not said:
        raise Refused("out/ has no proved programs: call tools/build.py")
    return said


def ask_stamp():
    """Sees that out/PROVED is of these sources, programs and kit."""
    said = ask_proved()
    if not stamp.is_current(OUT, "PROVED", stamp.sources()):
        raise Refused("the programs of out/ are not those of the sources: call tools/build.py")
    if said["kit"] != stamp.kit():
        raise Refused(f"the programs were proved by {said['kit']}, and rt is {stamp.kit()}: call tools/build.py")


def ask_rt(name):
    """Sees that rt holds the program for the one that it proved and built, and that it is that of out/."""
    built = TOP / "crates" / name / "out" / name
    if not built.is_file() or stamp.sum_of(built) != stamp.sum_of(OUT / name):
        raise Refused(f"out/{name} is not the program that rt built: {ANEW}")
    try:
        done = subprocess.run(["rt", "run", "--", "--version"], cwd=TOP / "crates" / name, stdin=subprocess.DEVNULL,
                              stdout=subprocess.PIPE, stderr=subprocess.STDOUT, text=True, errors="replace",
                              timeout=SECONDS, check=False)
    except subprocess.TimeoutExpired:
        raise Refused(f"rt has to prove {name} again: {ANEW}") from None
    if done.returncode or NOTHING_CHANGED not in done.stdout:
        raise Refused(f"rt does not say that {name} is proved: {ANEW}")


def split(kit, name, room):
    """The program without its symbols, and the symbols."""
    plain, symbols = room / name, room / f"{name}.debug"
    run = {"executable": kit / "toolchain" / "bin" / "clang", "check": True, "cwd": room}
    subprocess.run(["llvm-objcopy", "--only-keep-debug", OUT / name, symbols], **run)
    subprocess.run(["llvm-objcopy", "--strip-all", "--keep-section=.comment", f"--add-gnu-debuglink={symbols}",
                    OUT / name, plain], **run)
    return plain.read_bytes(), symbols.read_bytes()


def programs(version, seconds, room):
    """The programs, their symbols, manual pages and completions."""
    files, kit = {}, unproved.kit_folder()
    for name in stamp.PROGRAMS:
        files[f"bin/{name}"], files[f"lib/debug/{name}.debug"] = split(kit, name, room)
        for page, text in manual.pages(OUT / name, version, seconds).items():
            files[f"share/man/man1/{page}"] = text.encode()
        files.update((path, text.encode()) for path, text in completion.files(OUT / name).items())
    return files


def proved_archive(path):
    """The bytes of the judge's archive, if it is not one without a proof."""
    content = path.read_bytes()
    if build_judge.MARK.encode() in content:
        raise Refused(f"{path.name} has no proof: call tools/build_judge.py")
    return content


def installed_pc():
    """The file for pkg-config, which finds the headers and the library from where it is."""
    return build_judge.pkg_config("${pcfiledir}/..", "${pcfiledir}/../../include").encode()


def judge(room):
    """The headers of the judge, and its library, which its own script has rt prove."""
    files = {f"include/{path.name}": path.read_bytes() for path in sorted(TOP.glob("include/*.h"))}
    script = TOP / "tools" / "build_judge.py"
    if script.is_file():
        done = subprocess.run([script, room], capture_output=True, text=True, check=False)
        if done.returncode:
            raise Refused(f"tools/build_judge.py: {(done.stderr or done.stdout).strip().splitlines()[-1]}")
        files["lib/libg1judge.a"] = proved_archive(room / "libg1judge.a")
        files[f"lib/pkgconfig/{build_judge.PC_FILE}"] = installed_pc()
    return files


def pages():
    """The pages and the examples, as they are in the repository."""
    names = git("ls-files", "-z", "*.md", "*.cff", "docs", "examples").split("\0")
    kept = sorted({name for name in names if name and not name.startswith(("crates/", "tools/"))})
    return {f"{DOC}/{name}": (TOP / name).read_bytes() for name in [*kept, *scripts(kept)]}


def scripts(names):
    """The scripts of tools/ and bench/ that the pages among these files call, with all modules that they are made of."""
    texts = [(TOP / name).read_text(encoding="utf-8") for name in names if name.endswith(".md")]
    called = {script for text in texts for step in page_text.all_steps(text) for script in page_text.called(step.command)}
    called |= {name for name in names if name.endswith(".py")}
    left, found = [TOP / name for name in called - OF_SOURCES if (TOP / name).suffix == ".py" and (TOP / name).is_file()], set()
    while left:
        path = left.pop()
        if path in found:
            continue
        found.add(path)
        beside = [folder / f"{name}.py" for name in IMPORT.findall(path.read_text(encoding="utf-8"))
                  for folder in (path.parent, TOP / "tools", TOP / "tools/lib")]
        left += [module for module in beside if module.is_file()]
    data = {other for path in found for other in (path.with_suffix(".html"), path.with_suffix(".js")) if other.is_file()}
    return sorted(str(path.relative_to(TOP)) for path in found | data if not path.is_relative_to(TOP / "examples"))


def named():
    """A program of shell for each script that has a name of its own. It may be called by a link."""
    text = '#!/bin/sh\nexec "$(dirname "$(readlink -f "$0")")/../{}" "$@"\n'
    return {f"bin/{name}": text.format(f"{DOC}/{script}").encode() for name, script in NAMED.items()}


def about(version, commit):
    """What the release was made of."""
    sums = [f"{name} {stamp.sum_of(OUT / name)}" for name in stamp.PROGRAMS]
    return "\n".join([f"version {version}", f"commit {commit}", f"kit {stamp.kit()}", *sums]) + "\n"


def with_lists(files):
    """The files of a release, with the list of those that are installed, and all sums."""
    files = dict(files)
    files["share/g1pause/uninstall.sh"] = files["uninstall.sh"]
    files["share/g1pause/RELEASE"] = files["RELEASE"]
    installed = sorted(name for name in files if "/" in name) + ["share/g1pause/files"]
    files["share/g1pause/files"] = "".join(f"{name}\n" for name in installed).encode()
    sums = [f"{hashlib.sha256(files[name]).hexdigest()}  {name}\n" for name in sorted(files)]
    return {**files, "SHA256SUMS": "".join(sums).encode()}


def is_called(name, content):
    return name.startswith("bin/") or content.startswith(b"#!")


def packed(files, folder, seconds):
    """A tar of the files, sorted, of one time and of one owner, compressed without a name or a time."""
    tar = io.BytesIO()
    with tarfile.open(fileobj=tar, mode="w", format=tarfile.USTAR_FORMAT) as archive:
        for name in sorted(files):
            entry = tarfile.TarInfo(f"{folder}/{name}")
            entry.size, entry.mtime = len(files[name]), seconds
            entry.mode = 0o755 if is_called(name, files[name]) else 0o644
            archive.addfile(entry, io.BytesIO(files[name]))
    return gzip.compress(tar.getvalue(), mtime=0)


def release(target):
    """Makes the release, and gives the file's path."""
    commit, seconds = commit_of()
    ask_stamp()
    for name in progress.over(stamp.PROGRAMS, "asking rt whether the programs are proved"):
        ask_rt(name)
    version = manual.said([OUT / "g1pause", "--version"]).split()[1]
    with tempfile.TemporaryDirectory() as folder, progress.doing("packing"):
        room = pathlib.Path(folder)
        files = {**programs(version, seconds, room), **judge(room), **pages(), **named()}
    for name in ("install.sh", "uninstall.sh"):
        files[name] = (TOP / name).read_bytes()
    files["RELEASE"] = about(version, commit).encode()
    name = f"g1pause-{version}-{SYSTEM}"
    content = packed(with_lists(files), name, seconds)
    target.mkdir(parents=True, exist_ok=True)
    (target / f"{name}.tar.gz").write_bytes(content)
    (target / f"{name}.tar.gz.sha256").write_text(f"{hashlib.sha256(content).hexdigest()}  {name}.tar.gz\n")
    return target / f"{name}.tar.gz"


def main():
    parser = argparse.ArgumentParser(description=__doc__, formatter_class=argparse.RawDescriptionHelpFormatter)
    parser.add_argument("folder", metavar="FOLDER", type=pathlib.Path, help="where the release is written")
    options = parser.parse_args()
    try:
        ask_proved()  # before anybody installs something for a release that will be refused
        for tool, where in (("rt", "the Rattle kit"), ("git", "git")):
            if not shutil.which(tool):
                parser.error(f"there is no {tool} on the path: it comes with {where}")
        made = release(options.folder)
    except Refused as refusal:
        print(f"release.py: {refusal}", file=sys.stderr)
        return 1
    print(f"{made}: {made.stat().st_size} bytes")
    return 0


if __name__ == "__main__":
    sys.exit(main())

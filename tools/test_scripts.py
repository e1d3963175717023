#!/usr/bin/env python3
"""test_scripts.py BINARY [DRIVER]

Tests the scripts beside it: each has to fail a program that is broken in one way. BINARY is the built g1pause, DRIVER
the built g1_rows, for the scripts that take it. The broken programs run the real one, and change what it says; they
are written in C, since they run while memory is refused, and take none. It needs a C compiler. The super-user runs
the scripts and their programs as nobody. And examples/runtimes/judge.py has to fail adapters that write a bad heap, with one
line for each bad file, by the g1heap that is built beside g1pause.
The last line is 'N passed, M failed'.
"""
import argparse
import os
import pathlib
import subprocess
import sys
import tempfile

sys.path.insert(0, str(pathlib.Path(__file__).resolve().parent / "lib"))

import progress  # noqa: E402
from programs import add_driver, add_program  # noqa: E402
from refusing import BEGIN, END, Judge, compiled  # noqa: E402
from unprivileged import Unreadable, let_in, python, require_readable, unprivileged  # noqa: E402

TOOLS = pathlib.Path(__file__).resolve().parent
# `real` runs the program with its outputs caught; `say` answers in its place.
HEAD = r"""
#include <stdlib.h>
#include <string.h>
#include <sys/wait.h>
#include <unistd.h>

static char out[1 << 22], err[1 << 16];
static long out_size, err_size;
static int status;

static long all(int file, char *into, long most) {
    long size = 0, n;
    while (size < most && (n = read(file, into + size, most - size)) > 0) size += n;
    return size;
}

static void real(char **words) {
    int outs[2], errs[2], ended;
    if (pipe(outs) || pipe(errs)) _exit(99);
    int child = fork();
    if (!child) {
        dup2(outs[1], 1), dup2(errs[1], 2);
        close(outs[0]), close(errs[0]);
        execv(REAL, words);
        _exit(98);
    }
    close(outs[1]), close(errs[1]);
    out_size = all(outs[0], out, sizeof out), err_size = all(errs[0], err, sizeof err);
    waitpid(child, &ended, 0);
    status = WIFEXITED(ended) ? WEXITSTATUS(ended) : 97;
}

static void say(const char *text, long size, const char *error, int ended) {
    if (write(1, text, size) != size || write(2, error, strlen(error)) < 0) _exit(96);
    _exit(ended);
}

static int is(char **words, const char *command) { return words[1] && !strcmp(words[1], command); }

static int memory(void) { return memmem(err, err_size, "fault 13", 8) || memmem(out, out_size, "fault 13", 8); }
"""
TAIL = r"""
int main(int count, char **words) {
    (void)count;
    BODY
    real(words);
    if (write(1, out, out_size) != out_size || write(2, err, err_size) != err_size) _exit(96);
    return status;
}
"""
MEMORY = 'say("", 0, "g1pause: fault 13: memory\\n", 6);'
ROOM = 'say("", 0, "g1pause: fault 11: room need 1 free 0\\n", 5);'
ECHO = "{ long size = all(0, out, sizeof out); say(out, size, \"\", 0); }"
# What is broken, and which script has to see it.
BROKEN = {
    "always_memory": (MEMORY, ["refuse_memory.py", "second_pause.py", "malicious_images.py"]),
    "always_room": (ROOM, ["refuse_memory.py", "second_pause.py"]),
    "echoes_its_input": (ECHO, ["refuse_memory.py", "second_pause.py", "malicious_images.py"]),
    "pause_always_memory": (f'if (is(words, "pause")) {MEMORY}', ["refuse_memory.py", "second_pause.py"]),
    "pause_always_room": (f'if (is(words, "pause")) {ROOM}', ["refuse_memory.py", "second_pause.py"]),
    "pause_echoes": (f'if (is(words, "pause")) {ECHO}', ["refuse_memory.py", "second_pause.py"]),
    "room_for_memory": (f"real(words); if (memory()) {ROOM} else say(out, out_size, err, status);", ["refuse_memory.py"]),
    "nothing_for_memory": ('real(words); if (memory()) say("", 0, "", 0); else say(out, out_size, err, status);', ["refuse_memory.py"]),
    "an_image_for_memory": ('real(words); if (memory()) say("G1IMAGE2", 8, "", 0); else say(out, out_size, err, status);',
                            ["refuse_memory.py"]),
    "short_for_all": ('say("", 0, "g1pause: fault 3: short\\n", 3);', ["malicious_images.py"]),
}
# The same of the driver: it says that a row failed, makes no call in runs, says nothing, counts no Memory, or leaves a
# call out.
DRIVERS = {
    "says_that_a_row_failed": 'real(words); say("FAILED: a row\\n9 ok, 1 failed\\n", 29, "", 1);',
    "meets_no_refusal": 'if (is(words, "refused")) words[1] = "rows";',
    "says_nothing": 'say("", 0, "", 0);',
    "counts_no_memory": 'real(words); char *at = out; while ((at = memmem(at, out + out_size - at, " memory, ", 9))) at[9] = \'0\', at[10] = \' \', at += 9;'
                        'if (write(1, out, out_size) != out_size) _exit(96); return status;',
    "leaves_a_call_out": 'real(words); char *at = memmem(out, out_size, "\\nverify: ", 9); if (at) at[1] = \'V\';'
                         'if (write(1, out, out_size) != out_size) _exit(96); return status;',
}

# A driver that does its work without a thread: it asks for memory as one does that begins and ends.
IDLE = (f'void *volatile sign = malloc({BEGIN}); free(sign); sign = malloc({END}); free(sign);'
        'say("ok: It is so.\\n1 ok, 0 failed\\n", 29, "", 0);')

# An adapter of a runtime that writes these files, and the lines of a good one. Node 3 is 5 after the collection, and 1 is 2.
ADAPTER = """import sys
for name, text in {files}.items():
    open(f"{{sys.argv[1]}}/{{name}}", "w").write(text)
print("before\\ncollection minor\\nplanted torn data judged.left Node key\\nagain")
"""
GRAPH = 'graph\nroot {0} as judged\nobject {0} 4/2 {1} - "Node"\nobject {1} 3/0 "Node" {2}\n'
FILES = {"before.txt": GRAPH.format(1, 3, 7), "minor.txt": GRAPH.format(2, 5, 7), "torn.txt": GRAPH.format(2, 5, 8),
         "again.txt": GRAPH.format(2, 5, 7), "names": 'type Node slots left right data class key\nlabel "Node" Node\n'}
# What is wrong in which file, and the lines of the script that say so: each has to be there as it is.
ADAPTERS = {
    "a good adapter": ({}, ["program minor: same objects 2 words 7, 2 moved",
                            "program planted torn: differ data at judged.left: object 5 (Node) before, object 5 (Node) after; "
                            "data word 1, key, is 7 (0x7) before, 8 (0x8) after", "4 passed, 0 failed"]),
    "a heap that changes under the walk": ({"before.txt": GRAPH.format(1, 3, 7).replace("4/2 3", "4/2 4")},
                                           ["program minor: g1heap: before.txt: line 3: expected '-' or the name of an object in slot 0, 0 moved  FAILED"]),
    "a slot with an old address": ({"minor.txt": GRAPH.format(2, 5, 7).replace("4/2 5", "4/2 3")},
                                   ["program minor: differ stale at judged.left: object 3 (Node) before; the word still is 3, which no object after has, "
                                    "0 moved  FAILED"]),
    "a heap that changed after its last collection": ({"again.txt": GRAPH.format(2, 5, 9)},
                                                      ["program again: differ data at judged.left: object 5 (Node) before, object 5 (Node) after; "
                                                       "data word 1, key, is 7 (0x7) before, 9 (0x9) after, 0 moved  FAILED"]),
    "a name with a space": ({"minor.txt": GRAPH.format("my 2", 5, 7)},
                            ["program minor: g1heap: minor.txt: line 2: expected '-' or the name of an object, 0 moved  FAILED"]),
    "a text with a space": ({"minor.txt": GRAPH.format(2, 5, '"a text"')},
                            ["program minor: g1heap: minor.txt: line 4: expected 0 slots and 2 data words, 0 moved  FAILED"]),
    "a type with a space": ({"names": 'type My Node slots data class\n'},
                            ["program minor: g1heap: names: line 1: expected 'type TYPE slots NAME .. data NAME ..', 0 moved  FAILED"]),
    "an object that is written twice": ({"minor.txt": GRAPH.format(2, 5, 7) + 'object 5 1/0\n'},
                                        ["program minor: g1heap: minor.txt: line 5: expected a name that no object above has, 0 moved  FAILED"]),
    "two texts of one hash": ({"before.txt": GRAPH.format(1, 3, '"8yn0iYCKYHlIj4-BwPqk"'), "minor.txt": GRAPH.format(2, 5, '"GReLUrM4wMqfg9yzV3KQ"')},
                              ['program minor: g1heap: minor.txt: "GReLUrM4wMqfg9yzV3KQ" has the hash of "8yn0iYCKYHlIj4-BwPqk", which is in the '
                               "other file: write it in another way, 0 moved  FAILED"]),
    "an error that is not in the file": ({"torn.txt": GRAPH.format(2, 5, 7)}, ["program planted torn: same objects 2 words 7  FAILED"]),
    "collections that move nothing": ({"before.txt": GRAPH.format(2, 5, 7)}, ["program 1 collections, 0 moves: judged nothing  FAILED"]),
}

# A script ends with the first answer that it fails.
FIRST = {script: ["--first"] for script in ("refuse_memory.py", "second_pause.py", "refuse_calls.py", "count_threads.py")}


def passes(folder, script, *words):
    """Whether a script is content, which keeps its files in a folder of who runs it."""
    environment = dict(os.environ, TMPDIR=str(folder / "nobody"))
    done = subprocess.run([python(), TOOLS / script, *words, *FIRST.get(script, [])], stdout=subprocess.DEVNULL,
                          stderr=subprocess.DEVNULL, timeout=1800, env=environment, **unprivileged())
    return done.returncode == 0


def broken(folder, name, real, body):
    words = [f'-DREAL="{real}"', f"-DBODY={body}", "-D_GNU_SOURCE", "-Wno-unused-function"]
    return str(compiled(folder, name, HEAD + TAIL, *words))


def try_programs(judge, folder, binary):
    few = {"malicious_images.py": ["300"]}
    whole = broken(folder, "whole", binary, ";")
    for script in ("refuse_memory.py", "second_pause.py", "malicious_images.py"):
        judge.judge(f"{script} passes the program behind a pipe", passes(folder, script, whole, *few.get(script, [])))
    for name, (body, scripts) in BROKEN.items():
        program = broken(folder, name, binary, body)
        for script in scripts:
            judge.judge(f"{script} fails {name}", not passes(folder, script, program, *few.get(script, [])))


def try_drivers(judge, folder, driver):
    whole = broken(folder, "whole_driver", driver, ";")
    judge.judge("refuse_calls.py passes the driver behind a pipe", passes(folder, "refuse_calls.py", whole))
    for name, body in DRIVERS.items():
        program = broken(folder, f"driver_{name}", driver, body)
        judge.judge(f"refuse_calls.py fails {name}", not passes(folder, "refuse_calls.py", program))
    judge.judge("count_threads.py passes the driver", passes(folder, "count_threads.py", driver))
    idle = broken(folder, "driver_idle", driver, IDLE)
    judge.judge("count_threads.py fails a driver that starts no thread", not passes(folder, "count_threads.py", idle))


def try_runtimes(judge, folder, binary):
    """The judge of runtimes on adapters that write these files. All lines but those that are expected have to pass."""
    script = TOOLS.parent / "examples" / "runtimes" / "judge.py"
    environment = dict(os.environ, PATH=f"{pathlib.Path(binary).resolve().parent}:{os.environ['PATH']}")
    for name, (files, lines) in ADAPTERS.items():
        (folder / "adapter.py").write_text(ADAPTER.format(files={**FILES, **files}))
        words = [sys.executable, script, "--program", f"{sys.executable} {folder / 'adapter.py'}"]
        done = subprocess.run(words, capture_output=True, text=True, env=environment, timeout=60, check=False)
        said = done.stdout.splitlines()
        good = name == "a good adapter"
        errors = progress.without_signs(done.stderr.splitlines())
        as_expected = all(line in said for line in lines) and not errors and done.returncode == (0 if good else 1)
        if not judge.judge(f"runtimes/judge.py: {name}", as_expected):
            print("\n".join(said), done.stderr)


def main():
    parser = argparse.ArgumentParser(description=__doc__, formatter_class=argparse.RawDescriptionHelpFormatter)
    add_program(parser, "binary", "g1pause")
    add_driver(parser, nargs="?")
    options = parser.parse_args()
    try:
        python()
        require_readable(__file__, options.binary, *filter(None, [options.driver]))
    except Unreadable as error:
        parser.error(str(error))
    judge = Judge()
    progress.show("tried", lambda: judge.passed)
    with tempfile.TemporaryDirectory() as room:
        let_in(pathlib.Path(room))
        try_runtimes(judge, pathlib.Path(room), options.binary)
        try_programs(judge, pathlib.Path(room), options.binary)
        if options.driver:
            try_drivers(judge, pathlib.Path(room), options.driver)
    return judge.end()


if __name__ == "__main__":
    sys.exit(main())

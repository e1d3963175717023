"""Programs run while memory is refused, for the scripts beside it.

A small C library stands before the allocator. It refuses the requests from one number to another; or it serves the
program crates/g1_rows, which asks for BEGIN and END bytes before and after the call that it watches, and for END_OF_RUN
bytes when a run of it is over. Then only the requests of the watched call count: in the first run none is refused, in
those after it all from the Nth on, and then the Nth alone, for N from 1 until a run meets no refusal. The request of
END_OF_RUN bytes is refused after a run that met one. It needs a C compiler.
"""
import os
import subprocess
import sys

BEGIN, END, END_OF_RUN = 7_000_003, 7_000_033, 7_000_061
ENDLESS = 1 << 40
LIBRARY = r"""
#include <errno.h>
#include <fcntl.h>
#include <stdatomic.h>
#include <stdlib.h>
#include <unistd.h>

extern void *__libc_malloc(size_t);
extern void *__libc_calloc(size_t, size_t);
extern void *__libc_realloc(void *, size_t);
extern void *__libc_memalign(size_t, size_t);

static atomic_long seen;
static atomic_int counts = 1, met;
static long from = -1, to = -1;
static int in_runs;

__attribute__((constructor)) static void begin(void) {
    const char *first = getenv("REFUSE_FROM"), *last = getenv("REFUSE_TO");
    if (first) from = atol(first);
    if (last) to = atol(last);
    in_runs = getenv("REFUSE_IN_RUNS") != 0;
    atomic_store(&counts, !in_runs);
    atomic_store(&seen, 0);
}

/* Goes on to the next request after a run that met a refusal, else to the next round. Returns whether it met one. */
static int run_ended(void) {
    static int round;
    static long n;
    int again = atomic_exchange(&met, 0);
    if (!again) round = (round + 1) % 3;
    n = again ? n + 1 : 1;
    from = round ? n : -1;
    to = round == 1 ? ENDLESS : n;
    atomic_store(&seen, 0);
    return again;
}

/* A file says that a request was refused: standard error stays the program's own. */
static int refused(size_t size) {
    if (in_runs && (size == BEGIN || size == END || size == END_OF_RUN)) {
        atomic_store(&counts, size == BEGIN);
        return size == END_OF_RUN && run_ended();
    }
    if (!atomic_load(&counts)) return 0;
    long n = 1 + atomic_fetch_add(&seen, 1);
    if (from <= 0 || n < from || n > to) return 0;
    atomic_store(&met, 1);
    const char *path = getenv("REFUSE_REPORT");
    int file = path ? open(path, O_CREAT | O_WRONLY, 0600) : -1;
    if (file >= 0) close(file);
    errno = ENOMEM;
    return 1;
}

void *malloc(size_t size) { return refused(size) ? 0 : __libc_malloc(size); }
void *calloc(size_t count, size_t size) { return refused(count * size) ? 0 : __libc_calloc(count, size); }
void *realloc(void *old, size_t size) { return refused(size) ? 0 : __libc_realloc(old, size); }
void *aligned_alloc(size_t align, size_t size) { return refused(size) ? 0 : __libc_memalign(align, size); }
void *memalign(size_t align, size_t size) { return refused(size) ? 0 : __libc_memalign(align, size); }

int posix_memalign(void **place, size_t align, size_t size) {
    if (refused(size)) return ENOMEM;
    *place = __libc_memalign(align, size);
    return *place ? 0 : ENOMEM;
}
"""


def compiled(folder, name, source, *words):
    """A program or library of these C lines."""
    (folder / f"{name}.c").write_text(source)
    made = folder / name
    subprocess.run(["cc", "-O2", *words, "-o", made, folder / f"{name}.c"], check=True)
    return made


def preloading(library, **more):
    """The environment in which programs load a library first. LD_PRELOAD ends a name at a space, which a folder may have."""
    folders = [str(library.parent), *filter(None, [os.environ.get("LD_LIBRARY_PATH")])]
    return dict(os.environ, LD_PRELOAD=library.name, LD_LIBRARY_PATH=":".join(folders), **more)


def run(command, data, environment=None, timeout=120):
    done = subprocess.run(command, input=data, capture_output=True, timeout=timeout, env=environment)
    return done.stdout, done.stderr, done.returncode


class Refusing:
    """Runs with requests refused, and whether one was."""

    def __init__(self, folder):
        sizes = [f"-DBEGIN={BEGIN}", f"-DEND={END}", f"-DEND_OF_RUN={END_OF_RUN}", f"-DENDLESS={ENDLESS}L"]
        self.library, self.report = compiled(folder, "refuse.so", LIBRARY, "-shared", "-fPIC", *sizes), folder / "refused"

    def run(self, command, data, first, last):
        self.report.unlink(missing_ok=True)
        environment = preloading(self.library, REFUSE_REPORT=str(self.report), REFUSE_FROM=str(first), REFUSE_TO=str(last))
        return run(command, data, environment), self.report.exists()

    def run_in_runs(self, command, data):
        """What the driver answers that makes its calls in runs. No thread finds the stack of another one ready."""
        environment = preloading(self.library, REFUSE_IN_RUNS="1", GLIBC_TUNABLES="glibc.pthread.stack_cache_size=0")
        return run(command, data, environment, timeout=1800)

    def sweep(self, command, data):
        """All requests from the Nth on, then the Nth alone, for N from 1 until a run meets no refusal."""
        for last, what in ((ENDLESS, "all from"), (0, "only")):
            n, met = 1, True
            while met:
                answer, met = self.run(command, data, n, last or n)
                yield f"{what} request {n}", answer, met
                n += 1


class Judge:
    """Counts what is as it has to be, and prints what is not. With the word --first the first such ends the script."""

    def __init__(self):
        self.passed = self.failed = 0
        self.first = "--first" in sys.argv

    def judge(self, name, good):
        if good:
            self.passed += 1
        else:
            self.failed += 1
            print(f"failed: {name}")
            if self.first:
                sys.exit(1)
        return good

    def end(self):
        print(f"{self.passed} passed, {self.failed} failed")
        return 1 if self.failed or not self.passed else 0

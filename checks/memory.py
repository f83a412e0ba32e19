#!/usr/bin/env python3
"""Makes each allocation of a run fail in turn. It is run by hand, as checks/runs.py is, with the built program; it needs a C compiler, `cc`.

  memory.py GOLDI [ROW..]

Each ROW is a folder of acceptance/; where none is named, a row of each command is taken. A row is run again and again: the first allocation
that the program asks for fails, then the second, and so on, until a run asks for fewer. Each run has to end with status 5 and
nothing written, or with all that the row has to write and the row's own status. Prints for each row how many runs ended in each of the two ways, and each
run that ended otherwise. The exit status is 0 where there is none.

The library that counts is made by `cc` in a folder that goes, and is loaded before the C library. It counts what the program itself asks for, and
not what the C library asks for to start a thread.
"""
import os, pathlib, subprocess, sys, tempfile
from concurrent.futures import ThreadPoolExecutor

NO_MEMORY = 5
SECONDS = 60
ROWS = ["run-adds-under-a-monitor-four-workers", "load-size-three", "check-commits-share-a-variable", "list-adds-under-a-monitor", "audit-first-program"]

COUNTER = r"""
#define _GNU_SOURCE
#include <dlfcn.h>
#include <link.h>
#include <stdatomic.h>
#include <stdint.h>
#include <stdlib.h>
#include <unistd.h>

static uintptr_t from, to;
static atomic_long left;
static int told;
static void *(*allocate)(size_t);
static void *(*enlarge)(void *, size_t);

/* the program itself comes first */
static int bounds(struct dl_phdr_info *part, size_t size, void *unused) {
    from = UINTPTR_MAX;
    for (int i = 0; i < part->dlpi_phnum; i++) {
        if (part->dlpi_phdr[i].p_type != PT_LOAD) continue;
        uintptr_t start = part->dlpi_addr + part->dlpi_phdr[i].p_vaddr, end = start + part->dlpi_phdr[i].p_memsz;
        if (start < from) from = start;
        if (end > to) to = end;
    }
    return 1;
}

__attribute__((constructor)) static void start(void) {
    allocate = dlsym(RTLD_NEXT, "malloc");
    enlarge = dlsym(RTLD_NEXT, "realloc");
    left = atol(getenv("FAILING"));
    told = atoi(getenv("TOLD"));
    dl_iterate_phdr(bounds, 0);
}

static int fails(void *caller) {
    if ((uintptr_t)caller < from || to <= (uintptr_t)caller || atomic_fetch_sub(&left, 1) != 1) return 0;
    return write(told, "!", 1) == 1;
}

void *malloc(size_t size) {
    if (!allocate) allocate = dlsym(RTLD_NEXT, "malloc");
    return fails(__builtin_return_address(0)) ? 0 : allocate(size);
}

void *realloc(void *old, size_t size) {
    if (!enlarge) enlarge = dlsym(RTLD_NEXT, "realloc");
    return fails(__builtin_return_address(0)) ? 0 : enlarge(old, size);
}
"""


def text_of(row, name):
    """what the row has under this name, or what its line of shell writes"""
    script = row / f"{name}.sh"
    return subprocess.run(["bash", script], stdout=subprocess.PIPE, check=True).stdout if script.exists() else (row / name).read_bytes()


def run(goldi, library, words, given, n):
    """status and output of a run whose allocation n fails, and whether it came to it"""
    reading, writing = os.pipe()
    try:
        env = {"LD_PRELOAD": library, "FAILING": str(n), "TOLD": str(writing)}
        ran = subprocess.run([goldi, *words], input=given, stdout=subprocess.PIPE, stderr=subprocess.STDOUT, env=env, pass_fds=[writing], timeout=SECONDS)
        ended = ran.returncode, ran.stdout
    except subprocess.TimeoutExpired:
        ended = None, b""
    os.close(writing)
    with open(reading, "rb") as told:
        return (*ended, bool(told.read()))


def sweep(goldi, library, row, pool):
    """how many runs of the row lacked memory, how many had it all the same, and those that did neither"""
    words, given, wanted, status = row.joinpath("words").read_text().splitlines(), text_of(row, "stdin"), text_of(row, "stdout"), int((row / "status").read_text())
    lacked, whole, wrong, n = 0, 0, [], 1
    while True:
        many = range(n, n + 4 * (os.cpu_count() or 1))
        for n, (came, out, failed) in zip(many, pool.map(lambda k: run(goldi, library, words, given, k), many)):
            if failed and (came, out) == (NO_MEMORY, b""):
                lacked += 1
            elif (came, out) != (status, wanted):
                wrong.append((n, came, out[:200]))
            else:
                whole += failed
            if not failed:
                return lacked, whole, wrong
        n += 1


def main():
    goldi, *names = sys.argv[1:]
    top, any_wrong = pathlib.Path(__file__).resolve().parent.parent, False
    with tempfile.TemporaryDirectory() as folder, ThreadPoolExecutor(os.cpu_count()) as pool:
        source, library = f"{folder}/counter.c", f"{folder}/counter.so"
        pathlib.Path(source).write_text(COUNTER)
        subprocess.run(["cc", "-O2", "-shared", "-fPIC", "-o", library, source, "-ldl"], check=True)
        for name in names or ROWS:
            lacked, whole, wrong = sweep(os.path.abspath(goldi), library, top / "acceptance" / name, pool)
            print(f"{name}: {lacked} runs without memory, {whole} that went on, {len(wrong)} wrong", flush=True)
            for n, came, out in wrong:
                print(f" allocation {n}: status {came}, wrote {out!r}")
            any_wrong = any_wrong or bool(wrong)
    return int(any_wrong)


if __name__ == "__main__":
    sys.exit(main())

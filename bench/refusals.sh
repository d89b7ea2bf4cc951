#!/usr/bin/env bash
# Refuses memory to the program: each allocation of a run alone, and then each one with all behind it. Every run has to be done as ever, or
# to answer `out of memory` with a front of the same images. The runs are a `frame`, a `play` of two lines by two feeders and two
# renderers, and a `selftest` of 20 events. It takes PROGRAM, or else the program that ./vimalorua
# takes, a C compiler and Python.
#
# refusals.sh [JOB [FROM [TO [STEP]]]]: all of them, or one job alone, or its allocations from FROM on, up to TO, by STEP. JOBS runs stand
# side by side, as many as there are processors where that isn't set.
set -eu

top=$(dirname -- "$(dirname -- "$(readlink -f -- "${BASH_SOURCE[0]}")")")
program=${PROGRAM:-$("$top/vimalorua" --which)}
room=$(mktemp -d)
trap 'rm -rf "$room"' EXIT

# Allocations are counted. Those from REFUSE_FROM to REFUSE_TO are refused, and REFUSE_COUNT is told how many there were.
cat > "$room/refuse.c" <<'END'
#define _GNU_SOURCE
#include <dlfcn.h>
#include <stdatomic.h>
#include <stdio.h>
#include <stdlib.h>
#include <sys/syscall.h>
#include <unistd.h>

static atomic_long calls;
static long from, to;
static void *(*real_malloc)(size_t);
static void *(*real_realloc)(void *, size_t);
static void *(*real_aligned)(size_t, size_t);
static int (*real_memalign)(void **, size_t, size_t);

__attribute__((constructor)) static void begin(void) {
    const char *first = getenv("REFUSE_FROM"), *last = getenv("REFUSE_TO");
    real_malloc = dlsym(RTLD_NEXT, "malloc");
    real_realloc = dlsym(RTLD_NEXT, "realloc");
    real_aligned = dlsym(RTLD_NEXT, "aligned_alloc");
    real_memalign = dlsym(RTLD_NEXT, "posix_memalign");
    from = first ? atol(first) : 0;
    to = last ? atol(last) : 0;
    atomic_store(&calls, 0);
}

// The program ends by _exit.
void _exit(int status) {
    const char *name = getenv("REFUSE_COUNT");
    FILE *file = name ? fopen(name, "w") : NULL;
    if (file) {
        fprintf(file, "%ld\n", atomic_load(&calls));
        fclose(file);
    }
    for (;;)
        syscall(SYS_exit_group, status);
}

static int refused(void) {
    long n = atomic_fetch_add(&calls, 1) + 1;
    return from <= n && n <= to;
}

void *malloc(size_t size) {
    if (!real_malloc)
        real_malloc = dlsym(RTLD_NEXT, "malloc");
    return refused() ? NULL : real_malloc(size);
}

void *realloc(void *old, size_t size) {
    return refused() ? NULL : real_realloc(old, size);
}

void *aligned_alloc(size_t align, size_t size) {
    return refused() ? NULL : real_aligned(align, size);
}

int posix_memalign(void **place, size_t align, size_t size) {
    return refused() ? 12 : real_memalign(place, align, size);
}
END
cc -O1 -shared -fPIC -o "$room/refuse.so" "$room/refuse.c" -ldl

# all NAME WORDS..: every allocation of these words, or those from `from` up to `to`
all() {
    [ -z "$job" ] || [ "$job" = "$1" ] || return 0
    python3 - "$room" "$program" "$from" "$to" "$step" "$jobs" "$@" <<'END' || failed=1
import os, re, subprocess, sys
from concurrent.futures import ThreadPoolExecutor

room, program, first, last, step, jobs, name, *words = sys.argv[1:]
LINE = b"out of memory\n"
ON = 1_000_000_000

def run(start, end, counted=None):
    """The exit status, the frames and the report of a run whose allocations from one to the other are refused."""
    env = dict(os.environ, LD_PRELOAD=f"{room}/refuse.so", REFUSE_FROM=str(start), REFUSE_TO=str(end))
    if counted:
        env["REFUSE_COUNT"] = counted
    ran = subprocess.run([program, *words], env=env, capture_output=True, timeout=120)
    return ran.returncode, ran.stdout, ran.stderr

def same(report):
    """What is the same in each report: the counts of the caches differ from run to run, and the order of what was accepted."""
    return re.sub(rb"(?m)^(accepted|outline|mask|composite) .*", rb"\1", report)

def is_balanced(report):
    """Whether each claim that the caches counted was filled or failed."""
    return all(int(it[0]) == int(it[1]) + int(it[2]) for it in re.findall(rb"claims (\d+) fills (\d+) fails (\d+)", report))

def judge(start, end):
    """Whether a run was out of memory, or what is wrong with it."""
    where = f"allocation {start}" if start == end else f"allocations from {start} on"
    try:
        status, frames, report = run(start, end)
    except subprocess.TimeoutExpired:
        return f"refusals: {name}, {where}: no end within two minutes"
    if status == 0 and frames == whole and same(report) == same(said) and is_balanced(report):
        return False
    if status == 9 and whole.startswith(frames) and LINE.startswith(report):
        return True
    return f"refusals: {name}, {where}: status {status}, {len(frames)} of {len(whole)} bytes of frames, report {report[:80]!r}"

status, whole, said = run(0, 0, f"{room}/count")
if status:
    sys.exit(f"refusals: {name}: status {status} where nothing is refused")
with open(f"{room}/count") as file:
    count = int(file.read())
begin, end = int(first or 1), min(int(last or count), count)
asked = [it for n in range(begin, end + 1, int(step or 1)) for it in ((n, n), (n, ON))]
with ThreadPoolExecutor(int(jobs)) as pool:
    found = list(pool.map(lambda it: judge(*it), asked))
wrong = [it for it in found if isinstance(it, str)]
for it in wrong:
    print(it)
print(f"{name}: {count} allocations, {begin} to {end} refused in {len(asked)} runs: {found.count(True)} out of memory, {len(wrong)} failed", flush=True)
sys.exit(bool(wrong))
END
}

cd "$top/examples"
{ cat row.ass; grep '^Dialogue:' row.ass; } > "$room/two.ass"
job=${1:-}
from=${2:-}
to=${3:-}
step=${4:-}
jobs=${JOBS:-$(nproc)}
failed=0
all frame frame --at 0 --size 4x3 row.ass dot.bdf
all play play --from 0 --to 2 --step 1 --size 4x3 --feeders 2 --renderers 2 --batch 1 --ahead 1 --bands 2 "$room/two.ass" dot.bdf
all selftest selftest --workers 2 7 20
exit "$failed"

#!/usr/bin/env bash
# Refuses each request for memory in turn: the program then ends with status 6 and nothing on its
# output, or with its own answer. And lets each read of each file fail in turn: then it blames that
# file. It needs a C compiler and a dynamic linker that knows LD_PRELOAD; where there is no compiler,
# it says so and tries nothing. usage: tests/memory.sh [PROGRAM]
set -u
[ "${1-}" != --help ] || exec sed -n '2,/^[^#]/s/^# //p' "$0"
top=$(cd "$(dirname "${BASH_SOURCE[0]}")/.." && pwd) || exit 1
work=$(mktemp -d) || exit 1
trap 'rm -rf "$work"' EXIT
passed=0
failed=0

if ! command -v cc >/dev/null 2>&1; then
    echo "memory: there is no C compiler, so all of it is left out"
    exit 0
fi

program=${1-}
if [ -z "$program" ]; then
    "$top/cts" build || exit 1
    program=$top/crates/cts_program/out/cts_program
fi

# Refuses request number REFUSED, or lets read number READ of the file that is opened as number OPENED
# fail, where a read gives at most 100 bytes, and tells so on descriptor 3. The program has one thread.
cat >"$work/refuse.c" <<'END'
#include <errno.h>
#include <fcntl.h>
#include <stdlib.h>
#include <sys/syscall.h>
#include <unistd.h>

extern void *__libc_malloc(size_t);
extern void *__libc_realloc(void *, size_t);

static long requests, opened, reads;

static int is_number(const char *name, long number) {
    const char *given = getenv(name);
    return given && number == atol(given);
}

static int tells(void) { return write(3, "refused\n", 8) == 8; }

static int refused(void) { return is_number("REFUSED", ++requests) && tells(); }

void *malloc(size_t size) { return refused() ? NULL : __libc_malloc(size); }

void *realloc(void *at, size_t size) { return refused() ? NULL : __libc_realloc(at, size); }

int open(const char *name, int how, ...) {
    opened++;
    reads = 0;
    return syscall(SYS_openat, AT_FDCWD, name, how, 0);
}

ssize_t read(int from, void *into, size_t size) {
    reads++;
    if (is_number("OPENED", opened) && is_number("READ", reads) && tells()) {
        errno = EIO;
        return -1;
    }
    return syscall(SYS_read, from, into, getenv("OPENED") && size > 100 ? 100 : size);
}
END
cc -shared -fPIC -O1 -fno-builtin -o "$work/refuse.so" "$work/refuse.c" || exit 1

# judge STATUS COMMAND..: what a run with a request refused left, beside the command's own answer.
judge() {
    local status=$1
    shift
    if [ "$status" = 6 ] && [ ! -s "$work/out" ] && [ "$(cat "$work/err")" = 'no memory' ]; then
        passed=$((passed + 1))
    elif [ "$status" = "$own" ] && cmp -s "$work/out" "$work/own_out" && cmp -s "$work/err" "$work/own_err"; then
        passed=$((passed + 1))
    else
        failed=$((failed + 1))
        echo "memory: request $number of $*: status $status, out: $(head -c 200 "$work/out"), err: $(head -c 200 "$work/err")"
    fi
}

# refuse COMMAND..: a run for each request, of which there is at least one, up to the first with no such request.
refuse() {
    local own number status
    "$program" "$@" >"$work/own_out" 2>"$work/own_err"
    own=$?
    for ((number = 1; ; number++)); do
        LD_PRELOAD=$work/refuse.so REFUSED=$number "$program" "$@" \
            >"$work/out" 2>"$work/err" 3>"$work/refused"
        status=$?
        [ -s "$work/refused" ] || break
        judge "$status" "$@"
    done
    echo "memory: $1: $((number - 1)) requests, own status $own"
    if [ "$number" = 1 ]; then
        failed=$((failed + 1))
        echo "memory: no request of $* was refused"
    fi
}

# blame KIND STATUS COMMAND..: what a run left in which a read of such a file failed.
blame() {
    if [ "$2" = 4 ] && [ ! -s "$work/out" ] && [ "$(cat "$work/err")" = "read fault $1" ]; then
        passed=$((passed + 1))
    else
        failed=$((failed + 1))
        echo "memory: read $number of $1 of ${*:3}: status $2, out: $(head -c 200 "$work/out"), err: $(head -c 200 "$work/err")"
    fi
}

# fail KIND.. -- COMMAND..: a run for each read of each file that a command opens, of which there is
# at least one; the files are of these kinds in their order. The last run for a file has no read that
# fails, but short ones, and leaves the command's own answer.
fail() {
    local kinds=() kind file=0 number status own reads=0
    while [ "$1" != -- ]; do
        kinds+=("$1")
        shift
    done
    shift
    "$program" "$@" >"$work/own_out" 2>"$work/own_err"
    own=$?
    for kind in "${kinds[@]}"; do
        file=$((file + 1))
        for ((number = 1; ; number++)); do
            LD_PRELOAD=$work/refuse.so OPENED=$file READ=$number "$program" "$@" \
                >"$work/out" 2>"$work/err" 3>"$work/refused"
            status=$?
            [ -s "$work/refused" ] || break
            blame "$kind" "$status" "$@"
        done
        judge "$status" "$@"
        reads=$((reads + number - 1))
        if [ "$number" = 1 ]; then
            failed=$((failed + 1))
            echo "memory: no read of $kind of $* failed"
        fi
    done
    echo "memory: $1: $reads reads of ${#kinds[@]} files"
}

s27=(--bench "$top/examples/s27.bench" --tech "$top/examples/s27.toml" --pl "$top/examples/s27.pl")
refuse synth "${s27[@]}"
"$program" synth "${s27[@]}" >"$work/report"
refuse check "${s27[@]}" --report "$work/report"
sed 's/^wire .*/wire 1/' "$work/report" >"$work/wrong"
refuse check "${s27[@]}" --report "$work/wrong"
sed 's/^G5 2 0 2$/G5 1 0 2/' "$work/report" >"$work/misses"
refuse check "${s27[@]}" --report "$work/misses"
printf 'G7 8 0\nG5 1 1\n' >"$work/moves"
refuse moves "${s27[@]}" --moves "$work/moves"
refuse margin --bench "$top/examples/s27.bench" --tech "$top/examples/s27.toml" --period 14
refuse corners --bench "$top/examples/s27.bench" "$top/examples/s27.toml" "$top/examples/s27_fast.toml"
refuse demo --registers 2 --seed 0
printf 'A = DFF(A)\n' >"$work/itself.bench"
refuse zero --bench "$work/itself.bench"

fail bench tech -- zero --bench "$top/examples/s27.bench" --tech "$top/examples/s27.toml"
fail bench tech pl -- synth "${s27[@]}"
fail bench tech pl report -- check "${s27[@]}" --report "$work/report"
fail bench tech pl topology -- embed "${s27[@]}" --topology "$top/examples/s27.topology"
fail bench tech pl moves -- moves "${s27[@]}" --moves "$work/moves"
fail bench 'corner 1' 'corner 2' -- \
    corners --bench "$top/examples/s27.bench" "$top/examples/s27.toml" "$top/examples/s27_fast.toml"

echo "memory: $passed passed, $failed failed"
[ "$failed" -eq 0 ]

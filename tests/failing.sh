# failing.sh: for tests that have allocations fail; to be sourced. It makes the folder $work, which goes with the shell.
work="$(mktemp -d)"
trap 'rm -rf "$work"' EXIT
"$(dirname "$(rt doc)")/toolchain/bin/clang" -shared -fPIC -O2 -nostdlib -fuse-ld=lld -o "$work/fail.so" "$(dirname "${BASH_SOURCE[0]}")/fail_allocation.c"

# fail_at N COMMAND..: runs the command, whose N-th allocation fails. $status is its exit status, $work/out and $work/err are what it
# writes. False where it has fewer allocations.
fail_at() {
    local n="$1"
    shift
    : >"$work/mark"
    status=0
    FAIL_AT=$n FAIL_MARK="$work/mark" LD_PRELOAD="$work/fail.so" "$@" >"$work/out" 2>"$work/err" || status=$?
    [ -s "$work/mark" ]
}

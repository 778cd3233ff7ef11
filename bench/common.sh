# What bench/run and bench/files share: a temporary folder, which goes when they end, and the program.
export PYTHONDONTWRITEBYTECODE=1

bench=$(cd "$(dirname "${BASH_SOURCE[0]}")" && pwd)
crate=$bench/../crates/spb_cli

fail() {
    echo "bench: $*" >&2
    exit 1
}

place=$(mktemp -d)
trap 'rm -rf "$place"' EXIT

# Proves and builds the program where its sources have changed, and says where it lies.
build() {
    command -v rt >/dev/null || fail "rt isn't there to build the program; name a built one by SPB=PATH"
    if ! (cd "$crate" && rt run -- mem l1 2 255 </dev/null) >"$place/build.out" 2>"$place/build.err"; then
        tail -n 20 "$place/build.err" >&2
        fail "the program wasn't built"
    fi
    [ -x "$crate/out/spb_cli" ] || fail "rt left no program at crates/spb_cli/out/spb_cli"
    echo "$crate/out/spb_cli"
}

# Sets `program` to the one to time: that of SPB, or the one built here.
find_program() {
    program=${SPB:-}
    [ -n "$program" ] || program=$(build)
    [ -x "$program" ] || fail "there is no program at $program"
}

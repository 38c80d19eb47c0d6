#!/bin/sh
# The command zap: brings the proved archive and the binary over it up to date, then runs the binary.
set -eu
[ -z "${ZAP_BINARY-}" ] || exec "$ZAP_BINARY" "$@"

here=$(dirname "$(readlink -f "$0")")
built=$here/cli/target
binary=$built/release/zap
archive=$here/target/staticlib/libhost.a
log=$built/zap.log

say() {
    printf 'zap: %s\n' "$1" >&2
}

fail() {
    say "$1"
    exit 2
}

# What the archive is made of, and what the binary is made of besides.
archived() {
    echo crates.txt
    for crate in host_c $(sed -n 's/^host_c staticlib://p' crates.txt); do echo "crates/$crate"; done
}
compiled='cli/Cargo.toml cli/Cargo.lock cli/src calls/Cargo.toml calls/build.rs calls/src'

# fresh STAMP PATH..: nothing below the paths has changed since the stamp. What counts is not the date of a file's content but
# that of its last change, so that a file which comes with an old date is seen too; one that goes changes its folder. What rt
# itself makes in a crate, its folder out/, is no source.
fresh() {
    stamp=$1
    shift
    [ -e "$stamp" ] && [ -z "$(find "$@" -path 'crates/*/out' ! -path 'crates/*/*/out' -prune -o -cnewer "$stamp" -print 2>&1 | head -n 1)" ]
}

# stamped STAMP COMMAND..: runs the command. The stamp is as old as its start, so that what changes meanwhile counts as changed,
# and is there only if it came to its end.
stamped() {
    stamp=$1
    shift
    rm -f "$stamp"
    : >"$stamp.new"
    "$@" && mv "$stamp.new" "$stamp"
}

# rt proves what has changed, crate by crate.
prove() {
    # shellcheck disable=SC2046 # a word for each crate
    set -- $(archived)
    crates=$(($# - 2)) began=$(date +%s) past=0 crate=
    say "the command's $crates crates are proved and built first; this takes some minutes the first time"
    rm -f "$built/proved"
    { tools/archive host </dev/null 2>&1 && : >"$built/proved"; } | tee "$log" | while IFS= read -r line; do
        case $line in
        'rt: chose '*' for '*) crate=${line##* for } && continue ;;
        'logic=proved '*) ;;
        *) continue ;;
        esac
        case $crate in
        host) continue ;;
        host_c) line='host proved and its archive written' past=$crates ;;
        *) line="$crate proved" past=$((past + 1)) ;;
        esac
        say "$line, $past of $crates, $(($(date +%s) - began)) s so far"
    done
    [ -e "$built/proved" ]
}

compile() {
    say 'compiling the command'
    cargo build --release --offline --manifest-path cli/Cargo.toml --target-dir "$built" </dev/null >"$log" 2>&1
}

archive_fresh() {
    # shellcheck disable=SC2046 # a word for each path
    fresh "$built/archive" $(archived)
}

binary_fresh() {
    # shellcheck disable=SC2086 # a word for each path
    [ -x "$binary" ] && fresh "$built/binary" "$built/archive" $compiled
}

build() {
    for tool in rt cargo; do
        command -v "$tool" >/dev/null || fail "the command is not built yet, and $tool, which builds it, is not on the PATH"
    done
    mkdir -p "$built" || fail "$built cannot be made"
    # Before the stamps: a folder that rt made later would change the crate's own.
    for crate in $(archived); do [ ! -d "$crate" ] || mkdir -p "$crate/out"; done
    # Two that build at once would tread on each other. The lock is on this file and goes with the process.
    if command -v flock >/dev/null; then
        exec 9<"$here/zap"
        flock -n 9 || { say 'another zap is building; waiting for it' && flock 9; }
    fi
    { [ -e "$archive" ] && archive_fresh || stamped "$built/archive" prove; } &&
        { binary_fresh || stamped "$built/binary" compile; } || {
        tail -n 20 "$log" >&2
        fail "it could not be built; the whole log is in $log"
    }
}

# In a shell of its own: there paths count from the project, and the lock ends with it.
(cd "$here" && { archive_fresh && binary_fresh || build; })
exec "$binary" "$@"

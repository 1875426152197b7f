# What the tests in bash have in common, for bash with `set -u`: they count checks, and show what failed. A test sets
# `name`, which its messages begin with, reads tools/common.bash and this file, and makes the folder `room`.
# shellcheck shell=bash
# shellcheck disable=SC2154,SC2016  # the variables of the test, and the backquotes of pages
tests=$name count=0 failed=0

# Notes that something isn't so, and shows what a command wrote.
fault() {
    failed=$((failed + 1))
    echo "$tests: not so: $1" >&2
    tail -n 40 "$room/seen" | sed 's/^/    /' >&2
    return 1
}

# Runs a command or a function, a command for half an hour at most: the machine may be busy.
run() {
    if [ "$(type -t "$1")" = file ]; then set -- timeout --kill-after=10 1800 "$@"; fi
    ("$@") > "$room/seen" 2>&1 < /dev/null
}

# Checks that a command succeeds.
check() {
    local what=$1
    shift
    count=$((count + 1))
    run "$@" || fault "$what"
}

# Checks that a command succeeds and writes these lines.
check_lines() {
    local what=$1 wanted=$2
    shift 2
    check "$what" "$@" || return
    [ "$(cat "$room/seen")" = "$wanted" ] || fault "$what"
}

# Checks that a command fails with these words.
check_refusal() {
    local what=$1 words=$2
    shift 2
    count=$((count + 1))
    if run "$@" || ! grep -qF -- "$words" "$room/seen"; then fault "$what"; fi
}

# The lines of a page from the first that matches, without its indentation, up to one that is indented less.
page_lines() {
    awk -v first="$2" '{ match($0, /^ */) } !on && $0 ~ first { on = RLENGTH } on && RLENGTH < on && /./ { exit }
        on { print substr($0, on + 1) }' "$top/$1"
}

# Checks that the program in Rust of the README writes what that says, if its line in Cargo.toml names the crate below a
# prefix in place of /usr: check_app WHAT PREFIX.
check_app() {
    local wanted
    wanted=$(sed -n 's/^The program below prints `\(.*\)` and `\(.*\)`\. .*/\1\n\2/p' "$top/README.md")
    mkdir -p "$room/app/src"
    printf '[package]\nname = "app"\nedition = "2024"\n[dependencies]\n' > "$room/app/Cargo.toml"
    page_lines README.md '^    first_pass = ' | sed "s#/usr#$2#" >> "$room/app/Cargo.toml"
    page_lines README.md '^    use first_pass::' > "$room/app/src/main.rs"
    check_lines "$1" "$wanted" env -C "$room/app" cargo run --quiet --offline
}

# Says how much was checked. The status is 1 if something isn't so.
end_checks() {
    echo "$tests: $count checks, $failed failed"
    [ "$failed" -eq 0 ]
}

# What the scripts of this repository have in common. A script sets `name`, which its messages begin with, and `top`,
# the folder of the checkout, and reads this file. The functions are for bash with `set -u`.
# shellcheck shell=bash
# shellcheck disable=SC2154,SC2034  # the variables of the script, and those that are for it

# What would make `cd` and git look elsewhere is left out, and TMPDIR is the same in each folder.
unset CDPATH GIT_DIR GIT_WORK_TREE GIT_INDEX_FILE GIT_COMMON_DIR
[[ ${TMPDIR-/} == /* ]] || TMPDIR=$PWD/$TMPDIR

# Writes a line to standard error: as it is, or quoted as bash writes it if a character of it can't be printed.
say() {
    local LC_ALL=C.UTF-8 text="$name: $*"
    [[ $text != *[![:print:]]* ]] || text=${text@Q}
    printf '%s\n' "$text" >&2
}

fail() {
    say "$@"
    exit 2
}

# Has the folders `room` and `stage` removed at the end, also after a signal.
leave_nothing() {
    trap 'rm -rf --one-file-system -- ${room:+"$room"} ${stage:+"$stage"}' EXIT
    trap 'exit 129' HUP
    trap 'exit 130' INT
    trap 'exit 143' TERM
}

# Makes `room`, a folder for temporary files.
make_room() {
    leave_nothing
    room=$(mktemp -d "${TMPDIR:-/tmp}/first_pass.XXXXXX" 2> /dev/null) ||
        fail "no folder for temporary files can be made in ${TMPDIR:-/tmp}: TMPDIR names another"
}

# Runs git in this checkout. It fails if `top` is no checkout, but a folder in another.
git_here() {
    local up
    up=$(git -C "$top" rev-parse --show-cdup 2> /dev/null) && [ -z "$up" ] && git -C "$top" "$@"
}

# Stops unless each of these commands is there: need WHERE COMMAND.., where WHERE says what has them.
need() {
    local where=$1 command
    shift
    for command in "$@"; do
        command -v -- "$command" > /dev/null || fail "$command is needed: $where"
    done
}

# Sets `programs` to the crates with a main file.
read_programs() {
    programs=("$top"/crates/*/src/main.rt)
    programs=("${programs[@]%/src/main.rt}")
    programs=("${programs[@]##*/}")
}

# Reads the word PREFIX: sets `prefix`, the folder to install to, below DESTDIR if that is set. Stops if it can't be
# one, or if nothing can be written to what there is of its path.
read_prefix() {
    local there
    [ -n "$1" ] || fail 'the folder to install to is needed'
    prefix=${DESTDIR:+$DESTDIR/}$1
    case $prefix in
        *$'\n'* | -*) fail "$prefix is no folder to install to" ;;
    esac
    there=$prefix
    until [ -e "$there" ] || [ -L "$there" ]; do
        there=$(dirname "$there")
    done
    [ -d "$there" ] || fail "$prefix can't be written: $there is no folder"
    make_stage "$there"
    rmdir "$stage"
}

# Runs a command that writes to `prefix` or `stage`.
write() {
    local said
    said=$("$@" 2>&1) || fail "$prefix can't be written: ${said##*: }"
}

# Runs a step of the work, and stops with its last line if it fails.
step() {
    local said
    said=$("$@" 2>&1 < /dev/null) || fail "${1##*/} failed: ${said##*$'\n'}"
}

# Makes `stage`, a folder in this one that is removed at the end.
make_stage() {
    leave_nothing
    stage=$1/.first_pass.$$
    write mkdir -m 755 -- "$stage"
}

# Makes the folder `prefix`, keeps others from installing there meanwhile, and makes `stage` in it, a folder in which
# all is written before it is put in its place.
begin_install() {
    write mkdir -p -- "$prefix"
    { exec {prefix_lock}< "$prefix" && flock "$prefix_lock"; } 2> /dev/null || fail "$prefix can't be locked"
    make_stage "$prefix"
}

# Installs files to the stage, and makes the folders above: place MODE TARGET FILE.., where TARGET is a folder if it
# ends with a slash.
place() {
    local mode=$1 target=$stage/$2
    shift 2
    case $target in
        */) write install -D -m "$mode" -t "$target" -- "$@" ;;
        *) write install -D -m "$mode" -T -- "$@" "$target" ;;
    esac
}

# Puts all files of the stage in their places, each by a rename, once there is a folder for each.
finish_install() {
    local path folders files
    mapfile -d '' folders < <(cd "$stage" && find . -type d -print0)
    mapfile -d '' files < <(cd "$stage" && find . ! -type d -print0)
    for path in "${folders[@]/#/"$prefix/"}"; do
        [ -d "$path" ] || { [ ! -e "$path" ] && [ ! -L "$path" ]; } ||
            fail "$prefix can't be written: $path is no folder there"
    done
    for path in "${files[@]/#/"$prefix/"}"; do
        [ ! -d "$path" ] || [ -L "$path" ] || fail "$prefix can't be written: $path is a folder there"
    done
    write mkdir -p -- "${folders[@]/#/"$prefix/"}"
    trap '' HUP INT TERM
    for path in "${files[@]}"; do
        write mv -fT -- "$stage/$path" "$prefix/$path"
    done
}

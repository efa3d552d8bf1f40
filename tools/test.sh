# What the tests share. They read this file by `. "$top/tools/test.sh"`, where `top` is the folder of the repository. A test that can't try something
# for want of a tool says so by `skip`, and the gate counts it.

# skip REASON: WHAT: says what isn't tried, and why.
skip() {
    echo "${0##*/}: skipped, $*" >&2
}

# has TOOL WHAT: whether a tool is there. Where it isn't, its package is named, and what is skipped for want of it.
has() {
    command -v "$1" >/dev/null && return
    package=$(awk -v tool="$1" '$1 == tool { print $2 }' "$top/tools/packages")
    skip "${package:+the package }${package:-$1} is missing: $2"
    false
}

# error NAME: what a listing says of an error of a decode.
error() {
    sed -n "s/^description_of $1 = codes \"\(.*\)\"\$/error: \1/p" "$top/crates/x86_fields/specs/Errors.antt"
}

# begin TOOL..: makes a folder to work in, `work`, which goes at the end. Where a tool is missing the test ends here, and says that all of it is skipped.
begin() {
    for needed; do has "$needed" "all of it" || exit 0; done
    work=$(mktemp -d)
    trap 'rm -rf "$work"' EXIT
    trap 'exit 1' HUP INT TERM
}

# wrongly WHAT: says what is wrong, and notes that something is.
wrongly() {
    echo "${0##*/}: $*" >&2
    : >"$work/wrong"
}

# ends STATUS TEXT COMMAND..: a command must end with this status, and say on standard error what has this text.
ends() {
    wanted=$1 text=$2
    shift 2
    "$@" >"$work/stdout" 2>"$work/said"
    got=$?
    [ $got -eq "$wanted" ] || wrongly "status $got and not $wanted, with $(cat "$work/said"): $text"
    grep -qE -e "$text" "$work/said" || wrongly "it says $(cat "$work/said"), and not: $text"
}

# finish WHAT: ends the test, and says so where nothing is wrong.
finish() {
    [ ! -e "$work/wrong" ] || exit 1
    echo "${0##*/}: $*"
    exit 0
}

# feed COMMAND..: starts a command over a new pipe, descriptor 7, which stays open. What it prints is in the file `out`.
feed() {
    rm -f "$work/fed"
    : >"$work/out"
    mkfifo "$work/fed"
    exec 7<>"$work/fed"
    "$@" <"$work/fed" >"$work/out" 2>"$work/said" 7<&- &
    fed=$!
}

# come COUNT WHAT: so many lines come of what is fed, and no more.
come() {
    for _ in $(seq 100); do [ "$(wc -l <"$work/out")" -lt "$1" ] && sleep 0.05 || break; done
    [ "$(wc -l <"$work/out")" -eq "$1" ] || wrongly "$(wc -l <"$work/out") lines and not $1: $2"
}

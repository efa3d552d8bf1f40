# What the scripts `x86` and `show`, the gate and the tools share: where a program is, of which sources and by which kit it was built, which crates
# it is made of, and how it starts. They read this file by `. tools/program.sh`, where `top` is the folder of the repository.

VERSION=1.0
PROGRAM_CRATE=x86
# A line for each command: its words, two blanks or more, and what it does.
commands=$top/tools/commands.txt
# The crate at the end of the longest path of crates.txt, as its proofs take time.
LONGEST_CRATE=x86_layout
# The bytes of text from which on `rt try` reads no further.
TRY_MAX=67108864

# use_program SCRIPT CRATE SAMPLE: the program that a script starts: its crate, and words of it that take an empty text.
use_program() {
    script=$1 PROGRAM_CRATE=$2 sample=$3
    out=$top/crates/$PROGRAM_CRATE/out
    program=$out/$PROGRAM_CRATE log=$out/build.log receipt=$out/receipt
}
use_program x86 $PROGRAM_CRATE list

# crates NAME..: the crates of this repository among these and what they use, lowest first.
crates() {
    awk -v names="$*" '
        function add(name, parts, count, at) {
            if (name in added || !(name in below)) return
            added[name]
            count = split(below[name], parts)
            for (at = 1; at <= count; at++) add(parts[at])
            print name
        }
        /^[a-z]/ { name = $1; sub(/:$/, "", name); sub(/^[^:]*:/, ""); below[name] = $0 }
        END { count = split(names, parts); for (at = 1; at <= count; at++) add(parts[at]) }' "$top/crates.txt"
}

# copy_crates FOLDER NAME..: copies the sources of these crates, without what was built and without must-fail edits, as a repository of their own.
copy_crates() (
    folder=$1
    shift
    mkdir -p "$folder/.git" && cp "$top/HANDLES" "$folder"
    for name in $(crates "$@"); do grep "^$name:" "$top/crates.txt"; done >"$folder/crates.txt"
    cd "$top" && find $(crates "$@" | sed 's,^,crates/,') \( -name out -o -name must-fail \) -prune -o -type f -print | tar -cf - -T - | tar -xf - -C "$folder"
)

# source_paths: the paths at and below which the sources of the program are.
source_paths() {
    echo crates.txt HANDLES $(crates $PROGRAM_CRATE | sed 's,^,crates/,')
}

# find_files PATHS ACTION..: does this with the files at and below these paths, but for what was built, must-fail edits and the crates' pages.
find_files() (
    below=$1
    shift
    cd "$top" && find $below \( -name out -o -name must-fail -o -name README.md \) -prune -o -type f "$@"
)

# sums: the SHA-256 of each source of the program, as sha256sum prints it.
sums() {
    find_files "$(source_paths)" -print0 | LC_ALL=C sort -z | (cd "$top" && xargs -0 sha256sum)
}

sum() {
    sha256sum | cut -d ' ' -f 1
}

# kit: the line of the kit whose `rt` is on PATH, or nothing.
kit() {
    rt=$(command -v rt) && rt=$(readlink -f "$rt") || return 0
    cat "${rt%/*/*}/KIT-ID" 2>/dev/null || rt version
}

# commit: what git says of the clone, or nothing.
commit() {
    [ -e "$top/.git" ] && head=$(git -C "$top" rev-parse --short=12 HEAD 2>/dev/null) || return 0
    [ -z "$(git -C "$top" status --porcelain 2>/dev/null)" ] || head="$head, with changes"
    echo "$head"
}

# verdict LOG: the line of the check of the program, and the C functions whose contracts it takes as they are written, of the log of `rt`.
verdict() {
    awk -v head="== $PROGRAM_CRATE" -v kept="rt: $PROGRAM_CRATE is kept: " '
        /^== / { inside = $0 == head; had = 1 }
        (inside || !had) && /^axioms / { axioms = axioms $0 "\n" }
        (inside || !had) && /^logic=/ { check = $0 }
        index($0, kept) == 1 { check = $0 }
        END { print "check " (check == "" ? "of a run whose log has no line of it" : check); printf "%s", axioms }' "$1"
}

# write_receipt SUMS LOG: writes beside the program of what and by what it was built: a line each for the SHA-256 of the file `sources`, which has
# these sums, and of the program, for the kit, and for what the log of the run says.
write_receipt() {
    printf '%s\n' "$1" >"$out/sources" && {
        echo "program $PROGRAM_CRATE $VERSION"
        echo "commit $(commit)"
        echo "kit $(kit)"
        echo "sources $(sum <"$out/sources")"
        echo "binary $(sum <"$program")"
        verdict "$2"
    } >"$receipt.$$" && mv "$receipt.$$" "$receipt"
}

# of_receipt KEY: what the receipt has.
of_receipt() {
    sed -n "s/^$1 //p" "$receipt"
}

# listing PATHS: these paths, and of each file what another content changes: its size, its number, and the times of the last change of its content and
# of its entry, which no program can set.
listing() {
    echo "$1"
    find_files "$1" -printf '%p %s %i %T@ %C@\n' 2>/dev/null
}

# is_as_seen: whether no file was changed since its sum was last compared.
is_as_seen() {
    [ -f "$out/seen" ] && read -r paths <"$out/seen" && listing "$paths" | cmp -s - "$out/seen"
}

# is_as_receipt: whether the sources and the program have the sums of the receipt. Where not, `why` says which is another. Where they have, the next
# start needs no sums, unless a file is so new that another change might bear the same time.
is_as_receipt() {
    paths="$(source_paths) ${program#"$top/"} ${receipt#"$top/"}"
    seen=$(listing "$paths")
    now=$(sums)
    if [ "$(printf '%s\n' "$now" | sum)" != "$(of_receipt sources)" ]; then
        other=$(printf '%s\n' "$now" | cat - "$out/sources" 2>/dev/null | LC_ALL=C sort | uniq -u | sed 's/^[^ ]* *//' | uniq)
        why="the sources aren't those that it was built of: $(echo $other | cut -c 1-200)"
    elif [ "$(sum <"$program")" != "$(of_receipt binary)" ]; then
        why="the file $program isn't the one that was built"
    elif [ -z "$(find_files "$paths" -newerct '2 seconds ago' -print -quit 2>&1)" ]; then
        { printf '%s\n' "$seen" >"$out/seen.$$" && mv "$out/seen.$$" "$out/seen"; } 2>/dev/null
    fi
    [ -z "$why" ]
}

# is_built: whether the program is there, and is of the sources and by the kit as they are. Where not, `why` says why.
is_built() {
    why= now_kit=$(kit)
    if [ ! -f "$receipt" ]; then
        why="it isn't built yet"
    elif [ ! -x "$program" ]; then
        why="the file $program isn't there"
    elif [ -n "$now_kit" ] && [ "$now_kit" != "$(of_receipt kit)" ]; then
        why="the kit is $now_kit, and it was built by $(of_receipt kit)"
    else
        is_as_seen || is_as_receipt
    fi
    [ -z "$why" ]
}

# usage_line: what the program prints where its words request nothing.
usage_line() {
    awk -F '  +' '{ line = line (NR == 1 ? "usage: " : " | ") $1 } END { print line }' "$commands"
}

say() {
    echo "$script: $*" >&2
}

fail() {
    say "$*"
    exit 100
}

# Says what would answer, and whether it is what was proved.
print_version() {
    echo "$script $VERSION"
    commit | sed 's/^/commit: /'
    kit | sed 's/^/kit: /'
    if is_built; then
        echo "proved: $(of_receipt check)"
        echo "built: of sources $(of_receipt sources), as the program $(of_receipt binary) (SHA-256)"
    else
        echo "not proved: $why"
    fi
}

# Says that text is awaited, where nothing else would show it.
report_terminal() {
    [ "${1-}" = make ] || [ ! -t 0 ] || say "hex text is read from the terminal, up to a ^D at the start of a line"
}

# Writes what `rt ci` prints to the log, and a line for each crate that is proved.
report() {
    began=$(date +%s) count=$(crates $PROGRAM_CRATE | wc -l) number=0
    while IFS= read -r line; do
        printf '%s\n' "$line" >>"$log"
        case $line in
        "rt: "*" proved" | "rt: "*" is kept: "*)
            number=$((number + 1)) crate=${line#rt: }
            say "$number of $count proved: ${crate%% *}, $((($(date +%s) - began) / 60)) min"
            ;;
        esac
    done
}

# beside CALL: runs a call in a shell of its own, which has a folder `work` and notes its jobs in `jobs`, and waits for it. What ends this process ends
# these too, also a signal to its id alone, which a shell heeds at once while it waits.
beside() {
    trap 'kill $! && wait $!; exit 1' HUP INT TERM
    {
        jobs= work=
        trap 'kill $jobs 2>/dev/null; wait; rm -rf "$work"' EXIT
        # A second signal, where one comes to all processes of the group, must not end what this one begins.
        trap 'trap "" HUP INT TERM; exit 1' HUP INT TERM
        work=$(mktemp -d) && "$@"
    } &
    wait $!
}

# Proves the crates side by side, and builds the program, by `rt ci` in a copy that is laid out. The kit keeps each crate once it is proved, for
# the gate, for other clones, and for the start after one that was broken off.
prove() {
    copy_crates "$work/copy" $PROGRAM_CRATE
    for crate in "$work/copy/crates"/*; do (cd "$crate" && rt fmt); done >>"$log" 2>&1
    cd "$work/copy" && mkfifo "$work/lines" || exit 1
    report <"$work/lines" &
    jobs=$!
    rt ci </dev/null >"$work/lines" 2>&1 &
    jobs="$jobs $!"
    # How many processors a proof has is fixed as it begins: by a second run on the longest path its proofs have two each.
    rt ci $LONGEST_CRATE </dev/null >/dev/null 2>&1 &
    jobs="$jobs $!"
    wait
    grep -qE "^rt: $PROGRAM_CRATE (proved$|is kept: )" "$log" && mkdir -p "$out" && cp "crates/$PROGRAM_CRATE/out/$PROGRAM_CRATE" "$program"
}

# Proves what changed, over the work that `rt check` or `rt run` of the program's crate left in this clone.
prove_changes() {
    cd "$top/crates/$PROGRAM_CRATE" || exit 1
    rt run -- $sample </dev/null >>"$log" 2>&1 &
    jobs=$!
    wait $jobs
}

# note START FILE [PROGRAM WORD..]: says what is wrong with the beginning of a text, where perl is there (tools/note).
note() {
    if command -v perl >/dev/null; then perl "$top/tools/note" "$@"; fi
}

# Becomes the program. Of a pipe or a file it says before what is wrong with the beginning of the text, and takes nothing of it.
become() {
    [ "${1-}" != make ] && { [ -p /dev/stdin ] || [ -f /dev/stdin ]; } && command -v perl >/dev/null || exec "$program" "$@"
    exec perl "$top/tools/note" "./$script $*" - "$program" "$@"
}

# Answers without a proof: the kit compiles the sources with checks, and runs them once over the whole text.
try_unproved() {
    work=$(mktemp -d) || exit 100
    trap 'rm -rf "$work"' EXIT
    trap 'exit 100' HUP INT TERM
    say "not proved: the sources are compiled with checks, within a minute, and nothing is kept; \`./$script $*\` proves them first"
    if [ "${1-}" = make ]; then : >"$work/text"; else head -c $TRY_MAX >"$work/text"; fi
    if [ "$(wc -c <"$work/text")" -lt $TRY_MAX ]; then
        note "./$script $*" "$work/text"
        (cd "$top/crates/$PROGRAM_CRATE" && rt try -- "$@") <"$work/text" >"$work/answer" 2>"$work/said"
        status=$(sed -n 's/^run=ended status=\([0-9]*\) .*proved=no$/\1/p' "$work/said")
        [ -z "$status" ] || { cat "$work/answer" && exit "$status"; }
        grep -v '^| \|^interpreter: ' "$work/said" | tail -n 20 >&2
    fi
    fail "no answer without a proof, which takes a text below 64 MiB and a listing up to 1 MiB: \`./$script $*\` has no such limits"
}

# Builds the program of the sources as they are. An older one goes, so that none is taken for it.
build() {
    [ ! -f "$receipt" ] || say "proved and built again: $why"
    before=$(sums)
    rm -f "$receipt" "$out/seen" "$program"
    : >"$log"
    takes="10 to 25 minutes from nothing, 4 GB of memory and 3 GB of disk"
    say "\`./$script try $*\` answers without a proof, within a minute. Proving and building the program takes $takes (see $log)"
    if [ -d "$out/incremental" ]; then beside prove_changes; else beside prove; fi && [ -x "$program" ] && write_receipt "$before" "$log"
}

# start WORDS..: runs the program, which is proved and built first where it isn't that of the receipt, the sources and the kit. Where `is_tried` is
# yes, an unproved build answers instead.
start() {
    report_terminal "$@"
    if ! is_built; then
        command -v rt >/dev/null || fail "$why, and the command \`rt\`, which proves and builds it, isn't on PATH: see \"Run it\" in README.md"
        [ $is_tried = no ] || try_unproved "$@"
        mkdir -p "$out" || exit 100
        exec 9>"$out/lock"
        if command -v flock >/dev/null && ! flock -n 9; then
            say "waiting for another start, which builds the program (see $log)"
            flock 9
        fi
        if ! is_built; then
            build "$@" || { tail -n 20 "$log" >&2 && fail "the program wasn't built (see $log)"; }
        fi
        exec 9>&-
        report_terminal "$@"
    fi
    become "$@"
}

# main WORDS..: what a script does with its words. It has the calls `help`, `is_command` and `usage`.
main() {
    is_tried=no
    case $#,${1-} in
    1,--help | 1,-h) help && exit ;;
    1,--version) print_version && exit ;;
    *,try) is_tried=yes && shift ;;
    esac
    if is_command "$@"; then start "$@"; fi
    # Other words have the answer of the program, or its usage line.
    if is_built; then
        "$program" "$@"
        status=$?
    else
        usage >&2
        status=2
    fi
    [ $status -ne 2 ] || say "hex text comes on standard input; see \`./$script --help\`"
    exit $status
}

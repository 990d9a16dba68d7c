# What the checks in sh have in common: they count what passes and what fails, and end with a line that tells both.
# Variables: here, the top of the repository; program, the bmesh that is checked; scratch, a folder for what is written.
passed=0
failed=0

finish() {
    echo "$passed passed, $failed failed"
    [ "$failed" -eq 0 ]
    exit
}

# skip WHAT: ends the checks, since something that they need is missing.
skip() {
    echo "${0##*/}: skipped, since $1 is missing"
    finish
}

# need TOOL..: skips the checks where one of the tools is missing.
need() {
    for tool in "$@"; do
        command -v "$tool" > /dev/null 2>&1 || skip "$tool"
    done
}

pass() {
    passed=$((passed + 1))
}

fail() {
    failed=$((failed + 1))
    echo "FAILED $*"
}

# differs WANTED GIVEN WHAT: says where two files differ, if they do.
differs() {
    cmp -s "$1" "$2" && return 1
    echo "$3: wanted (<) and given (>)"
    diff "$1" "$2"
    return 0
}

# make_scratch: a folder for what the checks write, which goes when they end.
make_scratch() {
    scratch=$(mktemp -d) || exit 1
    trap 'rm -rf "$scratch"' EXIT
    trap 'exit 1' HUP INT TERM
}

# is_as_wanted FOLDER RUN: whether a run of an example gave what its folder says. Where that has no out.obj, none may be
# made.
is_as_wanted() {
    faults=0
    differs "$1/status" "$2/status" "status" && faults=1
    differs "$1/report.txt" "$2/report.txt" "report" && faults=1
    if [ -e "$1/out.obj" ]; then
        [ -e "$2/out.obj" ] || { echo "OUT was not written" && return 1; }
        differs "$1/out.obj" "$2/out.obj" "OUT" && faults=1
    elif [ -e "$2/out.obj" ]; then
        echo "OUT was written" && faults=1
    fi
    return "$faults"
}

# check_example FOLDER: runs one example, with the scale that its folder says, or 0.
check_example() {
    name=$(basename "$1")
    run=$scratch/example-$name
    if ! { mkdir "$run" && cp "$1/model.obj" "$1/script.txt" "$run"; }; then
        fail "examples/$name"
        return
    fi
    scale=$(cat "$1/scale" 2> /dev/null) || scale=0
    (cd "$run" && "$program" model.obj script.txt out.obj --scale "$scale" < /dev/null > report.txt
        echo "$?" > status)
    if is_as_wanted "$1" "$run"; then pass; else fail "examples/$name"; fi
}

# check_each_example FOLDER: runs each example of a folder.
check_each_example() {
    found=0
    for folder in "$1"/*/; do
        [ -d "$folder" ] || continue
        found=1
        check_example "${folder%/}"
    done
    [ "$found" -eq 1 ] || fail "examples: no folder is there"
}

# check_page NAME FILE: runs the marked blocks of a page in order, in one folder that has bmesh and examples/.
check_page() {
    blocks=$scratch/blocks
    place=$scratch/page
    rm -rf "$blocks" "$place"
    mkdir "$blocks" "$place" && cp -R "$here/examples" "$place" && ln -s "$program" "$place/bmesh" || exit 1
    awk -v into="$blocks" -f "$here/tools/marked-blocks.awk" "$2" || fail "$1: its marks"
    found=0
    for block in "$blocks"/*.sh; do
        [ -e "$block" ] || continue
        found=1
        check_block "$1:$(basename "$block" .sh)" "${block%.sh}" "$place"
    done
    [ "$found" -eq 1 ] || fail "$1: no block is marked"
}

# check_block NAME BLOCK FOLDER: runs one block in a folder.
check_block() {
    (cd "$3" && PATH=$3:$PATH sh "$2.sh") > "$2.given" 2>&1 < /dev/null
    if differs "$2.want" "$2.given" "printed"; then fail "$1"; else pass; fi
}

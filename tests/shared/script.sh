# What the run scripts of the tests share. They source it from the repository's folder.

fail() {
    echo "$0: $1" >&2
    exit 1
}

# An empty folder for what a script builds and writes.
empty_folder() {
    rm -rf "$1"
    mkdir -p "$1"
}

# The libraries are built, or with LIBRARY_BUILT=1 taken as they stand.
need_library() {
    [[ ${LIBRARY_BUILT-} == 1 ]] || make -s library
}

# The program, which is built before the tests are run.
need_program() {
    [[ -x $1 ]] || fail "there is no program $1"
}

# Builds a Rust program: source, result, further options. Assertions are on: one of the second calculation's is that an
# event's amounts add up.
build_rust() {
    rustc --edition 2021 -O -C debug-assertions=on -D warnings "${@:3}" "$1" -o "$2"
}

# The statement of every example, from the program named. An example with a time scale is left out, unless $2 is
# 'scaled': the program is then given the scale's file.
compare_examples() {
    local folder scale count=0
    for folder in examples/*/; do
        scale=()
        if [[ -f $folder/scale.txt ]]; then
            [[ ${2-} == scaled ]] || continue
            scale=(scale.txt)
        fi
        (cd "$folder" && timeout 10 "$1" "${scale[@]}" < events.txt) | cmp - "$folder/statement.txt" ||
            fail "$1 does not print ${folder}statement.txt"
        count=$((count + 1))
    done
    echo "examples: $count compared with $(basename "$1")"
}

# An events text of $1 bytes without losses, in as many lines as that length can have: lines of 10 bytes, the last few
# of 11. Their days rise.
idle_events() {
    local longer=$(($1 % 10)) i
    local shorter=$((($1 - 11 * longer) / 10))
    for ((i = 0; i < shorter; i++)); do echo "(event $((1 + 9 * i / shorter)))"; done
    for ((i = 0; i < longer; i++)); do echo "(event $((10 + i)))"; done
}

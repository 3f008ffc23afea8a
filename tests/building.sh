# shellcheck shell=bash disable=SC2034,SC2154
# Read by the scripts beside it: what has landed, the proved library, and the programs built for both. They set `root`
# before; a script that counts tests has its own `give_up`.

tests="$root/tests"
export CARGO_TARGET_DIR="$root/build/cargo"

# The functions of the library; with all of them landed nothing is waived any more.
all="f-check-book f-check-image f-compile f-group f-part f-questions f-run f-short-list f-step"

# Sets `features` from `landed`, one feature a line, and `mode` to the word for the differ where nothing is waived.
read_landed() {
    [[ -e $tests/landed ]] || : >"$tests/landed"
    features=()
    local feature
    while read -r feature; do
        features+=("$feature")
    done < <(sed -e 's/#.*//' -e 's/[[:space:]]//g' -e '/^$/d' "$tests/landed")
    mode=()
    local functions
    functions=$(printf '%s\n' "${features[@]+"${features[@]}"}" | grep -vx f-list | sort -u | tr '\n' ' ')
    [[ $functions != "$all " ]] || mode=(full)
}

# Where `rt lib` and `rt run` write.
export GUSEMRAK_LIB="$root/crates/gusemrak/out"
export GUSEMRAK_LIST="$root/crates/list/out/list"

# The proved library, and the program `list` where it has landed.
build_library() {
    [[ ${#features[@]} -gt 0 ]] || return 0
    (cd "$root/crates/gusemrak" && rt lib) || give_up "rt lib failed in crates/gusemrak"
    [[ " ${features[*]} " != *" f-list "* ]] || build_list
}

# `rt run` proves and builds the program, and then runs it in crates/list, where no book lies: what it prints there and
# its status say nothing. Whether it was built is told by the file, which a build that fails does not write.
build_list() {
    local log
    log=$(mktemp)
    rm -f "$GUSEMRAK_LIST"
    (cd "$root/crates/list" && rt run) </dev/null >"$log" 2>&1
    [[ -x $GUSEMRAK_LIST ]] || cat "$log"
    rm -f "$log"
    [[ -x $GUSEMRAK_LIST ]] || give_up "rt run built no program in crates/list"
}

# The runner, and the differ where anything has landed.
build_programs() {
    local build=(cargo build --quiet --offline --release --manifest-path "$tests/Cargo.toml" -p runner) feature
    if [[ ${#features[@]} -gt 0 ]]; then
        build+=(-p differ)
        for feature in "${features[@]}"; do
            build+=(--features "runner/$feature" --features "differ/$feature")
        done
    fi
    "${build[@]}" || give_up "the build failed"
}

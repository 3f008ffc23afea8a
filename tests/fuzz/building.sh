# shellcheck shell=bash disable=SC2154
# Read by the scripts beside it, after tests/building.sh: the C programs of the fuzzer.

fuzz="$root/tests/fuzz"
out="$root/build/fuzz"
warnings=(-std=c11 -Wall -Wextra -Wpedantic -Werror)
mkdir -p "$out"

# Sets `defines`: a feature f-check-book is F_CHECK_BOOK to C.
defines_of_features() {
    defines=()
    local feature
    for feature in "${features[@]}"; do
        feature=${feature^^}
        defines+=("-D${feature//-/_}")
    done
}

# The program that makes the calls of inputs without the fuzzer.
build_replay() {
    defines_of_features
    "${CC:-cc}" "${warnings[@]}" -O2 "${defines[@]}" -I"$root/include" -o "$out/replay" \
        "$fuzz/replay.c" "$fuzz/call.c" "$fuzz/twin.c" -L"$GUSEMRAK_LIB" -lgusemrak || give_up "replay cannot be built"
}

# The cases as inputs, afresh.
write_seeds() {
    rm -rf "$out/seeds"
    mkdir -p "$out/seeds"
    "$CARGO_TARGET_DIR/release/seeds" "$tests/cases" "$out/seeds" || give_up "no inputs from the cases"
}

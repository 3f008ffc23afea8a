# shellcheck shell=bash
# What the scripts share: where things are, the library, and the facts that stand beside every figure.
root=$(cd "$(dirname "${BASH_SOURCE[0]}")/.." && pwd)
bench=$root/bench
out=$root/build/bench
results=$out/results
mkdir -p "$results"

# Debian packages, installed by name where they are missing.
packages() {
    local missing=() name
    for name in "$@"; do
        dpkg-query -W -f '${Status}' "$name" 2>/dev/null | grep -q 'ok installed' || missing+=("$name")
    done
    [ ${#missing[@]} -eq 0 ] && return
    echo "installing ${missing[*]}" >&2
    local apt=(apt-get)
    [ "$(id -u)" -eq 0 ] || apt=(sudo apt-get)
    "${apt[@]}" install -y --no-install-recommends "${missing[@]}" >&2 ||
        { "${apt[@]}" update >&2 && "${apt[@]}" install -y --no-install-recommends "${missing[@]}" >&2; }
}

# A package only where its command is missing: a compiler may come from elsewhere.
command_of() { command -v "$1" >/dev/null || packages "$2"; }

# LIB and STEPLIB, empty where there is none. GUSEMRAK_LIB names a folder that has them already, as for the tests.
libraries() {
    LIB=$(library gusemrak) && STEPLIB=$(library stepbench)
}
# Prints where a library is, built anew by `rt lib` unless GUSEMRAK_LIB is set; nothing where there is none.
library() {
    local name=$1 folder=${GUSEMRAK_LIB:-$root/crates/$1/out}
    if [ -z "${GUSEMRAK_LIB:-}" ] && grep -q "^$name staticlib:" "$root/crates.txt"; then
        (cd "$root/crates/$name" && rt lib) >"$out/$name.log" 2>&1 || { cat "$out/$name.log" >&2; return 1; }
    fi
    [ ! -f "$folder/lib$name.a" ] || echo "$folder/lib$name.a"
}

# Has the library this function? They land one after another.
has() { [ -n "${LIB:-}" ] && nm -g --defined-only "$LIB" 2>/dev/null | grep -q " [TW] $1\$"; }

build() { make --silent -C "$bench" O="$out" LIB="${LIB:-}" STEPLIB="${STEPLIB:-}" "$@" >&2; }

# Stands at the head of every file of results.
facts() {
    echo "# processor: $(sed -n 's/^model name[^:]*: //p' /proc/cpuinfo | head -n 1), $(nproc) cores"
    echo "# C: $(gcc --version | head -n 1); plain C at -O2, the rest at -O3"
    [ -z "${LIB:-}${STEPLIB:-}" ] || echo "# library: $(rt version 2>/dev/null || echo unknown)"
    case ${1:-} in */small* | */large* | */compile*) echo "# peers: $(peers)" ;; esac
    echo "# date: $(date -u +%Y-%m-%d)"
    echo "# load: $(cut -d ' ' -f 1-3 /proc/loadavg)"
}
peers() {
    local name list=
    for name in librust-aho-corasick-dev libhyperscan-dev python3-ahocorasick; do
        list+="$name $(dpkg-query -W -f '${Version}' "$name"), "
    done
    echo "$list$(rustc --version)"
}

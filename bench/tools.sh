# What the scripts of bench/ share. They start in the repository's folder, $root, and work in $work, which is
# removed at the end.
set -euo pipefail
cd "$(dirname "$0")/.."
root=$PWD
work=$(mktemp -d)
trap 'rm -rf "$work"' EXIT

# build WORDS..: compiles C
build() {
    gcc -std=c99 -Wall -Wextra -I "$root/c/include" -I "$root/bench" "$@"
}

# machine: what the figures were measured on, and with what
machine() {
    local processor
    processor=$(sed -n 's/^model name[[:space:]]*: //p' /proc/cpuinfo | sort -u | head -n 1)
    echo "$processor; C: $(gcc --version | head -n 1); library: $(rt version | head -n 1)"
}

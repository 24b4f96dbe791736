# Sourced: `run PROGRAM` runs a compiled program of the bench, for x86-64, as rt does: by the machine's loader.
loader=/lib64/ld-linux-x86-64.so.2
[ -r "$loader" ] || { echo "this machine has no $loader, by which the kit's programs start" >&2; exit 2; }

run() { "$@"; }

# built NAME: ends the script where that program is not there
built() {
    [ -x "crates/$1/out/$1" ] && return
    echo "crates/$1/out/$1 is missing: run 'rt ci' first, or 'rt run' in crates/$1"
    exit 1
}

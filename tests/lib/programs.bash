# Where the built programs lie. Sourced in the repository's root by the tests that run them.

# built NAME: the program NAME as 'rt ci' leaves it, and 'rt run' in its crate's folder.
built() {
    local program=$PWD/crates/$1/out/$1
    [ -x "$program" ] || { echo "no $program: run 'rt ci' first, or 'rt run' in crates/$1" >&2; return 1; }
    echo "$program"
}

# What the scripts of this folder share: where things are, and the one way
# in which a run is left out. Sourced; `here` must be this folder.

root=$(cd "$here/.." && pwd)
bin=$here/bin

# A run that cannot be made says so and ends well: its callers must see that
# nothing was compared, and still go on.
left_out() {
    echo "compare: left out: $1"
    exit 0
}

# Prints the folder that holds v0.rs, or nothing.
v0_dir() {
    if [ -n "${RUSTC_DEMANGLE_SRC:-}" ]; then
        set -- "$RUSTC_DEMANGLE_SRC" "$RUSTC_DEMANGLE_SRC/src" "$RUSTC_DEMANGLE_SRC/src/src"
    else
        set -- "$root/../shared/docs/src/src"
    fi
    for folder; do
        if [ -f "$folder/v0.rs" ]; then
            (cd "$folder" && pwd)
            return
        fi
    done
}

# Sets V0_DIR, or leaves the run out.
need_crate() {
    command -v rustc >/dev/null 2>&1 || left_out "rustc is not installed"
    V0_DIR=$(v0_dir)
    [ -n "$V0_DIR" ] || left_out "no v0.rs of rustc-demangle 0.1.28 (set RUSTC_DEMANGLE_SRC to a checkout)"
    export V0_DIR
}

# Prints the folder of the vectors, or nothing.
vectors_dir() {
    if [ -d "$root/../shared/vectors" ]; then
        (cd "$root/../shared/vectors" && pwd)
    fi
}

# v0.rs counts bound lifetimes in 32 bits and may wrap: overflow checks would
# turn that into a panic, so they are off, as in any release build.
compile() {
    rustc -O --edition 2021 -C overflow-checks=off "$@"
}

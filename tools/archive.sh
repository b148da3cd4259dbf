# tools/archive.sh: what tools/compare, tools/bench and tools/make-unfused share. Sourced, not run, by a script that has set `here`, the
# folder tools, and `name`: its program is NAME_src/main.rs. From the environment:
#   THRESHDUNE_ORIGINAL  the folder of the original (see oracle/build)
#   THRESHDUNE_ARCHIVE   a static library to take in place of making one
#   RUSTC                the Rust compiler
root=$(dirname "$here")
oracle=$root/target/oracle
program=$root/target/$name/$name
die() { echo "tools/$(basename "$0"): $*" >&2; exit 2; }

# The library's name is meant from the caller's folder.
archive=${THRESHDUNE_ARCHIVE:-}
case $archive in '' | /*) ;; *) archive=$PWD/$archive ;; esac

make_archive() { # proves the crate: minutes where something has changed, some 20 seconds where nothing has
    . "$here/kit.sh"
    build_library threshdune || die "rt made no static library"
    archive=$root/crates/threshdune/out/libthreshdune.a
}

have_oracle() {
    mkdir -p "$oracle"
    "$root/oracle/build" >"$oracle/build.txt" || { cat "$oracle/build.txt" >&2; die "the oracle is not built"; }
    echo "oracle: $(grep -c '^  ok ' "$oracle/build.txt") numbers checked"
}

have_archive() {
    [ -n "$archive" ] || make_archive
    [ -f "$archive" ] || die "no library $archive"
}

compile_program() { # ARGUMENTS OF RUSTC: into $program, with the original beside it
    mkdir -p "$root/target/$name"
    "${RUSTC:-rustc}" --edition 2024 -C opt-level=3 --crate-name "$name" -L dependency="$oracle" \
        --extern original="$oracle/liboriginal.rlib" --extern replaced="$oracle/libreplaced.rlib" \
        "$@" -o "$program" "$here/${name}_src/main.rs" || die "${name}_src does not compile"
}

# tools/kit.sh: how rt builds a crate, proved. Sourced, not run, by a script that has a function `die` and has set `root`, the repository's folder.
# The kit is for x86-64 alone.
command -v rt >/dev/null || die "rt is not on PATH: the Rattle kit is needed"
[ "$(uname -m)" = x86_64 ] || die "the Rattle kit is for x86-64 alone, and this machine is $(uname -m)"

build_program() { # CRATE: as $root/crates/CRATE/out/CRATE, which runs by itself. rt runs it once, here on nothing; it proves anew only what changed
    (cd "$root/crates/$1" && rt run) </dev/null >/dev/null
}

build_library() { # CRATE: as $root/crates/CRATE/out/libCRATE.a
    (cd "$root/crates/$1" && rt lib)
}

# Builds a program from a text of bench/ over crates of the repository; source it at the top of the repository.
# `scratch NAME CRATES..` proves bench/NAME.txt and the crates that it stands on, in a folder that goes away at the end,
# and leaves the built program in `program`. What earlier checks kept of the crates is begun with, and what is written of
# the program's own proofs stands in bench/NAME_proofs, in texts. `lay_out NAME CRATES..` only lays out that folder, with
# the program's crate in `crate`, for `rt try`.
# `libraries` lists the crates that are no programs.
work=$(mktemp -d)
trap 'rm -rf "$work"' EXIT

libraries() {
    local name
    for name in $(sed -n 's/^\([a-z_]*\)[ :].*/\1/p' crates.txt); do
        if [ -f "crates/$name/src/lib.rt" ]; then echo "$name"; fi
    done
}

lay_out() {
    local name=$1 part
    shift
    for crate in "$@"; do
        [ -d "$work/crates/$crate" ] && continue
        mkdir -p "$work/crates/$crate"
        for part in src specs proofs out; do
            if [ -d "crates/$crate/$part" ]; then cp -a "crates/$crate/$part" "$work/crates/$crate/"; fi
        done
        grep "^$crate[ :]" crates.txt >> "$work/crates.txt"
    done
    mkdir -p "$work/crates/$name/src"
    cp "bench/$name.txt" "$work/crates/$name/src/main.rt"
    if [ -d "bench/${name}_proofs" ]; then
        cp -r "bench/${name}_proofs" "$work/crates/$name/proofs"
        find "$work/crates/$name/proofs" -name '*.txt' -exec sh -c 'mv "$1" "${1%.txt}.antt"' _ {} \;
    fi
    echo "$name: $*" >> "$work/crates.txt"
    git init -q "$work"
    crate=$work/crates/$name
}

scratch() {
    lay_out "$@"
    program=$crate/out/$1
    (cd "$crate" && rt run > "$work/log" 2>&1) || { tail -n 20 "$work/log" >&2; return 1; }
}

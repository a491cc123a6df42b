# Which crates of this repository a crate stands on, by crates.txt. Read by the scripts of bench/ and by ./svr2.

# below FILE NAME..: these crates and all below them that FILE lists, lowest first, one a line
below() {
    awk -v names="${*:2}" '
        function walk(name,    list, n, i) {
            if (!(name in deps) || name in seen) return
            seen[name] = 1
            n = split(deps[name], list, " ")
            for (i = 1; i <= n; i++) walk(list[i])
            print name
        }
        { sub(/#.*/, "") }
        /:/ { name = $1; sub(/:.*/, "", name); line = $0; sub(/^[^:]*:/, "", line); deps[name] = line }
        END { count = split(names, wanted, " "); for (k = 1; k <= count; k++) walk(wanted[k]) }
    ' "$1"
}

# copy_below TOP SCRATCH NAME..: a repository at SCRATCH of these crates and all below them, with what checks kept in out/
copy_below() {
    local top=$1 scratch=$2 crate
    shift 2
    cp "$top/HANDLES" "$scratch/"
    mkdir "$scratch/crates"
    for crate in $(below "$top/crates.txt" "$@"); do
        cp -r "$top/crates/$crate" "$scratch/crates/"
        grep "^$crate[: ]" "$top/crates.txt" >> "$scratch/crates.txt"
    done
    (cd "$scratch" && git init -q .)
}

# add_program SCRATCH NAME SOURCE DEP..: a program of this source, on these crates
add_program() {
    local scratch=$1 name=$2 source=$3
    shift 3
    (cd "$scratch" && rt new "crates/$name" start_io >/dev/null)
    echo "$name: $*" >> "$scratch/crates.txt"
    (cd "$scratch/crates/$name" && rm -rf proofs specs src stdin stdout && mkdir src && cp "$source" src/main.rt)
}

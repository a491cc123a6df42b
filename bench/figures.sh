# What the scripts that count the built program's work share: a script sets `top` and then reads this. Builds nothing:
# `./svr2 --build` does. Needs valgrind, GNU time and strace.
program=$top/crates/svr2/out/svr2
work=$(mktemp -d)
trap 'rm -rf "$work"' EXIT
missed=0
[ -x "$program" ] || { echo "$program is not built: ./svr2 --build" >&2; exit 2; }

# Prints a figure beside its aim: it is to be at most that. `missed` tells whether one was more.
# usage: figure WHAT FIGURE AIM
figure() {
    local said=reached
    if [ "$2" -gt "$3" ]; then
        said=missed
        missed=1
    fi
    echo "$1: $2, aim $3: $said"
}

# Runs the program with these words on standard input, its output in $work/output: the instructions that it took stand in `total`.
counted() {
    valgrind --tool=callgrind --callgrind-out-file="$work/profile" "$program" "$@" >"$work/output" 2>"$work/said"
    total=$(sed -n 's/^.*Collected : \([0-9]*\)$/\1/p' "$work/said")
}

# The same with its greatest memory in KB in `memory`.
peaked() {
    /usr/bin/time -o "$work/said" -f %M "$program" "$@" >"$work/output"
    memory=$(tail -n 1 "$work/said")
}

# The same with its reads of standard input in `reads` and its writes to standard output in `writes`.
traced() {
    strace -f -o "$work/calls" -e trace=read,write "$program" "$@" >"$work/output"
    reads=$(grep -c 'read(0,' "$work/calls")
    writes=$(grep -c 'write(1,' "$work/calls")
}

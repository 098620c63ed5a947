# What the commands check and pair share. `root` is this repository, and the program of COMMAND is that of the crate COMMANDprogram.

# build COMMAND: what the build says is shown where it fails. Only someone who watches is told that it runs.
build() {
    local said program=$root/target/bin/$1program
    if [ -t 2 ]; then
        echo "$1: building the program, which takes minutes the first time" >&2
    fi
    said=$("$root/scripts/build" "$1program" 2>&1 </dev/null) || {
        local status=$?
        printf '%s\n' "$said" >&2
        exit "$status"
    }
    if [ ! -x "$program" ]; then
        echo "$1: $program is missing though the build went well" >&2
        exit 1
    fi
}

# run COMMAND ARGUMENT..: its program, built first where it is missing or older than its source.
run() {
    local command=$1 program=$root/target/bin/$1program
    shift
    if [ ! -x "$program" ] || [ -n "$(find "$root/crates" "$root/crates.txt" -name out -prune -o -type f -newer "$program" -print -quit)" ]; then
        build "$command"
    fi
    exec "$program" "$@"
}

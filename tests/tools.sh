# What the scripts over the compiled library share.
said=$(mktemp)
trap 'rm -f "$said"' EXIT

# need TOOL..: fails where one is missing, since a gate that compares nothing is no gate. With WITHOUT_TOOLS=1 the script ends there and passes.
need() {
    local tool
    for tool in "$@"; do
        command -v "$tool" >/dev/null && continue
        echo "$(basename "$0"): not tried, because $tool is missing"
        [ "${WITHOUT_TOOLS:-}" = 1 ] || echo "set WITHOUT_TOOLS=1 to do without it"
        [ "${WITHOUT_TOOLS:-}" = 1 ]
        exit
    done
}

# quietly COMMAND..: what it says is shown where it fails.
quietly() { "$@" >"$said" 2>&1 || { cat "$said"; exit 1; }; }

# How many tests cargo has just run.
tests_passed() { awk '/^test result: ok/ { passed += $4 } END { print passed + 0 }' "$said"; }

#!/bin/sh
# Builds the program where it is missing or older than its sources, and runs it in this folder with these words.
top=$(CDPATH= cd -- "$(dirname -- "$0")" && pwd) || exit 1
program=$top/crates/g4/out/g4
first_time='30 to 60 minutes'

is_old() {
    [ ! -x "$program" ] || [ -n "$(find "$top"/crates.txt "$top"/crates/*/src "$top"/crates/*/specs "$top"/crates/*/proofs \
        -type f -newer "$program" 2>/dev/null | head -n 1)" ]
}

# The lines of crates.txt of the program's crate and of those below it. A crate is listed after all that it uses.
crates() {
    awk '
        { sub(/#.*/, "") }
        split($0, parts, ":") == 2 { split(parts[1], words, " "); lines[++count] = $0; names[count] = words[1]; uses[words[1]] = parts[2] }
        END {
            needed["g4"]
            for (i = count; i > 0; i--)
                if (names[i] in needed) { n = split(uses[names[i]], used, " "); for (k = 1; k <= n; k++) needed[used[k]] }
            for (i = 1; i <= count; i++) if (names[i] in needed) print lines[i]
        }' "$top/crates.txt"
}

# Copies these crates, without what earlier builds left and without the edits that the gate tries.
copy() {
    mkdir "$1" || return 1
    crates > "$1/crates.txt" || return 1
    cp "$top/HANDLES" "$1" || return 1
    # shellcheck disable=SC2046
    (cd "$top" && tar cf - --exclude=out --exclude=must-fail $(sed 's/:.*//; s|^|crates/|' "$1/crates.txt")) | tar xf - -C "$1"
}

# Names each crate as `rt ci` says that it is proved, of so many.
names() {
    at=0
    while read -r from name said; do
        case "$from $said" in
        'rt: proved' | 'rt: is kept: '*)
            at=$((at + 1))
            echo "g4: $at of $1: $name" >&2
            ;;
        esac
    done
}

# Of a log of `rt ci` what is said of all but the crates that are proved.
faults() {
    awk '
        /^== / { said = "" }
        { said = said $0 "\n" }
        /^rt: [^ ]* (proved|is kept)/ { said = "" }
        END { printf "%s", said }' "$1" >&2
}

# Proves the crates on a copy, those that do not use each other side by side on all processors, and builds the program there. Where the kit
# keeps what it has proved, a later build of the same files takes that.
build() (
    if ! command -v rt > /dev/null; then
        echo 'g4: the program is to be built, and the command rt of the Rattle kit is not on the PATH' >&2
        exit 1
    fi
    work=$(mktemp -d) || exit 1
    trap 'rm -rf "$work"' EXIT
    trap 'exit 1' HUP INT TERM
    touch "$work/began"
    copy "$work/copy" || exit 1
    total=$(grep -c : "$work/copy/crates.txt")
    if [ -x "$program" ]; then
        echo "g4: the sources have changed: the program is proved and built again ($first_time at most)" >&2
    else
        echo "g4: building for the first time: each of $total crates is proved once ($first_time)" >&2
    fi
    cd "$work/copy" || exit 1
    (rt ci < /dev/null 2>&1; echo $? > "$work/status") | tee "$work/log" | names "$total"
    if [ "$(cat "$work/status")" != 0 ]; then
        faults "$work/log"
        exit 1
    fi
    # The time at which the build began, so that a source that was edited meanwhile is newer.
    touch -c -r "$work/began" crates/g4/out/g4
    mkdir -p "$top/crates/g4/out" && cp -p crates/g4/out/g4 "$program.new" && mv "$program.new" "$program"
)

if is_old; then
    build || exit 1
fi
exec "$program" "$@"

# shellcheck shell=bash
# Sourced by the scripts of tools/: the built programs, their input, and the exit status of a run.
export LC_ALL=C
root=$(cd "$(dirname "${BASH_SOURCE[0]}")/.." && pwd)
me=$(basename "$0")

# stop MESSAGE: the run can't be made.
stop() {
    echo "$me: $*" >&2
    exit 2
}

# Standard input, output and error must be open: what a script opens would else take the number of the one that is not, and be read or
# written in its place. Input that is closed matters only to who reads it.
(exec 3>&2) || exit 2
closed=
(exec 3<&0) 2>/dev/null || { closed=1 && exec </dev/null; }
(exec 3>&1) 2>/dev/null || stop "standard output could not be written: it is closed"

# other_kit: where the kit is not the one that the file KIT names, says so, and what that may mean.
other_kit() {
    local kit
    kit=$(rt version)
    [ "$kit" != "$(cat "$root/KIT")" ] || return 0
    echo "$me: this kit is '$kit', and the file KIT names '$(cat "$root/KIT")'. What fails here may be a change of the kit and"
    echo "    not of the code, and what passes has passed with this kit alone."
}

# told NAME: of what rt run says, how it goes: a line for each crate that is proved anew, and a word ahead where that takes a while.
told() {
    local line crate='' made='' ended=0
    while :; do
        ended=0
        IFS= read -r -t 2 line || ended=$?
        if [ "$ended" -gt 128 ]; then
            [ -n "$made" ] || echo "proving what has changed, up to $1 (the first time all that it uses, which takes some minutes)"
            made=1
            continue
        fi
        [ "$ended" -eq 0 ] || break
        case $line in
        'checked '*::*)
            line=${line#checked }
            [ "$crate" = "${line%%::*}" ] || { crate=${line%%::*} && made=1 && echo "proving $crate"; }
            ;;
        'fn '*': not proved'* | 'fn '*': no proof'*) echo "$line" ;;
        esac
    done
}

# alone COMMAND..: one at a time in this tree, since two that prove at once take each other's marks of what is proved away.
alone() {
    mkdir -p "$root/target"
    if command -v flock >/dev/null; then flock "$root/target/lock" "$@"; else "$@"; fi
}

# sources: a sum over the kit and all that is proved, by which what was built tells whether it is that of the sources as they are.
sources() {
    (cd "$root" && { rt version; cat crates.txt; find crates/*/src crates/*/specs crates/*/proofs -type f -exec sha256sum {} + | sort; } | sha256sum)
}

# prove NAME [say]: has target/bin/NAME made from the sources as they are: what has changed since it was last proved is proved again, and
# told on standard error. Where nothing has changed that takes a second, and is told only to who wants it said. `rt run` proves and builds
# the program and runs it, here on no input; cpu=x86-64 is for any such processor, where by itself it builds for x86-64-v2.
prove() {
    local name=$1 bin=$root/target/bin present
    if ! command -v rt >/dev/null; then
        [ -x "$bin/$name" ] || stop "target/bin/$name is not built, and there is no rt here: the Rattle kit is not installed"
        echo "$me: there is no rt here: target/bin/$name runs as it was built, whatever has changed since" >&2
        return
    fi
    mkdir -p "$bin"
    other_kit >&2
    present=$(sources)
    if [ -x "$bin/$name" ] && [ "$(cat "$bin/$name.made-from" 2>/dev/null)" = "$present" ]; then
        [ -z "${2:-}" ] || echo "$name is proved already: nothing has changed since" >&2
        return
    fi
    (cd "$root/crates/$name" && alone rt run --cpu=x86-64 2>&1 >/dev/null </dev/null) | tee "$root/target/prove.log" | told "$name" >&2
    if [ "${PIPESTATUS[0]}" -ne 0 ]; then
        grep -E 'error|: not proved|: no proof' "$root/target/prove.log" | head -n 20 >&2
        stop "$name is not proved: target/prove.log has all that was said"
    fi
    cp "$root/crates/$name/out/$name" "$bin/.$name" && mv "$bin/.$name" "$bin/$name" && echo "$present" >"$bin/$name.made-from" ||
        stop "target/bin/$name can't be written"
}

# one ARGUMENT..: a script takes one file at most.
one() {
    [ $# -le 1 ] || stop "one FILE at most"
}

# temporary NAME: makes NAME the path of a file for what may hold keys, which nobody else can read and which goes when the script ends. A
# first line stands in it already: where that can't be written, neither can what follows.
made=()
trap '[ ${#made[@]} -eq 0 ] || rm -f "${made[@]}"' EXIT
temporary() {
    local path
    path=$(mktemp) || stop "no temporary file can be written"
    made+=("$path")
    echo "$me" >"$path" || stop "no temporary file can be written"
    printf -v "$1" '%s' "$path"
}

# input FILE: makes FILE standard input; none or `-` leaves it as it is.
input() {
    case ${1:--} in
    -) [ -z "$closed" ] || stop "standard input could not be read: it is closed" ;;
    *)
        [ -r "$1" ] || stop "$1: there is no such file, or it can't be read"
        exec <"$1"
        ;;
    esac
}

# answers NAME: runs target/bin/NAME, which has no exit status of its own and says on standard error what failed. That is passed on, and
# made the status: 0 every line was read, 1 one or more was not, 2 input or output failed, or anything else was said.
answers() {
    local name=$1 said ended=0 status=0
    temporary said
    "$root/target/bin/$name" 2>>"$said" || ended=$?
    sed 1d "$said" >&2
    if [ "$ended" -eq 141 ]; then
        echo "$me: standard output could not be written: nobody reads it" >&2
        status=2
    elif [ "$ended" -ne 0 ]; then
        echo "$me: target/bin/$name ended with $ended" >&2
        status=2
    elif sed 1d "$said" | grep -q -v -x -E "$name: (1 line|[0-9]+ lines) could not be read"; then
        status=2
    elif [ "$(wc -l <"$said")" -gt 1 ]; then
        status=1
    fi
    return "$status"
}

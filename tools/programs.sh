# Where the programs are, and whether they are up to date. The scripts at the top source this file, with `top` as their folder.
# shellcheck shell=sh disable=SC2154

programs='windplay ppcasm windlink windtrace windlive'

# The crates that a program stands on, lowest first, and the program.
crates_of() {
    awk -v program="$1" '
        /^[a-z]/ { name = $1; sub(/:.*/, "", name); sub(/^[^:]*:/, ""); uses[name] = $0; order[++count] = name }
        function need(crate,    words, many, k) {
            if (crate in needed || !(crate in uses)) return
            needed[crate]
            many = split(uses[crate], words, " ")
            for (k = 1; k <= many; k++) need(words[k])
        }
        END { need(program); for (k = 1; k <= count; k++) if (order[k] in needed) print order[k] }' "$top/crates.txt"
}

# Whether FILE is there, and no source of the program is newer.
is_current() {
    [ -x "$2" ] || return 1
    # shellcheck disable=SC2046 # names of crates have no blanks
    set -- "$2" $(crates_of "$1")
    file=$1
    shift
    for crate in "$@"; do
        set -- "$@" "$top/crates/$crate/src" "$top/crates/$crate/specs" "$top/crates/$crate/proofs"
        shift
    done
    [ -z "$(find "$top/crates.txt" "$@" -type f -newer "$file" 2>/dev/null | head -n 1)" ]
}

proved_program() {
    echo "$top/crates/$1/out/$1"
}

is_proved() {
    is_current "$1" "$(proved_program "$1")"
}

# The program that `tools/tried` keeps: built without its proof.
tried_program() {
    echo "$top/out/tried/$1"
}

is_tried() {
    is_current "$1" "$(tried_program "$1")"
}

# Whether a word is the name of a program.
is_program() {
    case " $programs " in *" $1 "*) return 0 ;; *) return 1 ;; esac
}

has_rt() {
    command -v rt >/dev/null
}

absolute() {
    case $1 in /*) echo "$1" ;; *) echo "$PWD/$1" ;; esac
}

# The commit of this checkout, and the toolchain.
version_lines() {
    echo "windplay $(git -C "$top" describe --always --dirty 2>/dev/null || echo 'of no commit')"
    if has_rt; then rt version; else echo 'no rt on the path'; fi
}

# The same, and the digest of what rt said when it proved the program, which `build` keeps in out/proofs.log.
version() {
    version_lines
    if ! is_proved "$1"; then
        echo "$1 isn't proved"
    elif [ -f "$top/out/proofs.log" ]; then
        echo "proofs.log $(sha256sum <"$top/out/proofs.log" | cut -d ' ' -f 1)"
    else
        echo 'no proofs.log'
    fi
}

# Sets `program` to the program that a proof has left if no source is newer, else to one that is built without its proof. A line on
# standard error, from the script SELF, says which. Nothing tells whether another than `build` and `rt ci` has put a file there.
#
# usage: choose SELF PROGRAM
choose() {
    if is_proved "$2"; then
        echo "$1: crates/$2/out/$2, which ./build or .ci/run has left; no source is newer" >&2
        program=$(proved_program "$2")
        return
    fi
    echo "$1: without proof, some 1,000 to 2,000 times slower than the proved program (./build $2)" >&2
    if ! is_tried "$2"; then
        echo "$1: building it takes about a minute, once" >&2
        "$top/tools/tried" "$2" || exit
    fi
    program=$(tried_program "$2")
}

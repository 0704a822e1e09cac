# shellcheck shell=bash
# What the commands share. A command runs its proved program and gives an exit status, which a Rattle program can't set. In the
# repository the program is built on its first use, and again after a change. Where it stands beside the command, as --install
# leaves it, nothing is built.
#
# A command has a function `about`, which says what its program prints, and `status_of TEXT`, which returns the exit status that
# such a text asks for. Then it calls `start NAME DEED WORDS`: its own name, what it does to a file, and the words that it was
# called with.
root=$(dirname -- "$(readlink -f -- "${BASH_SOURCE[0]}")")

# A closed standard input would be given to the next thing opened, and the program would wait for its own output
[ -e /proc/self/fd/0 ] && open=1 || open=0

usage() {
    cat << END
usage: $name [FILE]             $deed a file, or standard input
       $name --install FOLDER   put the command into FOLDER, where it needs no toolchain
       $name --help             print this

$(about)

Exit status:
    0   the file is sound and every count is right
    4   wrong counts, or an unsound file (answers 4 to 11)
    8   the file couldn't be read, or the program couldn't be built
   16   wrong usage
   64   not audited: answers 1, 2, 3, 12 and 13, which a sound file can get too
A name that begins with '-' is given as ./-name.
END
}

# refuse WHY: a usage that isn't understood
refuse() {
    echo "$name: $1" >&2
    echo "usage: $name [FILE]; $name --help says more" >&2
    exit 16
}

# status_of_refusal ANSWER: what an answer other than 0 is, as an exit status
status_of_refusal() {
    case "$1" in
        1 | 2 | 3 | 12 | 13) return 64 ;;
        *) return 4 ;;
    esac
}

# current: the program is there, and nothing that it was built from is newer
current() {
    [ -x "$program" ] && [ -z "$(find "$root/crates" "$root/crates.txt" -name out -prune -o -newer "$program" -print -quit)" ]
}

# build: proves and compiles the program, and runs it once on no input. What rt prints is shown only if it fails.
build() {
    if ! command -v rt > /dev/null; then
        echo "$name: rt, the command of the Rattle toolchain, is not on the path; the program has to be built with it once" >&2
        return 1
    fi
    echo "$name: the program is proved and built, which takes some minutes the first time" >&2
    local log status
    log=$(mktemp) || return 1
    (cd -- "$root/crates/$name" && rt run) < /dev/null > "$log" 2>&1
    status=$?
    if [ "$status" -ne 0 ] || [ ! -x "$root/crates/$name/out/$name" ]; then
        cat -- "$log" >&2
        echo "$name: the program could not be built" >&2
        status=1
    else
        mkdir -p -- "$root/target/bin" && cp -- "$root/crates/$name/out/$name" "$program" || status=1
    fi
    rm -f -- "$log"
    return "$status"
}

# ready: the program can be run. Of several calls at once one builds, and the others wait for it, also those of another command.
ready() {
    program=$root/$name-program
    [ -x "$program" ] && return 0
    program=$root/target/bin/$name
    current && return 0
    mkdir -p -- "$root/target" || return 1
    (
        flock 9 || exit 1
        current || build
    ) 9>> "$root/target/command.lock"
}

# install_to FOLDER: the command, this file and the program beside it
install_to() {
    mkdir -p -- "$1" || exit 8
    cp -- "$program" "$1/$name-program" && cp -- "$root/$name" "$root/ebikwotula-command.sh" "$1" || exit 8
    exit 0
}

# start NAME DEED WORDS: runs the command
start() {
    name=$1
    deed=$2
    shift 2
    case "${1-}" in
        --help)
            usage
            exit 0
            ;;
        --install)
            [ $# -eq 2 ] || refuse "--install takes a folder"
            ready || exit 8
            install_to "$2"
            ;;
        -*) refuse "there is no option $1" ;;
    esac
    [ $# -le 1 ] || refuse "one file at a time"
    if [ $# -eq 0 ] && [ "$open" -eq 0 ]; then
        echo "$name: standard input is closed" >&2
        exit 8
    fi
    ready || exit 8
    local text
    if [ $# -eq 0 ]; then
        text=$("$program")
    elif ! printf %s "$1" | iconv -f utf-8 -t utf-8 > /dev/null 2>&1; then
        # the program takes a name in UTF-8 alone
        text=$("$program" < "$1")
    else
        text=$("$program" "$1" < /dev/null)
    fi
    # Every file has a text of at least a line. Where nothing is printed the program has said why.
    [ -n "$text" ] || exit 8
    printf '%s\n' "$text" || exit 8
    status_of "$text"
}

# shellcheck shell=bash
# What the scripts share. A script sources this file first, and is then in the root of the repository, whatever folder it was called from.

script=$(readlink -f -- "$0")
cd -- "$(dirname -- "$(readlink -f -- "${BASH_SOURCE[0]}")")/.." || exit
script=${script#"$(pwd -P)/"}

# ---- arguments and needs

# Ends the script: something is missing that is not of the repository, or the command is wrong.
die() {
    printf '%s: %s\n' "$script" "$1" >&2
    exit 2
}

wrong_usage() {
    usage >&2
    exit 2
}

# Prints the script's usage if that is asked for.
answer_help() {
    case ${1:-} in -h | --help) usage; exit 0 ;; esac
}

take_no_arguments() {
    answer_help "$@"
    [ $# -eq 0 ] || wrong_usage
}

declare -A purpose=(
    [rt]="proves and builds; it is the Rattle toolchain of toolchain.txt"
    [cargo]="builds the programs in Rust"
    [gcc]="compiles the programs in C"
    [g++]="reads the headers as C++"
    [python3]="runs the checks of tools/"
    [objdump]="prints machine code"
    [readelf]="reads archives"
    [valgrind]="counts instructions"
    [cmake]="builds as docs/INTEGRATION.md shows"
    [make]="builds as docs/INTEGRATION.md shows"
    [arm-linux-gnueabihf-gcc]="compiles for ARMv7; Debian's gcc-arm-linux-gnueabihf, with libc6-dev-armhf-cross"
    [arm-linux-gnueabihf-objdump]="prints machine code of ARMv7; Debian's binutils-arm-linux-gnueabihf"
    [qemu-arm]="runs programs for ARMv7; Debian's qemu-user"
    [setsid]="runs rt apart, so that a signal can end it"
    [mkfifo]="passes on what rt prints"
)

# What tests/arm needs beside the rest.
arm_programs=(arm-linux-gnueabihf-gcc arm-linux-gnueabihf-objdump qemu-arm)

# The programs that are not on the path, in one line, or nothing.
lacking() { # PROGRAM...
    local program missing=''
    for program; do
        command -v -- "$program" > /dev/null || missing+="${missing:+, }$program (${purpose[$program]})"
    done
    printf '%s' "${missing:+missing on the path: $missing}"
}

# Ends the script, with one line, if programs are not on the path.
needs() { # PROGRAM...
    local missing
    missing=$(lacking "$@")
    [ -z "$missing" ] || die "$missing"
}

# ---- what runs below a script

job='' scratch='' kit=''

# A folder for the temporary files of all that runs below the script. rt runs programs as nobody there, who must be able to pass.
make_scratch() {
    [ -z "$scratch" ] || return 0
    scratch=$(mktemp -d) || die "no temporary folder"
    chmod 711 "$scratch"
    export TMPDIR=$scratch
}

end_job() {
    [ -n "$job" ] || return 0
    kill -TERM -- "-$job" 2> /dev/null || kill -TERM "$job" 2> /dev/null || true
    wait "$job" 2> /dev/null || true
}

clean_up() {
    end_job
    [ -z "$scratch" ] || rm -rf -- "$scratch"
    scratch=''
}
trap clean_up EXIT

# Runs a command with all that it prints through a filter, as it comes; gives the command's status. An interrupt does not reach the provers, which rt
# runs in the background. So the command has a process group of its own, and the end of the script is the end of the group.
follow() { # FILTER COMMAND...
    local filter=$1 status=0
    shift
    needs setsid mkfifo
    make_scratch
    mkfifo "$scratch/printed" || die "no pipe"
    setsid "$@" < /dev/null > "$scratch/printed" 2>&1 &
    job=$!
    "$filter" < "$scratch/printed" || end_job
    wait "$job" || status=$?
    job=''
    rm -f -- "$scratch/printed"
    return "$status"
}

# ---- libraries and programs

listed_crates() {
    sed -n 's/#.*//; s/^[[:blank:]]*\([A-Za-z_][A-Za-z0-9_]*\)[^:]*:.*/\1/p' crates.txt
}

# A crate, and those of the repository that it uses, directly or not.
crates_of() { # NAME
    awk -F: -v name="$1" '
        function visit(crate,    used, count, i) {
            if (crate in seen || !(crate in uses)) return
            seen[crate]
            print crate
            count = split(uses[crate], used, " ")
            for (i = 1; i <= count; i++) visit(used[i])
        }
        { sub(/#.*/, ""); sub(/^[ \t]+/, "", $1); sub(/[ \t].*/, "", $1); uses[$1] = $2 }
        END { visit(name) }' crates.txt
}

# A sum over all from which a crate is built: the kit, the machine, crates.txt, and the files of the crate and of those below it, but for the edits
# and for what is built.
inputs_of() { # NAME
    local crates
    mapfile -t crates < <(crates_of "$1")
    {
        rt version && uname -m && sha256sum crates.txt &&
            find -L "${crates[@]/#/crates/}" -type f -not -regex 'crates/[^/]*/\(must-fail\|controls\|out\)/.*' -print0 |
            LC_ALL=C sort -z | xargs -0 sha256sum
    } | sha256sum
}

# The stamp of what is built together: what it was built from, and what it is. It lies beside the first file.
stamp_of() { # INPUTS FILE...
    printf '%s\n' "$1" && shift && sha256sum "$@"
}

is_built() { # INPUTS FILE...
    local file
    for file in "${@:2}" "$2.stamp"; do
        [ -f "$file" ] || return 1
    done
    stamp_of "$@" | cmp -s - "$2.stamp"
}

# Stamps files that were built, unless what they were built from has changed meanwhile.
stamp() { # NAME INPUTS FILE...
    if [ "$(inputs_of "$1")" = "$2" ]; then stamp_of "${@:2}" > "$3.stamp"; fi
}

# rt's report without what went well: a line for each function, and for each library. A loop of the shell hears a signal at once, which it would not while
# it waits for a filter.
report() {
    local line well='^([a-z]+ [^ ]+: proved|checked .*, [0-9]+ of [0-9]+|(logic|axioms|statements|library|crate|built:|linked) .*|rt: (chose|running) .*)$'
    while IFS= read -r line || [ -n "$line" ]; do
        [[ $line =~ $well ]] || printf '%s\n' "$line"
    done
}

# Puts a program that rt has built where it belongs.
take_program() { # NAME
    mkdir -p target/bin && cp -- "crates/$1/out/$1" "target/bin/$1"
}

# rt proves, builds and runs a program in one; the program is there if it is proved. What it prints and how it ends, without input, is not looked at.
prove_program() { # NAME
    rm -f -- "crates/$1/out/$1"
    follow report bash -c 'cd -- "$1" && exec rt run > /dev/null' rt "crates/$1" || [ -f "crates/$1/out/$1" ] || return 1
    take_program "$1"
}

# ---- the kit

# The folder of the Rattle toolchain.
kit_home() {
    local rt
    rt=$(readlink -f -- "$(command -v rt)")
    printf '%s\n' "${rt%/bin/rt}"
}

# Says what is wrong, if the kit is not the one that toolchain.txt pins.
differing_kit() {
    local found pinned
    found=$(rt version) || { echo "rt version failed"; return; }
    pinned=$(cat toolchain.txt) || { echo "there is no toolchain.txt"; return; }
    [ "$found" = "$pinned" ] || echo "rt version prints '$found', and toolchain.txt has '$pinned'"
}

# A folder that is the kit but for one file: its clang keeps the module that it is handed, and then does what the kit's does. rt finds the kit by the place
# of its own two files, so these are copied. The back end runs clang with no environment, so that all paths stand in it. The folder is no part of the
# repository: rt ci takes no links there.
keeping_kit() {
    local home part
    home=$(kit_home)
    make_scratch
    kit=$scratch/keeping
    [ ! -d "$kit" ] || return 0
    mkdir -p "$kit/bin" "$kit/toolchain/bin"
    for part in "$home"/* "$home"/bin/* "$home"/toolchain/* "$home"/toolchain/bin/*; do
        [ -e "$kit/${part#"$home/"}" ] || ln -s -- "$part" "$kit/${part#"$home/"}"
    done
    for part in rt rtlib.py; do
        rm -f -- "$kit/bin/$part" && cp -- "$home/bin/$part" "$kit/bin/"
    done
    rm -f -- "$kit/toolchain/bin/clang"
    printf '#!/bin/sh\ncp module.bc %q/module.bc || exit 1\nexec %q "$@"\n' "$kit" "$home/toolchain/bin/clang" > "$kit/toolchain/bin/clang"
    chmod +x "$kit/toolchain/bin/clang"
}

# ---- what is proved and built

# The static library of the crate behind an archive. The module of which the archive was compiled is kept beside it. The proof is the kit's own work, so that
# it begins with what other checkouts have kept; the folder beside it takes what is proved.
prove_archive() { # NAME
    local made=crates/$1_c/out/lib$1_c.a
    rm -f -- "$made"
    follow report env --chdir="crates/$1_c" rt check && keeping_kit && follow report env --chdir="crates/$1_c" "$kit/bin/rt" lib && mkdir -p target/staticlib &&
        mv -- "$kit/module.bc" "target/staticlib/lib$1.bc" && mv -- "$made" "target/staticlib/lib$1.a"
}

# Builds files by a function, unless they are up to date with a crate. The report goes to standard error.
build() { # CRATE NAME FUNCTION TIME FILE...
    local crate=$1 name=$2 function=$3 time=$4 inputs
    shift 4
    inputs=$(inputs_of "$crate") || return 1
    if is_built "$inputs" "$@"; then return 0; fi
    echo "$script: proving and building $1, which takes $time" >&2
    rm -f -- "$@" "$1.stamp"
    if ! "$function" "$name" >&2; then
        rm -f -- "$@"
        echo "$script: $1 is not built" >&2
        return 1
    fi
    stamp "$crate" "$inputs" "$@"
}

build_program() { # NAME
    build "$1" "$1" prove_program "7 minutes from nothing with the older kit, a minute if only $1 has changed" "target/bin/$1"
}

build_archive() { # NAME
    build "$1_c" "$1" prove_archive "a minute, and up to 6 more with the older kit if crates below $1 are not proved" \
        "target/staticlib/lib$1.a" "target/staticlib/lib$1.bc"
}

# All that C and Rust link.
archives=(signature monitor steps)
armv7_archives=("${archives[@]/#/target/armv7/lib}")
armv7_archives=("${armv7_archives[@]/%/.a}")
build_archives() {
    local name
    for name in "${archives[@]}"; do
        build_archive "$name" || return 1
    done
}

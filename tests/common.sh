# shellcheck shell=bash
# What tests/run and tests/arm share: how a test is run, and the programs in C that both run. Sourced behind tools/common.sh.

red() {
    echo "tests: red: $1"
    exit 1
}

# A test by its name, and how it is run.
passes() { # NAME COMMAND...
    local name=$1 began=$SECONDS
    shift
    "$@" || red "$name"
    echo "tests: $name passed ($((SECONDS - began)) s)"
}

# A test that is left out, with a line that says so, where programs are missing.
passes_with() { # PROGRAMS NAME COMMAND...
    local missing
    # shellcheck disable=SC2086
    missing=$(lacking $1)
    if [ -n "$missing" ]; then echo "tests: $2 skipped: $missing"; else passes "${@:2}"; fi
}

# Where a program in C is compiled and run: the compiler, the folder of its archives, the folder for what is built, and what runs that.
compiler=(gcc) linked=target/staticlib built=target/tests runner=()

# A program in C, and the libraries that it links.
c_build() { # SOURCE LIBRARY...
    local source=$1
    shift
    "${compiler[@]}" -std=c11 -O2 -Wall -Wextra -Werror -Iinclude "$source" -L"$linked" "${@/#/-l}" -o "$built/$(basename "$source" .c)"
}

c_run() { # SOURCE
    "${runner[@]}" "$built/$(basename "$1" .c)"
}

c_program() { # SOURCE LIBRARY...
    c_build "$@" && c_run "$1"
}

# Programs that end with 0 if all is well, each with the libraries that it links.
c_tests=(
    "tests/c/signature.c signature"
    "tests/c/guest.c monitor"
    "tests/c/pagemon.c monitor"
    "tests/c/steps.c steps monitor"
    "tests/c/marks.c monitor signature"
    "tests/c/kinds.c monitor"
    "tests/c/registers.c monitor"
    "tests/c/words.c monitor signature"
    "tests/c/forms.c monitor"
    "tests/c/buffers.c steps monitor signature"
)

# Examples, whose output docs/INTEGRATION.md shows, or is one line.
c_examples=(
    "examples/link.c monitor"
    "examples/downgrade.c monitor signature"
    "examples/forget.c monitor signature"
    "examples/exchange.c monitor signature"
    "examples/abort.c monitor"
)

run_c_tests() {
    local entry words
    for entry in "${c_tests[@]}"; do
        read -ra words <<< "$entry"
        passes "${words[0]}$1" c_program "${words[@]}"
    done
}

# examples/memory.c beside loops over bytes. Without the option gcc makes its loops calls of themselves.
memory_functions() {
    "${compiler[@]}" -std=c11 -O2 -Wall -Wextra -Werror -ffreestanding -fno-tree-loop-distribute-patterns tests/c/memory.c -o "$built/memory" &&
        c_run memory
}

# The lines of docs/INTEGRATION.md for make or cmake, in a folder with examples/link.c as the hypervisor. The repository lies beside it, where they look:
# by a link, of which rt ci takes none in the repository.
snippet() { # LANGUAGE FILE
    rm -rf -- "${scratch:?}/linked/$1"
    mkdir -p "$scratch/linked/$1"
    ln -sfn -- "$PWD" "$scratch/linked/pagemon"
    cp examples/link.c "$scratch/linked/$1/main.c"
    sed -n "/^\`\`\`$1\$/,/^\`\`\`\$/ { /^\`\`\`/d; p }" docs/INTEGRATION.md > "$scratch/linked/$1/$2"
}

# The archives, where they are not those that the lines look for.
named_archives() { # FLAG
    [ "$linked" = target/armv7 ] || echo "$1ARCHIVES=$PWD/$linked"
}

linked_by_make() {
    local named
    mapfile -t named < <(named_archives "")
    snippet make Makefile && make --silent -C "$scratch/linked/make" CC="${compiler[*]}" "${named[@]}" && "${runner[@]}" "$scratch/linked/make/hypervisor"
}

linked_by_cmake() {
    local named
    mapfile -t named < <(named_archives -D)
    snippet cmake CMakeLists.txt &&
        cmake -S "$scratch/linked/cmake" -B "$scratch/linked/cmake/build" -DCMAKE_C_COMPILER="${compiler[0]}" -DCMAKE_EXE_LINKER_FLAGS="${compiler[*]:1}" "${named[@]}" \
            > "$scratch/linked/cmake/said" && cmake --build "$scratch/linked/cmake/build" > "$scratch/linked/cmake/said" && "${runner[@]}" "$scratch/linked/cmake/build/hypervisor"
}

# What the tests of the archive share, to be sourced in the root: the archive, compilers, sanitizers, and a count.
# shellcheck disable=SC1091
. tests/programs.sh
tests/needs
make --no-print-directory lib
lib=build/appleounce
strict='-Wall -Wextra -Werror -pedantic'
sanitize='-g -fsanitize=address,undefined -fno-sanitize-recover=all'
cxx=g++
if [ -n "$prefix" ]; then
    cxx='g++ -static-libstdc++' # no emulator has that library
    sanitize="$sanitize -static-libasan -static-libubsan"
    export ASAN_OPTIONS=detect_leaks=0 # the search for leaks has to trace the program, and no emulator lets it
fi

# Compiles a file in the language of this standard, every warning an error, and links it with the archive.
compiled() { # standard, program, file, flags
    local standard=$1 program=$2 file=$3 compiler=gcc
    shift 3
    [[ $standard != c++* ]] || compiler=$cxx
    # shellcheck disable=SC2086
    ${prefix}$compiler -x "${standard%%[0-9]*}" -std="$standard" $strict -I$lib "$@" "$file" \
        -x none $lib/libappleounce.a -o "$program"
}

# The same with the sanitizers.
watched() { # standard, program, file, flags
    # shellcheck disable=SC2086
    compiled "$@" $sanitize
    if [ -n "$prefix" ]; then
        # The emulator dies when a program opens its own maps. Where that file is missing, AddressSanitizer takes
        # the addresses for its shadow as free, which they are.
        LC_ALL=C sed -i 's,/proc/self/maps,/proc/self/none,' "$2"
    fi
}

# Runs a program whose last line counts what passed, and adds that.
count() { # command
    tools/x86-64 "$@" > "$folder/said" || { cat "$folder/said"; exit 1; }
    [[ "$(tail -n 1 "$folder/said")" =~ ^([1-9][0-9]*)\ passed,\ 0\ failed$ ]] || { cat "$folder/said"; exit 1; }
    passed=$((passed + BASH_REMATCH[1]))
}

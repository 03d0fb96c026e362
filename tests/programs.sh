# What the tests of programs over lines share, to be sourced in the root: a folder, a count, a comparison, and faults.
passed=0
failed=0
folder=$(mktemp -d)
trap 'rm -rf "$folder"' EXIT
prefix=''
[ "$(uname -m)" = x86_64 ] || prefix=x86_64-linux-gnu-

built() {
    local program
    for program in "$@"; do
        [ -x "$(proved "$program")" ] || { echo "$(proved "$program") is missing: tools/prove $program makes it" >&2; exit 1; }
    done
}

# Where rt leaves a proved program.
proved() {
    echo "crates/$1/out/$1"
}

# Runs a program, and keeps what it says on standard error.
run() {
    timeout 60 tools/x86-64 "$(proved "$1")" 2> "$folder/said"
}

# Compares two files.
same() {
    if cmp -s "$2" "$3"; then
        passed=$((passed + 1))
    else
        failed=$((failed + 1))
        echo "$1:"
        diff "$2" "$3" | head -n 10 || true
    fi
}

# Runs a program on the file begin, with faults by the library that labelbench's tests load.
faulty() { # program, faults
    if [ -z "$prefix" ]; then
        FAULTS=$2 LD_PRELOAD=$folder/faults.so timeout 60 "$(proved "$1")"
    else
        FAULTS=$2 QEMU_SET_ENV=LD_PRELOAD=$folder/faults.so timeout 60 tools/x86-64 "$(proved "$1")"
    fi < "$folder/begin" > "$folder/got" 2> "$folder/said"
}

# What a program prints where the input failed: of the tally the last row says so.
after_failure() {
    if [ "$1" = tally ]; then sed 's/^failed 0$/failed 1/'; else cat; fi
}

# Interrupted and short calls change nothing; an input that fails leaves the lines that had ended, an output that fails what went.
withstands() { # program, which reads the file begin
    local faults reads came fault
    "${prefix}gcc" -std=c99 -O1 -Wall -Wextra -Werror -shared -fPIC tests/labelbench/faults.c -o "$folder/faults.so"
    run "$1" < "$folder/begin" > "$folder/undisturbed"
    for faults in 'r1=4 r2=4 r9=4 rs=7 ws=3' 'rs=1 ws=1 w1=4 w2=4' 'rs=4093 w1=4'; do
        faulty "$1" "$faults"
        same "$faults" "$folder/got" "$folder/undisturbed"
        same "$faults: nothing is said" "$folder/said" /dev/null
    done
    for reads in 1 2 9; do
        came=$((reads * 64 - 64))
        head -c $came "$folder/begin" | sed -n "1,$(head -c $came "$folder/begin" | wc -l)p" > "$folder/ended"
        run "$1" < "$folder/ended" | after_failure "$1" > "$folder/wanted"
        faulty "$1" "r$reads=5 rs=64"
        same "an input that fails at read $reads" "$folder/got" "$folder/wanted"
        echo "$1: after line $(wc -l < "$folder/ended") the input failed: Input/output error" > "$folder/words"
        same "what is said of read $reads" "$folder/said" "$folder/words"
    done
    for fault in 'w3=5:the output failed: Input/output error' 'w3=0:the output takes no more'; do
        head -c 100 "$folder/undisturbed" > "$folder/wanted"
        faulty "$1" "${fault%%:*} ws=50"
        same "an output with ${fault%%:*}" "$folder/got" "$folder/wanted"
        echo "$1: ${fault#*:}" > "$folder/words"
        same "what is said of ${fault%%:*}" "$folder/said" "$folder/words"
    done
}

# Runs a program on a file with 512 KiB of stack, and with 160, which docs say are enough: by the system's limit, and by the emulator's own, which
# takes no less than its default from the system. Little else is on the stack, as no environment is handed on.
frugal() { # program, file
    local kib
    run "$1" < "$2" > "$folder/wanted"
    for kib in 512 160; do
        (ulimit -s "$kib" && exec env -i PATH="$PATH" QEMU_STACK_SIZE=$((kib * 1024)) timeout 60 tools/x86-64 "$(proved "$1")") \
            < "$2" > "$folder/got" 2> "$folder/said" || true
        same "$1 with $kib KiB of stack" "$folder/got" "$folder/wanted"
        same "$1 with $kib KiB of stack: nothing is said" "$folder/said" /dev/null
    done
}

# The commands of README, in one indented paragraph, that begin so, and a folder where they run as they stand: what it has for a program
# of crates/ runs the program here, on any machine.
recipe() { # begin of the first line
    awk -v RS= -v begin="    $1" 'index($0, begin) == 1' README.md | sed 's/^    //' | grep . ||
        { echo "README has no commands that begin with $1" >&2; exit 1; }
}
stand() { # folder, programs
    local place=$1 program
    shift
    for program in "$@"; do
        mkdir -p "$place/crates/$program/out"
        printf '#!/bin/sh\nexec timeout 60 "%s/tools/x86-64" "%s/%s"\n' "$PWD" "$PWD" "$(proved "$program")" > "$place/$(proved "$program")"
        chmod +x "$place/$(proved "$program")"
    done
}

# Ends a test: the last line counts what passed.
told() {
    echo "$passed passed, $failed failed"
    [ "$failed" -eq 0 ]
}

# For the tests of the C interface: the compilers, how a program runs on this machine, and what it links, which is crate cnftl unless the test has
# set $crate. That is the archive for x86-64; on another processor its programs run under Debian's emulator. A long test sets here=1: then it takes
# the archive of the same proved crate for this processor (tools/native), and no emulator.
# A test sources this from the repository's folder, and has $room, a folder of its own that is removed in the end.
room=$(mktemp -d)
trap 'rm -rf "$room"' EXIT
passed=0 failed=0

bash tools/packages
strict=(-Wall -Wextra -Werror -pedantic -Iinclude)
crate=${crate:-cnftl}
exported="cnftl_api_3 cnftl_format cnftl_format_cut cnftl_queue cnftl_queue_cut cnftl_read cnftl_release cnftl_start cnftl_start_cut cnftl_why \
cnftl_write cnftl_write_cut" # what the archive offers, sorted
if [ "$(uname -m)" = x86_64 ] || [ -n "${here:-}" ]; then
    cc=gcc cxx=g++ objdump=objdump link=() runner=() processor=$(uname -m)
else
    # under the emulator a program without shared libraries needs nothing else
    cc=x86_64-linux-gnu-gcc cxx=x86_64-linux-gnu-g++ objdump=x86_64-linux-gnu-objdump link=(-static) runner=(qemu-x86_64) processor=x86_64
    # Debian's cross libm.a is a linker script that names its parts where a native one has them: one with the right paths stands before it
    libm=$("$cc" -print-file-name=libm.a)
    if grep -q '^GROUP' "$libm"; then
        sed "s|/usr/lib/x86_64-linux-gnu|$(dirname "$libm")|g" "$libm" >"$room/libm.a"
        link+=(-L"$room")
    fi
fi
tools/native "$crate" "$processor" >"$room/native" 2>&1 || cat "$room/native"
archive=$(tail -n 1 "$room/native")

# Runs a program that was compiled here.
run() { ${runner[@]+"${runner[@]}"} "$@"; }

# Counts one check, and names it where it failed: `check NAME COMMAND ..`.
check() {
    local name=$1
    shift
    if "$@"; then
        passed=$((passed + 1))
    else
        echo "FAILED: $name"
        failed=$((failed + 1))
    fi
}

# The last line of a test, and its status.
counted() {
    echo "$passed passed, $failed failed"
    [ "$failed" -eq 0 ]
}

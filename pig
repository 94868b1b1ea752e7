#!/bin/sh
# Runs the proved program with the words given, and ends with its status. It is proved and built first where neither
# this nor the gate has done so for these sources with this toolchain; where that fails, the status is 70. Where the script
# is refused, standard error has the statement that is meant.
root=$(cd "$(dirname "$0")" && pwd) || exit 70
program=$root/crates/pig/out/pig
built=$root/crates/pig/out/pig.sources

# touched: whether a source, or the toolchain, was written after the program was. The checksum of all takes longer than most runs.
touched() {
    toolchain=$(command -v rt) || toolchain=$built
    [ -n "$(cd "$root" && find -L crates.txt HANDLES crates "$toolchain" \
        \( -path '*/out' -o -path '*/must-fail' -o -name '*.md' \) -prune -o -newer "$built" -print -quit 2>&1)" ]
}

if [ ! -x "$program" ] || [ ! -e "$built" ] || touched; then
    sources=$("$root/.ci/sources") || exit 70
    if [ ! -x "$program" ] || [ "$(cat "$built" 2>/dev/null)" != "$sources" ]; then
        rm -f "$program" "$built"
        "$root/.ci/build" || exit 70
    fi
    printf '%s\n' "$sources" > "$built"
fi
# A limit on the length of files is a failure of the disk, and no signal.
trap '' XFSZ
"$program" "$@"
status=$?
# A refused script makes nothing, so its answer may be asked for again.
if [ "$status" -eq 3 ] && command -v python3 > /dev/null; then
    "$program" "$@" | "$root/tools/where" "$@"
fi
exit "$status"

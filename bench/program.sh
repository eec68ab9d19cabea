#!/usr/bin/env bash
# Prove and build a program of bench/ that no command of mint's runs: bench/program.sh WORK NAME LIBRARY..
# In the folder WORK it makes a root of its own, with copies of the repository's crates that the program
# stands on and with bench/NAME.rattle as the program of a crate NAME over the libraries, and prints the
# path of the program. The kit takes what it has kept of the same crates, and proves the others: on four
# idle cores up to some minutes for mt_publish or mt_http and what they stand on.
# Ends with status 1 where that fails, with the end of what the kit said.
top=$(cd "$(dirname "$0")/.." && pwd) || exit 1
[ "$#" -ge 3 ] || { echo "usage: bench/program.sh WORK NAME LIBRARY.."; exit 1; }
work=$1
name=$2
shift 2

root=$work/$name.root
mkdir -p "$root/crates/$name/src" || exit 1
cp "$top/HANDLES" "$root/HANDLES" || exit 1
cp "$top/bench/$name.rattle" "$root/crates/$name/src/main.rt" || exit 1

# The lines of crates.txt for these crates and those that they stand on.
awk -v wanted="$*" '{ line = $0; sub(/:/, " : ") }
    /^[a-z]/ { names[++count] = $1; lines[$1] = line; behind = 0
        for (i = 2; i <= NF; i++) if ($i == ":") behind = 1; else if (behind) stands[$1] = stands[$1] " " $i }
    END { number = split(wanted, first, " "); for (n = 1; n <= number; n++) is_wanted[first[n]] = 1
        for (n = count; n > 0; n--) if (is_wanted[names[n]]) { split(stands[names[n]], below, " "); for (b in below) is_wanted[below[b]] = 1 }
        for (n = 1; n <= count; n++) if (is_wanted[names[n]]) print lines[names[n]] }' "$top/crates.txt" >"$root/crates.txt"
for crate in $(sed 's/[: ].*//' "$root/crates.txt"); do
    mkdir "$root/crates/$crate" || exit 1
    for part in src specs proofs; do
        [ ! -d "$top/crates/$crate/$part" ] || cp -R "$top/crates/$crate/$part" "$root/crates/$crate" || exit 1
    done
done
echo "$name: $*" >>"$root/crates.txt"

# Without arguments and input each program ends soon.
(cd "$root/crates/$name" && rt run) >"$root/log" 2>&1 </dev/null
if [ ! -x "$root/crates/$name/out/$name" ]; then
    tail -n 20 "$root/log" >&2
    echo "$name could not be built" >&2
    exit 1
fi
echo "$root/crates/$name/out/$name"

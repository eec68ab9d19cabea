#!/bin/sh
# Runs mint with the given words. Builds it first where there is no program yet, or one older than its sources.
if [ "$#" = 1 ] && [ "$1" = --help ]; then
    cat <<'HELP'
usage: mint STORE FEED M,S COMMAND

STORE is :memory: or the path of a store; FEED is - or the path of a file to append to. Systems have at most M columns and S coordinates, up to 20,48.

check                     whether the claim of the import text on standard input holds
                            mint :memory: - 16,32 check < examples/golay.txt
value KIND Q M S          the greatest value of a net, oa or seq over Q elements
                            mint :memory: - 16,32 value net 2 10 4
value ooa Q M S DEPTH     the same of an ordered orthogonal array
                            mint :memory: - 16,32 value ooa 2 10 4 3
tree ..                   a derivation of that value, with the same words
                            mint :memory: - 16,32 tree net 2 10 4
matrix ..                 the generator matrices that such a derivation makes, as an import text
                            mint :memory: - 16,32 matrix net 2 10 4
table Q M                 the values for each S, as comma-separated values
                            mint :memory: - 16,32 table 2 10
export                    the values of all cells, as comma-separated values
                            mint :memory: - 16,32 export
import                    imports the text on standard input, or withdraws an import
                            mint :memory: - 16,32 import < examples/golay.txt
generate SEED COUNT       imports COUNT claims that are drawn from SEED, up to 1024
                            mint :memory: - 16,32 generate 1 10
niederreiter Q M S        Niederreiter's generator matrices of a sequence, as an import text
                            mint :memory: - 16,32 niederreiter 2 10 4
serve PORT WORKERS CONNECTIONS
                          serves over HTTP on 127.0.0.1, by up to 16 workers, each for so many connections
                            mint :memory: - 16,32 serve 8080 4 1000000
HELP
    exit 0
fi
top=$(cd "$(dirname "$0")" && pwd) || exit 126
out=$top/crates/mint/out
program=$out/mint
lock=$out/building

# Whether there is no program, or one that is older than the sources.
changed() {
    [ ! -x "$program" ] || [ -n "$(find "$top/crates.txt" "$top"/crates/*/src -type f -newer "$program" | head -n 1)" ]
}

# Takes the lock, unless another call has it and runs.
take_lock() {
    mkdir "$lock" 2>/dev/null && { echo $$ >"$lock/owner"; return; }
    owner=$(cat "$lock/owner" 2>/dev/null)
    if [ -n "$owner" ] && ! kill -0 "$owner" 2>/dev/null; then
        rm -rf "$lock"
    fi
    return 1
}

# Ends what is being proved. What was proved so far is kept.
stop() {
    [ -z "$child" ] || kill "$child" 2>/dev/null
    wait
    rm -rf "$lock"
    echo "mint: stopped; the next call goes on from here" >&2
    exit 130
}

# Runs rt with these words in a crate's folder.
prove() {
    echo "mint: proving $1, crate $number of $crates, after $((($(date +%s) - start) / 60)) minutes" >&2
    (cd "$top/crates/$1" && shift && exec rt "$@") </dev/null >>"$out/build.log" 2>&1 &
    child=$!
    wait "$child"
    result=$?
    child=
    return $result
}

# The crates that the program stands on, in the order of crates.txt, and the program's own.
needed() {
    awk '{ sub(/:/, " : ") }
        /^[a-z]/ { names[++count] = $1; behind = 0
            for (i = 2; i <= NF; i++) if ($i == ":") behind = 1; else if (behind) stands[$1] = stands[$1] " " $i }
        END { wanted["mint"] = 1
            for (n = count; n > 0; n--) if (wanted[names[n]]) { split(stands[names[n]], below, " "); for (b in below) wanted[below[b]] = 1 }
            for (n = 1; n <= count; n++) if (wanted[names[n]]) print names[n] }' "$top/crates.txt"
}

# Proves the crates in their order, and builds the program.
build() {
    start=$(date +%s)
    number=0
    names=$(needed)
    crates=$(echo "$names" | wc -l)
    : >"$out/build.log"
    rm -f "$program"
    for name in $names; do
        number=$((number + 1))
        case $name in
            mint) prove mint run -- :memory: - 16,32 check ;;
            *) prove "$name" lib || break ;;
        esac
    done
    if [ ! -x "$program" ]; then
        echo "mint: it could not be built; see $out/build.log" >&2
        rm -rf "$lock"
        exit 126
    fi
    touch "$program"
}

if changed; then
    mkdir -p "$out"
    waiting=
    until take_lock; do
        [ -n "$waiting" ] || echo "mint: another call builds the program; waiting for it" >&2
        waiting=yes
        sleep 1
    done
    child=
    trap stop INT TERM HUP
    if changed; then
        echo "mint: proving and building the program; this is done once, and may take 20 minutes" >&2
        build
    fi
    trap - INT TERM HUP
    rm -rf "$lock"
fi
exec "$program" "$@"

#!/usr/bin/env bash
# Time mint beside the plain C program on the same texts and compare their answers: for each of the
# seven orders an array of 3,838,380 or 3,930,551 choices that holds, for all but 2 the same array that
# fails at its very last choice, and a net and a sequence over 9.
# Prints for each text the milliseconds of both (least of 9 runs in turn, the start
# of the process included) and their ratio, and for a text that fails the ratio of mint's time to that
# of the text that holds; ends with status 1 if the answers differ.
# MINT names another program to run, from the top of the repository; CC a compiler.
export LC_ALL=C
cd "$(dirname "$0")/.." || exit 1
mint=${MINT:-./mint}

for compiler in ${CC:-cc gcc clang} ''; do
    command -v "$compiler" >/dev/null 2>&1 && break
done
if [ -z "$compiler" ]; then
    echo "no C compiler here: nothing compared"
    exit 0
fi
if [ -z "${EPOCHREALTIME:-}" ]; then
    echo "this bash has no EPOCHREALTIME: nothing compared"
    exit 0
fi
if ! command -v "$mint" >/dev/null; then
    echo "no program $mint"
    exit 1
fi

work=$(mktemp -d) || exit 1
trap 'rm -rf "$work"' EXIT
"$compiler" -O2 -o "$work/plain" bench/plain.c || exit 1
names="array-2 $(printf 'array-%s last-%s ' 3 3 4 4 5 5 7 7 8 8 9 9)net sequence"
for name in $names; do
    python3 bench/make_text.py ${name/-/ } >"$work/$name.txt" || exit 1
done

# answer_of PROGRAM TEXT: what it prints, and its status
answer_of() {
    "$1" :memory: - 20,48 check <"$2"
    echo "status $?"
}

# time_of PROGRAM TEXT: microseconds of one run
time_of() {
    local start=${EPOCHREALTIME/./}
    "$1" :memory: - 20,48 check <"$2" >/dev/null
    echo $((${EPOCHREALTIME/./} - start))
}

least() { sort -n "$1" | head -n 1; }

result=0
for name in $names; do
    text=$work/$name.txt
    answer_of "$mint" "$text" >"$work/mint.answer"
    answer_of "$work/plain" "$text" >"$work/plain.answer"
    if ! cmp -s "$work/mint.answer" "$work/plain.answer"; then
        echo "$name: the answers differ"
        sed 's/^/  mint:  /' "$work/mint.answer"
        sed 's/^/  plain: /' "$work/plain.answer"
        result=1
        continue
    fi
    : >"$work/mint.times"
    : >"$work/plain.times"
    for _ in 1 2 3 4 5 6 7 8 9; do
        time_of "$mint" "$text" >>"$work/mint.times"
        time_of "$work/plain" "$text" >>"$work/plain.times"
    done
    of_mint=$(least "$work/mint.times")
    of_plain=$(least "$work/plain.times")
    awk -v name="$name" -v mint="$of_mint" -v plain="$of_plain" -v held="$held" 'BEGIN {
        printf "%s: mint %.1f ms, plain %.1f ms, ratio %.2f", name, mint / 1000, plain / 1000, mint / plain
        if (name ~ /^last/) printf ", to the text that holds %.2f", mint / held
        print "" }'
    held=$of_mint
done
exit $result

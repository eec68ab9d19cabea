#!/bin/sh
# Check every example with mint and compare its answers with expected.txt.
# Prints a line for each text; ends with status 1 on any difference.
# MINT names another program to run, from the top of the repository.
cd "$(dirname "$0")/.." || exit 1
mint=${MINT:-./mint}
tab=$(printf '\t')
result=0
while IFS=$tab read -r file status line; do
    answer=$("$mint" :memory: - 16,32 check <"examples/$file")
    ended=$?
    if [ "$ended" = "$status" ] && [ "$answer" = "$line" ]; then
        echo "same: $file: $line"
    else
        echo "differs: $file: wanted status $status and '$line', got status $ended and '$answer'"
        result=1
    fi
done <examples/expected.txt
exit $result

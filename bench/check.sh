#!/bin/sh
# Builds the plain programs, listed.c and lines.c without a warning and runs the points of document 01 on those of play and list.
# The last line is 'N passed, M failed'.
cd "$(dirname "$0")" || exit 1
passed=0
failed=0

# check NAME GOT WANTED
check() {
    if [ "$2" = "$3" ]; then
        passed=$((passed + 1))
    else
        failed=$((failed + 1))
        printf 'FAILED %s\n  got  %s\n  want %s\n' "$1" "$2" "$3"
    fi
}

for program in plain_play plain_list; do
    warnings=$(gcc -O2 -Wall -Wextra -std=c11 -o "$program" "$program.c" 2>&1)
    check "$program builds without a warning" "$?$warnings" "0"
done
# A function for the main of tests/driver/lists.c, with its checks and without.
object=$(mktemp)
trap 'rm -f "$object"' EXIT
for checks in CHECKED UNCHECKED; do
    warnings=$(gcc -O2 -Wall -Wextra -std=c11 "-D$checks" -c -o "$object" plain_lists.c 2>&1)
    check "plain_lists builds without a warning, $checks" "$?$warnings" "0"
done
for main in listed lines; do
    warnings=$(gcc -O2 -Wall -Wextra -std=c11 -c -o "$object" "$main.c" 2>&1)
    check "$main builds without a warning" "$?$warnings" "0"
done

# The registration number of document 01, 41 2B C5 FB 00 00 00 with CRC-8 A1.
number='\101\053\305\373\000\000\000\241'
play() { printf "$1" | ./plain_play | tr '\n' ' '; }
check 'empty input' "$(play '')" 'R04 '
check 'a wrong CRC-8' "$(play '\101\053\305\373\000\000\000\242\100')" 'R04 '
check 'a missing code' "$(play "$number")" 'R05 '
check 'a bad code' "$(play "$number\101")" 'R05 '
check 'a new L' "$(play "$number\100")" ''
check 'a new T' "$(play "$number\140")" ''
check 'reset, slots, tick' "$(play "$number\100\002\0\0\001\0\0\000\0\0\003\007\377")" '0 1 0 1 '
check 'a short reset' "$(play "$number\100\002\0\0\004\377\377\002\0\0")" '0 1 0 '
check 'an event code above 4' "$(play "$number\100\002\0\0\005\377\377\002\0\0")" '0 R01 '
check 'a reading above 2047' "$(play "$number\100\002\0\0\003\010\000\002\0\0")" '0 R02 '
check 'a short last group' "$(play "$number\100\002\0\0\004\0")" '0 '
check 'an empty dump' "$(printf '' | ./plain_list)" 'R07'

# Exchanges over the line, missions, the listing example, dumps that are refused: drive.py.
driven() {
    result=$(python3 drive.py "$@")
    counts=$(printf '%s\n' "$result" | sed -n '$s/^\([0-9]*\) passed, \([0-9]*\) failed$/\1 \2/p')
    printf '%s\n' "$result" | sed '$d'
    if [ -z "$counts" ]; then
        check "drive.py $*" 'no count' 'a count'
    else
        passed=$((passed + ${counts% *}))
        failed=$((failed + ${counts#* }))
    fi
}
driven points
driven sessions 10 1

echo "$passed passed, $failed failed"
[ "$failed" -eq 0 ]

#!/usr/bin/env bash
# Runs the built program target/bin/listing, and ./listing, on texts at the borders of what they take. What is printed is held, byte for byte,
# to lines that are worked out here from document 01: start, end, line, column, kind, reason and nanoseconds of each token.
# The last line is `N passed, M failed`; the status is 1 where M is not 0.
set -euo pipefail
root=$(cd "$(dirname "$0")/.." && pwd)
program=$root/target/bin/listing
script=$root/listing
. "$root/tests/holds.sh"
cd "$work"

# lists NAME: the program prints what is expected; it has no status of its own.
lists() { holds "$1" 0 "$program" <text; }

# repeat BYTE COUNT
repeat() { head -c "$2" /dev/zero | tr '\0' "$1"; }

: >text
says '0 0 1 1 0 0 0' >expected
lists 'the empty text'

printf 'a = 1.5s\n' >text
says '0 1 1 1 4 0 0' '2 3 1 3 19 0 0' '4 8 1 5 12 0 1500000000' '8 9 1 9 2 0 0' '9 9 2 1 0 0 0' >expected
lists "document 01's example"

# one name, and blanks, which are no token, of so many bytes
for size in 8191 8192; do
    repeat a "$size" >text
    says "0 $size 1 1 4 0 0" "$size $size 1 $((size + 1)) 0 0 0" >expected
    lists "a name of $size bytes"
    repeat ' ' "$size" >text
    says "$size $size 1 $((size + 1)) 0 0 0" >expected
    lists "$size blanks"
done

echo 'too long' >expected
for byte in a ' ' '\377'; do
    repeat "$byte" 8193 >text
    lists "8193 times '$byte'"
done
repeat a 100000 >text
lists 'a name of 100000 bytes'

# as many tokens as there can be, on one line and on lines of their own
repeat '[' 8192 >text
seq 0 8191 | awk '{ print $1, $1 + 1, 1, $1 + 1, 15, 0, 0 } END { print "8192 8192 1 8193 0 0 0" }' >expected
lists '8192 brackets'
repeat '\n' 8192 >text
seq 0 8191 | awk '{ print $1, $1 + 1, $1 + 1, 1, 2, 0, 0 } END { print "8192 8192 8193 1 0 0 0" }' >expected
lists '8192 newlines'

echo 'refused 2' >expected
printf '\377' >text
lists 'a byte that is no text'
{ repeat a 8191 && printf '\377'; } >text
lists 'a byte that is no text, at the end of 8192'
{ repeat a 8191 && printf '\303'; } >text
lists 'a character that is cut at the end of 8192 bytes'

{ repeat '#' 8190 && printf '\303\251'; } >text
says '0 8192 1 1 3 0 0' '8192 8192 1 8193 0 0 0' >expected
lists 'a comment of 8192 bytes that ends with a character of two'

printf 'a\0\0' >text
says '0 1 1 1 4 0 0' '1 2 1 2 1 1 0' '2 3 1 3 1 1 0' '3 3 1 4 0 0 0' >expected
lists 'bytes 0x00'

printf %s '-1.5h' >text
says "0 5 1 1 12 0 -$((3600 * 1500000000))" '5 5 1 6 0 0 0' >expected
lists 'a negative duration'

printf %s '-9223372036854775808ns' >text
says '0 22 1 1 12 0 -9223372036854775808' '22 22 1 23 0 0 0' >expected
lists 'the least duration'

printf %s '9223372036854775808ns' >text
says '0 21 1 1 1 18 0' '21 21 1 22 0 0 0' >expected
lists 'a duration that is too large'

printf %s '2024-02-29T09:30:00Z' >text
says '0 20 1 1 11 0 0' '20 20 1 21 0 0 0' >expected
lists 'a timestamp'

printf '2023-02-29T09:30:00Z\n 2024-' >text
says '0 20 1 1 1 21 0' '20 21 1 21 2 0 0' '22 27 2 2 1 21 0' '27 27 2 7 0 0 0' >expected
lists 'timestamps that are no date'

printf '"' >text
says '0 1 1 1 1 10 0' '1 1 1 2 0 0 0' >expected
lists 'an open string'

printf '[' >text
says '0 1 1 1 15 0 0' '1 1 1 2 0 0 0' >expected
holds './listing < FILE' 0 "$script" <text
holds './listing -' 0 "$script" - <text
# standard input has another text now
mv text file
: >text
holds './listing FILE' 0 "$script" file <text

printf '\377' >text
echo 'refused 2' >expected
holds './listing, refused' 1 "$script" <text
repeat a 8193 >text
echo 'too long' >expected
holds './listing, too long' 1 "$script" <text
: >expected
holds './listing, no such file' 2 "$script" missing <text 2>/dev/null
holds './listing, two files' 2 "$script" file file <text 2>/dev/null

tally

#!/usr/bin/env bash
# Runs conformance/run on the built programs cases, token_file_cases and suggestion_cases of target/bin, which have to pass, and on readers that are
# wrong in one way each. What it prints is held, byte for byte, to lines that are worked out here from the lists, which may grow.
# The last line is `N passed, M failed`; the status is 1 where M is not 0.
set -euo pipefail
root=$(cd "$(dirname "$0")/.." && pwd)
run=$root/conformance/run
questions=$root/conformance/questions.txt
list=$root/conformance/cases.txt
file_questions=$root/conformance/token_files.txt
file_list=$root/conformance/token_files_answers.txt
suggestion_questions=$root/conformance/suggestions.txt
suggestion_list=$root/conformance/suggestions_answers.txt
cases=$(grep -c '^case ' "$list")
files=$(grep -c '' "$file_list")
suggestions=$(grep -c '' "$suggestion_list")
. "$root/tests/holds.sh"
cd "$work"

# reader LINE..: makes ./reader, a shell script of these lines.
reader() {
    printf '%s\n' '#!/bin/sh' "$@" >reader
    chmod +x reader
}

# asks NAME: the lines that ask of a case, as they are shown.
asks() { sed -n "/^case $1\$/,/^text /{/^case /d;s/^/ /p}" "$questions"; }

# differs NAME LINE..: what is expected where one case differs, in these lines.
differs() {
    says "case $1: differs"
    asks "$1"
    shift
    says "$@" "$((cases - 1)) passed, 1 failed"
}

# line_differs QUESTIONS NUMBER LINE..: the same of a line of these questions.
line_differs() {
    local all
    all=$(grep -c '' "$1")
    says "line $2: differs"
    sed -n "$2s/^/ /p" "$1"
    shift 2
    says "$@" "$((all - 1)) passed, 1 failed"
}

# The lists are copies of what the gate runs the programs on, and of what they have to print.
: >expected
for copy in cases/stdin:questions cases/stdout:cases token_file_cases/stdin:token_files token_file_cases/stdout:token_files_answers \
    suggestion_cases/stdin:suggestions suggestion_cases/stdout:suggestions_answers; do
    holds "${copy#*:}.txt is a copy" 0 cmp "$root/crates/${copy%:*}" "$root/conformance/${copy#*:}.txt"
done

# what the readers, which are scripts, are made of
export CASES=$root/target/bin/cases TOKEN_FILES=$root/target/bin/token_file_cases SUGGESTIONS=$root/target/bin/suggestion_cases
export ONE=miniature-2-strict
last=$(sed -n 's/^case //p' "$list" | tail -n 1)
# the one token of its answer that is a Float
float=$(sed -n "/^case $ONE\$/,/^end$/{/^token 7 /p}" "$list")

says "$cases passed, 0 failed" >expected
reader '"$CASES"'
holds 'our own program' 0 "$run" ./reader
holds 'a command of one word that is split' 0 "$run" "sh -c './reader'"
holds 'a command whose words stay as they are' 0 "$run" sh -c '[ "$1" = "a  b" ] && ./reader' sh 'a  b'
reader '"$CASES" | awk '\''/^case / { n++ } { block[n] = block[n] $0 "\n" } END { for (; n; n--) printf "%s", block[n] }'\'
holds 'the cases from the last to the first' 0 "$run" ./reader

awk '/^case / { print $0 ": differs"; asks = 1; next } { print (asks ? " " : "-") $0 } /^text / { asks = 0 }
    /^end$/ { n++ } END { print "0 passed, " n " failed" }' "$list" >expected
holds 'an echo' 1 "$run" cat

{ sed -n 's/^case .*/&: missing/p' "$list" && says "0 passed, $cases failed"; } >expected
holds 'no answer' 1 "$run" true

differs "$ONE" "-$float" "+token 6 ${float#token 7 }" >expected
reader '"$CASES" | sed "/^case $ONE$/,/^end$/s/^token 7 /token 6 /"'
holds 'one number that differs' 1 "$run" ./reader

differs "$ONE" "-$float" "+\\xff\\x00\\xc3${float#token 7 }" >expected
reader '"$CASES" | LC_ALL=C sed "/^case $ONE$/,/^end$/s/^token 7 /\\xff\\x00\\xc3/"'
holds 'bytes that are no text' 1 "$run" ./reader

differs "$ONE" "-case $ONE" "+case $ONE\\x0d" >expected
reader '"$CASES" | sed "s/^case $ONE$/&\\r/"'
holds 'a carriage return' 1 "$run" ./reader

differs "$ONE" '+stray' >expected
reader '"$CASES" | sed "/^case $ONE$/,/^end$/s/^end$/&\\nstray/"'
holds 'a line after a case' 1 "$run" ./reader

differs "$last" '-end' '+end (no newline)' >expected
reader '"$CASES" | head -c -1'
holds 'no newline at the end' 1 "$run" ./reader

export HALF=$((cases / 2))
{ sed -n 's/^case .*/&: missing/p' "$list" | tail -n +$((HALF + 1)) && says "$HALF passed, $((cases - HALF)) failed"; } >expected
reader '"$CASES" | awk "/^case / { n++ } n <= $HALF"'
holds 'a reader that stops halfway' 1 "$run" ./reader

says "case $ONE: printed 2 times" "$((cases - 1)) passed, 1 failed" >expected
reader '"$CASES" >all; cat all; sed -n "/^case $ONE$/,/^end$/p" all'
holds 'a case printed twice' 1 "$run" ./reader

says 'case mine: not asked for' '+case mine' '+end' "$cases passed, 1 failed" >expected
reader '"$CASES"; echo "case mine"; echo end'
holds 'a case that nobody asked for' 1 "$run" ./reader

says 'before the first case: not asked for' '+reader 1.0' '+' "$cases passed, 1 failed" >expected
reader 'echo "reader 1.0"; echo; "$CASES"'
holds 'lines before the first case' 1 "$run" ./reader

says 'the command ended with status 3' "$cases passed, 1 failed" >expected
reader '"$CASES"; exit 3'
holds 'status 3' 1 "$run" ./reader
says 'the command was ended by signal 9' "$cases passed, 1 failed" >expected
reader '"$CASES"; kill -9 $$'
holds 'a signal' 1 "$run" ./reader

# The end of what a command prints, and its first line, after which nobody reads on; what it says on standard error comes last.
end_of() { "$@" | tail -n 2; }
start_of() {
    "$@" 2>errors | head -n 1
    cat errors
}
says 'the command was stopped: it printed over 4194304 bytes' "0 passed, $((cases + 2)) failed" >expected
holds 'a reader that never stops' 1 end_of "$run" yes "$(printf '%01000d' 0)"
says "$(sed -n '1s/$/: missing/p' "$list")" >expected
holds 'a report that is read in part' 0 start_of "$run" true
says "$cases passed, 0 failed" 'a note' >expected
reader '"$CASES"; echo "a note" >&2'
holds 'standard error is passed on' 0 start_of "$run" ./reader

# What is printed at all, without the words after the first colon: one line, and no trace of a fault of its own.
says_only() {
    "$@" 2>&1 | sed 's/:.*//'
    return "${PIPESTATUS[0]}"
}
says 'conformance/run' >expected
holds 'no such command' 2 says_only "$run" ./missing
holds 'no such command, of two words' 2 says_only "$run" --token-files './missing word'
holds 'a command that cannot be run' 2 says_only "$run" ./expected
holds 'no command' 2 says_only "$run"
holds 'a command without words' 2 says_only "$run" ''
holds 'an open quote' 2 says_only "$run" "'"
holds 'no command for token files' 2 says_only "$run" --token-files
holds 'no command for suggestions' 2 says_only "$run" --suggestions
holds 'two options' 2 says_only "$run" --token-files --suggestions ./reader
holds 'an option that is none' 2 says_only "$run" --strict ./reader
says 'usage: conformance/run [--token-files | --suggestions] COMMAND [ARGUMENT ..]' >expected
holds '--help' 0 start_of "$run" --help

says "$files passed, 0 failed" >expected
reader '"$TOKEN_FILES"'
holds 'token files: our own program' 0 "$run" --token-files ./reader

paste -d '\n' "$file_questions" "$file_list" "$file_questions" |
    awk 'NR % 3 == 1 { print "line " ++n ": differs" } { print substr("+ -", NR % 3 + 1, 1) $0 } END { print "0 passed, " n " failed" }' >expected
holds 'token files: an echo' 1 "$run" --token-files cat

{ seq "$files" | sed 's/.*/line &: missing/' && says "0 passed, $files failed"; } >expected
holds 'token files: no answer' 1 "$run" --token-files true

second=$(sed -n 2p "$file_list")
line_differs "$file_questions" 2 "-$second" "+1$second" >expected
reader '"$TOKEN_FILES" | sed "2s/^/1/"'
holds 'token files: one number that differs' 1 "$run" --token-files ./reader
line_differs "$file_questions" 2 "-$second" "+\\xff$second\\x0d" >expected
reader '"$TOKEN_FILES" | LC_ALL=C sed "2s/.*/\\xff&\\r/"'
holds 'token files: bytes that are no text' 1 "$run" --token-files ./reader

{ seq 101 "$files" | sed 's/.*/line &: missing/' && says "100 passed, $((files - 100)) failed"; } >expected
reader '"$TOKEN_FILES" | sed 100q'
holds 'token files: a reader that stops after 100' 1 "$run" --token-files ./reader

says "line $((files + 1)): not asked for" '+0 0 ' "$files passed, 1 failed" >expected
reader '"$TOKEN_FILES"; echo "0 0 "'
holds 'token files: a line that nobody asked for' 1 "$run" --token-files ./reader

says 'the command ended with status 3' "$files passed, 1 failed" >expected
reader '"$TOKEN_FILES"; exit 3'
holds 'token files: status 3' 1 "$run" --token-files ./reader

says "$suggestions passed, 0 failed" >expected
reader '"$SUGGESTIONS"'
holds 'suggestions: our own program' 0 "$run" --suggestions ./reader

# The call on an empty run with a slice of four numbers is refused; that on `-4j` with a slice of nine lists times below 0, least first.
LINE=$(sed -n '/^4 $/=' "$suggestion_questions")
line_differs "$suggestion_questions" "$LINE" '-11 0 77 77 77 77' '+11 0 0 0 0 0' >expected
export LINE
reader '"$SUGGESTIONS" | sed "${LINE}s/ 77/ 0/g"'
holds 'suggestions: a refused call that writes' 1 "$run" --suggestions ./reader
LINE=$(sed -n '/^9 2d346a$/=' "$suggestion_questions")
line_differs "$suggestion_questions" "$LINE" \
    '-0 3 -14400000000000 2 104 -240000000000 2 109 -4000000000 2 115' '+0 3 -4000000000 2 115 -240000000000 2 109 -14400000000000 2 104' >expected
reader '"$SUGGESTIONS" | awk "NR == $LINE { print \$1, \$2, \$9, \$10, \$11, \$6, \$7, \$8, \$3, \$4, \$5; next } { print }"'
holds 'suggestions: least first without the signs' 1 "$run" --suggestions ./reader

tally

#!/usr/bin/env bash
# Makes the archive of the C interface, and uses it and include/pxf.h as a C program's author would: the example examples/tokens.c, a program that
# makes each call, and one that prints the kind of every byte. What the example and the latter print is held to lines that are worked out here, from
# document 01 and from change request #103.
# The last line is `N passed, M failed`; the status is 1 where M is not 0. CC and CXX name other compilers.
set -euo pipefail
cd "$(dirname "$0")/.."
archive=target/staticlib/libpxf.a
warnings=(-Wall -Wextra -Wpedantic -Werror)
. tests/holds.sh

# expect LINE..: what is expected, a line each, or nothing.
expect() { if [ $# -gt 0 ]; then says "$@"; fi >"$work/expected"; }

# c ARGUMENT.., cpp ARGUMENT..: the compilers, with the header's folder and all warnings.
c() { "${CC:-cc}" -std=c99 "${warnings[@]}" -I include "$@"; }
cpp() { "${CXX:-c++}" "${warnings[@]}" -I include -x c++ "$@"; }

if ! ./build pxf >"$work/report" 2>&1; then
    cat "$work/report"
    echo '0 passed, 1 failed'
    exit 1
fi

# The lines of nm that begin with a blank are undefined symbols, the others name the archive's members.
undefined() { nm -u "$archive" | sed -n '/^ /p'; }
expect
holds 'the archive has no undefined symbol' 0 undefined
exported() { nm -g --defined-only "$archive" | sed -n 's/.* T //p' | sort; }
sed -n 's/^uint[0-9]*_t \(pxf_[a-z_]*\)(.*/\1/p' include/pxf.h | sort >"$work/expected"
holds 'the archive has the functions that the header declares' 0 exported

expect
echo '#include <pxf.h>' >"$work/header.c"
holds 'the header alone, as C' 0 c -c "$work/header.c" -o "$work/header.o"
if command -v "${CXX:-c++}" >"$work/report"; then
    holds 'the header alone, as C++' 0 cpp -c "$work/header.c" -o "$work/header.o"
fi

holds 'examples/tokens.c is built' 0 c examples/tokens.c "$archive" -o "$work/tokens"
tokens() { "$work/tokens" "$@"; }

# Every kind of token; after the last line with a newline, tokens that are none.
cat >"$work/text" <<'END'
# boat
@type a.B
@keel @dataset @proto
name = "a\n\\\x41é"
note : """
  x
   "y"
  """,
b"3q2+" -12p3 2.5 1.5s true null 2024-05-18T00:00:00Z [{()}]
END
printf '%s' '"\q ; + @ 2024-05-18' >>"$work/text"
expect '1:1 3 Comment "# boat"' '1:7 2 Newline' \
    '2:1 22 AtType "@type"' '2:7 4 Ident "a.B"' '2:10 2 Newline' \
    '3:1 23 AtDirective "keel"' '3:7 24 AtDataset "@dataset"' '3:16 25 AtProto "@proto"' '3:22 2 Newline' \
    '4:1 4 Ident "name"' '4:6 19 Equals "="' '4:8 5 String "a\x0a\x5cA\xc3\xa9"' '4:21 2 Newline' \
    '5:1 4 Ident "note"' '5:6 20 Colon ":"' '5:8 5 String "x\x0a "y""' '8:6 21 Comma ","' '8:7 2 Newline' \
    '9:1 10 Bytes "3q2+"' '9:9 6 Int "-12"' '9:15 7 Float "2.5"' '9:19 12 Duration "1.5s"' '9:24 8 Bool "true"' '9:29 9 Null "null"' \
    '9:34 11 Timestamp "2024-05-18T00:00:00Z"' '9:55 15 LBracket "["' '9:56 13 LBrace "{"' '9:57 17 LParen "("' '9:58 18 RParen ")"' \
    '9:59 14 RBrace "}"' '9:60 16 RBracket "]"' '9:61 2 Newline' \
    '10:1 1 Illegal 9' '10:5 1 Illegal 1' '10:7 1 Illegal 16' '10:9 1 Illegal 15' '10:11 1 Illegal 21' '10:21 0 Eof'
holds 'tokens, every kind' 0 tokens "$work/text"

# How many lines the example prints, and those of a few lines of the text.
sloop() {
    tokens examples/sloop.pxf >"$work/lines"
    grep -c '' "$work/lines"
    grep -E '^(8|2[2-9]):' "$work/lines"
}
expect 73 '8:1 4 Ident "paint_dries"' '8:13 19 Equals "="' '8:15 12 Duration "1h30m"' '8:20 2 Newline' \
    '22:1 4 Ident "drawing"' '22:9 19 Equals "="' '22:11 10 Bytes "3q2+7w=="' '22:22 2 Newline' \
    '23:1 4 Ident "notes"' '23:7 19 Equals "="' '23:9 5 String "Keel bolts torqued twice.\x0a"Port" side relaid."' '26:6 2 Newline' '27:1 0 Eof'
holds 'tokens, examples/sloop.pxf' 0 sloop

# The quote after a bad escape opens another string.
faults() { tokens examples/faults.pxf | grep Illegal; }
expect '2:8 1 Illegal 3' '3:10 1 Illegal 16' '4:8 1 Illegal 18' '5:12 1 Illegal 21' '6:15 1 Illegal 1' '7:10 1 Illegal 9' '7:13 1 Illegal 3' \
    '8:1 1 Illegal 15'
holds 'tokens, examples/faults.pxf' 0 faults

: >"$work/text"
expect '1:1 0 Eof'
holds 'tokens, an empty file' 0 tokens "$work/text"

printf 'a\377' >"$work/text"
expect
holds 'tokens, no UTF-8: nothing is listed' 1 tokens "$work/text" 2>"$work/errors"
expect 'tokens: refused 2, offset 1'
holds 'tokens, no UTF-8: the refusal' 0 cat "$work/errors"
expect
holds 'tokens, no such file' 2 tokens "$work/missing" 2>"$work/errors"
holds 'tokens, no such file: it says so' 0 test -s "$work/errors"

# Each call, accepted and refused; it prints what does not hold.
cat >"$work/calls.c" <<'END'
#include <pxf.h>
#include <stdio.h>
#include <string.h>

/* All that is lent to be written to, and the same before a call. */
static struct { int64_t tokens[40], reports[12], list[570]; uint8_t strings[4], file[60]; } lent, before;
static int64_t records[40], answer[6];
static uint8_t file[60], large[PXF_MAX_MESSAGE_SIZE + 1];
static const uint8_t text[] = {'a', ' ', '"', '\\', 'q'}, no_text[] = {'a', 0xff};
static uint8_t run[] = "1969-12-31T23:59:59.5Z";
static const uint8_t mistyped[PXF_MAX_MISTYPED_RUN + 1] = {'4', 'j'}, no_run[] = {'4', 0xff};

static void lend(void) {
    memset(answer, 77, sizeof answer);
    memset(&lent, 77, sizeof lent);
    before = lent;
}
static int answers(int64_t a, int64_t b, int64_t c, int64_t d, int64_t e, int64_t f) {
    return answer[0] == a && answer[1] == b && answer[2] == c && answer[3] == d && answer[4] == e && answer[5] == f;
}

#define HOLDS(claim) if (!(claim)) printf("line %d: %s\n", __LINE__, #claim)
#define ACCEPTED(call, a, b, c, d, e, f) lend(); HOLDS((call) == 0); HOLDS(answers(a, b, c, d, e, f))
#define REFUSED(number, offset, call) lend(); HOLDS((call) == (number)); HOLDS(answers(offset, 0, 0, 0, 0, 0)); \
    HOLDS(memcmp(&lent, &before, sizeof lent) == 0)
#define READ_TEXT(text, length, tokens_len, strings_len, reports_len) \
    pxf_read_text(text, length, PXF_TOLERANT, 9, lent.tokens, tokens_len, lent.strings, strings_len, lent.reports, reports_len, answer)
#define TIMESTAMP(length) pxf_timestamp(run, length, answer)
#define SUGGEST(run, length, list_len) pxf_suggest_durations(run, length, lent.list, list_len, answer)
#define SUGGESTED(index, nanoseconds, offset, byte) HOLDS(lent.list[PXF_SUGGESTION_WIDTH * (index) + PXF_SUGGESTION_NANOSECONDS] == (nanoseconds)); \
    HOLDS(lent.list[PXF_SUGGESTION_WIDTH * (index) + PXF_SUGGESTION_OFFSET] == (offset)); \
    HOLDS(lent.list[PXF_SUGGESTION_WIDTH * (index) + PXF_SUGGESTION_BYTE] == (byte))
#define READ_TOKEN(column) pxf_read_token(text, 5, 1, 1, column, PXF_TOLERANT, 9, lent.tokens, 12, lent.strings, 2, lent.reports, 10, answer)

int main(void) {
    HOLDS(pxf_interface() == PXF_INTERFACE);
    HOLDS(pxf_byte_kind('7') == PXF_BYTE_DIGIT + PXF_BYTE_NAME && pxf_byte_kind('u') == PXF_BYTE_LETTER + PXF_BYTE_NAME + PXF_BYTE_UNIT);
    /* An Ident, a String that ends with the text after a bad escape, and Eof; two reports. */
    ACCEPTED(READ_TEXT(text, 5, 36, 2, 10), 3, 2, 2, 0, 0, 0);
    HOLDS(memcmp(lent.strings, "\\qMM", 4) == 0 && lent.tokens[36] == before.tokens[36] && lent.reports[10] == before.reports[10]);
    HOLDS(lent.tokens[PXF_TOKEN_KIND] == PXF_KIND_IDENT && lent.tokens[PXF_TOKEN_WIDTH + PXF_TOKEN_KIND] == PXF_KIND_STRING);
    HOLDS(lent.reports[PXF_REPORT_REASON] == PXF_REASON_UNKNOWN_ESCAPE && lent.reports[PXF_REPORT_DETAIL] == 'q');
    HOLDS(lent.reports[PXF_REPORT_WIDTH + PXF_REPORT_REASON] == PXF_REASON_OPEN_STRING);
    memcpy(records, lent.tokens, sizeof records);
    REFUSED(PXF_REFUSED_TEXT_TOO_LONG, 0, READ_TEXT(large, sizeof large, 36, 2, 10));
    REFUSED(PXF_REFUSED_NOT_UTF8, 1, READ_TEXT(no_text, 2, 36, 2, 10));
    REFUSED(PXF_REFUSED_TOKENS_SHORT, 0, READ_TEXT(text, 5, 35, 2, 10));
    REFUSED(PXF_REFUSED_STRINGS_SHORT, 0, READ_TEXT(text, 5, 36, 1, 10));
    REFUSED(PXF_REFUSED_REPORTS_SHORT, 0, READ_TEXT(text, 5, 36, 2, 9));

    ACCEPTED(READ_TOKEN(2), 1, 2, 2, 5, 1, 6);
    HOLDS(lent.tokens[PXF_TOKEN_START] == 2 && lent.tokens[PXF_TOKEN_END] == 5);
    REFUSED(PXF_REFUSED_NO_PLACE, 0, READ_TOKEN(1));
    ACCEPTED(pxf_place_of(text, 5, 5, answer), 5, 1, 6, 0, 0, 0);
    REFUSED(PXF_REFUSED_NO_PLACE, 0, pxf_place_of(text, 5, 6, answer));

    /* Half a second before 1970; the same without its zone, no byte at all, and the same with minute 60. */
    ACCEPTED(TIMESTAMP(22), 1, -1, 500000000, 0, 0, 0);
    ACCEPTED(READ_TEXT(run, 22, 24, 0, 0), 2, 0, 0, 0, 0, 0);
    HOLDS(lent.tokens[PXF_TOKEN_KIND] == PXF_KIND_TIMESTAMP && lent.tokens[PXF_TOKEN_REASON] == 0);
    ACCEPTED(TIMESTAMP(21), 0, 0, 0, 0, 0, 0);
    ACCEPTED(TIMESTAMP(0), 0, 0, 0, 0, 0, 0);
    memcpy(run + 14, "60", 2);
    ACCEPTED(TIMESTAMP(22), 0, 0, 0, 0, 0, 0);
    ACCEPTED(READ_TEXT(run, 22, 24, 0, 0), 2, 0, 0, 0, 0, 0);
    HOLDS(lent.tokens[PXF_TOKEN_KIND] == PXF_KIND_ILLEGAL && lent.tokens[PXF_TOKEN_REASON] == PXF_REASON_BAD_TIMESTAMP);

    /* 4s, 4m and 4h for 4j, with an exact list and with one that suffices for any run of two bytes; nothing for 4, nor for 4j and 62 zero bytes. */
    for (size_t list_len = 9; list_len <= 570; list_len += 561) {
        ACCEPTED(SUGGEST(mistyped, 2, list_len), 3, 0, 0, 0, 0, 0);
        SUGGESTED(0, 4000000000, 1, 's');
        SUGGESTED(1, 240000000000, 1, 'm');
        SUGGESTED(2, 14400000000000, 1, 'h');
        HOLDS(memcmp(lent.list + 9, before.list + 9, sizeof lent.list - 9 * sizeof *lent.list) == 0);
    }
    ACCEPTED(SUGGEST(mistyped, 1, 0), 0, 0, 0, 0, 0, 0);
    HOLDS(memcmp(&lent, &before, sizeof lent) == 0);
    ACCEPTED(SUGGEST(mistyped, PXF_MAX_MISTYPED_RUN, 0), 0, 0, 0, 0, 0, 0);
    REFUSED(PXF_REFUSED_BAD_RUN, 0, SUGGEST(mistyped, 0, 570));
    REFUSED(PXF_REFUSED_BAD_RUN, 0, SUGGEST(mistyped, PXF_MAX_MISTYPED_RUN + 1, 570));
    REFUSED(PXF_REFUSED_BAD_RUN, 0, SUGGEST(no_run, 2, 570));
    REFUSED(PXF_REFUSED_LIST_SHORT, 0, SUGGEST(mistyped, 2, 8));

    ACCEPTED(pxf_write_token_file(records, 36, 3, lent.file, 57, answer), 57, 0, 0, 0, 0, 0);
    memcpy(file, lent.file, sizeof file);
    REFUSED(PXF_REFUSED_BAD_RECORDS, 0, pxf_write_token_file(records, 35, 3, lent.file, 57, answer));
    REFUSED(PXF_REFUSED_OUT_SHORT, 0, pxf_write_token_file(records, 36, 3, lent.file, 56, answer));
    ACCEPTED(pxf_read_token_file(file, 57, lent.tokens, 36, answer), 3, 0, 0, 0, 0, 0);
    HOLDS(lent.tokens[PXF_TOKEN_WIDTH + PXF_TOKEN_KIND] == PXF_KIND_STRING && lent.tokens[PXF_TOKEN_WIDTH + PXF_TOKEN_VALUE_LENGTH] == 0);
    REFUSED(PXF_REFUSED_NO_TOKEN_FILE, 0, pxf_read_token_file(file, 56, lent.tokens, 36, answer));
    REFUSED(PXF_REFUSED_TOKENS_SHORT, 0, pxf_read_token_file(file, 57, lent.tokens, 35, answer));
    records[PXF_TOKEN_COLUMN] = 65536;
    REFUSED(PXF_REFUSED_COLUMN_TOO_LARGE, 0, pxf_write_token_file(records, 36, 3, lent.file, 57, answer));
}
END
expect
holds 'a program of all calls is built, as C' 0 c "$work/calls.c" "$archive" -o "$work/calls"
holds 'each call, accepted and refused' 0 "$work/calls"
if command -v "${CXX:-c++}" >"$work/report"; then
    holds 'a program of all calls is built, as C++' 0 cpp "$work/calls.c" -x none "$archive" -o "$work/calls++"
    holds 'each call, from C++' 0 "$work/calls++"
fi

# The kind of every byte: 1 for a digit, 2 for an ASCII letter, 4 for these, `.` and `_`, 8 for h, m, n, s, u and 0xC2.
cat >"$work/kinds.c" <<'END'
#include <pxf.h>
#include <stdio.h>

int main(void) {
    for (int byte = 0; byte < 256; byte++) printf("%d %d\n", byte, pxf_byte_kind((uint8_t)byte));
}
END
holds 'a program of all bytes is built' 0 c "$work/kinds.c" "$archive" -o "$work/kinds"
awk 'BEGIN {
    for (byte = 0; byte < 256; byte++) {
        digit = byte >= 48 && byte <= 57
        letter = byte >= 65 && byte <= 90 || byte >= 97 && byte <= 122
        name = digit || letter || byte == 46 || byte == 95
        unit = byte ~ /^(104|109|110|115|117|194)$/
        print byte, digit + 2 * letter + 4 * name + 8 * unit
    }
}' >"$work/expected"
holds 'the kind of every byte' 0 "$work/kinds"

tally

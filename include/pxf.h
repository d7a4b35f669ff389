/* The PXF token reader: the C interface of libpxf.a, which `./build pxf` makes.
 *
 *     cc -I include program.c target/staticlib/libpxf.a -o program
 *
 * The archive allocates nothing, keeps no state and has no undefined symbols: it needs no other library, and some KiB of stack. Any number of threads
 * may call it at the same time; they may share what is only read, and each lends buffers of its own. docs/RULES.md says what tokens a text has,
 * examples/tokens.c lists them.
 *
 * pxf_interface and pxf_byte_kind refuse nothing and return the number that they give. Each other function returns 0 where the call is accepted, else
 * the number of its refusal, PXF_REFUSED_... below. The checks go in a fixed order, and the first that fails is the answer: 1, 2, 3, 4, 5, 6 for a
 * text, 8, 9, 10 for the writer of token files, 7, 8, 4 for their reader, 11, 12 for suggestions. A refused call writes to no buffer. An accepted one
 * leaves a buffer past its result as it was. `answer` is no buffer: every call that takes it sets all six of its numbers, to 0 where the call gives
 * none. A length counts elements. Buffers must not overlap, and a pointer must not be null, even where its length is 0.
 *
 * A String's value lies in the string buffer; every other value, and every precision, lies in the text.
 */
#ifndef PXF_H
#define PXF_H

#include <stddef.h>
#include <stdint.h>

#ifdef __cplusplus
extern "C" {
#endif

/* The number of this interface. It rises by one with each change that callers must follow: compare it with pxf_interface() before any other call. */
#define PXF_INTERFACE 1

#define PXF_STRICT 0
#define PXF_TOLERANT 1

/* The longest text, and the bytes limit that is meant where a caller has none of its own. */
#define PXF_MAX_MESSAGE_SIZE 67108864
#define PXF_MAX_BYTES_LITERAL_LENGTH 67108864

/* The longest run for suggestions, and the numbers of a list that always suffices for them. */
#define PXF_MAX_MISTYPED_RUN 64
#define PXF_MAX_SUGGESTION_NUMBERS 18240

/* A token is twelve numbers. */
#define PXF_TOKEN_WIDTH 12
#define PXF_TOKEN_KIND 0
#define PXF_TOKEN_REASON 1 /* of an Illegal token, else 0 */
#define PXF_TOKEN_DETAIL 2 /* of reasons 1 and 9, else 0 */
#define PXF_TOKEN_START 3
#define PXF_TOKEN_END 4
#define PXF_TOKEN_LINE 5
#define PXF_TOKEN_COLUMN 6 /* in bytes, from 1 */
#define PXF_TOKEN_VALUE 7
#define PXF_TOKEN_VALUE_LENGTH 8
#define PXF_TOKEN_PRECISION 9
#define PXF_TOKEN_PRECISION_LENGTH 10
#define PXF_TOKEN_NANOSECONDS 11 /* of a Duration, else 0 */

/* A report is five numbers. */
#define PXF_REPORT_WIDTH 5
#define PXF_REPORT_REASON 0
#define PXF_REPORT_DETAIL 1
#define PXF_REPORT_OFFSET 2
#define PXF_REPORT_LINE 3
#define PXF_REPORT_COLUMN 4

/* A suggestion is three numbers. */
#define PXF_SUGGESTION_WIDTH 3
#define PXF_SUGGESTION_NANOSECONDS 0 /* of the Duration that the run then is */
#define PXF_SUGGESTION_OFFSET 1      /* of the byte in the run */
#define PXF_SUGGESTION_BYTE 2        /* that is to stand there, 32 to 126 */

/* The kinds of a byte. Its entry in the table of byte kinds is the sum of those that it has. */
#define PXF_BYTE_DIGIT 1  /* a digit, `0` to `9` */
#define PXF_BYTE_LETTER 2 /* an ASCII letter */
#define PXF_BYTE_NAME 4   /* a byte that can go on a name: a digit, an ASCII letter, `_` or `.` */
#define PXF_BYTE_UNIT 8   /* the first byte of a unit: `h`, `m`, `n`, `s`, `u`, and 0xC2, which begins the micro sign, U+00B5 */

/* The kinds of a token. */
#define PXF_KIND_EOF 0
#define PXF_KIND_ILLEGAL 1
#define PXF_KIND_NEWLINE 2
#define PXF_KIND_COMMENT 3
#define PXF_KIND_IDENT 4
#define PXF_KIND_STRING 5
#define PXF_KIND_INT 6
#define PXF_KIND_FLOAT 7
#define PXF_KIND_BOOL 8
#define PXF_KIND_NULL 9
#define PXF_KIND_BYTES 10
#define PXF_KIND_TIMESTAMP 11
#define PXF_KIND_DURATION 12
#define PXF_KIND_LBRACE 13
#define PXF_KIND_RBRACE 14
#define PXF_KIND_LBRACKET 15
#define PXF_KIND_RBRACKET 16
#define PXF_KIND_LPAREN 17
#define PXF_KIND_RPAREN 18
#define PXF_KIND_EQUALS 19
#define PXF_KIND_COLON 20
#define PXF_KIND_COMMA 21
#define PXF_KIND_AT_TYPE 22
#define PXF_KIND_AT_DIRECTIVE 23
#define PXF_KIND_AT_DATASET 24
#define PXF_KIND_AT_PROTO 25

/* The reasons of an Illegal token, 1 to 18 and 21, and of a report: 2, 4 to 10, 12, 14, 19 and 20. */
#define PXF_REASON_UNEXPECTED_CHARACTER 1 /* detail: its code point */
#define PXF_REASON_OPEN_BLOCK_COMMENT 2
#define PXF_REASON_NEWLINE_IN_STRING 3
#define PXF_REASON_OPEN_ESCAPE 4
#define PXF_REASON_BAD_X 5
#define PXF_REASON_BAD_OCTAL 6
#define PXF_REASON_BAD_U 7
#define PXF_REASON_BAD_CAPITAL_U 8
#define PXF_REASON_UNKNOWN_ESCAPE 9 /* detail: its byte */
#define PXF_REASON_OPEN_STRING 10
#define PXF_REASON_STRING_NOT_UTF8 11
#define PXF_REASON_OPEN_TRIPLE_STRING 12
#define PXF_REASON_BYTES_OVER_LIMIT 13
#define PXF_REASON_OPEN_BYTES 14
#define PXF_REASON_AT_WITHOUT_NAME 15
#define PXF_REASON_PLUS_WITHOUT_INF 16
#define PXF_REASON_MINUS_WITHOUT_DIGIT 17
#define PXF_REASON_BAD_DURATION 18
#define PXF_REASON_STRING_ENDED_AT_NEWLINE 19
#define PXF_REASON_BYTES_ENDED_AT_NEWLINE 20
#define PXF_REASON_BAD_TIMESTAMP 21

/* The refusals. */
#define PXF_REFUSED_TEXT_TOO_LONG 1     /* the text exceeds PXF_MAX_MESSAGE_SIZE bytes */
#define PXF_REFUSED_NOT_UTF8 2          /* the text isn't UTF-8; answer[0] is the offset of its first ill-formed sequence */
#define PXF_REFUSED_NO_PLACE 3          /* an offset beyond the text or inside a character, or a place whose line or column is untrue */
#define PXF_REFUSED_TOKENS_SHORT 4      /* the token slice is shorter than the result needs */
#define PXF_REFUSED_STRINGS_SHORT 5     /* the string buffer is */
#define PXF_REFUSED_REPORTS_SHORT 6     /* the report slice is */
#define PXF_REFUSED_NO_TOKEN_FILE 7     /* under 9 bytes, wrong mark or version, or a length other than 9 + 16 * count */
#define PXF_REFUSED_BAD_RECORDS 8       /* token records break the record rules */
#define PXF_REFUSED_COLUMN_TOO_LARGE 9  /* a column above 65,535 is to go into a token file */
#define PXF_REFUSED_OUT_SHORT 10        /* the buffer for a token file is too short */
#define PXF_REFUSED_BAD_RUN 11          /* the run for suggestions is empty, exceeds PXF_MAX_MISTYPED_RUN bytes or isn't UTF-8 */
#define PXF_REFUSED_LIST_SHORT 12       /* the list of suggestions is shorter than the result needs */

/* Gives the number of the interface that the archive has. */
uint32_t pxf_interface(void);

/* Reads a whole text. Buffers of PXF_TOKEN_WIDTH * (text_len + 1) numbers, text_len bytes and, where the mode is tolerant, PXF_REPORT_WIDTH *
 * text_len numbers suffice for any text; with these it is read in one pass, else it is measured first.
 *
 * Reports stand in the order of their tokens, and those of one token in the order met. That a string is open (4, 10 or 19) is met last, though it is
 * reported at the string's start: `"\q` gives offset 2, then 0.
 *
 * The limit bounds a bytes literal by the bytes it is written with: of the n bytes after its opening quote, floor(n / 4) * 3 must not exceed it. This
 * is asked before each byte, the closing quote or newline too, but not at the text's end; where it fails the token is Illegal, reason 13. It is no
 * bound on the decoded length: `b"AA=="`, one byte, needs a limit of 3, and so does `b"AAAAAA"`, four bytes. */
uint8_t pxf_read_text(
    const uint8_t *text,   /* the text, any bytes */
    size_t text_len,
    uint8_t mode,          /* PXF_TOLERANT; any other number is strict */
    uint64_t limit,        /* the limit of a bytes literal, as above */
    int64_t *tokens,       /* gets the tokens, the last of which is Eof */
    size_t tokens_len,     /* refusal 4 below twelve a token */
    uint8_t *strings,      /* gets the strings, in token order without gaps; as long as the text always suffices */
    size_t strings_len,    /* refusal 5 below the bytes of all strings */
    int64_t *reports,      /* gets the reports, in the order above; a strict reading has none */
    size_t reports_len,    /* refusal 6 below five a report */
    int64_t answer[6]);    /* tokens, string bytes, reports, 0, 0, 0 */

/* Reads the token after a place.
 *
 * Each call checks the whole text and the place, so its time grows with the text's length, and that of a chain of calls over all tokens with the
 * length's square: half a second for 100,000 bytes, where one pxf_read_text takes less than a thousandth of that and gives the same tokens. Use that
 * to get all, and this call for a few: where an editor's cursor stands, say. */
uint8_t pxf_read_token(
    const uint8_t *text,   /* the whole text, any bytes */
    size_t text_len,
    uint64_t offset,       /* the place: the first is 0, 1, 1; the next is the one that the call before answered */
    uint64_t line,
    uint64_t column,       /* in bytes, from 1 */
    uint8_t mode,          /* as above */
    uint64_t limit,        /* as above */
    int64_t *tokens,       /* gets one token */
    size_t tokens_len,     /* refusal 4 below twelve */
    uint8_t *strings,      /* gets the token's string, from the buffer's start */
    size_t strings_len,    /* refusal 5 below its bytes */
    int64_t *reports,      /* gets the token's reports */
    size_t reports_len,    /* refusal 6 below five a report */
    int64_t answer[6]);    /* 1, string bytes, reports, and the place at the token's end: offset, line, column */

/* Gives the place of an offset; it too checks the whole text. */
uint8_t pxf_place_of(
    const uint8_t *text,   /* the whole text, any bytes */
    size_t text_len,
    uint64_t offset,       /* 0 to text_len, at no byte inside a character */
    int64_t answer[6]);    /* offset, line, column, 0, 0, 0 */

/* Gives the instant of a timestamp, by RFC 3339 but for what docs/DIFFERENCES.md lists. It refuses nothing: bytes that are no date are an answer. A run
 * that a text has as a Timestamp is a date, and one that it has as Illegal, reason 21, is none.
 *
 * The seconds are whole ones from 1970-01-01T00:00:00Z, rounded down, and below 0 for earlier dates; the nanoseconds after them are 0 to 999,999,999:
 * `1969-12-31T23:59:59.5Z` gives -1 and 500,000,000. Digits after the ninth of a fraction are dropped. */
uint8_t pxf_timestamp(
    const uint8_t *run,    /* the run, any bytes: a Timestamp's are those from its start to its end */
    size_t run_len,
    int64_t answer[6]);    /* 1, seconds, nanoseconds, 0, 0, 0; where it is no date 0, 0, 0, 0, 0, 0 */

/* Suggests repairs of a mistyped duration, `4h` for `4j` say: lists every replacement of one byte of the run by another printable ASCII byte after
 * which the run, read as a whole strict text, is one Duration and nothing else but blanks. Least nanoseconds come first, then the earliest offset, then
 * the lowest byte. An empty list says that there is no such replacement. A good duration has suggestions too.
 *
 * A list of 285 numbers for each byte of the run suffices for it, and PXF_MAX_SUGGESTION_NUMBERS for any run; with these the replacements are tried
 * once, else they are counted first, which takes as long again. */
uint8_t pxf_suggest_durations(
    const uint8_t *run,    /* the run, any bytes; refusal 11 where it is no UTF-8 */
    size_t run_len,        /* refusal 11 where it is 0 or above PXF_MAX_MISTYPED_RUN */
    int64_t *list,         /* gets the suggestions, in the order above */
    size_t list_len,       /* refusal 12 below three a suggestion */
    int64_t answer[6]);    /* suggestions, 0, 0, 0, 0, 0 */

/* Gives the entry of a byte in the table of byte kinds, which docs/BYTE-KINDS.md has whole. Every byte has one, 0 where it is of no kind. */
uint8_t pxf_byte_kind(uint8_t byte);

/* Writes a token file: 9 + 16 * count bytes. */
uint8_t pxf_write_token_file(
    const int64_t *records, /* twelve numbers a token, of which kind, reason, start, end, line and column are kept */
    size_t records_len,     /* refusal 8 below 12 * count */
    uint64_t count,         /* how many of them go into the file, any number */
    uint8_t *out,           /* gets the file */
    size_t out_len,         /* refusal 10 below the file's bytes */
    int64_t answer[6]);     /* bytes written, 0, 0, 0, 0, 0 */

/* Reads a token file. */
uint8_t pxf_read_token_file(
    const uint8_t *file,   /* the file, any bytes */
    size_t file_len,
    int64_t *tokens,       /* gets its tokens, with 0 for the six numbers that a file has not */
    size_t tokens_len,     /* refusal 4 below twelve a token */
    int64_t answer[6]);    /* count, 0, 0, 0, 0, 0 */

#ifdef __cplusplus
}
#endif

#endif

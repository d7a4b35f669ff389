/* Lists the tokens of a PXF text, one a line: line, column, kind and its name, then the value in quotes, or the reason of an Illegal token.
 *     cc -I include examples/tokens.c target/staticlib/libpxf.a -o target/tokens && target/tokens examples/sloop.pxf */
#include <pxf.h>
#include <stdio.h>
#include <stdlib.h>

static const char *const NAMES[] = {"Eof", "Illegal", "Newline", "Comment", "Ident", "String", "Int", "Float", "Bool", "Null", "Bytes", "Timestamp",
    "Duration", "LBrace", "RBrace", "LBracket", "RBracket", "LParen", "RParen", "Equals", "Colon", "Comma", "AtType", "AtDirective", "AtDataset",
    "AtProto"};

/* A value may hold any character, so all but printable ASCII is written as bytes in hexadecimal. */
static void print_value(const uint8_t *value, int64_t length) {
    printf(" \"");
    for (int64_t i = 0; i < length; i++)
        printf(value[i] < 0x20 || value[i] > 0x7E || value[i] == '\\' ? "\\x%02x" : "%c", value[i]);
    printf("\"");
}

int main(int argc, char **argv) {
    if (argc != 2 || pxf_interface() != PXF_INTERFACE)
        return fprintf(stderr, "usage: tokens FILE, linked with the archive of interface %d\n", PXF_INTERFACE), 2;
    size_t room = (size_t)PXF_MAX_MESSAGE_SIZE + 1; /* one byte more than a text may have, so that a longer one is refused */
    uint8_t *text = malloc(room);
    FILE *file = fopen(argv[1], "rb");
    size_t length = file && text ? fread(text, 1, room, file) : 0;

    /* Buffers of these lengths suffice for any text of the length; a strict reading makes no report. */
    int64_t *tokens = malloc(PXF_TOKEN_WIDTH * (length + 1) * sizeof *tokens), reports[1], answer[6];
    uint8_t *strings = malloc(length + 1);
    if (!file || ferror(file) || !text || !tokens || !strings)
        return fprintf(stderr, "tokens: %s cannot be read, or there is no memory for it\n", argv[1]), 2;
    int refused = pxf_read_text(text, length, PXF_STRICT, PXF_MAX_BYTES_LITERAL_LENGTH, tokens, PXF_TOKEN_WIDTH * (length + 1), strings, length,
        reports, 0, answer);
    if (refused)
        return fprintf(stderr, "tokens: refused %d, offset %d\n", refused, (int)answer[0]), 1;

    for (const int64_t *token = tokens; token < tokens + PXF_TOKEN_WIDTH * answer[0]; token += PXF_TOKEN_WIDTH) {
        int kind = (int)token[PXF_TOKEN_KIND];
        printf("%d:%d %d %s", (int)token[PXF_TOKEN_LINE], (int)token[PXF_TOKEN_COLUMN], kind, NAMES[kind]);
        if (kind == PXF_KIND_ILLEGAL)
            printf(" %d", (int)token[PXF_TOKEN_REASON]);
        else if (kind != PXF_KIND_EOF && kind != PXF_KIND_NEWLINE)
            print_value((kind == PXF_KIND_STRING ? strings : text) + token[PXF_TOKEN_VALUE], token[PXF_TOKEN_VALUE_LENGTH]);
        printf("\n");
    }
    return 0;
}

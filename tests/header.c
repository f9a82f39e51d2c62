/* Every call through the header, on the squaring example: header FILE. It would catch a declaration, a size or a macro of
   include/dansevik.h that does not fit the archive. Prints what is wrong; the exit status is 0 where nothing is. */
#include <dansevik.h>

#include <stdio.h>
#include <string.h>

static int failed;

static void expect(int holds, const char *what)
{
    if (!holds) {
        printf("header: %s\n", what);
        failed = 1;
    }
}

static int answers(struct dansevik_answer a, uint64_t refusal, uint64_t position, uint64_t count, uint64_t components, uint64_t offset)
{
    return a.refusal == refusal && a.position == position && a.count == count && a.components == components && a.offset == offset;
}

static struct dansevik_signature table[DANSEVIK_TABLE_ROWS + 6];

/* The table before a call; and whether so many rows are zero after it, and those behind them untouched. */
static void soil(void) { memset(table, 0xEE, sizeof table); }

static int cleared(size_t rows)
{
    const unsigned char *byte = (const unsigned char *)table;
    size_t i;
    for (i = 0; i < sizeof table; i++) {
        if (byte[i] != (i < rows * sizeof table[0] ? 0 : 0xEE)) return 0;
    }
    return 1;
}

static int filled(const uint8_t *bytes, size_t from, size_t to)
{
    for (; from < to; from++) {
        if (bytes[from] != 0xEE) return 0;
    }
    return 1;
}

int main(int argc, char **argv)
{
    static uint8_t file[DANSEVIK_FILE_BYTES_MAX], out[DANSEVIK_CONTROL_BYTES_MAX], list[DANSEVIK_LIST_BYTES_MAX];
    const uint64_t none = UINT64_MAX;
    size_t bytes;
    FILE *input = argc == 2 ? fopen(argv[1], "rb") : NULL;
    if (input == NULL) return 2;
    bytes = fread(file, 1, sizeof file, input);
    fclose(input);

    expect(sizeof(struct dansevik_answer) == 40 && sizeof(struct dansevik_signature) == 10, "sizes of the structs");
    expect(DANSEVIK_RECORDS_MAX == 3968 && DANSEVIK_LIST_BYTES_MAX == 63488 && DANSEVIK_FILE_BYTES_MAX == 65536, "sizes of a file");
    expect(DANSEVIK_PACKED_BYTES(256) == 512 && DANSEVIK_PACKED_BYTES(496) == 512 && DANSEVIK_PACKED_BYTES(512) == 1024, "packed bytes");
    expect(DANSEVIK_UNPACKED_BYTES(DANSEVIK_FILE_BYTES_MAX) == DANSEVIK_LIST_BYTES_MAX, "unpacked bytes");

    soil();
    expect(answers(dansevik_judge(file, bytes, table, DANSEVIK_TABLE_ROWS), DANSEVIK_ACCEPTED, 0, 16, 2, 0), "judge");
    expect(cleared(64), "judge: 64 rows zero");
    soil();
    expect(answers(dansevik_judge(file, bytes, table, 63), DANSEVIK_REFUSED_ROOM, 0, 0, 0, 0), "judge with 63 rows");
    expect(cleared(63), "judge: 63 rows zero");
    soil();
    expect(answers(dansevik_judge(file, bytes - 1, table, 64 + 6), DANSEVIK_REFUSED_LENGTH, 0, 0, 0, 0), "judge a short file");
    expect(cleared(70), "judge: 70 rows zero");

    memset(out, 0xEE, sizeof out);
    expect(answers(dansevik_lower(file, bytes, table, 63, 1, out, sizeof out), DANSEVIK_REFUSED_ROOM, 0, 0, 0, 0), "lower with 63 rows");
    expect(answers(dansevik_lower(file, bytes, table, 64, none, out, sizeof out), DANSEVIK_REFUSED_ABSENT, none, 0, 0, 0), "lower nothing");
    expect(answers(dansevik_lower(file, bytes, table, 64, 1, out, 8 * 16 - 1), DANSEVIK_REFUSED_ROOM, 0, 0, 0, 0), "lower, a byte short");
    expect(filled(out, 0, sizeof out), "lower: a refusal writes nothing");
    soil();
    expect(answers(dansevik_lower(file, bytes, table, 64, 1, out, 8 * 16), DANSEVIK_ACCEPTED, 0, 8, 0, 0), "lower");
    expect(cleared(64) && out[0] == 1 && out[2] == 4 && out[4] == 5 && filled(out, 8 * 16, sizeof out), "lower: the rows");

    memset(out, 0xEE, sizeof out);
    expect(answers(dansevik_list(file, bytes, table, 63, 1, out, sizeof out), DANSEVIK_REFUSED_ROOM, 0, 0, 0, 0), "list with 63 rows");
    expect(answers(dansevik_list(file, bytes, table, 64, 2, out, sizeof out), DANSEVIK_REFUSED_ABSENT, 2, 0, 0, 0), "list nothing");
    expect(answers(dansevik_list(file, bytes, table, 64, 1, out, 2 * 8 - 1), DANSEVIK_REFUSED_ROOM, 0, 0, 0, 0), "list, a byte short");
    expect(filled(out, 0, sizeof out), "list: a refusal writes nothing");
    soil();
    expect(answers(dansevik_list(file, bytes, table, 64, 1, out, 2 * 8), DANSEVIK_ACCEPTED, 0, 2, 0, 0), "list");
    expect(cleared(64) && out[0] == 0 && out[8] == 2 && filled(out, 2 * 8, sizeof out), "list: the starts");

    expect(answers(dansevik_unpack(file, bytes, list, sizeof list), DANSEVIK_ACCEPTED, 0, 256, 0, 0), "unpack");
    memset(out, 0xEE, sizeof out);
    expect(answers(dansevik_pack(list, 256, out, 511), DANSEVIK_REFUSED_ROOM, 0, 0, 0, 0) && filled(out, 0, sizeof out), "pack, a byte short");
    expect(answers(dansevik_pack(list, 256, out, sizeof out), DANSEVIK_ACCEPTED, 0, 512, 0, 0), "pack");
    expect(memcmp(out, file, 512) == 0 && filled(out, 512, sizeof out), "pack: the file again");

    expect(answers(dansevik_record(file, bytes, 15), DANSEVIK_ACCEPTED, 0, 16, 0, 8 + 16 * 15), "record");
    expect(memcmp(file + 8 + 16 * 15, list + 16 * 15, 16) == 0, "record: its bytes");
    expect(answers(dansevik_record(file, bytes, none), DANSEVIK_REFUSED_ABSENT, none, 0, 0, 0), "record that is absent");
    return failed;
}

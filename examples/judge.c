/* Judges a file through the library: judge [FILE], standard input without FILE. Prints the line that the program `judge` prints,
   'accepted C R' or 'refused N at P'. Exit status: 0 accepted, 1 refused, 2 misuse or a file that cannot be read.

     tools/x86 archive
     cc -Iinclude -o judge examples/judge.c target/staticlib/libhost.a
     ./judge examples/squaring.design */
#include <dansevik.h>

#include <inttypes.h>
#include <stdio.h>

/* One byte more than any file has: whatever is longer is refused for its length, and never cut short. */
static uint8_t file[DANSEVIK_FILE_BYTES_MAX + 1];

int main(int argc, char **argv)
{
    struct dansevik_signature table[DANSEVIK_TABLE_ROWS];
    struct dansevik_answer answer;
    FILE *input = stdin;
    size_t bytes;

    if (argc > 2) {
        fprintf(stderr, "usage: %s [FILE]\n", argv[0]);
        return 2;
    }
    if (argc == 2) {
        input = fopen(argv[1], "rb");
        if (input == NULL) {
            perror(argv[1]);
            return 2;
        }
    }
    bytes = fread(file, 1, sizeof file, input);
    if (ferror(input)) {
        perror("judge");
        return 2;
    }

    answer = dansevik_judge(file, bytes, table, DANSEVIK_TABLE_ROWS);
    if (answer.refusal != DANSEVIK_ACCEPTED) {
        printf("refused %" PRIu64 " at %" PRIu64 "\n", answer.refusal, answer.position);
        return 1;
    }
    printf("accepted %" PRIu64 " %" PRIu64 "\n", answer.components, answer.count);
    return 0;
}

/* Dansevik for C and C++: judge a design file, write the control rows of one of its components, list when each physical unit
   starts, and turn record lists into files and back.

   Link target/staticlib/libhost.a, which `tools/x86 archive` makes: an archive for x86-64 with SSE4.1 that needs nothing but
   memcpy and memset. The functions keep no state, allocate nothing, and always return; calls that share no memory may run at the same time.
   On the stack, as measured, dansevik_list takes up to DANSEVIK_STACK_BYTES_MAX, every other call less than 8 KiB.

   What to pass
     - Every pointer is non-null, also where its length is 0. The library checks no pointer.
     - A length tells how many elements stand at the pointer before it: bytes, or rows of a table.
     - What is lent to be written (`table`, `out`) overlaps nothing else that is passed.
     - `table` is aligned as its struct is; bytes need no alignment. No content needs to be prepared.

   What comes back
     - One struct dansevik_answer, by value. Look at `refusal` first: 0 is acceptance, anything else is the number of the first
       refusal found, with `position`. What does not apply to a call is 0.
     - On acceptance the written part of `out` is as the function says, and every byte past it keeps its value.
       On refusal every byte of `out` keeps its value.
     - `table` is working memory: after every call, accepted or refused, every row of it is zero. It may be lent again at once.

   docs/RULES.md has the rules by which files are judged, with the same numbers. */
#ifndef DANSEVIK_H
#define DANSEVIK_H

#include <stddef.h>
#include <stdint.h>

#ifdef __cplusplus
extern "C" {
#endif

/* ---- Sizes ---- */

/* A file: 1 to 128 blocks. */
#define DANSEVIK_BLOCK_BYTES 512
#define DANSEVIK_FILE_BYTES_MAX (128 * DANSEVIK_BLOCK_BYTES)

/* A record list: 1 to 3,968 records, 31 to a block. */
#define DANSEVIK_RECORD_BYTES 16
#define DANSEVIK_BLOCK_RECORDS 31
#define DANSEVIK_RECORDS_MAX (128 * DANSEVIK_BLOCK_RECORDS)
#define DANSEVIK_LIST_BYTES_MAX (DANSEVIK_RECORDS_MAX * DANSEVIK_RECORD_BYTES)

/* The file of a list of so many bytes, and room for the list of a file of so many bytes. */
#define DANSEVIK_PACKED_BYTES(list_bytes) \
    (((list_bytes) + (DANSEVIK_BLOCK_RECORDS * DANSEVIK_RECORD_BYTES - 1)) / (DANSEVIK_BLOCK_RECORDS * DANSEVIK_RECORD_BYTES) * DANSEVIK_BLOCK_BYTES)
#define DANSEVIK_UNPACKED_BYTES(file_bytes) \
    ((file_bytes) / DANSEVIK_BLOCK_BYTES * (DANSEVIK_BLOCK_RECORDS * DANSEVIK_RECORD_BYTES))

/* Control rows: one of the register, of each of 64 invocations one and one for each of 16 inputs, one for each of 16 outputs. */
#define DANSEVIK_CONTROL_ROW_BYTES 16
#define DANSEVIK_CONTROL_ROWS_MAX (1 + 64 * (1 + 16) + 16)
#define DANSEVIK_CONTROL_BYTES_MAX (DANSEVIK_CONTROL_ROWS_MAX * DANSEVIK_CONTROL_ROW_BYTES)

/* Unit starts. */
#define DANSEVIK_START_ROW_BYTES 8
#define DANSEVIK_START_ROWS_MAX 4096
#define DANSEVIK_START_BYTES_MAX (DANSEVIK_START_ROWS_MAX * DANSEVIK_START_ROW_BYTES)

/* The working table has a row for each component that a file may have. A shorter one is refusal 13; of a longer one the rows
   past these are only set to zero. */
#define DANSEVIK_TABLE_ROWS 64

/* Stack of a call, at most: dansevik_list makes its rows there before it writes them. */
#define DANSEVIK_STACK_BYTES_MAX (72 * 1024)

/* ---- Types ---- */

/* A row of the working table. Every call leaves it zero: a host has nothing to write or to read in it. */
struct dansevik_signature {
    uint16_t component_class;
    uint16_t delay;
    uint16_t inputs;
    uint16_t outputs;
    uint16_t first_record;
};

/* The values of `refusal`, and what `position` then is. The first that is found is answered: 13 for the table, then 1, then the
   blocks in order with 2 before 3, then the records in order, for each in the order of this table, then 14, then any other 13. */
enum dansevik_refusal {
    DANSEVIK_ACCEPTED = 0,
    /* The length of the file or of the record list is not allowed. 0. */
    DANSEVIK_REFUSED_LENGTH = 1,
    /* The check differs. The block. */
    DANSEVIK_REFUSED_CHECK = 2,
    /* Header, unused slot or spare bytes differ. The block. */
    DANSEVIK_REFUSED_HEADER = 3,
    /* Kind, range or zero byte wrong in a record. The record. */
    DANSEVIK_REFUSED_RECORD = 4,
    /* Record not allowed at this place: the record. File ends in an incomplete component: the record count. */
    DANSEVIK_REFUSED_PLACE = 5,
    /* One of a kind too many. The record. */
    DANSEVIK_REFUSED_TOO_MANY = 6,
    /* Reference: an instance's component is not below its own; an instance, own input, output or invocation is absent; an
       argument names its own or a later invocation. The record. */
    DANSEVIK_REFUSED_REFERENCE = 7,
    /* Width: source and reader are not equally wide, or a constant does not fit. The record. */
    DANSEVIK_REFUSED_WIDTH = 8,
    /* Interval: a port's is longer than its component's delay. The record. */
    DANSEVIK_REFUSED_INTERVAL = 9,
    /* Spacing: two invocations of one instance stand less than its delay apart. The record of the later one. */
    DANSEVIK_REFUSED_SPACING = 10,
    /* Span: the invocations of one instance spread over more than the component's delay. The record. */
    DANSEVIK_REFUSED_SPAN = 11,
    /* Reading: the source's interval does not contain the required one. The record. */
    DANSEVIK_REFUSED_READING = 12,
    /* The lent buffer or table is too short, or a flat limit (4,096 rows, 4,096 units) is passed. 0. */
    DANSEVIK_REFUSED_ROOM = 13,
    /* The component or record asked for is absent, or the component is a leaf when lowering. The number asked for. */
    DANSEVIK_REFUSED_ABSENT = 14
};

/* What every call answers. */
struct dansevik_answer {
    /* DANSEVIK_ACCEPTED, or the number of the refusal. */
    uint64_t refusal;
    /* Where the refusal stands, as the enumeration says; 0 on acceptance. */
    uint64_t position;
    /* How much there is: of dansevik_judge records, of dansevik_lower and dansevik_list rows, of dansevik_pack and
       dansevik_unpack bytes written, of dansevik_record the 16 bytes of the record; 0 on refusal. */
    uint64_t count;
    /* Of dansevik_judge the components of the file, 1 to 64; of every other call, and on refusal, 0. */
    uint64_t components;
    /* Of dansevik_record where the record's bytes begin in the file; of every other call, and on refusal, 0. */
    uint64_t offset;
};

/* ---- Calls ---- */

/* Judges a file. Accepted: `components` and `count`, its records. Refusals: 13 for the table, those of the file. */
struct dansevik_answer dansevik_judge(const uint8_t *file, size_t file_bytes, struct dansevik_signature *table, size_t table_rows);

/* Judges a file, then writes the control rows of its built component `component` into `out`. Accepted: `count` rows of 16 bytes,
   each eight little-endian 16-bit numbers, zero filled:
     1, delay, states                                       first, once
     2, invocation, instance, state                         for each invocation, and after it
     3, invocation, port, first state, last state, record   for each of its inputs: the record of its argument
     4, port, record                                        last, for each own output: the record of its connection
   DANSEVIK_CONTROL_BYTES_MAX are always room enough. Refusals: those of the verdict, 14, 13. */
struct dansevik_answer dansevik_lower(const uint8_t *file, size_t file_bytes, struct dansevik_signature *table, size_t table_rows,
                                      uint64_t component, uint8_t *out, size_t out_bytes);

/* Judges a file, then lists when each leaf unit of its component `component` starts, counted from the component's own start.
   Accepted: `count` rows of 8 bytes, little-endian: the cycle in 4, the unit in 2, the unit's component in 2; 0 rows where
   nothing starts. DANSEVIK_START_BYTES_MAX are always room enough. Refusals: those of the verdict, 14, 13. */
struct dansevik_answer dansevik_list(const uint8_t *file, size_t file_bytes, struct dansevik_signature *table, size_t table_rows,
                                     uint64_t component, uint8_t *out, size_t out_bytes);

/* Writes the file of a list of records of any content into `out`. Accepted: `count` bytes, DANSEVIK_PACKED_BYTES(list_bytes).
   Refusals: 1, 13. */
struct dansevik_answer dansevik_pack(const uint8_t *list, size_t list_bytes, uint8_t *out, size_t out_bytes);

/* Writes the record list of a file into `out`; the records themselves are not judged. Accepted: `count` bytes, at most
   DANSEVIK_UNPACKED_BYTES(file_bytes). Refusals: 1, 2, 3, 13. */
struct dansevik_answer dansevik_unpack(const uint8_t *file, size_t file_bytes, uint8_t *out, size_t out_bytes);

/* Finds a record in a file whose blocks are all checked first; the records themselves are not judged. Accepted: the record is
   the `count` (16) bytes from file + `offset` on, in your own memory and not copied. Refusals: 1, 2, 3, 14. */
struct dansevik_answer dansevik_record(const uint8_t *file, size_t file_bytes, uint64_t record);

#ifdef __cplusplus
}
#endif

#endif

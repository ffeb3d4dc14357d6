/* overlay.h: an overlay file table over a published listing, for programs in C.
 *
 * Link with liboverlay.a (`sh tools/library` writes it to target/staticlib; Linux, x86-64-v2).
 * The library has no state and calls nothing but memcpy, memmove and memset of the C library. Threads may call it at
 * once, each with buffers of its own.
 *
 * WHAT IS LENT. Every buffer is a pointer and a length, counted in elements (bytes, or 64-bit numbers for a record, a
 * place and least numbers).
 * Any bytes and any numbers may be given: each call checks what it is lent. What C itself asks is left to the caller:
 *   - the memory is there and can be read, and written where the pointer is not const;
 *   - the pointer of a record, of a place and of least numbers is aligned to 8 bytes;
 *   - a buffer that is not const overlaps no other buffer of the same call;
 *   - with length 0 the pointer is not looked at, and may be NULL;
 *   - a bool is 0 or 1.
 *
 * A REFUSED CALL CHANGES NOTHING: table, record, work buffer, output, place and least numbers are byte for byte as they
 * were. Only overlay_run_new may leave the table opened where it does not run the script.
 * An accepted changing call leaves the table with its new record, and the work buffer all 0; a script, as its last call
 * leaves them.
 *
 * THE LISTING holds the published tree, at most 16 MiB of it: the mark "RDL", a 16-bit version 1, a 32-bit count,
 * then the records: path length (16 bits), kind (8 bits: 1 directory, 2 file, 3 link), mtime (the bits of a double),
 * size (64 bits), path. The paths ascend by their bytes. All numbers are little-endian.
 *
 * THE TABLE is a buffer of at most 16 MiB that overlay_open_table or overlay_run_new makes empty, or overlay_read_kept
 * fills from a file. Its entries ascend by key from the start, and all bytes behind them are 0. An entry: key length
 * (16 bits), kind (16 bits: 1 own file, 2 reference to a listed file, 3 directory, 4 deleted), body length (32 bits),
 * mtime bits (64), size (64), key, body.
 *
 * THE CHARGE of a table, which a limit is compared with, is the sum over its entries of 256 + key length + entry size +
 * body length rounded up to a multiple of 16; a body of no bytes is charged none. Only charges are rounded: a body
 * takes as many bytes in the table as it has. A rounded length or a sum that would pass 2^64 - 1 counts as 2^64 - 1.
 *
 * THE KEPT FILE holds a listing and the entries of a table of entry size 40 over it: the mark "OVT", a 16-bit version
 * 1, the length of the listing (32 bits), the listing, the length of the entries (32 bits), the entries, and no byte
 * more. The entry size and the charge are not in it: the charge is summed when it is read, so that a file that was
 * written when bodies were charged without rounding reads with the sum above.
 *
 * A PATH is not ended by a 0 byte. It is empty (the root), or components joined by single '/': UTF-8, at most 512
 * bytes and 32 components, a component of 1 to 255 bytes, not "." or "..", without byte 0, backslash or colon.
 */
#ifndef OVERLAY_H
#define OVERLAY_H

#include <stdbool.h>
#include <stddef.h>
#include <stdint.h>

#ifdef __cplusplus
extern "C" {
#endif

/* A record: four numbers that belong to a table and must agree with it. A record of another length is refused
 * with OVERLAY_MALFORMED_TABLE. */
#define OVERLAY_RECORD_LENGTH 4
#define OVERLAY_RECORD_USED 0       /* the bytes of the entries */
#define OVERLAY_RECORD_COUNT 1      /* the number of entries */
#define OVERLAY_RECORD_CHARGE 2     /* the sum over the entries of 256 + key length + entry size + body length rounded
                                       up to a multiple of 16 */
#define OVERLAY_RECORD_ENTRY_SIZE 3 /* what was given when the table was opened */

#define OVERLAY_MAX_BUFFER 16777216 /* the bytes of the longest table, and of the longest listing */
#define OVERLAY_MAX_ENTRY_SIZE 4096
#define OVERLAY_MAX_PATH 512

/* The number of an answer: 0, or why the call is refused. */
enum overlay_number {
    OVERLAY_ACCEPTED = 0,
    OVERLAY_MALFORMED_TABLE = 1,    /* table, record, entry size, work buffer, place or least numbers malformed, too
                                       short or long */
    OVERLAY_MALFORMED_LISTING = 2,
    OVERLAY_MALFORMED_PATH = 3,     /* path */
    OVERLAY_LINK_OR_ROOT = 4,       /* path, length: a link is met, or the root is given */
    OVERLAY_NOT_FOUND = 5,          /* path, length */
    OVERLAY_EXISTS = 6,             /* path, length */
    OVERLAY_NOT_A_DIRECTORY = 7,    /* path, length */
    OVERLAY_IS_A_DIRECTORY = 8,     /* path, length */
    OVERLAY_NOT_EMPTY = 9,          /* path, length */
    OVERLAY_BELOW_SOURCE = 10,      /* length: the destination lies below the source */
    OVERLAY_LIMIT = 11,             /* the charge, what a rename plans, or an append's whole content beside the charge
                                       exceeds the limit */
    OVERLAY_KEY_TOO_LONG = 12,      /* a moved key has more than 512 bytes or 32 components */
    OVERLAY_NO_ROOM = 13,           /* the entries after the call are longer than the table, a file or names than the
                                       output */
    OVERLAY_NOT_KEPT = 14,          /* not the mark and the version of a kept file, or too short for them */
    OVERLAY_DAMAGED = 15,           /* a kept file with any other damage */
    OVERLAY_OTHER_ENTRY_SIZE = 16,  /* only a table of entry size 40 is written to a kept file */
    OVERLAY_LENT_COUNT = 17,        /* the lent bytes are not as many as the listed file's recorded size, or not 0 where
                                       none are needed */
    OVERLAY_RANGE_TOO_LARGE = 18,   /* offset and data length together exceed 2^64 - 1 */
    OVERLAY_MALFORMED_SCRIPT = 254, /* only overlay_run and overlay_run_new: the bytes are no script */
    OVERLAY_SHORT_REPORT = 255      /* only these two: the report has not a row for each call */
};

/* An answer is packed in one number: the number above in the low 8 bits, the path (0: only or source, 1: destination)
 * in the next 8, and from bit 16 on the length of that path, or of the ancestor at which mkdir with parents met a file.
 * Accepted, these 48 bits hold the value: the data's length for a write, an append and a writing inside, the file's for
 * overlay_write_kept, the number of bytes written for overlay_show, 1 or 0 for a query and for overlay_least_rename,
 * else 0. */
static inline int overlay_answer_number(uint64_t answer) { return (int)(answer & 0xff); }
static inline int overlay_answer_path(uint64_t answer) { return (int)(answer >> 8 & 0xff); }
static inline uint64_t overlay_answer_length(uint64_t answer) { return answer >> 16; }
static inline uint64_t overlay_answer_value(uint64_t answer) { return answer >> 16; }
static inline bool overlay_is_accepted(uint64_t answer) { return (answer & 0xff) == OVERLAY_ACCEPTED; }

/* Makes the buffer an empty table, all 0, for entries of this size (0 to 4,096), and writes its record.
 * Refused only with OVERLAY_MALFORMED_TABLE: the buffer, the entry size or the record's length is out of bounds. */
uint64_t overlay_open_table(uint8_t *table, size_t table_length, uint64_t *record, size_t record_length,
                            uint64_t entry_size);

/* Whether the bytes are a listing; whether they are a table that agrees with the record. */
bool overlay_check_listing(const uint8_t *listing, size_t listing_length);
bool overlay_check_table(const uint8_t *table, size_t table_length, const uint64_t *record, size_t record_length);

/* What is visible at a path: anything but a link; a file; a directory. The value is 1 for yes and 0 for no. */
uint64_t overlay_exists(const uint8_t *listing, size_t listing_length, const uint8_t *table, size_t table_length,
                        const uint64_t *record, size_t record_length, const uint8_t *path, size_t path_length);
uint64_t overlay_is_file(const uint8_t *listing, size_t listing_length, const uint8_t *table, size_t table_length,
                         const uint64_t *record, size_t record_length, const uint8_t *path, size_t path_length);
uint64_t overlay_is_dir(const uint8_t *listing, size_t listing_length, const uint8_t *table, size_t table_length,
                        const uint64_t *record, size_t record_length, const uint8_t *path, size_t path_length);

/* Shows a directory: writes the name of each visible child of the path to the start of the output, each once, ascending
 * by bytes, each with its length in 16 bits before it, and 0 to every byte of the output behind them. The value is the
 * number of bytes written, 0 for an empty directory. A link that no entry covers is left out. The root is shown too.
 * Refused with OVERLAY_MALFORMED_TABLE, OVERLAY_MALFORMED_LISTING or OVERLAY_MALFORMED_PATH, the first of them that
 * holds. Then, for a path with an entry, with OVERLAY_NOT_A_DIRECTORY (a file) or OVERLAY_NOT_FOUND (deleted); for one
 * without an entry with OVERLAY_LINK_OR_ROOT (a link is listed at it or at one of its ancestors, covered by an entry or
 * not), else with OVERLAY_NOT_A_DIRECTORY or OVERLAY_NOT_FOUND by what is listed. Last with OVERLAY_NO_ROOM: the output
 * is shorter than what would be written. It may be of any length, and is then as it was, so that asking again with a
 * longer one is safe; one as long as listing and table together always suffices. */
uint64_t overlay_show(const uint8_t *listing, size_t listing_length, const uint8_t *table, size_t table_length,
                      const uint64_t *record, size_t record_length, const uint8_t *path, size_t path_length,
                      uint8_t *output, size_t output_length);

/* The changing calls. Each takes a work buffer that is at least as long as the table, whatever its bytes, and a limit
 * for the table's charge; a charge that equals it passes. An mtime is the bits of a double, stored as they are. */

/* The data becomes the content of the path's own file. The value is the data's length. */
uint64_t overlay_write_bytes(const uint8_t *listing, size_t listing_length, uint8_t *table, size_t table_length,
                             uint64_t *record, size_t record_length, uint8_t *work, size_t work_length,
                             const uint8_t *path, size_t path_length, const uint8_t *data, size_t data_length,
                             uint64_t mtime, uint64_t limit);

/* The data is put behind the content of the file at the path, and the whole becomes the content of the path's own file,
 * also where there is no data; at an absent or a deleted path a new file is made. The value is the data's length.
 * The lent bytes are the content of the listed file that is visible at the path, as itself or by a reference: as many
 * as its recorded size, else the call is refused with OVERLAY_LENT_COUNT. What they are is left to the caller. For an
 * own file, a deleted and an absent path none are needed, and any that are lent are refused in the same way.
 * Refused with OVERLAY_MALFORMED_TABLE, OVERLAY_MALFORMED_LISTING, OVERLAY_MALFORMED_PATH, as a write is by what is
 * visible at the path and above it, then with OVERLAY_LENT_COUNT, OVERLAY_LIMIT or OVERLAY_NO_ROOM, the first of them
 * that holds. Where no own file is at the path, OVERLAY_LIMIT is also given if the charge before the call and the whole
 * new content, whose length is not rounded here, together exceed the limit; this decides only at a reference, whose
 * entry the call replaces. */
uint64_t overlay_append_bytes(const uint8_t *listing, size_t listing_length, uint8_t *table, size_t table_length,
                              uint64_t *record, size_t record_length, uint8_t *work, size_t work_length,
                              const uint8_t *path, size_t path_length, const uint8_t *data, size_t data_length,
                              const uint8_t *lent, size_t lent_length, uint64_t mtime, uint64_t limit);

/* The data is written inside the path's own file, from the offset on: it replaces what stands there, the file grows
 * where the data ends behind it, and what stands before the offset and behind the data stays. A gap between the file's
 * end and the offset is filled with zeros, also where there is no data. The value is the data's length.
 * Refused with OVERLAY_MALFORMED_TABLE, OVERLAY_MALFORMED_LISTING, OVERLAY_MALFORMED_PATH, OVERLAY_NOT_FOUND (the path
 * has no own file: a listed file, a reference and a directory too), OVERLAY_RANGE_TOO_LARGE, OVERLAY_LIMIT or
 * OVERLAY_NO_ROOM, the first of them that holds. A charge that would pass 2^64 - 1 is within the limit 2^64 - 1, where
 * OVERLAY_NO_ROOM is given, and within no other. */
uint64_t overlay_write_file_at(const uint8_t *listing, size_t listing_length, uint8_t *table, size_t table_length,
                               uint64_t *record, size_t record_length, uint8_t *work, size_t work_length,
                               const uint8_t *path, size_t path_length, const uint8_t *data, size_t data_length,
                               uint64_t offset, uint64_t mtime, uint64_t limit);

/* A directory at the path; with parents, at its missing ancestors too. With exist_ok a directory that is there is
 * accepted, and nothing changes but the work buffer. */
uint64_t overlay_mkdir(const uint8_t *listing, size_t listing_length, uint8_t *table, size_t table_length,
                       uint64_t *record, size_t record_length, uint8_t *work, size_t work_length,
                       const uint8_t *path, size_t path_length, bool parents, bool exist_ok,
                       uint64_t mtime, uint64_t limit);

/* The file at the path is deleted; the empty directory is. */
uint64_t overlay_unlink(const uint8_t *listing, size_t listing_length, uint8_t *table, size_t table_length,
                        uint64_t *record, size_t record_length, uint8_t *work, size_t work_length,
                        const uint8_t *path, size_t path_length, uint64_t limit);
uint64_t overlay_rmdir(const uint8_t *listing, size_t listing_length, uint8_t *table, size_t table_length,
                       uint64_t *record, size_t record_length, uint8_t *work, size_t work_length,
                       const uint8_t *path, size_t path_length, uint64_t limit);

/* What is visible at the source, and below it, moves to the destination, whose file or empty directory goes. Where both
 * paths are equal, and something other than a link is visible there, it is accepted whatever the limit, and table and
 * record stay as they are; the work buffer is all 0 as after every accepted call. */
uint64_t overlay_rename(const uint8_t *listing, size_t listing_length, uint8_t *table, size_t table_length,
                        uint64_t *record, size_t record_length, uint8_t *work, size_t work_length,
                        const uint8_t *source, size_t source_length, const uint8_t *destination,
                        size_t destination_length, uint64_t limit);

/* Least numbers: two numbers that say what would let a rename through. Least numbers of another length are refused with
 * OVERLAY_MALFORMED_TABLE. */
#define OVERLAY_LEAST_LENGTH 2
#define OVERLAY_LEAST_LIMIT 0        /* the limit, when table and work buffer have OVERLAY_MAX_BUFFER bytes */
#define OVERLAY_LEAST_TABLE_LENGTH 1 /* the table's length, when the limit is 2^64 - 1 and the work buffer as long */

/* Tells what would let the rename of source to destination through: writes the least limit and the least length of the
 * table with which it is accepted, the table being lengthened by zeros. With every smaller limit, and in every shorter
 * table, the rename is refused; both together, with a work buffer as long as the table, are enough. They are told
 * whether or not the rename would be refused as it is. There is no work buffer, and nothing but the two numbers is
 * changed. The value is 1. For a move onto itself the limit is 0 and the length the record's OVERLAY_RECORD_USED.
 * Where no limit and no length would do, the value is 0, and so are both numbers: what stands against it is one of
 * OVERLAY_LINK_OR_ROOT to OVERLAY_BELOW_SOURCE (a link that is met below the source too), OVERLAY_KEY_TOO_LONG, or
 * entries after it of more than OVERLAY_MAX_BUFFER bytes.
 * Refused with OVERLAY_MALFORMED_TABLE, OVERLAY_MALFORMED_LISTING or OVERLAY_MALFORMED_PATH, the first of them that
 * holds; the two numbers are then as they were. */
uint64_t overlay_least_rename(const uint8_t *listing, size_t listing_length, const uint8_t *table, size_t table_length,
                              const uint64_t *record, size_t record_length, const uint8_t *source, size_t source_length,
                              const uint8_t *destination, size_t destination_length, uint64_t *least,
                              size_t least_length);

/* A SCRIPT is a list of changing calls as bytes: the mark "TSC1" or "TSC2", a 32-bit count, then the steps: kind (8
 * bits: 1 write, 2 mkdir, 3 unlink, 4 rmdir, 5 rename, and only in TSC2 6 append, 7 writing inside), flags (8 bits, for
 * mkdir: 1 parents, 2 exist_ok), lengths of the first part (16 bits: the path, a rename's source) and of the second (32
 * bits: the data, a rename's destination), mtime (64 bits), limit (64 bits), in TSC2 also the offset (64 bits, for
 * writing inside) and the length of the third part (32 bits: the bytes lent to an append), then the parts. What a step
 * has no use for is 0. docs/FORMATS.md has one byte by byte.
 *
 * Its calls are made in their order on one table, each with the table, the record and the work buffer that the one
 * before left; a refused call does not end the run. Each gets a row of OVERLAY_ROW_LENGTH bytes in the report, four
 * 64-bit numbers: the number of its answer (0 to 13, 17 or 18), the path, the length or value, and the table's charge
 * after the call. Behind the last row the report is as it was. */
#define OVERLAY_ROW_LENGTH 32

/* Runs a script on the table. The answer is 0 if its calls were made, whatever each of them answered; table, record and
 * work buffer are then those after the last. With any other answer nothing is changed: OVERLAY_MALFORMED_SCRIPT,
 * OVERLAY_SHORT_REPORT, or OVERLAY_MALFORMED_TABLE if the record is not four numbers. If the table does not agree with
 * its record, or the work buffer is shorter than the table, each call is refused with 1, in its row; if the listing is
 * malformed, with 2. */
uint64_t overlay_run(const uint8_t *listing, size_t listing_length, uint8_t *table, size_t table_length,
                     uint64_t *record, size_t record_length, uint8_t *work, size_t work_length,
                     const uint8_t *script, size_t script_length, uint8_t *report, size_t report_length);

/* Makes the buffer an empty table as overlay_open_table does, and runs a script on it as overlay_run does. With
 * OVERLAY_MALFORMED_TABLE, where the opening is refused or the record is not four numbers, nothing is changed; with
 * OVERLAY_MALFORMED_SCRIPT or OVERLAY_SHORT_REPORT the table is empty, with its record, and the rest is as it was. */
uint64_t overlay_run_new(const uint8_t *listing, size_t listing_length, uint8_t *table, size_t table_length,
                         uint64_t *record, size_t record_length, uint8_t *work, size_t work_length,
                         const uint8_t *script, size_t script_length, uint8_t *report, size_t report_length,
                         uint64_t entry_size);

/* What a kept file has beside listing and entries, in bytes; the entry size of its table. */
#define OVERLAY_KEPT_OVERHEAD 13
#define OVERLAY_KEPT_ENTRY_SIZE 40

/* A place: where the listing starts in a kept file, and its length. A place of another length is refused with
 * OVERLAY_MALFORMED_TABLE. */
#define OVERLAY_PLACE_LENGTH 2
#define OVERLAY_PLACE_START 0
#define OVERLAY_PLACE_LISTING_LENGTH 1

/* Writes listing and table as a kept file to the start of the output, and 0 to every byte of it behind the file. The
 * value is the file's length: OVERLAY_KEPT_OVERHEAD, the listing's length and the record's OVERLAY_RECORD_USED. Refused
 * with OVERLAY_MALFORMED_TABLE, OVERLAY_MALFORMED_LISTING, OVERLAY_OTHER_ENTRY_SIZE or OVERLAY_NO_ROOM (the output is
 * shorter than the file), the first of them that holds. The output may be of any length. */
uint64_t overlay_write_kept(const uint8_t *listing, size_t listing_length, const uint8_t *table, size_t table_length,
                            const uint64_t *record, size_t record_length, uint8_t *output, size_t output_length);

/* Reads a kept file: its entries to the start of the table and 0 to every byte behind them, the record of that table,
 * and the place of the listing, which stays where it is in the file. What table, record and place held before does not
 * matter. The file may be of any length. Refused with OVERLAY_MALFORMED_TABLE (a table above OVERLAY_MAX_BUFFER, a
 * record that is not four numbers, a place that is not two), OVERLAY_NOT_KEPT, OVERLAY_DAMAGED or OVERLAY_NO_ROOM (the
 * table is shorter than the entries), the first of them that holds.
 * A file that is read, written again, is the same byte for byte; what was written is read as it was. Calls go on from
 * the table that was read, over that listing, as from the one that was written. */
uint64_t overlay_read_kept(const uint8_t *file, size_t file_length, uint8_t *table, size_t table_length,
                           uint64_t *record, size_t record_length, uint64_t *place, size_t place_length);

#ifdef __cplusplus
}
#endif

#endif

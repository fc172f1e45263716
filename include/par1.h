/* Proved parity volumes: the calls of the static library libpar1_c.a, for C99 and later and for C++.
 *
 * To link:  (cd crates/par1_c && rt lib);  gcc -Iinclude program.c crates/par1_c/out/libpar1_c.a
 * The library is for x86-64: some 80 KB of code and constants and no variables. It wants memcpy and memset of the C library and nothing else; it
 * allocates nothing and keeps nothing between calls, so calls on different bytes may run at the same time.
 *
 * Each call that can refuse answers the number 0 where it is accepted, else the number of its refusal; a par1_answer tells more beside it. A
 * refused call changes no byte, but that the end of a job ends it (see Jobs). A call reads and writes only the bytes it is lent, each a pointer and
 * a length; bytes past those written stay as they were. Where the length is 0 the pointer is not used: it may be NULL, for records too, but a hash is
 * always lent. Bytes that a call writes must not overlap others that it is lent. Numbers in lent bytes are 64 bits wide, in a catalog 32 or 64, lowest
 * byte first (par1_number_at, par1_put_number). Lent bytes need no alignment; the two structs lie at multiples of 8, as a compiler puts them.
 *
 * The names of constants say what they are: PAR1_E_.. the number of a refusal, PAR1_AT_.. a place in bytes, from 0, PAR1_MAX_.. a limit, PAR1_.._BYTES a
 * length; beside them there are the codes, the number of weights and the lengths in a catalog. A compiler that lays out the structs otherwise than the
 * library, under #pragma pack say, or whose size_t is not 64 bits wide, refuses this header.
 *
 * The calls, in the order in which they stand below: their refusals in the order of the tests, so that of those that hold the first is answered; how
 * many bytes they write where they are accepted, which are the first of those lent for a result (with fewer they refuse with 14); and their stack in
 * bytes, measured on accepted calls and rounded up to hundreds (docs/BENCHMARKS.md); refused ones take no more. R stands for 1 to 5, 16 to 19, 7 to 9,
 * the refusals of reading a file.
 *
 *   call                 refusals               writes                                      stack
 *
 *   hash and field
 *   par1_md5             14                     16                                          1,900
 *   par1_inverse         10 14                  1                                             600
 *   par1_coefficient     10 14                  1                                             700
 *   par1_mul_add         none                   the buffer, as far as the fragment goes       700
 *
 *   index files and volumes
 *   par1_read            R 14                   64                                          2,700
 *   par1_entry           16-18 14               24                                            200
 *   par1_check           16-18 15               nothing                                     2,000
 *   par1_write_entry     17 18 14               56 + name_len                               2,000
 *   par1_write_volume    10 16-18 7 9 1 14      96 + list_len + data_len                    2,400
 *   par1_amend           14 R 10 16-18 21 1 14  in the volume, up to its new length         3,100
 *
 *   jobs, for what is too long to hold
 *   par1_hash_start      none                   the struct, 96                                100
 *   par1_hash_push       20                     the struct                                  1,900
 *   par1_hash_end        20 14                  16, and the struct                          2,000
 *   par1_mul_add_start   14                     24                                            100
 *   par1_mul_add_push    20                     the job's 24, the buffer from the position    800
 *   par1_mul_add_end     20                     the job's 24                                  100
 *   par1_read_start      14                     392                                           100
 *   par1_read_push       20                     the job's 392                               2,400
 *   par1_read_end        20 R 14                64, and the job's 392                       2,600
 *
 *   what is present, and what comes back
 *   par1_open            10 1 14                144                                         2,200
 *   par1_add_file        10 11                  the inventory's 144                           800
 *   par1_remove_file     10 11                  the inventory's 144                           800
 *   par1_add_volume      10 29 27 11            the inventory's 144                           900
 *   par1_remove_volume   10 11                  the inventory's 144                           800
 *   par1_quarantine      10 11                  the inventory's 144                           700
 *   par1_release         10 11                  the inventory's 144                           700
 *   par1_count           10 14                  24                                            400
 *   par1_query           10 13 12 14            255                                        69,700
 *
 *   text
 *   par1_compare         14                     the text                                    3,000
 *   par1_export          R 24 14                the text, at most as long as the list       2,800
 *   par1_import          R, 22 or 23, 14        1 for each entry                            2,800
 *   par1_replay          14                     the text, at most 14,760,448               76,300
 *
 *   catalogs
 *   par1_catalog_open    R 26 14                16 + 28 for each entry                      2,800
 *   par1_catalog_add     R 30 10 25 26 11 14    in the catalog, and 28 on its end           3,000
 *   par1_catalog_drop    30 10 11               in the catalog                                200
 *   par1_catalog_load    30 14                  a record, 32, for each entry                  200
 *
 * So a machine of 64 KiB makes every call but par1_query and par1_replay; where one file is missing and one volume is there, it needs neither
 * (see par1_inverse). examples/ has programs for it and for the shore.
 */
#ifndef PAR1_H
#define PAR1_H

#include <stddef.h>
#include <stdint.h>

#if defined SIZE_MAX && SIZE_MAX != 0xffffffffffffffffu
#error "par1.h: size_t is not 64 bits wide, as in libpar1_c.a, which is for x86-64"
#endif

#ifdef __cplusplus
extern "C" {
#endif

/* What must hold of the compiler: such an array type has the size 1 where it holds, and where it does not the size -1, which is refused. */
typedef char par1_size_t_is_not_as_in_the_library[sizeof(size_t) == 8 ? 1 : -1];

/* What calls answer. */
enum {
    PAR1_ACCEPTED = 0,
    PAR1_E_SIZE = 1,          /* the length of an index file or volume, or of a log in the text of its replay, or a size, is out of range */
    PAR1_E_SIGNATURE = 2,     /* the first eight bytes differ */
    PAR1_E_VERSION = 3,       /* the version is neither 65,536 nor 131,328 */
    PAR1_E_LAYOUT = 4,        /* list or data does not lie where it must */
    PAR1_E_CONTROL_HASH = 5,  /* the control hash differs */
    /* 6 is not used: 16 to 19 have its place */
    PAR1_E_VOLUME_NUMBER = 7, /* too many files, or the volume number does not go with them */
    PAR1_E_SET_HASH = 8,      /* the set hash differs */
    PAR1_E_DATA_SIZE = 9,     /* the data's size is odd in an index, or in a volume not the greatest file size among the saved entries */
    PAR1_E_OUT_OF_RANGE = 10, /* a number is out of range, there is no such code, no calls give the inventory, 0 has no inverse, or an index is to be
                               amended or added */
    PAR1_E_ALREADY = 11,      /* present already, or not present, or not in quarantine */
    PAR1_E_UNDETERMINED = 12, /* what is present does not determine the file */
    PAR1_E_PRESENT = 13,      /* the file is present */
    PAR1_E_NO_ROOM = 14,      /* the bytes or records lent for the result, or the bytes for a volume to be amended, are too few */
    PAR1_E_DIFFERENT = 15,    /* length, MD5 or 16k MD5 differ from the entry */
    PAR1_E_ENTRY_SIZE = 16,   /* an entry's own size is odd, below 58 or past the end, or fewer than 8 bytes are left for it; or an entry that is lent
                               alone does not fill its bytes */
    PAR1_E_FILE_SIZE = 17,    /* an entry's file size is above its limit; or the contents or the status of an entry to be written */
    PAR1_E_NAME = 18,         /* an entry's name has a unit 0, 47 (/), 58 (:) or 92 (\), or is . or ..; or that of one to be written is empty or odd */
    PAR1_E_ENTRY_COUNT = 19,  /* the number of entries differs */
    PAR1_E_JOB = 20,          /* the job is over, or no run of pushes gives it */
    PAR1_E_STRETCH = 21,      /* the stretch lies neither inside the file nor on its end, or the new entry does not go with it */
    PAR1_E_LINE = 22,         /* a line of another shape, or the last one has no end */
    PAR1_E_SUM = 23,          /* a line for a listed name that an earlier line has with another sum */
    PAR1_E_UNFIT = 24,        /* a name that does not fit a line */
    PAR1_E_ROWS = 25,         /* the volume's list gives other entry rows than the catalog has */
    PAR1_E_ENTRIES = 26,      /* more than 1,024 entries for a catalog */
    PAR1_E_QUARANTINED = 27,  /* the volume is in quarantine */
    PAR1_E_EVENT = 28,        /* a line of a log has another shape; only in the text of a replay */
    PAR1_E_OTHER_CODE = 29,   /* the volume is of the other code than the inventory */
    PAR1_E_CATALOG = 30       /* the catalog ends early, or no list and volumes give it */
};

/* By which coefficients volumes are made. Par 1.0's own, which any client reads, are powers, in files of version 65,536: there are missing files
 * that do not come back though as many volumes are present. With Cauchy coefficients, in files of version 131,328, any volumes will do: as many of
 * them as missing files of size 1 or more bring all back. Programs that know Par 1.0 alone refuse that version. A call that is told any other number
 * as a code refuses with 10. */
enum { PAR1_POWERS = 0, PAR1_CAUCHY = 1 };

/* An answer that has more to say than a number: the number, and a value that goes with it. The value of a refusal 16 to 18 is the place of the entry
 * in its list, from 1, and 0 where it stands in none; of 22 and 23 it is the line's number, from 1; of any other refusal it is 0, so that a refusal
 * without a place is its bare number. The value of an accepted par1_amend is the volume's new length, of a par1_compare, par1_export or par1_replay
 * the length of its text, of par1_catalog_open, par1_catalog_add and par1_catalog_drop the catalog's length, of par1_import and par1_catalog_load the
 * number of entries; any other accepted call answers 0. Calls that answer a uint32_t tell no place: their entry stands alone, or is the first one. */
typedef uint64_t par1_answer;
#define PAR1_NUMBER(a) ((uint32_t)((a) % 32))
#define PAR1_VALUE(a) ((a) / 32)

/* The number at a place of lent bytes, of 64 bits, or of 32, which stand in a catalog only; and a number of 64 bits put there. */
static inline uint64_t par1_number_at(const uint8_t *bytes, size_t place) {
    uint64_t number = 0;
    size_t i;
    for (i = 8; i > 0; i--) number = number << 8 | bytes[place + i - 1];
    return number;
}
static inline uint32_t par1_number32_at(const uint8_t *bytes, size_t place) {
    uint32_t number = 0;
    size_t i;
    for (i = 4; i > 0; i--) number = number << 8 | bytes[place + i - 1];
    return number;
}
static inline void par1_put_number(uint8_t *bytes, size_t place, uint64_t number) {
    size_t i;
    for (i = 0; i < 8; i++) bytes[place + i] = (uint8_t)(number >> 8 * i & 255);
}

/* How many bytes the results take. A weight is a byte. */
enum {
    PAR1_MD5_BYTES = 16,
    PAR1_PARTS_BYTES = 64,
    PAR1_ENTRY_BYTES = 24,
    PAR1_INVENTORY_BYTES = 144,
    PAR1_COUNT_BYTES = 24,
    PAR1_WEIGHTS = 255,
    PAR1_WEIGHTS_BYTES = PAR1_WEIGHTS
};

/* How many bytes the jobs take that are lent as bytes. */
enum { PAR1_MUL_ADD_BYTES = 24, PAR1_READ_BYTES = 392 };

/* Limits: the size of a listed file, the length of an index file or volume, the number of saved files, of entries in a catalog, the length of a log and
 * of the text of its replay. */
enum {
    PAR1_MAX_FILE_SIZE = 16777216,
    PAR1_MAX_VOLUME_LENGTH = 33554432,
    PAR1_MAX_FILES = 254,
    PAR1_MAX_ENTRIES = 1024,
    PAR1_MAX_LOG_LENGTH = 65536,
    PAR1_MAX_REPLAY_LENGTH = 14760448
};

/* -------- Hash and field ---------------------------------------------------------------------------------------------------------------------- */

/* The MD5 (RFC 1321) of `bytes` into the first 16 bytes of `out`. Refuses with 14 where `out` is shorter. */
uint32_t par1_md5(const uint8_t *bytes, size_t bytes_len, uint8_t *out, size_t out_len);

/* The inverse of x in the field of bytes modulo 285 into the first byte of `out`. Refuses with 10 where x is 0, then with 14 where `out` has no
 * byte. Where one file of size 1 or more is missing and one volume is there, the volume's weight is the inverse of the missing file's coefficient in
 * it, and another file's is its own coefficient times that (a par1_mul_add of one byte): the weights of a query. */
uint32_t par1_inverse(uint8_t x, uint8_t *out, size_t out_len);

/* The coefficient of a file in a volume by a code into the first byte of `out`: of PAR1_POWERS f to the power v - 1, of PAR1_CAUCHY the inverse of f
 * exclusive-or (256 - v). Refuses with 10 where there is no such code, or file or volume is 0 or their sum is above 255, then with 14 where `out` has
 * no byte. */
uint32_t par1_coefficient(uint32_t code, uint64_t file, uint64_t volume, uint8_t *out, size_t out_len);

/* Adds weight times the fragment to the buffer, byte by byte, for as many bytes as both have. Refuses nothing. The data of volume v is zeros, as
 * many as the greatest saved file has bytes, to which each saved file is added with its coefficient in v. With the weight 1 it sums two buffers:
 * where the saved files are split between two boxes, and each adds its share with the volume's coefficients to zeros of the data size, the buffers
 * summed are the volume's data. */
void par1_mul_add(uint8_t weight, const uint8_t *fragment, size_t fragment_len, uint8_t *buffer, size_t buffer_len);

/* -------- Index files and volumes ------------------------------------------------------------------------------------------------------------- */

/* An index file or volume is 96 bytes, a list of entries, one for each file, and data: of a volume its parity, of an index a comment. Files are
 * numbered 1 to n over the saved entries only, in list order, and volumes 1 to 255 - n. Where the list starts; where an entry has its own length, its
 * status, its file's size, its MD5s (of the whole, and of the first 16,384 bytes) and its name, which goes to its end. */
enum {
    PAR1_AT_LIST = 96,
    PAR1_AT_ENTRY_LENGTH = 0,
    PAR1_AT_ENTRY_STATUS = 8,
    PAR1_AT_ENTRY_FILE_SIZE = 16,
    PAR1_AT_ENTRY_MD5 = 24,
    PAR1_AT_ENTRY_MD5_16K = 40,
    PAR1_AT_ENTRY_NAME = 56
};

/* Where the numbers stand that par1_read writes. */
enum {
    PAR1_AT_PARTS_PROGRAM = 0,
    PAR1_AT_PARTS_NUMBER = 8, /* 0 for an index */
    PAR1_AT_PARTS_ENTRIES = 16,
    PAR1_AT_PARTS_SAVED = 24,
    PAR1_AT_PARTS_LIST_SIZE = 32,
    PAR1_AT_PARTS_DATA_START = 40,
    PAR1_AT_PARTS_DATA_SIZE = 48,
    PAR1_AT_PARTS_CODE = 56 /* PAR1_POWERS or PAR1_CAUCHY */
};

/* What an index file or volume holds, into the first 64 bytes of `out`: eight numbers, at PAR1_AT_PARTS_..: program identifier, volume number (0 for an
 * index), entries, saved entries, list size, data start, data size, the code that its version stands for. The list starts at byte 96. Refuses, in
 * this order, with 1: the length is not 96 to 33,554,432; 2 to 5; 16, 17 or 18: an entry breaks a rule, the first that does, with its place, and the
 * first of its rules; 19: the number of entries differs; 7 to 9; 14: `out` is shorter. */
par1_answer par1_read(const uint8_t *file, size_t file_len, uint8_t *out, size_t out_len);

/* What the first entry of a list, or of what is left of one, says, into the first 24 bytes of `out`: three numbers, at the places that they have in
 * the entry, PAR1_AT_ENTRY_..: its length, its status as it stands (bit 0: saved in the parity; no other bit has a meaning), its file's size; three
 * zeros where the list is over (list_len is 0), for no entry has the length 0. The entry is the first `length` bytes, and the next one comes after it.
 * Refuses with 16, 17 or 18, the first that holds, where the entry breaks a rule, then with 14 where `out` is shorter. */
uint32_t par1_entry(const uint8_t *list, size_t list_len, uint8_t *out, size_t out_len);

/* Whether `contents` are those of the file that `entry` describes. Refuses with 16, 17 or 18, the first that holds, where the entry
 * breaks a rule (16 also where it does not fill its bytes), then with 15 where length, MD5 or 16k MD5 differ. */
uint32_t par1_check(const uint8_t *entry, size_t entry_len, const uint8_t *contents, size_t contents_len);

/* Writes the entry of a file with these contents, status and name (in 16-bit units, lowest byte first; name_len counts bytes) over the first 56 +
 * name_len bytes of `out`. The status is 1 where the file is saved in the parity, else 0; bit 1, once "checked", is not written any more. Refuses
 * with 17 where the contents are above 16,777,216 bytes or the status is above 1, with 18 where the name is not one or more whole units other than
 * 0, 47, 58 and 92, or is the whole name . or .., then with 14 where `out` is shorter. */
uint32_t par1_write_entry(const uint8_t *contents, size_t contents_len, uint64_t status, const uint8_t *name, size_t name_len, uint8_t *out,
                          size_t out_len);

/* Writes a volume, or an index where number is 0, of a code from its list of entries and its data, over the first 96 + list_len + data_len bytes of
 * `out`. Of the code only the version is written, in an index too. Refuses, in this order, with 10: there is no such code; 16, 17 or 18: an entry
 * breaks a rule, the first that does, with its place, and the first of its rules (bytes after the last entry that are none are 16 at the place after
 * it); 7: more than 254 saved entries, or a volume with none, or its number and the saved entries are above 255 together; 9: data_len is odd in an
 * index, or in a volume not the greatest file size among the saved entries; 1: the whole is above 33,554,432 bytes; 14: `out` is shorter. Whether the
 * data is the parity of the files by the code's coefficients is the caller's. */
par1_answer par1_write_volume(uint32_t code, uint32_t program, uint64_t number, const uint8_t *list, size_t list_len, const uint8_t *data,
                              size_t data_len, uint8_t *out, size_t out_len);

/* Amends a volume where it stands, for a file that has changed. `volume` is the room that it lies in, `length` its present length there. The file
 * with number `file` had the bytes `old` from `place` on and now has the bytes `new_`; `entry` is its entry as it now is, lent apart from the
 * volume. Either both are equally long and inside the file, or `old` is empty, `place` is the file's size, and `new_` goes on its end. The value
 * is the volume's new length, which is greater where the file grows past the greatest size among the saved entries, else the same.
 *
 * Where the data grows it gets zeros on its end; then it gains the file's coefficient, by the volume's own code, times `old` and times `new_` from
 * `place` on. The entry's size and hashes, the set hash, the control hash and the data size are put right, and nothing else changes. So after any run
 * of accepted amendments, given true old bytes and entries, the volume is the one that par1_write_volume writes from the files as they are now.
 * Whether they are true is the caller's: `old` is not held against the data, nor `entry` against the file. An inventory that was opened before is
 * opened again: it knows which files are empty. So is a catalog: its rows have sizes and MD5s, and it refuses the amended volume with 25.
 *
 * For a file whose status par1_write_entry does not write (old volumes carry 2 and 3), write the entry with 0 or 1 and put the volume's 8 bytes of
 * status over its own, at PAR1_AT_ENTRY_STATUS.
 *
 * Refuses, in this order, with 14: `length` is above volume_len; 1 to 5, 16 to 19, 7 to 9: as par1_read, with the place in the list; 10: an index,
 * or `file` is not 1 to the number of saved entries; 16, 17 or 18: `entry` breaks a rule, as in par1_check; 21: `old` and `new_` are neither
 * inside nor on the end, or `entry` has another name or status (all 64 bits) than the volume has for the file, or a size that they do not give; 1:
 * the new length is above 33,554,432; 14: it is above volume_len.
 *
 * The work goes with the lengths of `old`, `new_` and the list and with the growth, but for two hashes: reading the volume and making its new
 * control hash each go over all of it. No copy of the volume is made. */
par1_answer par1_amend(uint8_t *volume, size_t volume_len, uint64_t length, uint64_t file, uint64_t place, const uint8_t *old, size_t old_len,
                       const uint8_t *new_, size_t new_len, const uint8_t *entry, size_t entry_len);

/* -------- Jobs -------------------------------------------------------------------------------------------------------------------------------- */

/* Hashing, mul_add and reading of what is too long to hold, in chunks. A job is started, pushed to any number of times, with chunks of any length, 0
 * too, and ended; however the input is cut, after the end there is what par1_md5, par1_mul_add or par1_read gives for the whole of it. The caller owns
 * the job: it may be copied or moved between calls, and started again at any time, running or over.
 *
 * A push or an end refuses with 20, first of all, a job that is over, that has another length, or whose counts no run of pushes gives; then
 * nothing changes. Any other refusal of theirs comes at the end only, so a push answers 0 or 20. An end that is not refused with 20 ends the job, also
 * where it is refused with another number. */

/* A running hash, 96 bytes at a multiple of 8, without padding. `words` are MD5's A, B, C, D after the whole blocks so far; `tail` has the total % 64
 * bytes that wait for the rest of their block, then zeros; `total` counts the bytes pushed, modulo 2^64 as MD5 does, so no total is refused; `ended` is
 * 0 while the hash runs, and any other number where it is over. */
struct par1_hash {
    uint32_t words[4];
    uint8_t tail[64];
    uint64_t total;
    uint64_t ended;
};
struct par1_hash_after_a_byte { uint8_t byte; struct par1_hash hash; }; /* at which multiples a compiler puts one */
typedef char par1_hash_is_not_as_in_the_library
    [sizeof(struct par1_hash) == 96 && offsetof(struct par1_hash, words) == 0 && offsetof(struct par1_hash, tail) == 16 &&
     offsetof(struct par1_hash, total) == 80 && offsetof(struct par1_hash, ended) == 88 && offsetof(struct par1_hash_after_a_byte, hash) == 8 ? 1 : -1];

/* Starts a hash: whatever `hash` was, it is the hash of no bytes. Refuses nothing. */
void par1_hash_start(struct par1_hash *hash);

/* Takes the next bytes. Refuses with 20. */
uint32_t par1_hash_push(struct par1_hash *hash, const uint8_t *bytes, size_t bytes_len);

/* The MD5 of all bytes pushed into the first 16 bytes of `out`; the hash is over. Refuses with 20, then with 14 where `out` is shorter; that
 * ends the hash too. */
uint32_t par1_hash_end(struct par1_hash *hash, uint8_t *out, size_t out_len);

/* A mul_add in chunks is 24 bytes, three numbers: the weight; the position, which is the number of bytes pushed and stops at 2^64 - 1; 0
 * while it runs, any other number where it is over. Of its counts a weight above 255 is one that no run of pushes gives. */

/* Starts a mul_add with this weight at position 0, in the first 24 bytes of `job`. Refuses with 14 where `job` is shorter. */
uint32_t par1_mul_add_start(uint8_t weight, uint8_t *job, size_t job_len);

/* Adds weight times the fragment to the buffer from the position on, byte by byte, for as many bytes as the buffer has there; the position goes
 * on by the whole fragment, past the buffer's end too. Each push may lend another buffer. Refuses with 20. */
uint32_t par1_mul_add_push(uint8_t *job, size_t job_len, const uint8_t *fragment, size_t fragment_len, uint8_t *buffer, size_t buffer_len);

/* Ends a mul_add. Refuses with 20. */
uint32_t par1_mul_add_end(uint8_t *job, size_t job_len);

/* A reading in chunks is 392 bytes: how many bytes came, a number that stops at 33,554,433; the first 96 of them; the running hash of those from 32
 * on; of the entry at hand the first 56 bytes, then as numbers how many came, the last of them, and 1 where its name's units are allowed so far, with
 * 2 more where they are all dots, so 3 before its first unit (other bits have no meaning); as numbers the entries before it, those saved, the greatest
 * size; the running hash of the saved entries' MD5s; a number, 0 while it runs, any other where it is over. A running hash is `words`, `tail` and
 * `total` as above. No run of pushes gives more than 33,554,433 bytes, hashes of another number of bytes than these counts say, more saved entries than
 * entries, or more bytes of entries, 58 for each whole one, than came after the first 96. A reading belongs to the build that began it. */

/* Starts a reading in the first 392 bytes of `job`. Refuses with 14 where `job` is shorter. */
uint32_t par1_read_start(uint8_t *job, size_t job_len);

/* Takes the next bytes of the file, any number of them; more than 33,554,432 in all are refused at the end. Refuses with 20. */
uint32_t par1_read_push(uint8_t *job, size_t job_len, const uint8_t *bytes, size_t bytes_len);

/* What the file holds whose bytes were pushed, into the first 64 bytes of `out`, as par1_read has it; the reading is over. Refuses with 20,
 * then as par1_read, 14 last; that ends the reading too. */
par1_answer par1_read_end(uint8_t *job, size_t job_len, uint8_t *out, size_t out_len);

/* -------- What is present, and what comes back ------------------------------------------------------------------------------------------------ */

/* An inventory says what of a set of n files and their volumes is present, and which volumes are in quarantine: held, but set aside. Its volumes are
 * all of one code; volumes of the other code go into an inventory of their own. It is 144 bytes, 18 numbers: n; the files present, the volumes present,
 * the files of size 1 or more, the volumes in quarantine, four words each, number k being bit k mod 64 of word k div 64; the code. No volume is both
 * present and in quarantine. Every call on one refuses with 10, first of all, bytes of another length or that no calls give. */

/* Opens an inventory of n files, whose sizes are n numbers, and of volumes of this code, nothing present, into the first 144 bytes of `inventory`.
 * Refuses with 10 where there is no such code, n is not 1 to 254 or the sizes are not n numbers, with 1 where a size is above 16,777,216, then with 14
 * where `inventory` is shorter. */
uint32_t par1_open(uint32_t code, uint64_t n, const uint8_t *sizes, size_t sizes_len, uint8_t *inventory, size_t inventory_len);

/* Adds a file or a volume to what is present, or removes it: changes the 144 bytes in place. A volume is added with its code, which par1_read tells.
 * Refuses with 10 where the number is out of range (files 1 to n, volumes 1 to 255 - n), or there is no such code; then the addition of a volume with 29
 * where it is of the other code than the inventory, with 27 where it is in quarantine, and an addition with 11 where it is present already; a removal
 * with 11 where it is neither present nor in quarantine. A volume that is removed from quarantine is then neither. */
uint32_t par1_add_file(uint8_t *inventory, size_t inventory_len, uint64_t file);
uint32_t par1_remove_file(uint8_t *inventory, size_t inventory_len, uint64_t file);
uint32_t par1_add_volume(uint8_t *inventory, size_t inventory_len, uint32_t code, uint64_t volume);
uint32_t par1_remove_volume(uint8_t *inventory, size_t inventory_len, uint64_t volume);

/* Puts a volume that is present into quarantine, say because a file rebuilt with it differs from its entry (15); and takes it back. For every query
 * and for the counts of what is present, the first counts as its removal and the second as its addition. Refuses with 10 where the number is out of
 * range, then with 11 where the volume is not present, or is not in quarantine. */
uint32_t par1_quarantine(uint8_t *inventory, size_t inventory_len, uint64_t volume);
uint32_t par1_release(uint8_t *inventory, size_t inventory_len, uint64_t volume);

/* Where the numbers stand that par1_count writes. */
enum { PAR1_AT_COUNT_FILES = 0, PAR1_AT_COUNT_VOLUMES = 8, PAR1_AT_COUNT_QUARANTINED = 16 };

/* How many files and how many volumes are present, and how many volumes are in quarantine, into the first 24 bytes of `out`: three numbers, at
 * PAR1_AT_COUNT_... Refuses with 10, as every call on an inventory, then with 14 where `out` is shorter. */
uint32_t par1_count(const uint8_t *inventory, size_t inventory_len, uint8_t *out, size_t out_len);

/* Whether a file comes back from what is present. 0: it does, and its 255 weights are the first 255 bytes of `out`, file f's at f - 1,
 * volume v's at n + v - 1: par1_mul_add of each fragment present with its weight, in any order, into zeros of the file's size gives the
 * file. 13: it is present. 12: it is undetermined, what is present does not determine it; of an inventory of PAR1_CAUCHY it is so exactly where fewer
 * volumes are present than files of size 1 or more are missing, and the file is one of these. Refuses with 10 where the file is not 1 to n, and
 * with 14, after 13 and 12, where `out` is shorter. Takes 69 KiB of stack, and one elimination over the missing files of size 1 or more and the
 * volumes present: less than a millisecond for 127 of them and 128, on a server (docs/BENCHMARKS.md). */
uint32_t par1_query(const uint8_t *inventory, size_t inventory_len, uint64_t file, uint8_t *out, size_t out_len);

/* -------- Text -------------------------------------------------------------------------------------------------------------------------------- */

/* Which bytes of two index files or volumes differ, as text over the first bytes of `out`: a line for each difference, ended by byte 10, in layout
 * order. The value is the length of the lines. The answer is 0 exactly where both are accepted by par1_read and have the same bytes; the value
 * alone does not tell, for it is 0 with 14 too.
 *
 *   head NAME     a field of the header: version, program, control, set, number, files, list (its size), start (of the data), data (its size);
 *                 `head version` where the codes differ
 *   entry P NAME  a field of entry P, from 1: length, status, size, md5, 16k, name
 *   entry P all   only one of the two has an entry P
 *   data A B      of the data the bytes from place A to place B, both included, from 0: each differs, or only one of the two has it; the bytes
 *                 before A and after B are alike
 *   refused S N   par1_read refuses `one` (S is 1) or `two` (S is 2) with the number N; then nothing else is written but such a line for the other
 *
 * Refuses with 14 where `out` is shorter than the lines, and with nothing else: a file that is refused is a line. The lines of files that are
 * nearly alike are short; in the worst case, every second byte of the data differing, they are some eleven times as long as a file. Room of 12 times
 * the longer length, and of 26 bytes at the least, for two refused files, is always enough. */
par1_answer par1_compare(const uint8_t *one, size_t one_len, const uint8_t *two, size_t two_len, uint8_t *out, size_t out_len);

/* The MD5s of the listed files of an index file or volume as text that md5sum -c takes, over the first bytes of `out`: for each entry, saved or
 * not, in list order, a line of 32 lower-case hexadecimal digits, two spaces, the name and byte 10. The value is the length of the text. Refuses, in
 * this order, with 1 to 5, 16 to 19, 7 to 9: as par1_read, with the place in the list; 24: a name has a unit other than 32 to 126; 14: `out` is
 * shorter than the text, which is never longer than the list: file_len - 96 bytes are enough. */
par1_answer par1_export(const uint8_t *file, size_t file_len, uint8_t *out, size_t out_len);

/* What text of md5sum says of the listed files of an index file or volume: one byte for each entry, in list order, over the first bytes of `out`. 0:
 * no line has its name; 1: a line has its name and its MD5; 2: a line has its name and another sum. The value is the number of entries.
 *
 * Each line is 32 digits 0-9 or a-f, two spaces, a name of one or more bytes but 10, and byte 10; a text of no bytes has no line. A name is compared
 * byte by byte with the entry's units, and only one whose units are 32 to 126 can have a line; lines for names that are not listed are passed over,
 * and a line counts for every entry of its name. A `*` before the name, a backslash before the line or byte 13 at its end have no meaning of their own.
 *
 * Refuses, in this order, with 1 to 5, 16 to 19, 7 to 9: as par1_read, with the place in the list; 22 or 23, with the number of the earliest faulty
 * line, from 1: 22: a line of another shape, or without its byte 10; 23: a line for a listed name that an earlier line has with another sum; 14: `out`
 * has fewer bytes than the list has entries. The time grows with the number of entries times the length of the text. */
par1_answer par1_import(const uint8_t *file, size_t file_len, const uint8_t *text, size_t text_len, uint8_t *out, size_t out_len);

/* Replays a log of arrivals, as text over the first bytes of `out`: what the program par_replay prints. The value is the length of the text.
 *
 * The first line of a log is the number of files and their sizes, which opens an inventory of PAR1_POWERS with nothing present: `2 2 1`. Each further
 * line is an event: `F 7` and `V 4` add file 7 and volume 4, `f 7` and `v 4` remove them. Numbers are decimal without leading zeros, single spaces
 * stand between, and byte 10 ends each line. Nothing is written for the first line where it is accepted; then, for each event, a line ended by byte
 * 10:
 *
 *   2 3 24       the files that are missing and come back from what is present then, ascending, empty ones too
 *   none         there is no such file
 *   refused N    the event is refused with 10 or 11, as par1_add_file and the others; nothing changes, and the replay goes on
 *
 * So `2 2 1`, `V 2`, `F 1`, `V 2` give `none`, `2`, `refused 11`; and `2 0 0`, `V 1`, two empty files, give `1 2`.
 *
 * A line `refused N` also ends the replay, with nothing after it: 28, for a line of another shape, wherever it stands, a last line without its byte
 * 10, or no line at all; 10 or 1 from the first line, as par1_open refuses, 10 also where the sizes are more or fewer than the first number says. The
 * shape of a line goes before its values. A number too large for 64 bits is 1 as a size and 10 elsewhere. A log above 65,536 bytes gives only
 * `refused 1`.
 *
 * Refuses with 14 where `out` is shorter than the text, and with nothing else. No text is longer than PAR1_MAX_REPLAY_LENGTH, 14,760,448 bytes, that of
 * 254 empty files and 16,256 events; a line is at most 908. Each event takes an elimination, as a query does, and the text is worked out twice, to be
 * measured and to be written. Takes 75 KiB of stack. */
par1_answer par1_replay(const uint8_t *log, size_t log_len, uint8_t *out, size_t out_len);

/* -------- Catalogs ---------------------------------------------------------------------------------------------------------------------------- */

/* A catalog is an index of a set: what its files are, and which volumes of it there are. It is four numbers of 32 bits, lowest byte first: entries,
 * volumes, the start of the entry rows, which is 16, and of the volume rows; then a row of 28 bytes for each entry, in list order, and for each
 * volume, ascending by number. A row has a number of 4 bytes (an entry's file number, 0 where it is not saved; a volume's number), one of 8 (the file's
 * size; the volume's data size) and 16 bytes (the MD5; the control hash). So its length is PAR1_CATALOG_HEAD + PAR1_CATALOG_ROW * (entries +
 * volumes); it is the first bytes of the room that it is lent in, and bytes past it are only room.
 *
 * The calls on one refuse, with 30, bytes that end before that length, or that, hashes apart, no list and volumes give: another start, more than 1,024
 * entries, file numbers other than 0 or the next in turn, more than 254 of them, a size above 16,777,216, volume numbers that do not ascend within 1
 * to 255 - n (n files are saved; none where n is 0), a data size other than the greatest size of a saved file. */
enum { PAR1_CATALOG_HEAD = 16, PAR1_CATALOG_ROW = 28 };

/* Where a catalog has its four numbers, and a row of it its number, of 32 bits, its size, of 64, and its MD5 or control hash. */
enum { PAR1_AT_CATALOG_ENTRIES = 0, PAR1_AT_CATALOG_VOLUMES = 4, PAR1_AT_CATALOG_ENTRY_ROWS = 8, PAR1_AT_CATALOG_VOLUME_ROWS = 12 };
enum { PAR1_AT_ROW_NUMBER = 0, PAR1_AT_ROW_SIZE = 4, PAR1_AT_ROW_HASH = 12 };

/* An entry row as par1_catalog_load fills it: 32 bytes at a multiple of 8, `file` at 0, `size` at 8, `md5` at 16; the 4 bytes after `file` are free. */
struct par1_row {
    uint32_t file; /* the file number, 0 where the file is not saved */
    uint64_t size;
    uint8_t md5[16];
};
struct par1_row_after_a_byte { uint8_t byte; struct par1_row row; };
typedef char par1_row_is_not_as_in_the_library
    [sizeof(struct par1_row) == 32 && offsetof(struct par1_row, file) == 0 && offsetof(struct par1_row, size) == 8 &&
     offsetof(struct par1_row, md5) == 16 && offsetof(struct par1_row_after_a_byte, row) == 8 ? 1 : -1];

/* Opens a catalog of the list of an index file or volume, with no volumes, over the first bytes of `out`; it takes PAR1_CATALOG_HEAD +
 * PAR1_CATALOG_ROW * entries. The value is its length. Refuses, in this order, with 1 to 5, 16 to 19, 7 to 9: as par1_read, with the place in the
 * list; 26: the list has more than 1,024 entries; 14: `out` is shorter. Most of the time goes to reading the file, which hashes it. */
par1_answer par1_catalog_open(const uint8_t *file, size_t file_len, uint8_t *out, size_t out_len);

/* Adds a volume to the catalog in the room `catalog`: its row goes between those of lower and of greater numbers, the greater ones move up by a row,
 * and the number of volumes is one more; nothing else changes. The value is the new length. Names, bits of status but that of saved, and the
 * code are not in the rows: volumes of either code go into one catalog, one of each number. Refuses, in this order, with 1 to 5, 16 to 19, 7 to 9: as
 * par1_read of the volume, with the place in the list; 30; 10: its number is 0 (an index) or above 255 - n, n being the saved files of the catalog; 25:
 * its list gives other entry rows; 26: its list has more than 1,024 entries, which 25 forestalls; 11: a volume of its number is there; 14: the room is
 * shorter than the new length. Most of the time goes to reading the volume; the rest goes with the lengths of its list and of the catalog. */
par1_answer par1_catalog_add(uint8_t *catalog, size_t catalog_len, const uint8_t *volume, size_t volume_len);

/* Drops a volume: its row goes, the greater ones move down by a row, and the number of volumes is one less; nothing else changes, so that the bytes of
 * the last row stay in the room. The value is the new length. Refuses, in this order, with 30; 10: the number is 0 or above 255 - n; 11: no volume of
 * that number is there. The time goes with the length of the catalog, all of which is tested. */
par1_answer par1_catalog_drop(uint8_t *catalog, size_t catalog_len, uint64_t number);

/* The entry rows of a catalog into the first records of `rows`, one for each entry, in order; records past them stay. `rows_len` counts records. The
 * value is the number of entries. Refuses with 30, then with 14 where there are fewer records than entries. The time goes with the length of the
 * catalog, all of which is tested. */
par1_answer par1_catalog_load(const uint8_t *catalog, size_t catalog_len, struct par1_row *rows, size_t rows_len);

/* The names that refusals and places had before; they stay, so that what was written for them compiles. */
enum {
    PAR1_SIZE = PAR1_E_SIZE,
    PAR1_SIGNATURE = PAR1_E_SIGNATURE,
    PAR1_VERSION = PAR1_E_VERSION,
    PAR1_LAYOUT = PAR1_E_LAYOUT,
    PAR1_CONTROL_HASH = PAR1_E_CONTROL_HASH,
    PAR1_VOLUME_NUMBER = PAR1_E_VOLUME_NUMBER,
    PAR1_SET_HASH = PAR1_E_SET_HASH,
    PAR1_DATA_SIZE = PAR1_E_DATA_SIZE,
    PAR1_OUT_OF_RANGE = PAR1_E_OUT_OF_RANGE,
    PAR1_ALREADY = PAR1_E_ALREADY,
    PAR1_UNDETERMINED = PAR1_E_UNDETERMINED,
    PAR1_PRESENT = PAR1_E_PRESENT,
    PAR1_NO_ROOM = PAR1_E_NO_ROOM,
    PAR1_DIFFERENT = PAR1_E_DIFFERENT,
    PAR1_ENTRY_SIZE = PAR1_E_ENTRY_SIZE,
    PAR1_FILE_SIZE = PAR1_E_FILE_SIZE,
    PAR1_NAME = PAR1_E_NAME,
    PAR1_ENTRY_COUNT = PAR1_E_ENTRY_COUNT,
    PAR1_JOB = PAR1_E_JOB,
    PAR1_STRETCH = PAR1_E_STRETCH,
    PAR1_LINE = PAR1_E_LINE,
    PAR1_SUM = PAR1_E_SUM,
    PAR1_UNFIT = PAR1_E_UNFIT,
    PAR1_ROWS = PAR1_E_ROWS,
    PAR1_ENTRIES = PAR1_E_ENTRIES,
    PAR1_QUARANTINED = PAR1_E_QUARANTINED,
    PAR1_EVENT = PAR1_E_EVENT,
    PAR1_OTHER_CODE = PAR1_E_OTHER_CODE,
    PAR1_CATALOG = PAR1_E_CATALOG,
    PAR1_LIST_AT = PAR1_AT_LIST,
    PAR1_FILE_SIZE_AT = PAR1_AT_ENTRY_FILE_SIZE,
    PAR1_MD5_AT = PAR1_AT_ENTRY_MD5,
    PAR1_MD5_16K_AT = PAR1_AT_ENTRY_MD5_16K,
    PAR1_NAME_AT = PAR1_AT_ENTRY_NAME,
    PAR1_PARTS_PROGRAM = PAR1_AT_PARTS_PROGRAM,
    PAR1_PARTS_NUMBER = PAR1_AT_PARTS_NUMBER,
    PAR1_PARTS_ENTRIES = PAR1_AT_PARTS_ENTRIES,
    PAR1_PARTS_SAVED = PAR1_AT_PARTS_SAVED,
    PAR1_PARTS_LIST_SIZE = PAR1_AT_PARTS_LIST_SIZE,
    PAR1_PARTS_DATA_START = PAR1_AT_PARTS_DATA_START,
    PAR1_PARTS_DATA_SIZE = PAR1_AT_PARTS_DATA_SIZE,
    PAR1_PARTS_CODE = PAR1_AT_PARTS_CODE,
    PAR1_ENTRY_LENGTH = PAR1_AT_ENTRY_LENGTH,
    PAR1_ENTRY_STATUS = PAR1_AT_ENTRY_STATUS,
    PAR1_ENTRY_FILE_SIZE = PAR1_AT_ENTRY_FILE_SIZE,
    PAR1_COUNT_FILES = PAR1_AT_COUNT_FILES,
    PAR1_COUNT_VOLUMES = PAR1_AT_COUNT_VOLUMES,
    PAR1_COUNT_QUARANTINED = PAR1_AT_COUNT_QUARANTINED
};

#ifdef __cplusplus
}
#endif

#endif

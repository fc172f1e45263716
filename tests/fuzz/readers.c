/* A fuzzing target for the calls that take bytes from elsewhere: files, text of md5sum, catalogs, logs, and volumes to be amended.
 *
 * The first byte of an input says what is done (its low three bits), and what of the file is put right first, so that damage is met behind it too: the
 * control hash (bit 3); signature, version, places and counts (bit 4); the set hash (bit 5). The bytes after it are the arguments, as each kind takes
 * them below, and what is left is the file or the log. Whatever an input is, a call answers, touches only what it is lent, and where it is refused leaves
 * each byte as it was. What else is checked stands above each kind.
 *
 * Built with -DPAR1_FUZZ_MAIN it has a main of its own; README.md says how to run both. */
#define _DEFAULT_SOURCE
#include "../../include/par1.h"

#include <signal.h>
#include <stdio.h>
#include <stdlib.h>
#include <string.h>
#include <sys/mman.h>
#include <unistd.h>

/* What came back of each kind, which libFuzzer counts as code that was reached: the library itself tells it nothing. */
static uint8_t reached[8][32][8] __attribute__((used, section("__libfuzzer_extra_counters")));
static unsigned kind;

static par1_answer came_back(par1_answer answer) {
    uint64_t value = PAR1_VALUE(answer);
    reached[kind][PAR1_NUMBER(answer)][value < 7 ? value : 7] = 1;
    return answer;
}

static void fail(const char *what) {
    fprintf(stderr, "not so: %s\n", what);
    abort();
}

#define CHECK(condition) ((condition) ? (void)0 : fail(#condition))

/* Memory. Each slot ends at a page that cannot be touched, and what is lent ends there. Longer inputs are not tried. */
enum { LONGEST = 1 << 18, SLOT = 1 << 20, PAGE = 4096, SLOTS = 8 };
enum { FILE_SLOT, OUT, AGAIN, TEXT, CATALOG, BEFORE, OLD, NEW };

static uint8_t *end_of(int slot) {
    static uint8_t *ends[SLOTS];
    if (!ends[slot]) {
        uint8_t *pages = mmap(NULL, SLOT + PAGE, PROT_READ | PROT_WRITE, MAP_PRIVATE | MAP_ANONYMOUS, -1, 0);
        if (pages == MAP_FAILED || mprotect(pages + SLOT, PAGE, PROT_NONE) != 0)
            fail("memory");
        ends[slot] = pages + SLOT;
    }
    return ends[slot];
}

static uint8_t *lend(int slot, const uint8_t *bytes, size_t length) {
    CHECK(length <= SLOT);
    return memmove(end_of(slot) - length, bytes, length);
}

enum { PAINT = 0xa5 };

static uint8_t *room(int slot, size_t length) {
    CHECK(length <= SLOT);
    return memset(end_of(slot) - length, PAINT, length);
}

static int all(uint8_t byte, const uint8_t *bytes, size_t length) {
    for (size_t i = 0; i < length; i++)
        if (bytes[i] != byte)
            return 0;
    return 1;
}

static int painted(const uint8_t *bytes, size_t length) {
    return all(PAINT, bytes, length);
}

static uint64_t number_at(const uint8_t *bytes, size_t width) {
    uint64_t number = 0;
    for (size_t i = width; i-- > 0;)
        number = number << 8 | bytes[i];
    return number;
}

static void put_number(uint8_t *bytes, uint64_t number) {
    for (size_t i = 0; i < 8; i++)
        bytes[i] = (uint8_t)(number >> 8 * i);
}

struct input {
    const uint8_t *at;
    size_t left;
};

/* The next number of an input, so many bytes wide; 0 where it is over. */
static uint64_t take(struct input *in, size_t width) {
    if (in->left < width) {
        in->left = 0;
        return 0;
    }
    uint64_t number = number_at(in->at, width);
    in->at += width;
    in->left -= width;
    return number;
}

/* The next bytes of an input, as many as there are up to a length that it says, into a slot. */
static uint8_t *take_bytes(struct input *in, int slot, size_t *length) {
    size_t said = (size_t)take(in, 2);
    *length = said < in->left ? said : in->left;
    uint8_t *bytes = lend(slot, in->at, *length);
    in->at += *length;
    in->left -= *length;
    return bytes;
}

/* Up to three other bytes. */
static void patch(struct input *in, uint8_t *bytes, size_t length) {
    for (uint64_t patches = take(in, 1) % 4; patches > 0; patches--) {
        uint64_t place = take(in, 2), byte = take(in, 1);
        if (length > 0)
            bytes[place % length] = (uint8_t)byte;
    }
}

struct file {
    uint8_t *bytes;
    size_t length;
};

enum { SET_HASH_AT = 32, CONTROL_AT = 16, ENTRIES_AT = 56, LIST_SIZE_AT = 72 };

/* Signature, version, the places of list and data, the data's size and the number of entries as they must be. */
static void put_places(struct file file) {
    memcpy(file.bytes, "PAR\0\0\0\0\0", 8);
    memcpy(file.bytes + 8, file.bytes[9] % 2 ? "\0\1\2\0" : "\0\0\1\0", 4);
    size_t most = file.length - PAR1_AT_LIST;
    uint64_t list = number_at(file.bytes + LIST_SIZE_AT, 8), entries = 0;
    list = list <= most ? list : most;
    uint8_t said[PAR1_ENTRY_BYTES];
    for (uint64_t at = 0; at < list; entries++) {
        if (par1_entry(file.bytes + PAR1_AT_LIST + at, list - at, said, sizeof said) != PAR1_ACCEPTED)
            break;
        at += number_at(said + PAR1_AT_ENTRY_LENGTH, 8);
    }
    const uint64_t numbers[5] = {entries, PAR1_AT_LIST, list, PAR1_AT_LIST + list, most - list};
    for (size_t i = 0; i < 5; i++)
        put_number(file.bytes + ENTRIES_AT + 8 * i, numbers[i]);
}

/* The set hash, of as many entries as can be walked. */
static void put_set_hash(struct file file) {
    uint64_t most = file.length - PAR1_AT_LIST, list = number_at(file.bytes + LIST_SIZE_AT, 8), at = 0;
    uint8_t said[PAR1_ENTRY_BYTES];
    struct par1_hash set;
    par1_hash_start(&set);
    list = list <= most ? list : most;
    while (at < list && par1_entry(file.bytes + PAR1_AT_LIST + at, list - at, said, sizeof said) == PAR1_ACCEPTED) {
        if (number_at(said + PAR1_AT_ENTRY_STATUS, 8) % 2 == 1)
            par1_hash_push(&set, file.bytes + PAR1_AT_LIST + at + PAR1_AT_ENTRY_MD5, PAR1_MD5_BYTES);
        at += number_at(said + PAR1_AT_ENTRY_LENGTH, 8);
    }
    par1_hash_end(&set, file.bytes + SET_HASH_AT, PAR1_MD5_BYTES);
}

/* What is left of the input, as a file. */
static struct file take_file(struct input *in, unsigned how) {
    struct file file = {lend(FILE_SLOT, in->at, in->left), in->left};
    in->left = 0;
    if (file.length < PAR1_AT_LIST)
        return file;
    if (how & 16)
        put_places(file);
    if (how & 32)
        put_set_hash(file);
    if (how & 8)
        par1_md5(file.bytes + SET_HASH_AT, file.length - SET_HASH_AT, file.bytes + CONTROL_AT, PAR1_MD5_BYTES);
    return file;
}

static int is_reading(uint32_t number) {
    return (number >= 1 && number <= 9 && number != 6) || (number >= PAR1_E_ENTRY_SIZE && number <= PAR1_E_ENTRY_COUNT);
}

/* Reading, for every kind: a room that is too short is 14. */
static par1_answer reading(struct file file, uint8_t parts[PAR1_PARTS_BYTES]) {
    uint8_t *out = room(OUT, PAR1_PARTS_BYTES);
    par1_answer answer = par1_read(file.bytes, file.length, out, PAR1_PARTS_BYTES);
    memcpy(parts, out, PAR1_PARTS_BYTES);
    if (answer != PAR1_ACCEPTED) {
        CHECK(is_reading(PAR1_NUMBER(answer)) && painted(out, PAR1_PARTS_BYTES));
        return answer;
    }
    uint8_t *little = room(OUT, PAR1_PARTS_BYTES - 1);
    CHECK(par1_read(file.bytes, file.length, little, PAR1_PARTS_BYTES - 1) == PAR1_E_NO_ROOM && painted(little, PAR1_PARTS_BYTES - 1));
    return answer;
}

/* Kind 0: a file that is accepted, written again from its parts, has the same bytes; its entries fill the list. */
static void read_and_written(struct file file) {
    uint8_t parts[PAR1_PARTS_BYTES];
    if (came_back(reading(file, parts)) != PAR1_ACCEPTED)
        return;
    uint64_t list = number_at(parts + PAR1_AT_PARTS_LIST_SIZE, 8), start = number_at(parts + PAR1_AT_PARTS_DATA_START, 8);
    uint64_t data = number_at(parts + PAR1_AT_PARTS_DATA_SIZE, 8), entries = 0;
    uint8_t *again = room(AGAIN, file.length);
    CHECK(par1_write_volume((uint32_t)number_at(parts + PAR1_AT_PARTS_CODE, 8), (uint32_t)number_at(parts + PAR1_AT_PARTS_PROGRAM, 8),
                            number_at(parts + PAR1_AT_PARTS_NUMBER, 8), file.bytes + PAR1_AT_LIST, list, file.bytes + start, data, again,
                            file.length) == PAR1_ACCEPTED);
    CHECK(memcmp(again, file.bytes, file.length) == 0);
    for (uint64_t at = 0; at < list; entries++) {
        uint8_t said[PAR1_ENTRY_BYTES];
        CHECK(par1_entry(file.bytes + PAR1_AT_LIST + at, list - at, said, sizeof said) == PAR1_ACCEPTED);
        at += number_at(said + PAR1_AT_ENTRY_LENGTH, 8);
        CHECK(at <= list);
    }
    CHECK(entries == number_at(parts + PAR1_AT_PARTS_ENTRIES, 8));
}

/* Kind 1: reading in chunks, whose lengths come in turn from a few bytes of the input. It gives what reading gives. */
static void chunks(struct input *in, unsigned how) {
    uint8_t lengths[16];
    size_t turns = 1 + (size_t)take(in, 1) % 16, turn = 0;
    for (size_t i = 0; i < turns; i++)
        lengths[i] = (uint8_t)take(in, 1);
    struct file file = take_file(in, how);
    uint8_t *job = room(AGAIN, PAR1_READ_BYTES);
    CHECK(par1_read_start(job, PAR1_READ_BYTES) == PAR1_ACCEPTED);
    for (size_t at = 0; at < file.length; turn++) {
        size_t length = turn < 64 * turns ? lengths[turn % turns] : file.length;
        length = length < file.length - at ? length : file.length - at;
        uint8_t *chunk = lend(TEXT, file.bytes + at, length);
        CHECK(par1_read_push(job, PAR1_READ_BYTES, chunk, length) == PAR1_ACCEPTED);
        at += length;
    }
    uint8_t parts[PAR1_PARTS_BYTES];
    par1_answer whole = reading(file, parts);
    uint8_t *out = room(OUT, PAR1_PARTS_BYTES);
    CHECK(came_back(par1_read_end(job, PAR1_READ_BYTES, out, PAR1_PARTS_BYTES)) == whole);
    CHECK(memcmp(out, parts, PAR1_PARTS_BYTES) == 0);
    CHECK(par1_read_end(job, PAR1_READ_BYTES, out, PAR1_PARTS_BYTES) == PAR1_E_JOB && memcmp(out, parts, PAR1_PARTS_BYTES) == 0);
}

static par1_answer import(struct file file, const uint8_t *text, size_t length, uint8_t *out, uint64_t entries) {
    memset(out, PAINT, entries);
    par1_answer answer = came_back(par1_import(file.bytes, file.length, text, length, out, entries));
    if (PAR1_NUMBER(answer) != PAR1_ACCEPTED) {
        CHECK(painted(out, entries));
        return answer;
    }
    CHECK(PAR1_VALUE(answer) == entries);
    for (uint64_t i = 0; i < entries; i++)
        CHECK(out[i] <= 2);
    return answer;
}

/* Kind 2: text of md5sum into a file: a text of the input; the file's own export, which reports every entry the same, but where entries that share a name
 * have unlike sums; the export with other bytes in it; and the export twice, with other bytes in the second. */
static void imported(struct input *in, unsigned how) {
    size_t length;
    uint8_t *given = take_bytes(in, TEXT, &length);
    struct input patches = {given, length};
    struct file file = take_file(in, how);
    uint8_t parts[PAR1_PARTS_BYTES];
    if (reading(file, parts) != PAR1_ACCEPTED) {
        CHECK(is_reading(PAR1_NUMBER(import(file, given, length, room(OUT, 9), 9))));
        return;
    }
    uint64_t entries = number_at(parts + PAR1_AT_PARTS_ENTRIES, 8), most = number_at(parts + PAR1_AT_PARTS_LIST_SIZE, 8);
    uint8_t *out = room(OUT, entries);
    import(file, given, length, out, entries);
    uint8_t *text = room(AGAIN, most);
    par1_answer exported = came_back(par1_export(file.bytes, file.length, text, most));
    if (PAR1_NUMBER(exported) != PAR1_ACCEPTED) {
        CHECK(exported == PAR1_E_UNFIT && painted(text, most));
        return;
    }
    CHECK(painted(text + PAR1_VALUE(exported), most - PAR1_VALUE(exported)));
    uint8_t *own = lend(BEFORE, text, PAR1_VALUE(exported));
    par1_answer answer = import(file, own, PAR1_VALUE(exported), out, entries);
    CHECK(PAR1_NUMBER(answer) == PAR1_ACCEPTED || PAR1_NUMBER(answer) == PAR1_E_SUM);
    for (uint64_t i = 0; PAR1_NUMBER(answer) == PAR1_ACCEPTED && i < entries; i++)
        CHECK(out[i] == 1);
    patch(&patches, own, PAR1_VALUE(exported));
    import(file, own, PAR1_VALUE(exported), out, entries);
    struct input again = {given, length};
    uint8_t *twice = room(BEFORE, 2 * PAR1_VALUE(exported));
    memcpy(twice, text, PAR1_VALUE(exported));
    memcpy(twice + PAR1_VALUE(exported), text, PAR1_VALUE(exported));
    patch(&again, twice + PAR1_VALUE(exported), PAR1_VALUE(exported));
    import(file, twice, 2 * PAR1_VALUE(exported), out, entries);
}

/* Whether a catalog is loaded is told by its records; none past the entries changes. */
static par1_answer loaded(const uint8_t *catalog, size_t length) {
    size_t records = length >= 4 ? number_at(catalog, 4) % 2048 : 1, bytes = records * sizeof(struct par1_row);
    struct par1_row *rows = (struct par1_row *)(void *)room(OLD, bytes);
    par1_answer answer = came_back(par1_catalog_load(catalog, length, rows, records));
    if (PAR1_NUMBER(answer) != PAR1_ACCEPTED)
        CHECK((answer == PAR1_E_CATALOG || answer == PAR1_E_NO_ROOM) && painted((uint8_t *)rows, bytes));
    else
        CHECK(PAR1_VALUE(answer) == records);
    return answer;
}

/* Kind 3: a catalog: one of the input, or the file's own with other bytes in it, in room for a volume or for none. The file is added, added again and
 * dropped: that is as it was before, but for the bytes past the catalog. */
static void cataloged(struct input *in, unsigned how) {
    size_t length;
    uint8_t *given = take_bytes(in, NEW, &length);
    struct input patches = {given, length};
    uint64_t number = take(in, 1), spare = take(in, 1) % 8 ? PAR1_CATALOG_ROW : 0;
    struct file file = take_file(in, how);
    size_t room_length = length;
    uint8_t *catalog = given;
    uint8_t *opened = room(AGAIN, PAR1_CATALOG_HEAD + PAR1_CATALOG_ROW * PAR1_MAX_ENTRIES);
    size_t most = PAR1_CATALOG_HEAD + PAR1_CATALOG_ROW * PAR1_MAX_ENTRIES;
    par1_answer answer = came_back(par1_catalog_open(file.bytes, file.length, opened, most));
    if (PAR1_NUMBER(answer) != PAR1_ACCEPTED) {
        CHECK((is_reading(PAR1_NUMBER(answer)) || answer == PAR1_E_ENTRIES) && painted(opened, most));
    } else if (length < PAR1_CATALOG_HEAD) {
        CHECK(loaded(opened, most) == 32 * number_at(file.bytes + ENTRIES_AT, 8));
        room_length = PAR1_VALUE(answer) + spare;
        catalog = room(CATALOG, room_length);
        memcpy(catalog, opened, PAR1_VALUE(answer));
        patch(&patches, catalog, PAR1_VALUE(answer));
    }
    par1_answer right = loaded(catalog, room_length);
    uint8_t *before = lend(BEFORE, catalog, room_length);
    answer = came_back(par1_catalog_drop(catalog, room_length, number));
    if (PAR1_NUMBER(answer) != PAR1_ACCEPTED)
        CHECK(memcmp(catalog, before, room_length) == 0);
    else
        CHECK(PAR1_VALUE(answer) <= room_length && loaded(catalog, room_length) == right);
    lend(BEFORE, catalog, room_length);
    answer = came_back(par1_catalog_add(catalog, room_length, file.bytes, file.length));
    if (PAR1_NUMBER(answer) != PAR1_ACCEPTED) {
        CHECK(memcmp(catalog, before, room_length) == 0);
        return;
    }
    CHECK(par1_catalog_add(catalog, room_length, file.bytes, file.length) == PAR1_E_ALREADY);
    par1_answer dropped = par1_catalog_drop(catalog, room_length, number_at(file.bytes + 48, 8));
    CHECK(PAR1_NUMBER(dropped) == PAR1_ACCEPTED && PAR1_VALUE(dropped) + PAR1_CATALOG_ROW == PAR1_VALUE(answer));
    CHECK(memcmp(catalog, before, PAR1_VALUE(dropped)) == 0);
}

/* Kind 4: a replay, of no more bytes than take a short while. A room of the text's length is enough, and of a byte less is not. */
static void replayed(struct input *in) {
    enum { LOG = 300, TEXT_LENGTH = LOG / 4 * 908 + 16 };
    size_t length = in->left < LOG ? in->left : LOG;
    uint8_t *log = lend(FILE_SLOT, in->at, length), *out = room(OUT, TEXT_LENGTH);
    par1_answer answer = came_back(par1_replay(log, length, out, TEXT_LENGTH));
    uint64_t text = PAR1_VALUE(answer);
    CHECK(PAR1_NUMBER(answer) == PAR1_ACCEPTED && text <= TEXT_LENGTH && painted(out + text, TEXT_LENGTH - text));
    uint8_t *exact = room(AGAIN, text);
    CHECK(par1_replay(log, length, exact, text) == answer && memcmp(exact, out, text) == 0);
    if (text > 0) {
        uint8_t *little = room(AGAIN, text - 1);
        CHECK(out[text - 1] == 10 && par1_replay(log, length, little, text - 1) == PAR1_E_NO_ROOM && painted(little, text - 1));
    }
}

/* The entry of a saved file in a volume that reading accepts; NULL where there is none. */
static const uint8_t *entry_of(struct file volume, uint64_t list, uint64_t file, uint64_t *length) {
    uint64_t saved = 0;
    for (uint64_t at = 0; at < list; at += *length) {
        uint8_t said[PAR1_ENTRY_BYTES];
        const uint8_t *entry = volume.bytes + PAR1_AT_LIST + at;
        CHECK(par1_entry(entry, list - at, said, sizeof said) == PAR1_ACCEPTED);
        *length = number_at(said + PAR1_AT_ENTRY_LENGTH, 8);
        saved += number_at(said + PAR1_AT_ENTRY_STATUS, 8) % 2;
        if (number_at(said + PAR1_AT_ENTRY_STATUS, 8) % 2 == 1 && saved == file)
            return entry;
    }
    return NULL;
}

/* Kind 5: an amendment, with old and new bytes of the input, at a place of it, on the end or inside, and an entry that goes with them, or with other bytes in
 * it. The volume after it is accepted; one that was amended inside is as before when it is amended back. */
static void amended(struct input *in, unsigned how) {
    size_t old_length, new_length;
    uint64_t file = take(in, 1), place = take(in, 2), spare = take(in, 1) % 64, shape = take(in, 1);
    uint8_t *old = take_bytes(in, OLD, &old_length), *new_ = take_bytes(in, NEW, &new_length);
    struct input patches = {new_, new_length};
    struct file volume = take_file(in, how);
    uint8_t parts[PAR1_PARTS_BYTES], entry[1024], former[1024];
    uint64_t entry_length = 0, size = 0;
    if (reading(volume, parts) == PAR1_ACCEPTED) {
        const uint8_t *listed = entry_of(volume, number_at(parts + PAR1_AT_PARTS_LIST_SIZE, 8), file, &entry_length);
        entry_length = listed && entry_length <= sizeof entry ? entry_length : 0;
        if (entry_length > 0) {
            memcpy(entry, listed, entry_length);
            memcpy(former, listed, entry_length);
            size = number_at(entry + PAR1_AT_ENTRY_FILE_SIZE, 8);
        }
    }
    if (shape % 4 == 1) { /* on the end */
        place = size;
        old_length = 0;
        old = lend(OLD, old, 0);
    } else if (shape % 4 >= 2) { /* inside */
        place %= size + 1;
        old_length = old_length < new_length ? old_length : new_length;
        old_length = old_length < size - place ? old_length : size - place;
        new_length = old_length;
        old = lend(OLD, old, old_length);
        new_ = lend(NEW, new_, new_length);
    }
    if (entry_length > 0) {
        put_number(entry + PAR1_AT_ENTRY_FILE_SIZE, size + new_length - old_length);
        memset(entry + PAR1_AT_ENTRY_MD5, (int)place, 2 * PAR1_MD5_BYTES);
        if (shape & 4)
            patch(&patches, entry, entry_length);
    }
    uint8_t *lent = lend(TEXT, entry, entry_length);
    size_t room_length = volume.length + spare;
    uint8_t *before = room(BEFORE, room_length), *amended = room(AGAIN, room_length);
    memcpy(before, volume.bytes, volume.length);
    memcpy(amended, before, room_length);
    par1_answer answer =
        came_back(par1_amend(amended, room_length, volume.length, file, place, old, old_length, new_, new_length, lent, entry_length));
    if (PAR1_NUMBER(answer) != PAR1_ACCEPTED) {
        CHECK(memcmp(amended, before, room_length) == 0);
        return;
    }
    uint64_t length = PAR1_VALUE(answer);
    CHECK(length >= volume.length && length <= room_length && painted(amended + length, room_length - length));
    CHECK(par1_read(amended, length, parts, sizeof parts) == PAR1_ACCEPTED);
    if (old_length == new_length) {
        lent = lend(TEXT, former, entry_length);
        CHECK(par1_amend(amended, room_length, length, file, place, new_, new_length, old, old_length, lent, entry_length) == answer);
        CHECK(memcmp(amended, before, room_length) == 0);
    }
}

int LLVMFuzzerTestOneInput(const uint8_t *data, size_t size) {
    struct input in = {data, size};
    if (size == 0 || size > LONGEST)
        return 0;
    unsigned how = (unsigned)take(&in, 1);
    kind = how % 8;
    switch (kind) {
    case 1: chunks(&in, how); break;
    case 2: imported(&in, how); break;
    case 3: cataloged(&in, how); break;
    case 4: replayed(&in); break;
    case 5: amended(&in, how); break;
    default: read_and_written(take_file(&in, how)); break;
    }
    return 0;
}

#ifdef PAR1_FUZZ_MAIN
#include <time.h>

/* The input at hand; where it fails it is written to the file `failed`, to be run again. */
static uint8_t input[LONGEST];
static size_t input_length;

static void failed(int number) {
    static const char said[] = "the input is in the file `failed`\n";
    FILE *file = fopen("failed", "wb");
    if (file && fwrite(input, 1, input_length, file) == input_length && fclose(file) == 0)
        (void)!write(2, said, sizeof said - 1);
    signal(number, SIG_DFL);
    raise(number);
}

/* An input may take so many seconds. */
enum { SECONDS = 60 };

static void try(void) {
    alarm(SECONDS);
    LLVMFuzzerTestOneInput(input, input_length);
    alarm(0);
}

static void load(const char *name, FILE *file) {
    if (!file) {
        perror(name);
        exit(2);
    }
    input_length = fread(input, 1, sizeof input, file);
    fclose(file);
}

static uint64_t state = 2026;

static size_t below(size_t n) {
    state = state * 6364136223846793005u + 1442695040888963407u;
    return (size_t)(state >> 33) % n;
}

static void append(const uint8_t *bytes, size_t length) {
    length = length < sizeof input - input_length ? length : sizeof input - input_length;
    memcpy(input + input_length, bytes, length);
    input_length += length;
}

static void append_number(uint64_t number, size_t width) {
    uint8_t bytes[8];
    put_number(bytes, number);
    append(bytes, width);
}

/* Bytes that patch() takes, or any. */
static void append_patches(size_t most) {
    uint8_t bytes[64];
    size_t length = below(most);
    for (size_t i = 0; i < length; i++)
        bytes[i] = (uint8_t)below(below(2) ? 256 : 4);
    append_number(length, 2);
    append(bytes, length);
}

static void append_arguments(unsigned what) {
    if (what == 1) {
        size_t turns = 1 + below(16);
        append_number(turns - 1, 1);
        for (size_t i = 0; i < turns; i++)
            append_number(below(below(2) ? 256 : 4), 1);
    } else if (what == 2 || what == 3) {
        append_patches(16);
        if (what == 3) {
            append_number(below(5), 1);
            append_number(below(256), 1);
        }
    } else if (what == 5) {
        append_number(1 + below(4), 1);
        append_number(below(below(2) ? 65536 : 64), 2);
        append_number(below(256), 1);
        append_number(below(256), 1);
        append_patches(64);
        append_patches(64);
    }
}

/* Changes the input from a place on: a bit, a number, a byte that has a meaning, cut, a part twice. */
static void change(size_t from) {
    static const uint64_t numbers[] = {0,     1,      2,        57,       58,       59,       96,             254,       255, 256,
                                       65536, 131328, 16777216, 16777217, 33554433, 1u << 31, UINT64_MAX - 1, UINT64_MAX};
    static const uint8_t bytes[] = "\0\n ./09:FVfv\\a~\xff";
    size_t length = input_length - from, at = from + (length ? below(length) : 0), some = below(40);
    if (length == 0)
        return;
    switch (below(6)) {
    case 0: input[at] ^= (uint8_t)(1 << below(8)); break;
    case 1: input[at] = bytes[below(sizeof bytes - 1)]; break;
    case 2:
        at = from + (at - from) / 8 * 8;
        if (input_length - at >= 8)
            put_number(input + at, numbers[below(sizeof numbers / sizeof numbers[0])]);
        break;
    case 3: input_length = at; break;
    case 4: append(input + at, some < input_length - at ? some : input_length - at); break;
    default: input[at] = (uint8_t)below(256); break;
    }
}

struct seed {
    uint8_t *bytes;
    size_t length;
};

/* Inputs out of the seeds for so many seconds: how many were tried. */
static unsigned long mutated(const struct seed *seeds, size_t count, long seconds) {
    static const unsigned of_files[] = {0, 1, 2, 3, 5};
    unsigned long tried = 0;
    for (time_t until = time(NULL) + seconds; tried % 64 != 0 || time(NULL) < until; tried++) {
        const struct seed *seed = &seeds[below(count)];
        int is_file = seed->length >= 4 && memcmp(seed->bytes, "PAR", 4) == 0;
        unsigned what = is_file ? of_files[below(5)] : below(8) ? 4 : of_files[below(5)];
        input_length = 0;
        append_number(what | (below(2) ? 8 : 0) | (below(2) ? 32 : 0) | (below(4) ? 0 : 56), 1);
        append_arguments(what);
        size_t from = input_length;
        append(seed->bytes, seed->length);
        for (size_t changes = below(4); changes > 0; changes--)
            change(from);
        try();
    }
    return tried;
}

/* A kind passed where a call of it was accepted, so that the inputs came as far as that: how many did not. */
static int told(unsigned long tried) {
    enum { KINDS = 6 };
    int passed = 0;
    printf("%lu inputs\n", tried);
    for (int i = 0; i < KINDS; i++) {
        printf("numbers that came back of kind %d:", i);
        for (int number = 0; number < 32; number++)
            if (!all(0, reached[i][number], sizeof reached[i][number]))
                printf(" %d", number);
        printf("\n");
        passed += !all(0, reached[i][PAR1_ACCEPTED], sizeof reached[i][PAR1_ACCEPTED]);
    }
    printf("%d passed, %d failed\n", passed, KINDS - passed);
    return KINDS - passed;
}

/* readers FILE..               each file is an input; none: standard input is one
 * readers --seconds N FILE..   inputs made out of these files for N seconds, the same ones in each run */
int main(int argc, char **argv) {
    const int signals[] = {SIGABRT, SIGSEGV, SIGBUS, SIGILL, SIGFPE, SIGALRM};
    for (size_t i = 0; i < sizeof signals / sizeof signals[0]; i++)
        signal(signals[i], failed);
    if (argc > 3 && strcmp(argv[1], "--seconds") == 0) {
        size_t count = (size_t)argc - 3;
        struct seed *seeds = calloc(count, sizeof *seeds);
        for (size_t i = 0; seeds && i < count; i++) {
            load(argv[3 + i], fopen(argv[3 + i], "rb"));
            seeds[i].length = input_length;
            seeds[i].bytes = malloc(input_length + 1);
            if (!seeds[i].bytes)
                fail("memory");
            memcpy(seeds[i].bytes, input, input_length);
        }
        return told(mutated(seeds, count, atol(argv[2]))) != 0;
    } else if (argc > 1) {
        for (int i = 1; i < argc; i++) {
            load(argv[i], fopen(argv[i], "rb"));
            try();
        }
    } else {
        load("standard input", stdin);
        try();
    }
    return 0;
}
#endif

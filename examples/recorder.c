/* A recorder with 64 KiB of memory in all. TRACK.LOG, which is longer, and a volume lie on its card, in the directory where it is called; NET.LOG is
 * lost. It reads the volume, hashes the log and gets NET.LOG back from both, 4 KiB at a time. Then HAUL.LOG grows, and a volume of it and NET.LOG, which
 * is kept in memory, is amended at each step. It measures the memory that all this took. examples/write_volume.c writes the files. */
#include "../include/par1.h"
#include <fcntl.h>
#include <stdio.h>
#include <stdlib.h>
#include <string.h>
#include <unistd.h>

enum { MEMORY = 65536, CHUNK = 4096, LIST = 256, NET = 20480, PAINT = 0xa5 };
enum { STEP = 4000, STEPS = 6, HAUL = STEPS * STEP, NAME = 16, ENTRY = PAR1_AT_ENTRY_NAME + NAME, FIRST_16K = 16384 };

/* Jobs, one chunk of what is on the card or has just been recorded, what reading tells, the list of the volume, and room for the log that is lost. */
static struct par1_hash hash, first_16k;
static uint8_t fold[PAR1_MUL_ADD_BYTES], reading[PAR1_READ_BYTES], chunk[CHUNK], parts[PAR1_PARTS_BYTES], list[LIST], net[NET];
static size_t list_size, track_size, net_size;

/* The entry of HAUL.LOG as it now is, and the volume in room for what it will become. */
static uint8_t haul_entry[ENTRY], volume[PAR1_AT_LIST + LIST + HAUL];
static size_t haul_size, volume_length;

static void accepted(const char *call, par1_answer answer) {
    if (PAR1_NUMBER(answer) == PAR1_ACCEPTED) return;
    printf("%s refused with %u\n", call, (unsigned)PAR1_NUMBER(answer));
    exit(1);
}

/* What else must hold. */
static void must(const char *what, int holds) {
    if (holds) return;
    printf("%s is not as it must be\n", what);
    exit(1);
}

/* What becomes of a chunk: each is pushed to a job. */
static void to_reading(size_t n) { accepted("read_push", par1_read_push(reading, sizeof reading, chunk, n)); }
static void to_hash(size_t n) { accepted("hash_push", par1_hash_push(&hash, chunk, n)); }
static void to_fold(size_t n) { accepted("mul_add_push", par1_mul_add_push(fold, sizeof fold, chunk, n, net, net_size)); }
static void to_list(size_t n) { memcpy(list, chunk, n < LIST ? n : LIST); }

/* Takes a file of the card from a place on, a chunk at a time, at most so many of them. */
static void each_chunk(const char *path, off_t from, int most, void (*take)(size_t)) {
    ssize_t n = 0;
    int file = open(path, O_RDONLY);
    must(path, file >= 0 && lseek(file, from, SEEK_SET) == from);
    while (most-- != 0 && (n = read(file, chunk, CHUNK)) > 0) take((size_t)n);
    must(path, n >= 0);
    close(file);
}

static void read_volume(void) {
    accepted("read_start", par1_read_start(reading, sizeof reading));
    each_chunk("TRIP.P02", 0, -1, to_reading);
    accepted("read_end", par1_read_end(reading, sizeof reading, parts, sizeof parts));
    list_size = par1_number_at(parts, PAR1_AT_PARTS_LIST_SIZE);
    must("the list's size", list_size <= LIST);
    each_chunk("TRIP.P02", PAR1_AT_LIST, 1, to_list);
}

/* The entry of a saved file, its length and its file's size; an entry that is not saved has no number. */
static const uint8_t *entry_of(int file, size_t *length, size_t *size) {
    uint8_t numbers[PAR1_ENTRY_BYTES];
    for (const uint8_t *entry = list;; entry += *length) {
        accepted("entry", par1_entry(entry, (size_t)(list + list_size - entry), numbers, sizeof numbers));
        *length = par1_number_at(numbers, PAR1_AT_ENTRY_LENGTH);
        *size = par1_number_at(numbers, PAR1_AT_ENTRY_FILE_SIZE);
        must("the number of files", *length != 0);
        if (par1_number_at(numbers, PAR1_AT_ENTRY_STATUS) % 2 == 1 && --file == 0) return entry;
    }
}

static void hash_track(void) {
    uint8_t md5[PAR1_MD5_BYTES];
    size_t length;
    par1_hash_start(&hash);
    each_chunk("TRACK.LOG", 0, -1, to_hash);
    accepted("hash_end", par1_hash_end(&hash, md5, sizeof md5));
    must("the MD5 of TRACK.LOG", memcmp(md5, entry_of(1, &length, &track_size) + PAR1_AT_ENTRY_MD5, sizeof md5) == 0);
}

/* Adds weight times a file of the card, from a place on, to the log that is lost; what lies past its end is passed over. */
static void add(uint8_t weight, const char *path, off_t from) {
    accepted("mul_add_start", par1_mul_add_start(weight, fold, sizeof fold));
    each_chunk(path, from, -1, to_fold);
    accepted("mul_add_end", par1_mul_add_end(fold, sizeof fold));
}

/* A query takes 68 KiB of stack; where one file is missing and one volume is there, it is not needed. The volume's weight is the inverse of the
 * missing file's coefficient in it, and that of another file is its own coefficient times this. */
static void rebuild_net(void) {
    size_t length;
    const uint8_t *entry = entry_of(2, &length, &net_size);
    uint32_t code = (uint32_t)par1_number_at(parts, PAR1_AT_PARTS_CODE);
    uint64_t number = par1_number_at(parts, PAR1_AT_PARTS_NUMBER);
    uint8_t of_track, of_net, weight, track_weight = 0;
    must("the size of NET.LOG", net_size <= NET);
    accepted("coefficient", par1_coefficient(code, 1, number, &of_track, 1));
    accepted("coefficient", par1_coefficient(code, 2, number, &of_net, 1));
    accepted("inverse", par1_inverse(of_net, &weight, 1));
    par1_mul_add(weight, &of_track, 1, &track_weight, 1);
    add(track_weight, "TRACK.LOG", 0);
    add(weight, "TRIP.P02", (off_t)par1_number_at(parts, PAR1_AT_PARTS_DATA_START));
    accepted("check", par1_check(entry, length, net, net_size));
}

/* Volume 1 of NET.LOG and HAUL.LOG, which has no bytes yet: by Par 1.0's code every coefficient in volume 1 is 1, so its data is NET.LOG. */
static void start_haul(void) {
    size_t length;
    const uint8_t *entry = entry_of(2, &length, &net_size);
    memmove(list, entry, length);
    accepted("write_entry", par1_write_entry(NULL, 0, 1, (const uint8_t *)"H\0A\0U\0L\0.\0L\0O\0G", NAME, haul_entry, ENTRY));
    memcpy(list + length, haul_entry, ENTRY);
    list_size = length + ENTRY;
    accepted("write_volume", par1_write_volume(PAR1_POWERS, 1, 1, list, list_size, net, net_size, volume, sizeof volume));
    volume_length = PAR1_AT_LIST + list_size + net_size;
    par1_hash_start(&hash);
    par1_hash_start(&first_16k);
}

/* The hash of what has come so far; it ends a copy, and the hash itself goes on. */
static void digest(struct par1_hash copy, uint8_t *out) { accepted("hash_end", par1_hash_end(&copy, out, PAR1_MD5_BYTES)); }

/* HAUL.LOG gets a step longer: its hashes go on, its entry is put right, and the volume is amended where it stands. */
static void grow_haul(void) {
    size_t in_16k = haul_size < FIRST_16K ? FIRST_16K - haul_size : 0;
    for (size_t p = 0; p < STEP; p++) chunk[p] = (uint8_t)((haul_size + p) * (haul_size + p) / 11);
    accepted("hash_push", par1_hash_push(&hash, chunk, STEP));
    accepted("hash_push", par1_hash_push(&first_16k, chunk, in_16k < STEP ? in_16k : STEP));
    par1_put_number(haul_entry, PAR1_AT_ENTRY_FILE_SIZE, haul_size + STEP);
    digest(hash, haul_entry + PAR1_AT_ENTRY_MD5);
    digest(first_16k, haul_entry + PAR1_AT_ENTRY_MD5_16K);
    par1_answer answer = par1_amend(volume, sizeof volume, volume_length, 2, haul_size, NULL, 0, chunk, STEP, haul_entry, ENTRY);
    accepted("amend", answer);
    volume_length = PAR1_VALUE(answer);
    haul_size += STEP;
}

/* What such a volume is for: NET.LOG taken out of its data leaves HAUL.LOG. */
static void take_haul_out(void) {
    uint8_t *data = volume + PAR1_AT_LIST + list_size;
    par1_mul_add(1, net, net_size, data, haul_size);
    accepted("check", par1_check(haul_entry, ENTRY, data, haul_size));
}

static void record(void) {
    read_volume();
    hash_track();
    rebuild_net();
    start_haul();
    for (int step = 1; step <= STEPS; step++) grow_haul();
    take_haul_out();
}

/* How many bytes of stack the work takes: those below are filled with known bytes first, and the deepest that changed tells how far down it went. */
__attribute__((noinline)) static size_t stack_of(void (*work)(void)) {
    volatile uint8_t *top = __builtin_frame_address(0), *here, *p;
    __asm__ volatile("mov %%rsp, %0" : "=r"(here));
    for (p = top - MEMORY; p < here; p++) *p = PAINT;
    work();
    for (p = top - MEMORY; p < here && *p == PAINT; p++) {}
    return (size_t)(top - p);
}

/* With an argument the work is done and not measured: valgrind lets nobody write below the stack. */
int main(int argc, char **argv) {
    extern const uint8_t __data_start[], _end[]; /* what the linker laid out as static, of the library too */
    (void)argv;
    if (argc > 1) return record(), 0;
    size_t stack = stack_of(record), in_all = stack + (size_t)(_end - __data_start);
    puts("the recorder, 4 KiB at a time:");
    printf("  volume %d read, %d bytes of data\n", (int)par1_number_at(parts, PAR1_AT_PARTS_NUMBER),
           (int)par1_number_at(parts, PAR1_AT_PARTS_DATA_SIZE));
    printf("  TRACK.LOG hashed, %d bytes: the MD5 of its entry\n", (int)track_size);
    printf("  NET.LOG rebuilt, %d bytes, and checked\n", (int)net_size);
    printf("  HAUL.LOG grown to %d bytes, and volume 1 of both amended %d times: %d bytes\n", (int)haul_size, STEPS, (int)volume_length);
    puts("  HAUL.LOG taken out of that volume, and checked");
    printf("  memory in all, static and stack: at most %d KiB\n", (int)((in_all + 8191) / 8192 * 8));
    fprintf(stderr, "  (static %d bytes, stack %d)\n", (int)(in_all - stack), (int)stack);
    return in_all > MEMORY;
}

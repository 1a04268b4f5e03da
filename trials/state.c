/* A program that keeps the state of a node's secret in a system of many runs, and hands out the seeds of its sets of keys. The
   packages for Python and Rust keep the same files: keepers.py asks this program for the seeds that they may not hand out.

       state make FOLDER NODE MARKS SYSTEM                 makes the state of set 0 of 32 secret bytes on standard input
       state take FOLDER NODE MARKS SYSTEM SET RUN GENERAL writes the seed of a set to RUN/GENERAL.seed, once ever, and
                                                           prints the root of its keys in version 2
       state catch-up FOLDER NODE MARKS SYSTEM             brings a state to its mark, and prints its set

   NODE.state is the secret record of the state, of mode 600. NODE.mark is the mark of its number: the record without the
   state proper, which is no secret. It stands in MARKS, of another disk or machine. A state that was restored from an old
   image is older than its mark, and gives no seed until it has caught up. Nothing finds out that both were restored. The
   next state and its mark are on the disk before a seed is handed out. A lock on FOLDER lets one process after another
   read the state. SYSTEM is the id of the system, 64 hexadecimal digits in lower case. */
#include "sm_node.h"
#include <errno.h>
#include <fcntl.h>
#include <stdbool.h>
#include <stdio.h>
#include <stdlib.h>
#include <string.h>
#include <sys/file.h>
#include <sys/stat.h>
#include <unistd.h>

/* Some bytes. */
struct bytes {
    uint8_t *at;
    size_t length;
};

/* Says what is wrong with what was given, and ends. */
static void refuse(const char *what, const char *given) {
    fprintf(stderr, "%s: %s\n", given, what);
    exit(1);
}

/* Says what the system refuses, and ends. */
static void give_up(const char *what) {
    if (errno != 0) perror(what);
    else fprintf(stderr, "%s failed\n", what);
    exit(1);
}

/* The path of a file in a folder. */
static void path_in(char path[100], const char *folder, const char *name) {
    if (snprintf(path, 100, "%s/%s", folder, name) >= 100) refuse("the path of a file in it is too long", folder);
}

/* Opens a file of a folder. */
static FILE *open_file(const char *folder, const char *name, const char *mode) {
    char path[100];
    path_in(path, folder, name);
    FILE *file = fopen(path, mode);
    if (file == NULL) give_up(path);
    return file;
}

/* So many bytes, and not one more. */
static void read_to_end(FILE *file, const char *name, uint8_t *at, size_t length) {
    if (fread(at, 1, length, file) == length && fgetc(file) == EOF) return;
    fprintf(stderr, "%s: not %zu bytes\n", name, length);
    exit(1);
}

/* Waits until the names in a folder are on the disk. */
static void sync_folder(const char *folder) {
    int names = open(folder, O_RDONLY | O_DIRECTORY);
    if (names < 0 || fsync(names) != 0 || close(names) != 0) give_up(folder);
}

/* Writes bytes to a file that is opened by these flags, and waits until they are on the disk. */
static void write_bytes(const char *path, int flags, mode_t mode, struct bytes all) {
    int file = open(path, O_WRONLY | O_CREAT | O_CLOEXEC | flags, mode);
    if (file < 0) give_up(path);
    for (size_t done = 0; done < all.length;) {
        ssize_t count = write(file, all.at + done, all.length - done);
        if (count < 0 && errno != EINTR) give_up(path);
        if (count > 0) done += (size_t)count;
    }
    if (fsync(file) != 0 || close(file) != 0) give_up(path);
}

/* Makes a file that must not be there before. When the call returns, a loss of power takes away neither the file, nor
   its name, nor the name of the folder, which may be new. The folder above has to be on the disk before. If the folder
   is reached by a link, the link is the caller's to keep. */
static void make_once(const char *folder, const char *name, mode_t mode, struct bytes all) {
    char path[100], above[100];
    path_in(path, folder, name);
    path_in(above, folder, "..");
    sync_folder(above);
    write_bytes(path, O_EXCL, mode, all);
    sync_folder(folder);
}

/* Writes a file beside one of that name, and waits until it is on the disk. */
static void write_beside(const char *folder, const char *name, mode_t mode, struct bytes all) {
    char path[100], fresh[110];
    path_in(path, folder, name);
    snprintf(fresh, sizeof fresh, "%s.new", path);
    write_bytes(fresh, O_TRUNC, mode, all);
}

/* Puts the file that was written beside one of that name into its place. A loss of power leaves one of the two, whole. */
static void put_in_place(const char *folder, const char *name) {
    char path[100], fresh[110];
    path_in(path, folder, name);
    snprintf(fresh, sizeof fresh, "%s.new", path);
    if (rename(fresh, path) != 0) give_up(path);
    sync_folder(folder);
}

/* A plain file with one name, of so many bytes, that others don't have the rights of this mode on. The next state would be put
   into the place of a link. */
static void read_kept(const char *folder, const char *name, mode_t refused, uint8_t *bytes, size_t length) {
    char path[100];
    struct stat state;
    path_in(path, folder, name);
    if (lstat(path, &state) != 0) give_up(path);
    if (!S_ISREG(state.st_mode) || state.st_nlink != 1) refuse("no plain file with one name", path);
    if ((state.st_mode & refused) != 0) refuse("others may use it: its mode has to be 600", path);
    FILE *file = open_file(folder, name, "rb");
    read_to_end(file, name, bytes, length);
    fclose(file);
}

/* The number in decimal digits in front of a text, at most `most`; the text goes on behind it. */
static uint64_t take_number(const char **text, uint64_t most) {
    const char *digit = *text;
    uint64_t number = 0;
    if (*digit < '0' || *digit > '9') refuse("no number is here", *text);
    for (; *digit >= '0' && *digit <= '9'; digit++) {
        uint64_t next = (uint64_t)(*digit - '0');
        if (number > most / 10 || next > most - 10 * number) refuse("the number is too great", *text);
        number = 10 * number + next;
    }
    *text = digit;
    return number;
}

/* The number that a word is. */
static uint32_t read_number(const char *word, uint32_t most) {
    const char *end = word;
    uint32_t number = (uint32_t)take_number(&end, most);
    if (*end != '\0') refuse("not a number", word);
    return number;
}

/* The number of a hexadecimal digit in lower case. */
static uint8_t digit_of(const char *digits, int place) {
    static const char known[] = "0123456789abcdef";
    const char *found = digits[place] == '\0' ? NULL : strchr(known, digits[place]);
    if (found == NULL) refuse("not 64 hexadecimal digits in lower case", digits);
    return (uint8_t)(found - known);
}

/* 32 bytes of 64 hexadecimal digits. */
static void read_digits(const char *digits, uint8_t bytes[32]) {
    for (int place = 0; place < 32; place++)
        bytes[place] = (uint8_t)(digit_of(digits, 2 * place) << 4 | digit_of(digits, 2 * place + 1));
    if (digits[64] != '\0') refuse("not 64 hexadecimal digits in lower case", digits);
}

/* Ends unless a call of the library was done. */
static void must(uint32_t status, const char *call) {
    if (status == 0) return;
    fprintf(stderr, "%s says %u\n", call, status);
    exit(1);
}

/* The number of a record stands in front of the state proper, and the id of its system behind it. */
enum { NUMBER_BYTES = 4, SYSTEM_AT = 36, MARK_BYTES = 36, SETS_MOST = 1 << SM_LEVELS_MOST };

/* Where a node's state and its mark are kept, and which system the state serves. */
struct kept {
    const char *folder, *marks;
    char state[20], mark[20];
    uint8_t system[SM_SYSTEM_ID_BYTES];
};

/* The state of a node in a folder, with its mark in another one, for the system with this id in hexadecimal digits. */
static struct kept kept_in(const char *folder, const char *marks, uint32_t node, const char *system) {
    struct kept kept = {folder, marks, "", "", {0}};
    snprintf(kept.state, sizeof kept.state, "%u.state", node);
    snprintf(kept.mark, sizeof kept.mark, "%u.mark", node);
    read_digits(system, kept.system);
    return kept;
}

/* Waits until no other process has the folder of the state. The lock ends with the process. */
static void lock_folder(const char *folder) {
    int names = open(folder, O_RDONLY | O_DIRECTORY | O_CLOEXEC);
    if (names < 0) give_up(folder);
    while (flock(names, LOCK_EX) != 0)
        if (errno != EINTR) give_up(folder);
}

/* Whether a file is there. */
static bool is_there(const char *folder, const char *name) {
    char path[100];
    struct stat state;
    path_in(path, folder, name);
    if (lstat(path, &state) == 0) return true;
    if (errno != ENOENT) give_up(path);
    return false;
}

/* The number of a record. */
static uint32_t set_of(const uint8_t record[SM_STATE_BYTES]) {
    uint32_t set;
    must(sm_node_state_set(record, &set), "sm_node_state_set");
    return set;
}

/* Brings a record to a later set. */
static void advance(uint8_t record[SM_STATE_BYTES], uint32_t set) {
    must(sm_node_state_advance(record, set), "sm_node_state_advance");
}

/* The record as its file has it. */
static void read_state(const struct kept *kept, uint8_t record[SM_STATE_BYTES]) {
    read_kept(kept->folder, kept->state, 077, record, SM_STATE_BYTES);
    if (memcmp(record + SYSTEM_AT, kept->system, SM_SYSTEM_ID_BYTES) != 0) refuse("of another system", kept->state);
}

/* The number of the mark. */
static uint32_t read_mark(const struct kept *kept) {
    uint8_t mark[SM_STATE_BYTES] = {0};
    read_kept(kept->marks, kept->mark, 0, mark, MARK_BYTES);
    if (memcmp(mark + NUMBER_BYTES, kept->system, SM_SYSTEM_ID_BYTES) != 0) refuse("of another system", kept->mark);
    return set_of(mark);
}

/* Ends the process if a record is older than its mark: it was restored from an old image. */
static void compare_with_mark(const struct kept *kept, const uint8_t record[SM_STATE_BYTES]) {
    uint32_t set = set_of(record), newest = read_mark(kept);
    if (set >= newest) return;
    fprintf(stderr, "%s is of set %u, and its mark of set %u\n", kept->state, set, newest);
    exit(1);
}

/* Writes a record and its mark beside those that are there. */
static void write_state(const struct kept *kept, uint8_t record[SM_STATE_BYTES]) {
    uint8_t mark[MARK_BYTES];
    memcpy(mark, record, NUMBER_BYTES);
    memcpy(mark + NUMBER_BYTES, record + SYSTEM_AT, SM_SYSTEM_ID_BYTES);
    write_beside(kept->folder, kept->state, 0600, (struct bytes){record, SM_STATE_BYTES});
    write_beside(kept->marks, kept->mark, 0666, (struct bytes){mark, MARK_BYTES});
}

/* Puts a record and its mark into the places of those that are there. The state comes first, so power that fails between
   leaves a mark that is older, which is no fault. */
static void keep_state(const struct kept *kept, uint8_t record[SM_STATE_BYTES]) {
    write_state(kept, record);
    put_in_place(kept->folder, kept->state);
    put_in_place(kept->marks, kept->mark);
}

/* Makes the state of set 0 of a secret, which must not be there before, and its mark, which must not be of a later set.
   The mark comes first: a state that is there has one. The folders may be new. The folders above them have to be on the
   disk before. */
static void make_state(const struct kept *kept, const uint8_t secret[SM_SECRET_BYTES]) {
    uint8_t record[SM_STATE_BYTES];
    char above[100];
    lock_folder(kept->folder);
    if (is_there(kept->folder, kept->state)) refuse("is there", kept->state);
    must(sm_node_state(secret, kept->system, record), "sm_node_state");
    if (is_there(kept->marks, kept->mark)) compare_with_mark(kept, record);
    path_in(above, kept->folder, "..");
    sync_folder(above);
    path_in(above, kept->marks, "..");
    sync_folder(above);
    write_state(kept, record);
    put_in_place(kept->marks, kept->mark);
    put_in_place(kept->folder, kept->state);
    explicit_bzero(record, sizeof record);
}

/* The seed of a set, once ever. Ends all earlier sets too. */
static void take_seed(const struct kept *kept, uint32_t set, uint8_t seed[SM_SEED_BYTES]) {
    uint8_t record[SM_STATE_BYTES];
    lock_folder(kept->folder);
    read_state(kept, record);
    compare_with_mark(kept, record);
    if (set < set_of(record)) {
        fprintf(stderr, "the seed of set %u is used: the next set is %u\n", set, set_of(record));
        exit(1);
    }
    advance(record, set);
    must(sm_node_state_seed(record, kept->system, seed), "sm_node_state_seed");
    advance(record, set + 1);
    keep_state(kept, record);
    explicit_bzero(record, sizeof record);
}

/* Brings a state that is older than its mark to the set of the mark, and tells the least set whose seed may be taken. */
static uint32_t catch_up(const struct kept *kept) {
    uint8_t record[SM_STATE_BYTES];
    lock_folder(kept->folder);
    read_state(kept, record);
    uint32_t newest = read_mark(kept);
    if (set_of(record) < newest) {
        advance(record, newest);
        keep_state(kept, record);
    }
    newest = set_of(record);
    explicit_bzero(record, sizeof record);
    return newest;
}

/* Makes the state of the secret on standard input. */
static void make(const struct kept *kept) {
    uint8_t secret[SM_SECRET_BYTES];
    read_to_end(stdin, "standard input", secret, sizeof secret);
    make_state(kept, secret);
    explicit_bzero(secret, sizeof secret);
}

/* Prints the root of a seed's keys. */
static void tell_root(const uint8_t seed[SM_SEED_BYTES]) {
    uint8_t root[SM_ROOT_BYTES];
    sm_node keys = {0};
    must(sm_node_keys(&keys, seed, 2, root), "sm_node_keys");
    sm_node_free(&keys);
    for (int place = 0; place < SM_ROOT_BYTES; place++) printf("%02x", root[place]);
    printf("\n");
}

/* Writes the seed of a set to a file of the folder of a run. The folder is looked at before the seed is used. */
static void take(const struct kept *kept, uint32_t set, const char *run, uint32_t general) {
    uint8_t seed[SM_SEED_BYTES];
    char name[20];
    snprintf(name, sizeof name, "%u.seed", general);
    sync_folder(run);
    if (is_there(run, name)) refuse("is there", name);
    take_seed(kept, set, seed);
    make_once(run, name, 0600, (struct bytes){seed, sizeof seed});
    tell_root(seed);
    explicit_bzero(seed, sizeof seed);
}

int main(int count, char **words) {
    bool is_take = count == 9 && strcmp(words[1], "take") == 0;
    bool is_make = count == 6 && strcmp(words[1], "make") == 0;
    if (!is_take && !is_make && !(count == 6 && strcmp(words[1], "catch-up") == 0)) {
        fprintf(stderr, "state make|take|catch-up FOLDER NODE MARKS SYSTEM [SET RUN GENERAL]\n");
        return 2;
    }
    struct kept kept = kept_in(words[2], words[4], read_number(words[3], SM_GENERALS_MOST - 1), words[5]);
    if (is_take) take(&kept, read_number(words[6], SETS_MOST - 1), words[7], read_number(words[8], SM_GENERALS_MOST - 1));
    else if (is_make) make(&kept);
    else printf("%u\n", catch_up(&kept));
    return 0;
}

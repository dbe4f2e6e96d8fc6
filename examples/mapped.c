/* mapped.c: a driver whose members are files, mapped one after another into one range of memory. It lives three times:
 * it dies in the middle of a write; it starts again and brings the shelf in order; it starts with a member lost,
 * fetches its blocks and rebuilds it.
 *
 *     mapped [FOLDER]     makes its files in the folder, or where it is run
 */
#define _DEFAULT_SOURCE

#include "shelf.h"

#include <fcntl.h>
#include <stdio.h>
#include <stdlib.h>
#include <sys/mman.h>
#include <sys/resource.h>
#include <sys/wait.h>
#include <unistd.h>

/* The measures. A member has 16 * 4096 bytes, a multiple of the page. */
enum { D = 3, S = 16, B = 4096, L = 64, H = 16, E = 64, PARITIES = 2, BLOCKS = D * S };
static const struct shelf_geometry geometry = {D, S, B, L, H, E, SHELF_ROTATING, PARITIES};

/* The call that is under way when a copy is saved: none, format, rebuild, or another one that stores. */
enum call { NONE, FORMAT, REBUILD, STORE };

/* What is saved beside array and log: record and list of one moment, and a note of the call under way. Two copies are
 * written by turns, in pages of their own; the one that has its sum and the higher count is the one that counts. */
enum { COPY_BYTES = 4096 };
struct copy {
    uint64_t count, version;
    uint8_t record[SHELF_RECORD_BYTES], under_way, list[4 * H + 16 * E];
    uint64_t sum;
};

/* The shelf while it is open: the record, the range with all members, the log, the list, and the copy saved last. */
static struct shelf_record shelf;
static uint8_t *array, *records, list[4 * H + 16 * E], data[BLOCKS * B];
static struct copy saved;
static int copies;
#define BUFFERS array, shelf_array_len(geometry), records, shelf_log_len(geometry), list, sizeof list

/* Ends the program if something did not work. */
static void need(int works, const char *what)
{
    if (!works) {
        fprintf(stderr, "%s does not work\n", what);
        exit(1);
    }
}

/* Ends the program if a call was refused, and hands on the record. */
static struct shelf_record accepted(struct shelf_answer answer, const char *what)
{
    if (answer.code != SHELF_OK) {
        fprintf(stderr, "%s: %s\n", what, shelf_text(answer.code));
        exit(1);
    }
    return answer.shelf;
}

/* A checksum of a copy's bytes but its last eight (FNV-1a). */
static uint64_t sum_of(const struct copy *copy)
{
    const uint8_t *bytes = (const uint8_t *)copy;
    uint64_t sum = 14695981039346656037u;

    for (size_t i = 0; i < offsetof(struct copy, sum); i++)
        sum = (sum ^ bytes[i]) * 1099511628211u;
    return sum;
}

/* Saves record and list, as they are, in the older copy, and waits until it is on the disk. */
static void save(enum call under_way)
{
    saved.count++;
    saved.version = SHELF_VERSION;
    saved.under_way = (uint8_t)under_way;
    shelf_save(shelf, saved.record);
    memcpy(saved.list, list, sizeof list);
    saved.sum = sum_of(&saved);
    need(pwrite(copies, &saved, sizeof saved, (off_t)(saved.count % 2 * COPY_BYTES)) == sizeof saved, "a copy");
    need(fdatasync(copies) == 0, "a copy");
}

/* Brings the members that are sound and the log to the disk, and then record and list as a call left them. */
static void settle(struct shelf_record after, enum call under_way)
{
    const size_t len = shelf_member_len(geometry);

    shelf = after;
    for (size_t member = 0; member < shelf_log_member(geometry); member++)
        need(shelf.failed[member] || msync(array + member * len, len, MS_SYNC) == 0, "a member");
    need(msync(records, shelf_log_len(geometry), MS_SYNC) == 0, "the log");
    save(under_way);
}

/* Maps a file at an address, or anywhere; a new one is made where that is asked. NULL if there is no such file. */
static uint8_t *map(const char *name, size_t len, uint8_t *at, int make)
{
    const int file = open(name, O_RDWR | (make ? O_CREAT : 0), 0600);

    if (file < 0)
        return NULL;
    need(ftruncate(file, (off_t)len) == 0, name);
    uint8_t *bytes = mmap(at, len, PROT_READ | PROT_WRITE, MAP_SHARED | (at == NULL ? 0 : MAP_FIXED), file, 0);
    need(bytes != MAP_FAILED && close(file) == 0, name);
    return bytes;
}

/* Maps the file of a member over its part of the range. Tells whether there is one. */
static int map_member(size_t member, int make)
{
    const size_t len = shelf_member_len(geometry);
    char name[32];

    snprintf(name, sizeof name, "member%zu", member);
    return map(name, len, array + member * len, make) != NULL;
}

/* Takes the copy that counts, if there is one. */
static void load(void)
{
    for (off_t n = 0; n < 2; n++) {
        struct copy read;
        if (pread(copies, &read, sizeof read, n * COPY_BYTES) == sizeof read && read.sum == sum_of(&read) &&
            read.count > saved.count)
            saved = read;
    }
    memcpy(list, saved.list, sizeof list);
    if (saved.count > 0)
        need(saved.version == SHELF_VERSION && shelf_load(saved.record, &shelf) &&
             memcmp(&shelf.geometry, &geometry, sizeof geometry) == 0, "the saved record");
}

/* Opens the shelf, and reports members whose files are lost; the note of a call that was cut short stays. For a new
 * shelf it makes the files. Hands back how many members were reported. */
static size_t open_shelf(int make)
{
    size_t lost = 0;

    array = mmap(NULL, shelf_array_len(geometry), PROT_NONE, MAP_PRIVATE | MAP_ANONYMOUS, -1, 0);
    records = map("log", shelf_log_len(geometry), NULL, make);
    copies = open("copies", O_RDWR | (make ? O_CREAT : 0), 0600);
    need(array != MAP_FAILED && records != NULL && copies >= 0, "the range, the log or the copies");
    load();
    for (size_t member = 0; member < shelf_log_member(geometry); member++)
        if (!map_member(member, make) && !shelf.failed[member]) {
            shelf = accepted(shelf_fail(shelf, member, BUFFERS), "fail");
            save(saved.under_way);
            lost++;
        }
    return lost;
}

/* Formats the shelf; the folder keeps the names of new files. */
static void format(void)
{
    const int folder = open(".", O_RDONLY);

    need(folder >= 0 && fsync(folder) == 0 && close(folder) == 0, "the folder");
    memset(&shelf, 0, sizeof shelf);
    shelf.geometry = geometry;
    save(FORMAT);
    settle(accepted(shelf_format(shelf, BUFFERS), "format"), NONE);
}

/* Writes blocks with the same byte in each. */
static void write_blocks(size_t address, size_t count, uint8_t byte)
{
    memset(data, byte, count * B);
    save(STORE);
    settle(accepted(shelf_write(shelf, address, count, data, count * B, BUFFERS), "write"), NONE);
}

/* Puts new files in the place of failed members. Hands back how many there are. */
static size_t replace_members(void)
{
    size_t failed = 0;

    for (size_t member = 0; member < shelf_log_member(geometry); member++)
        if (shelf.failed[member]) {
            need(map_member(member, 1), "a new member");
            failed++;
        }
    return failed;
}

/* Brings the shelf in order after a call that was cut short, and rebuilds failed members. All calls stand under the
 * note of the one that was cut short, until the last has ended. */
static void mend(void)
{
    const enum call cut = saved.under_way;

    if (cut == FORMAT) {
        format();
        return;
    }
    if (replace_members() > 0) {
        save(cut == NONE ? REBUILD : cut);
        settle(accepted(shelf_rebuild(shelf, BUFFERS), "rebuild"), cut == STORE ? STORE : NONE);
    }
    if (cut == STORE)
        settle(accepted(shelf_full_resync(shelf, BUFFERS), "full resync"), NONE);
}

/* How many of some blocks are fetched with this byte in all of theirs. */
static size_t count_blocks(size_t address, size_t count, uint8_t byte)
{
    size_t same = 0;

    shelf = accepted(shelf_fetch(shelf, address, count, data, count * B, BUFFERS), "fetch");
    for (size_t i = 0; i < count; i++)
        same += data[i * B] == byte && memcmp(data + i * B, data + i * B + 1, B - 1) == 0;
    return same;
}

/* How many blocks are whole: before the write that was cut short blocks 5 and 6 were 'b' and all others 'a', and it was
 * to make blocks 0 to 11 'c'. */
static size_t whole_blocks(void)
{
    return count_blocks(0, 5, 'a') + count_blocks(5, 2, 'b') + count_blocks(7, 5, 'a') + count_blocks(0, 12, 'c') +
           count_blocks(12, BLOCKS - 12, 'a');
}

/* The first life: makes a shelf, writes all blocks, puts parity off, and dies in the middle of a write: a block on
 * which it comes to store is write-protected. */
static void write_and_die(void)
{
    const struct rlimit no_core = {0, 0};

    open_shelf(1);
    format();
    write_blocks(0, BLOCKS, 'a');
    settle(accepted(shelf_start(shelf, BUFFERS), "start"), NONE);
    write_blocks(5, 2, 'b');
    need(setrlimit(RLIMIT_CORE, &no_core) == 0 && mprotect(array + 2 * B, B, PROT_READ) == 0, "the protection");
    write_blocks(0, 12, 'c');
}

/* The other lives: opens the shelf, brings it in order and looks at all blocks. */
static void start_again(void)
{
    const size_t lost = open_shelf(0);

    printf("started: %s call was cut short, members lost: %zu\n", saved.under_way == NONE ? "no" : "a", lost);
    if (saved.under_way == NONE)
        printf("%zu of %d blocks are fetched\n", whole_blocks(), BLOCKS);
    mend();
    printf("in order: %zu of %d blocks are whole, %zu of them new\n", whole_blocks(), BLOCKS, count_blocks(0, 12, 'c'));
}

/* Lives once, in a process of its own. Tells whether it came to its end. */
static int live(void (*life)(void))
{
    int status;

    fflush(stdout);
    const pid_t process = fork();
    if (process == 0) {
        life();
        exit(0);
    }
    need(process > 0 && waitpid(process, &status, 0) == process, "a process");
    return WIFEXITED(status) && WEXITSTATUS(status) == 0;
}

int main(int argc, char **argv)
{
    need(argc < 2 || chdir(argv[1]) == 0, "the folder");
    printf("the writer %s\n", live(write_and_die) ? "came to its end" : "died in the middle of a write");
    need(live(start_again), "the second life");
    need(unlink("member1") == 0, "member1");
    need(live(start_again), "the third life");
    return 0;
}

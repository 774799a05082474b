/* The bare system calls for some blocks of a disc's image, and the least that a drive of this image does with them.
   usage: bare run IMAGE

   Each line of its input has the words WHAT TOTAL FIRST BLOCKS GROUP KEPT, and is answered by its number and `good`, as the drive
   answers, so that both are measured in the same way.

   The image has TOTAL blocks. BLOCKS of them from FIRST on are used, in groups of GROUP. They are the disc's logical blocks, none
   of them replaced, and have whole bytes. The data of a group lie one after another, as those of a command do.

   pending       the data of sixteen blocks after another are made and copied to those of the group, as they are pending in a cache
                 after such commands; nothing is written
   write         each block is written and read back, and nothing is looked at
   marked-write  the same, with the state byte of each block written before its data and again after them, as the image asks of
                 any drive
   kept-write    the same, and what is read back of the last KEPT blocks is kept. It goes into the room whose data were written last,
                 and that of the oldest kept block is one for pending data then
   read          each block is read to its place, and nothing is looked at
   least-write   the state bytes of 64 blocks are read at a time, and the data of a group of blocks are made; of each block its
                 state byte is written, its data, and its state byte again; then its data are read back
   least-read    the state bytes of 64 blocks are read at a time, and the data of each block of a group to its place; then
                 each byte of a sector is compared with its first one, sixteen at a time, as for its line in the report, and
                 those of the last KEPT blocks are moved into the blocks that are kept in the same pass
   moved-read    the same in two passes, as the drive has it: the last KEPT blocks are moved, and then all are looked at */
#include <fcntl.h>
#include <stdio.h>
#include <stdlib.h>
#include <string.h>
#include <unistd.h>

enum { SECTOR_BYTES = 2048, BLOCK_BYTES = 32768, HEADER_BYTES = 16, STATES = 64 };

enum { MOST_GROUP = 64, MOST_KEPT = 8, COMMAND = 16 };

static char data[MOST_GROUP * BLOCK_BYTES];

static char command[COMMAND * BLOCK_BYTES];

static char kept_blocks[MOST_KEPT + 1][BLOCK_BYTES];

/* Where the data of each block of a group lie, what is read back, and what was read back of the blocks that are kept. */
static char *rooms[MOST_GROUP], *read_back, *kept_rooms[MOST_KEPT];

static volatile int fills;

static int file;

static long total, first_block, group, kept, oldest;

static void moved(ssize_t bytes, ssize_t due) {
    if (bytes != due) {
        perror("bare");
        exit(1);
    }
}

static off_t data_place(long i) {
    return HEADER_BYTES + total + (first_block + i) * BLOCK_BYTES;
}

static void write_data(long i, const char *from) {
    moved(pwrite(file, from, BLOCK_BYTES, data_place(i)), BLOCK_BYTES);
}

static void read_data(long i, char *into) {
    moved(pread(file, into, BLOCK_BYTES, data_place(i)), BLOCK_BYTES);
}

static void write_state(long i, char state) {
    moved(pwrite(file, &state, 1, HEADER_BYTES + first_block + i), 1);
}

static void read_states(long i) {
    char states[STATES];
    moved(pread(file, states, STATES, HEADER_BYTES + first_block + i), STATES);
}

static void make(long first) {
    memset(data, (char)first, group * BLOCK_BYTES);
}

static void take_pending(long first) {
    for (long k = 0; k < group; k++) {
        const long at = k % COMMAND;
        if (at == 0)
            memset(command, (char)(first + k), sizeof command);
        memcpy(rooms[k], command + at * BLOCK_BYTES, BLOCK_BYTES);
    }
}

static void bare_write(long first) {
    for (long k = 0; k < group; k++) {
        write_data(first + k, rooms[k]);
        read_data(first + k, read_back);
    }
}

static void bare_read(long first) {
    for (long k = 0; k < group; k++)
        read_data(first + k, data + k * BLOCK_BYTES);
}

static void mark_and_write(long i, const char *from) {
    write_state(i, 2);
    write_data(i, from);
    write_state(i, 1);
    read_data(i, read_back);
}

static void marked_write(long first) {
    for (long k = 0; k < group; k++)
        mark_and_write(first + k, rooms[k]);
}

static void kept_write(long first) {
    for (long k = 0; k < group; k++) {
        mark_and_write(first + k, rooms[k]);
        char *const left = kept_rooms[oldest];
        kept_rooms[oldest] = read_back;
        read_back = rooms[k];
        rooms[k] = left;
        oldest = (oldest + 1) % kept;
    }
}

static void least_write(long first) {
    make(first);
    if (first % STATES == 0)
        read_states(first);
    marked_write(first);
}

typedef char Row __attribute__((vector_size(16), aligned(1), may_alias));

enum { SECTOR_ROWS = SECTOR_BYTES / (int)sizeof(Row) };

static int is_none(Row found) {
    const Row none = {0};
    return memcmp(&found, &none, sizeof none) == 0;
}

static int is_fill(const char *sector) {
    const Row *rows = (const Row *)sector;
    const Row none = {0}, byte = none + sector[0];
    Row found = none;
    for (int k = 0; k < SECTOR_ROWS; k += 4)
        found |= (rows[k] ^ byte) | (rows[k + 1] ^ byte) | (rows[k + 2] ^ byte) | (rows[k + 3] ^ byte);
    return is_none(found);
}

static int is_fill_moved(char *into, const char *sector) {
    Row *moved_rows = (Row *)into;
    const Row *rows = (const Row *)sector;
    const Row none = {0}, byte = none + sector[0];
    Row found = none;
    for (int k = 0; k < SECTOR_ROWS; k++) {
        moved_rows[k] = rows[k];
        found |= rows[k] ^ byte;
    }
    return is_none(found);
}

static void least_read(long first) {
    const long passed = group < kept ? 0 : group - kept;
    if (first % STATES == 0)
        read_states(first);
    for (long k = 0; k < group; k++)
        read_data(first + k, data + k * BLOCK_BYTES);
    for (long at = 0; at < passed * BLOCK_BYTES; at += SECTOR_BYTES)
        fills += is_fill(data + at);
    for (long k = passed; k < group; k++)
        for (long at = 0; at < BLOCK_BYTES; at += SECTOR_BYTES)
            fills += is_fill_moved(kept_blocks[(first + k) % MOST_KEPT] + at, data + k * BLOCK_BYTES + at);
}

static void moved_read(long first) {
    if (first % STATES == 0)
        read_states(first);
    for (long k = 0; k < group; k++) {
        char *const place = data + k * BLOCK_BYTES;
        read_data(first + k, place);
        if (group <= k + kept)
            memcpy(kept_blocks[(first + k) % MOST_KEPT], place, BLOCK_BYTES);
    }
    for (long at = 0; at < group * BLOCK_BYTES; at += SECTOR_BYTES)
        fills += is_fill(data + at);
}

static const struct {
    const char *what;
    void (*over_group)(long first);
} loops[] = {
    {"pending", take_pending}, {"write", bare_write},       {"marked-write", marked_write}, {"kept-write", kept_write},
    {"read", bare_read},       {"least-write", least_write}, {"least-read", least_read},     {"moved-read", moved_read},
};

enum { LOOPS = sizeof loops / sizeof *loops };

static void give_rooms(void) {
    for (long k = 0; k < MOST_GROUP; k++)
        rooms[k] = data + k * BLOCK_BYTES;
    for (long k = 0; k < MOST_KEPT; k++)
        kept_rooms[k] = kept_blocks[k];
    read_back = kept_blocks[MOST_KEPT];
}

/* The loop of this name, or LOOPS where there is none. */
static int loop_of(const char *what) {
    int found = 0;
    while (found < LOOPS && strcmp(what, loops[found].what) != 0)
        found++;
    return found;
}

int main(int count, char **words) {
    if (count != 3)
        return 2;
    file = open(words[2], O_RDWR);
    memset(data, 0xaa, sizeof data);
    give_rooms();
    char what[16];
    long blocks;
    for (long line = 1; scanf("%15s%ld%ld%ld%ld%ld", what, &total, &first_block, &blocks, &group, &kept) == 6; line++) {
        const int loop = loop_of(what);
        if (loop == LOOPS || group < 1 || group > MOST_GROUP || kept < 1 || kept > MOST_KEPT)
            return 2;
        for (long first = 0; first + group <= blocks; first += group)
            loops[loop].over_group(first);
        printf("%ld good\n", line);
        fflush(stdout);
    }
    return 0;
}

/* Lets the tools of sg3_utils speak to a drive by its control socket: a library that is loaded before the C library.
 *
 *     cc -O2 -shared -fPIC -o dvdram_sg.so dvdram_sg.c -ldl
 *     LD_PRELOAD=./dvdram_sg.so DVDRAM_CONTROL=disk.ctl sg_inq /dev/dvdram
 *
 * The path /dev/dvdram, or that of DVDRAM_DEVICE, is a block device whose SG_IO is a `cdb` line. The sense of a command that
 * is checked is what the drive replies to REQUEST SENSE. A command for which there is no answer ends with a host status.
 */
#define _GNU_SOURCE
#include <dlfcn.h>
#include <errno.h>
#include <fcntl.h>
#include <stdarg.h>
#include <stdio.h>
#include <stdlib.h>
#include <string.h>
#include <unistd.h>
#include <linux/cdrom.h>
#include <scsi/sg.h>
#include <sys/ioctl.h>
#include <sys/socket.h>
#include <sys/stat.h>
#include <sys/sysmacros.h>
#include <sys/un.h>

enum { MOST_FILES = 1024, SECTOR = 2048, SENSE = 18, CHECK_CONDITION = 2, NO_CONNECT = 1, SG_VERSION = 30536 };

/* A channel to the control socket: its file, as a stream of answers and one of lines. */
struct channel {
    FILE *answers;
    FILE *lines;
};

/* The channels, by the numbers of their files. */
static struct channel channels[MOST_FILES];

static int is_drive(const char *path)
{
    const char *device = getenv("DVDRAM_DEVICE");
    return path && !strcmp(path, device ? device : "/dev/dvdram");
}

static struct channel *channel_of(int file)
{
    return file >= 0 && file < MOST_FILES && channels[file].lines ? &channels[file] : NULL;
}

static int connect_drive(void)
{
    struct sockaddr_un address = { .sun_family = AF_UNIX };
    const char *path = getenv("DVDRAM_CONTROL");
    int file = socket(AF_UNIX, SOCK_STREAM | SOCK_CLOEXEC, 0);
    if (file < 0)
        return -1;
    if (path && strlen(path) < sizeof address.sun_path && file < MOST_FILES) {
        strcpy(address.sun_path, path);
        if (!connect(file, (struct sockaddr *)&address, sizeof address)) {
            channels[file] = (struct channel){ fdopen(dup(file), "r"), fdopen(dup(file), "w") };
            return file;
        }
    }
    close(file);
    errno = ENXIO;
    return -1;
}

static void *next(const char *name)
{
    return dlsym(RTLD_NEXT, name);
}

static int open_by(const char *name, const char *path, int flags, mode_t mode)
{
    if (is_drive(path))
        return connect_drive();
    return ((int (*)(const char *, int, ...))next(name))(path, flags, mode);
}

static mode_t mode_in(int flags, va_list words)
{
    return flags & (O_CREAT | __O_TMPFILE) ? va_arg(words, mode_t) : 0;
}

#define OPENS(name)                                      \
    int name(const char *path, int flags, ...)           \
    {                                                    \
        va_list words;                                   \
        va_start(words, flags);                          \
        mode_t mode = mode_in(flags, words);             \
        va_end(words);                                   \
        return open_by(#name, path, flags, mode);        \
    }
OPENS(open)
OPENS(open64)

/* What a fortified program calls in their place. */
int __open_2(const char *path, int flags)
{
    return open_by("open", path, flags, 0);
}

int __open64_2(const char *path, int flags)
{
    return open_by("open64", path, flags, 0);
}

int close(int file)
{
    struct channel *channel = channel_of(file);
    if (channel) {
        fclose(channel->answers);
        fclose(channel->lines);
        *channel = (struct channel){ NULL, NULL };
    }
    return ((int (*)(int))next("close"))(file);
}

static int describe(struct stat *status)
{
    memset(status, 0, sizeof *status);
    status->st_mode = S_IFBLK | 0660;
    status->st_rdev = makedev(11, 0);
    return 0;
}

int stat(const char *restrict path, struct stat *restrict status)
{
    if (is_drive(path))
        return describe(status);
    return ((int (*)(const char *, struct stat *))next("stat"))(path, status);
}

int fstat(int file, struct stat *status)
{
    if (channel_of(file))
        return describe(status);
    return ((int (*)(int, struct stat *))next("fstat"))(file, status);
}

/* With 64 bits both kinds of struct stat are one. */
int stat64(const char *restrict path, struct stat64 *restrict status)
{
    return stat(path, (struct stat *)status);
}

int fstat64(int file, struct stat64 *status)
{
    return fstat(file, (struct stat *)status);
}

static void put_digits(FILE *lines, const unsigned char *bytes, size_t count)
{
    for (size_t at = 0; at < count; at++)
        fprintf(lines, "%02x", bytes[at]);
}

static unsigned char byte_at(const char *digits)
{
    char text[3] = { digits[0], digits[1], 0 };
    return strtoul(text, NULL, 16);
}

/* Appends what a row of an answer shows, `sector N fill XX`, `sector N hex ..` or `data N ..`, and gives the new length. */
static size_t take_row(char *row, unsigned char *data, size_t length, size_t room)
{
    char *digits = strrchr(row, ' ');
    int fills = strstr(row, " fill ") != NULL;
    size_t count = !strncmp(row, "data ", 5) ? strtoul(row + 5, NULL, 10) : SECTOR;
    for (size_t at = 0; digits && at < count && length < room; at++)
        data[length++] = byte_at(digits + 1 + (fills ? 0 : 2 * at));
    return length;
}

/* Sends a command, and takes its answer and its data. The answer is empty where the drive went away. */
static void exchange(struct channel *channel, const unsigned char *command, size_t size, const unsigned char *sent, size_t sent_size,
                     char answer[64], unsigned char *data, size_t room, size_t *length)
{
    char *row = NULL;
    size_t row_room = 0;
    answer[0] = 0;
    *length = 0;
    fputs("cdb ", channel->lines);
    put_digits(channel->lines, command, size);
    if (sent_size)
        fputs(" hex ", channel->lines);
    put_digits(channel->lines, sent, sent_size);
    fputc('\n', channel->lines);
    fflush(channel->lines);
    while (getline(&row, &row_room, channel->answers) > 1)
        if (!answer[0])
            snprintf(answer, 64, "%s", row);
        else
            *length = take_row(row, data, *length, room);
    free(row);
}

/* The sense of the command that was checked, as the drive itself replies it. */
static void take_sense(struct channel *channel, sg_io_hdr_t *header)
{
    static const unsigned char request_sense[6] = { 0x03, 0, 0, 0, SENSE, 0 };
    unsigned char sense[SENSE];
    char answer[64];
    size_t length;
    exchange(channel, request_sense, sizeof request_sense, NULL, 0, answer, sense, SENSE, &length);
    header->sb_len_wr = length < header->mx_sb_len ? length : header->mx_sb_len;
    memcpy(header->sbp, sense, header->sb_len_wr);
    header->status = CHECK_CONDITION;
    header->masked_status = CHECK_CONDITION >> 1;
    header->info = SG_INFO_CHECK;
}

static int do_command(struct channel *channel, sg_io_hdr_t *header)
{
    int sends = header->dxfer_direction == SG_DXFER_TO_DEV;
    char answer[64];
    size_t length;
    header->status = header->masked_status = header->sb_len_wr = 0;
    header->host_status = header->driver_status = header->resid = header->duration = header->info = 0;
    exchange(channel, header->cmdp, header->cmd_len, header->dxferp, sends ? header->dxfer_len : 0, answer,
             header->dxferp, sends ? 0 : header->dxfer_len, &length);
    if (!strncmp(answer, "check ", 6))
        take_sense(channel, header);
    else if (strcmp(answer, "good\n"))
        header->host_status = NO_CONNECT;
    if (!sends)
        header->resid = header->dxfer_len - length;
    return 0;
}

int ioctl(int file, unsigned long request, ...)
{
    va_list words;
    va_start(words, request);
    void *argument = va_arg(words, void *);
    va_end(words);
    struct channel *channel = channel_of(file);
    if (!channel)
        return ((int (*)(int, unsigned long, ...))next("ioctl"))(file, request, argument);
    switch (request) {
    case SG_IO:
        return do_command(channel, argument);
    case SG_GET_VERSION_NUM:
        *(int *)argument = SG_VERSION;
        return 0;
    }
    errno = ENOTTY;
    return -1;
}

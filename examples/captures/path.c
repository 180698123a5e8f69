/* A path to a logical unit over iSCSI for programs that send commands by the SG_IO call, where the kernel has no iSCSI:
 *     path PORTAL TARGET LUN NAME SOCKET      keeps one session, of the initiator iqn.2026-11.example:NAME, and serves SOCKET
 *     PATH_SOCKET=SOCKET LD_PRELOAD=./path.so sg_persist .. FILE      the same source as a library: SG_IO goes there
 *     PATH_ANSWER='STATUS HOST DRIVER ERROR SENSE' LD_PRELOAD=./path.so sg_persist .. FILE      each command is answered so
 * So sg_persist is the real one, and so is the target. An ANSWER is four numbers in hexadecimal, the last of which is the error of
 * the call itself, and the bytes of a sense or -. Built with: cc -o path path.c -liscsi; cc -shared -fPIC -DLIBRARY -o path.so path.c -ldl */
#define _GNU_SOURCE
#include <dlfcn.h>
#include <errno.h>
#include <stdarg.h>
#include <stdio.h>
#include <stdlib.h>
#include <string.h>
#include <sys/socket.h>
#include <sys/un.h>
#include <unistd.h>
#include <scsi/sg.h>

struct asked { int cdb_size, out_size, in_size; unsigned char cdb[16], out[8192]; };
struct answered { int status, sense_size, in_size; unsigned char sense[252], in[16384]; };

static int connected(const char *path, int serves)
{
    struct sockaddr_un at = {.sun_family = AF_UNIX};
    int it = socket(AF_UNIX, SOCK_STREAM, 0);
    strncpy(at.sun_path, path, sizeof at.sun_path - 1);
    if (serves ? bind(it, (struct sockaddr *)&at, sizeof at) || listen(it, 1) : connect(it, (struct sockaddr *)&at, sizeof at))
        exit(9);
    return it;
}

static int whole(int from, void *to, size_t size)
{
    return recv(from, to, size, MSG_WAITALL) == (ssize_t)size;
}

#ifdef LIBRARY
/* What the environment says, in place of what a unit would answer. */
static int chosen(const char *answer, struct sg_io_hdr *it)
{
    unsigned status, host, driver, error, byte;
    char sense[2 * 252 + 1];
    if (sscanf(answer, "%x %x %x %x %504s", &status, &host, &driver, &error, sense) != 5)
        exit(9);
    it->status = status;
    it->masked_status = status >> 1 & 0x1f;
    it->host_status = host;
    it->driver_status = driver;
    for (it->sb_len_wr = 0; it->sb_len_wr < it->mx_sb_len && sscanf(sense + 2 * it->sb_len_wr, "%2x", &byte) == 1; it->sb_len_wr++)
        it->sbp[it->sb_len_wr] = byte;
    it->resid = it->dxfer_len;
    it->info = status || host || driver ? SG_INFO_CHECK : 0;
    errno = error;
    return error ? -1 : 0;
}

int ioctl(int fd, unsigned long request, ...)
{
    static int (*real)(int, unsigned long, ...);
    va_list rest;
    va_start(rest, request);
    void *given = va_arg(rest, void *);
    va_end(rest);
    if (!real)
        real = dlsym(RTLD_NEXT, "ioctl");
    if (request != SG_IO)
        return real(fd, request, given);
    struct sg_io_hdr *it = given;
    if (getenv("PATH_ANSWER"))
        return chosen(getenv("PATH_ANSWER"), it);
    static struct asked asked;
    static struct answered told;
    memset(&asked, 0, sizeof asked);
    asked.cdb_size = it->cmd_len;
    memcpy(asked.cdb, it->cmdp, it->cmd_len);
    if (it->dxfer_direction == SG_DXFER_TO_DEV)
        memcpy(asked.out, it->dxferp, asked.out_size = it->dxfer_len);
    else if (it->dxfer_direction == SG_DXFER_FROM_DEV)
        asked.in_size = it->dxfer_len;
    int unit = connected(getenv("PATH_SOCKET"), 0);
    if (write(unit, &asked, sizeof asked) != sizeof asked || !whole(unit, &told, sizeof told))
        exit(9);
    close(unit);
    it->status = told.status;
    it->masked_status = told.status >> 1 & 0x1f;
    it->host_status = it->driver_status = 0;
    it->sb_len_wr = told.sense_size < it->mx_sb_len ? told.sense_size : it->mx_sb_len;
    memcpy(it->sbp, told.sense, it->sb_len_wr);
    if (asked.in_size > 0)
        memcpy(it->dxferp, told.in, told.in_size);
    it->resid = asked.in_size > 0 ? asked.in_size - told.in_size : 0;
    it->info = told.status ? SG_INFO_CHECK : 0;
    return 0;
}
#else
#include <iscsi/iscsi.h>
#include <iscsi/scsi-lowlevel.h>

int main(int words, char **word)
{
    char initiator[64];
    if (words != 6)
        return 2;
    snprintf(initiator, sizeof initiator, "iqn.2026-11.example:%s", word[4]);
    struct iscsi_context *session = iscsi_create_context(initiator);
    iscsi_set_targetname(session, word[2]);
    iscsi_set_session_type(session, ISCSI_SESSION_NORMAL);
    iscsi_set_header_digest(session, ISCSI_HEADER_DIGEST_NONE);
    iscsi_set_isid_random(session, word[4][0], 0);
    if (iscsi_connect_sync(session, word[1]) != 0 || iscsi_login_sync(session) != 0)
        return 1;
    int served = connected(word[5], 1);
    static struct asked asked;
    static struct answered told;
    for (;;) {
        int from = accept(served, NULL, NULL);
        if (!whole(from, &asked, sizeof asked))
            continue;
        struct scsi_task *task = calloc(1, sizeof *task);
        struct iscsi_data data = {asked.out_size, asked.out};
        task->cdb_size = asked.cdb_size;
        memcpy(task->cdb, asked.cdb, asked.cdb_size);
        task->xfer_dir = asked.out_size ? SCSI_XFER_WRITE : asked.in_size ? SCSI_XFER_READ : SCSI_XFER_NONE;
        task->expxferlen = asked.out_size ? asked.out_size : asked.in_size;
        if (!iscsi_scsi_command_sync(session, atoi(word[3]), task, asked.out_size ? &data : NULL))
            return 1;
        memset(&told, 0, sizeof told);
        told.status = task->status;
        if (task->status == SCSI_STATUS_CHECK_CONDITION && task->datain.size > 2) {
            told.sense_size = task->datain.size - 2;
            memcpy(told.sense, task->datain.data + 2, told.sense_size);
        } else if (task->datain.size > 0)
            memcpy(told.in, task->datain.data, told.in_size = task->datain.size);
        scsi_free_scsi_task(task);
        if (write(from, &told, sizeof told) != sizeof told)
            return 1;
        close(from);
    }
}
#endif

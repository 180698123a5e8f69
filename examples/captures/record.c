/* Sends commands to a logical unit over iSCSI, each from the initiator that is named, and prints the status of each.
 *     record PORTAL TARGET LUN < COMMANDS
 * A line of COMMANDS is a name, the bytes of a command descriptor block and the bytes that go out with it (or -), both in
 * hexadecimal. Each name logs in when its first command comes, as the initiator iqn.2026-11.example:NAME. A WRITE sends blocks
 * of zeros. The next line waits for the answer, but two more words, COUNT and DEPTH, say: send it COUNT times, DEPTH of them at once,
 * and go on beside it. `NAME wait N` waits until N of these were answered. Built with: cc -o record record.c -liscsi */
#include <iscsi/iscsi.h>
#include <iscsi/scsi-lowlevel.h>
#include <poll.h>
#include <stdio.h>
#include <stdlib.h>
#include <string.h>

#define MOST_NAMES 8
static const char *portal, *target;
static int lun;
/* A command that is sent again and again beside the others. */
struct repeated {
    char cdb[64], out[512];
    int left, depth, under_way, answered;
};
static struct nexus {
    char name[17];
    struct iscsi_context *session;
    struct repeated repeated;
} nexuses[MOST_NAMES];
static unsigned char zeros[1 << 20];

static void failed(struct nexus *it)
{
    fprintf(stderr, "%s: %s\n", it->name, iscsi_get_error(it->session));
    exit(1);
}

static struct nexus *nexus_of(const char *name)
{
    char initiator[64];
    int at;
    for (at = 0; at < MOST_NAMES && nexuses[at].session; at++)
        if (strcmp(nexuses[at].name, name) == 0)
            return &nexuses[at];
    if (at == MOST_NAMES)
        exit(1);
    snprintf(initiator, sizeof initiator, "iqn.2026-11.example:%s", name);
    struct nexus *it = &nexuses[at];
    strncpy(it->name, name, 16);
    it->session = iscsi_create_context(initiator);
    iscsi_set_targetname(it->session, target);
    iscsi_set_session_type(it->session, ISCSI_SESSION_NORMAL);
    iscsi_set_header_digest(it->session, ISCSI_HEADER_DIGEST_NONE);
    iscsi_set_isid_random(it->session, at + 1, 0);
    if (iscsi_connect_sync(it->session, portal) != 0 || iscsi_login_sync(it->session) != 0)
        failed(it);
    return it;
}

static int bytes_of(const char *digits, unsigned char *to, int most)
{
    int count = 0;
    unsigned byte;
    if (strcmp(digits, "-") == 0)
        return 0;
    for (; count < most && sscanf(digits + 2 * count, "%2x", &byte) == 1; count++)
        to[count] = byte;
    return count;
}

/* How many bytes of blocks a READ or WRITE moves. */
static int size_of_blocks(const unsigned char *cdb)
{
    return 512 * (cdb[0] & 0x80 ? cdb[12] << 8 | cdb[13] : cdb[7] << 8 | cdb[8]);
}

static void is_done(struct iscsi_context *session, int status, void *task, void *private)
{
    (void)session, (void)task;
    *(int *)private = status;
}

static void next_ones(struct nexus *it);

static void is_done_again(struct iscsi_context *session, int status, void *task, void *private)
{
    struct nexus *it = private;
    (void)session;
    printf("%s %s %02x\n", it->name, it->repeated.cdb, status);
    scsi_free_scsi_task(task);
    it->repeated.under_way--;
    it->repeated.answered++;
    next_ones(it);
}

static struct scsi_task *sends(struct nexus *it, const char *cdb, const char *out, iscsi_command_cb done, void *private)
{
    struct scsi_task *task = calloc(1, sizeof *task);
    /* (what goes out has to last until it is sent, which may be later) */
    unsigned char *sent = malloc(256);
    struct iscsi_data data = {bytes_of(out, sent, 256), sent};
    task->cdb_size = bytes_of(cdb, task->cdb, SCSI_CDB_MAX_SIZE);
    if (task->cdb[0] == 0x2a || task->cdb[0] == 0x8a) {
        data.size = size_of_blocks(task->cdb);
        data.data = zeros;
    }
    if (data.size > 0) {
        task->xfer_dir = SCSI_XFER_WRITE;
        task->expxferlen = data.size;
    } else if (strchr("\x5e\x28\x88\x03\x12", task->cdb[0])) {
        task->xfer_dir = SCSI_XFER_READ;
        task->expxferlen = task->cdb[0] == 0x28 || task->cdb[0] == 0x88 ? size_of_blocks(task->cdb)
            : task->cdb[0] == 0x5e ? task->cdb[7] << 8 | task->cdb[8] : task->cdb[4];
    }
    if (iscsi_scsi_command_async(it->session, lun, task, done, data.size > 0 ? &data : NULL, private) != 0)
        failed(it);
    return task;
}

static void next_ones(struct nexus *it)
{
    struct repeated *of = &it->repeated;
    for (; of->left > 0 && of->under_way < of->depth; of->left--, of->under_way++)
        sends(it, of->cdb, of->out, is_done_again, it);
}

/* Sends what waits to be sent, and takes the answers that have come. */
static void goes_on(void)
{
    struct pollfd ways[MOST_NAMES];
    int count;
    for (count = 0; count < MOST_NAMES && nexuses[count].session; count++) {
        ways[count].fd = iscsi_get_fd(nexuses[count].session);
        ways[count].events = iscsi_which_events(nexuses[count].session);
    }
    if (poll(ways, count, 1000) < 0)
        exit(1);
    for (int at = 0; at < count; at++)
        if (iscsi_service(nexuses[at].session, ways[at].revents) < 0)
            failed(&nexuses[at]);
}

int main(int words, char **word)
{
    char line[1024], name[17], cdb[64], out[512];
    int count, depth, found;
    if (words != 4)
        return 2;
    portal = word[1], target = word[2], lun = atoi(word[3]);
    while (fgets(line, sizeof line, stdin)) {
        found = sscanf(line, "%16s %63s %511s %d %d", name, cdb, out, &count, &depth);
        if (found < 3)
            continue;
        struct nexus *it = nexus_of(name);
        if (strcmp(cdb, "wait") == 0) {
            while (it->repeated.answered < atoi(out))
                goes_on();
        } else if (found == 5) {
            it->repeated.left = count, it->repeated.depth = depth, it->repeated.answered = 0;
            strcpy(it->repeated.cdb, cdb), strcpy(it->repeated.out, out);
            next_ones(it);
        } else {
            int status = -1;
            struct scsi_task *task = sends(it, cdb, out, is_done, &status);
            while (status == -1)
                goes_on();
            printf("%s %s %02x\n", name, cdb, task->status);
            scsi_free_scsi_task(task);
        }
    }
    for (int at = 0; at < MOST_NAMES && nexuses[at].session; at++) {
        while (nexuses[at].repeated.left > 0 || nexuses[at].repeated.under_way > 0)
            goes_on();
        iscsi_logout_sync(nexuses[at].session);
    }
    return 0;
}

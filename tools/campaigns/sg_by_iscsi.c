// Loaded before the C library, it lets tools that ask a SCSI generic device of Linux ask a unit behind an iSCSI target.
// A file whose name begins with `iscsi://` is opened by a login there, and each SG_IO on it is a SCSI command. So each
// program that is started is an initiator of its own, whose name is that of SG_INITIATOR. At most one is open at a time.
//
// It is compiled with -shared -fPIC and -liscsi -ldl.
#define _GNU_SOURCE
#include <dlfcn.h>
#include <errno.h>
#include <fcntl.h>
#include <iscsi/iscsi.h>
#include <iscsi/scsi-lowlevel.h>
#include <scsi/sg.h>
#include <stdarg.h>
#include <stdint.h>
#include <stdlib.h>
#include <string.h>
#include <unistd.h>

static struct iscsi_context *session;
static int unit, file = -1;

// Logs in where a name says, and gives a file that stands for it.
static int log_in(const char *name)
{
    const char *initiator = getenv("SG_INITIATOR");
    session = iscsi_create_context(initiator ? initiator : "iqn.2026-01.example:sg");
    struct iscsi_url *url = session ? iscsi_parse_full_url(session, name) : NULL;
    if (url == NULL) {
        errno = ENODEV;
        return -1;
    }
    iscsi_set_session_type(session, ISCSI_SESSION_NORMAL);
    iscsi_set_targetname(session, url->target);
    unit = url->lun;
    int ended = iscsi_full_connect_sync(session, url->portal, unit);
    iscsi_destroy_url(url);
    if (ended != 0) {
        errno = ENXIO;
        return -1;
    }
    int (*opened)(const char *, int, ...) = dlsym(RTLD_NEXT, "open");
    file = opened("/dev/null", O_RDWR);
    return file;
}

int open(const char *name, int flags, ...)
{
    if (strncmp(name, "iscsi://", 8) == 0)
        return log_in(name);
    va_list more;
    va_start(more, flags);
    int mode = va_arg(more, int);
    va_end(more);
    int (*next)(const char *, int, ...) = dlsym(RTLD_NEXT, "open");
    return next(name, flags, mode);
}

int open64(const char *name, int flags, ...)
{
    va_list more;
    va_start(more, flags);
    int mode = va_arg(more, int);
    va_end(more);
    return open(name, flags, mode);
}

// what the C library's headers make of an open without a mode
int __open_2(const char *name, int flags)
{
    return open(name, flags, 0);
}

int __open64_2(const char *name, int flags)
{
    return open(name, flags, 0);
}

int close(int closed)
{
    if (closed == file && file >= 0) {
        iscsi_logout_sync(session);
        iscsi_destroy_context(session);
        file = -1;
    }
    int (*next)(int) = dlsym(RTLD_NEXT, "close");
    return next(closed);
}

static void answered(struct sg_io_hdr *asked, const struct scsi_task *task)
{
    asked->status = task->status;
    asked->masked_status = task->status >> 1;
    if (task->status == SCSI_STATUS_CHECK_CONDITION && task->datain.size > 2) {
        int length = task->datain.size - 2;
        asked->sb_len_wr = length < asked->mx_sb_len ? length : asked->mx_sb_len;
        memcpy(asked->sbp, task->datain.data + 2, asked->sb_len_wr);
        asked->driver_status = 8; // there is sense data
        asked->resid = asked->dxfer_len;
    } else if (asked->dxfer_direction == SG_DXFER_FROM_DEV) {
        unsigned length = task->datain.size;
        length = length < asked->dxfer_len ? length : asked->dxfer_len;
        memcpy(asked->dxferp, task->datain.data, length);
        asked->resid = asked->dxfer_len - length;
    }
    asked->info = asked->status ? SG_INFO_CHECK : SG_INFO_OK;
}

static int execute(struct sg_io_hdr *asked)
{
    struct iscsi_data out = {.size = asked->dxfer_len, .data = asked->dxferp};
    struct scsi_task *task = calloc(1, sizeof *task);
    if (task == NULL || asked->cmd_len > sizeof task->cdb) {
        free(task);
        errno = EINVAL;
        return -1;
    }
    memcpy(task->cdb, asked->cmdp, asked->cmd_len);
    task->cdb_size = asked->cmd_len;
    task->expxferlen = asked->dxfer_len;
    int is_out = asked->dxfer_direction == SG_DXFER_TO_DEV, is_in = asked->dxfer_direction == SG_DXFER_FROM_DEV;
    task->xfer_dir = is_out ? SCSI_XFER_WRITE : is_in ? SCSI_XFER_READ : SCSI_XFER_NONE;
    asked->sb_len_wr = asked->host_status = asked->driver_status = asked->resid = 0;
    if (iscsi_scsi_command_sync(session, unit, task, is_out ? &out : NULL) == NULL) {
        scsi_free_scsi_task(task);
        errno = EIO;
        return -1;
    }
    answered(asked, task);
    scsi_free_scsi_task(task);
    return 0;
}

int ioctl(int asked, unsigned long request, ...)
{
    va_list more;
    va_start(more, request);
    void *value = va_arg(more, void *);
    va_end(more);
    if (asked == file && file >= 0) {
        if (request == SG_IO)
            return execute(value);
        errno = ENOTTY;
        return -1;
    }
    int (*next)(int, unsigned long, ...) = dlsym(RTLD_NEXT, "ioctl");
    return next(asked, request, value);
}

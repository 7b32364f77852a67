/* A daemon that answers packets: it reads them from a pipe, as a daemon reads those of the kernel, has
   the library look up what is to be mounted, and tells by which request it would answer.

   Here this program is the kernel too: it writes four packets into the pipe, the last of which is none.

       cc $(pkg-config --cflags dalvicna) answers_packets.c $(pkg-config --libs dalvicna)
*/
#include <linux/auto_fs.h>
#include <stdio.h>
#include <string.h>
#include <unistd.h>
#include "dalvicna.h"

static const char master[] = "/auto auto.home --timeout=60\n";
static const char map[] = "home -fstype=nfs,rw server:/export/home\n"
                          "* other:/all/&\n";

/* What the kernel does: a packet goes into the pipe. */
static void notify(int pipe, int type, unsigned token, const char *name)
{
    struct autofs_v5_packet packet;
    memset(&packet, 0, sizeof packet);
    packet.hdr.proto_version = AUTOFS_MAX_PROTO_VERSION;
    packet.hdr.type = type;
    packet.wait_queue_token = token;
    packet.dev = 2;
    packet.ino = 1;
    packet.pid = packet.tgid = 7;
    packet.len = (unsigned)strlen(name);
    memcpy(packet.name, name, strlen(name));
    if (write(pipe, &packet, sizeof packet) != (ssize_t)sizeof packet)
        perror("write");
}

/* How much of a buffer there is to print. */
static int size(uint64_t from, uint64_t to)
{
    return (int)(to - from);
}

/* Tells what is to be mounted for the name, and whether there is anything. */
static int mounts(const char *point, const uint8_t *name, size_t name_len)
{
    char found[4096];
    struct am_entry entry;
    struct am_place place;
    uint8_t fault = am_map_look_up((const uint8_t *)map, sizeof map - 1, false, name, name_len,
                                   (uint8_t *)found, sizeof found, &entry, &place);
    if (fault || !entry.found || entry.bytes > sizeof found)
        return 0;
    printf("mount -o '%.*s' %.*s:%.*s %s/%.*s\n", size(0, entry.host_at), found,
           size(entry.host_at, entry.path_at), found + entry.host_at, size(entry.path_at, entry.bytes),
           found + entry.path_at, point, (int)name_len, (const char *)name);
    return 1;
}

static void answer(const char *point, const uint8_t *bytes, size_t got)
{
    struct am_packet packet;
    uint8_t fault = am_packet_read(bytes, got, &packet);
    if (fault) {
        printf("no packet: test %u fails\n", fault);
        return;
    }
    const uint8_t *name = bytes + AM_PACKET_NAME;
    int done = 1;
    if (packet.kind == autofs_ptype_missing_indirect)
        done = mounts(point, name, packet.name_len);
    else
        printf("umount %s/%.*s\n", point, (int)packet.name_len, (const char *)name);
    printf("ioctl 0x%x with token %u\n", am_request_number(done ? AM_READY : AM_FAIL), packet.token);
}

int main(void)
{
    char point[256];
    struct am_master_line line;
    struct am_place place;
    int ends[2];
    uint8_t bytes[AM_PACKET_SIZE];
    ssize_t got;

    uint8_t fault = am_master_line((const uint8_t *)master, sizeof master - 1, 0, (uint8_t *)point,
                                   sizeof point - 1, &line, &place);
    if (fault || !line.found || line.bytes >= sizeof point || pipe(ends))
        return 1;
    point[line.map_at] = '\0';
    notify(ends[1], autofs_ptype_missing_indirect, 1, "home");
    notify(ends[1], autofs_ptype_missing_indirect, 2, "work");
    notify(ends[1], autofs_ptype_expire_indirect, 3, "home");
    notify(ends[1], autofs_ptype_missing_indirect, 4, "a/b");
    close(ends[1]);
    while ((got = read(ends[0], bytes, sizeof bytes)) > 0)
        answer(point, bytes, (size_t)got);
    return 0;
}

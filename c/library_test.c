/* Tests of the library from C, as a hostile caller makes them. tools/library.py builds and runs it.

   library_test own ROUNDS      all tests, with so many texts of odd bytes, and a map and a script of 500
                                times as many lines; the last line counts them
   library_test short           makes the calls that take memory twice: with an allocation that is refused,
                                each answer must be the whole one or a fault; it takes no memory of its own
   library_test example STEP FILE..
                                plays each FILE.script, and compares what is written with FILE.out, .trace,
                                .svg and .world: all of it, and with each STEPth room from 0 on, of pictures
                                with fewer; the last line counts them */
#define _GNU_SOURCE
#include <linux/auto_dev-ioctl.h>
#include <linux/auto_fs.h>
#include <malloc.h>
#include <pthread.h>
#include <stdio.h>
#include <stdlib.h>
#include <string.h>
#include <unistd.h>
#include "dalvicna.h"

enum { TEXT = 1 << 25, OUT = 1 << 16, ROOM = 1 << 25, CANARY = 0xa5 };

static uint8_t text[TEXT], out[OUT], room[ROOM];
static size_t len;
static int passed, failed;

static void is(int holds, const char *what)
{
    if (holds) {
        passed++;
    } else {
        failed++;
        printf("failed: %s\n", what);
    }
}

#define IS(fact) is((fact) != 0, #fact)

static int all_are(const uint8_t *bytes, size_t count, uint8_t byte)
{
    for (size_t i = 0; i < count; i++)
        if (bytes[i] != byte)
            return 0;
    return 1;
}

/* ---- Allocations that are refused ---- */

#define HEAD "master\n/auto auto.home --timeout=60\nend\nmap auto.home\nhome -ro srv:/export/&\nend\nevents\n"

static const char script[] = HEAD "attach /auto\nwalk 7 0 /auto/home 100 room\ndeliver 1\nact 1 ok\nact 1 ok\nact 1 ok\n"
                                  "act 1 ok\nresume 7 101 room\n";

enum view { PLAY, TRACE, PICTURE, WORLD };

static uint8_t view_of(enum view view, const uint8_t *of, size_t size, uint8_t *to, size_t cap, struct am_played *played)
{
    switch (view) {
    case PLAY:
        return am_play(of, size, to, cap, played);
    case TRACE:
        return am_trace(of, size, to, cap, played);
    case PICTURE:
        return am_draw(of, size, 1, UINT64_MAX, to, cap, played);
    default:
        return am_world(of, size, true, 0, to, cap, played);
    }
}

/* An event that finds no memory is answered so, and is refused. */
static int is_whole(uint8_t fault, const struct am_played *played)
{
    return fault == 0 && played->refused == 0;
}

/* Of two calls one has all the memory that it wants; the other is told so. */
static int short_of_room(enum view view)
{
    static uint8_t written[2][OUT];
    struct am_played played[2];
    uint8_t faults[2];
    for (int at = 0; at < 2; at++)
        faults[at] = view_of(view, (const uint8_t *)script, sizeof script - 1, written[at], OUT, &played[at]);
    int whole = is_whole(faults[0], &played[0]) ? 0 : 1, other = 1 - whole;
    int holds = is_whole(faults[whole], &played[whole]);
    if (is_whole(faults[other], &played[other]))
        return holds && played[0].bytes == played[1].bytes && memcmp(written[0], written[1], played[0].bytes) == 0;
    if (faults[other] == 0)
        return holds;
    holds &= faults[other] == AM_SCRIPT_NO_MEMORY || faults[other] == AM_SCRIPT_WRITE_FAILED;
    holds &= played[other].fault == faults[other] && played[other].line > 0 && played[other].lines == 0;
    return holds && (view == PICTURE || memcmp(written[0], written[1], played[other].bytes) == 0);
}

/* A world's calls with memory refused once: what is told so is had by the next try. */
static int short_of_a_world(void)
{
    static uint8_t whole[OUT], mine[OUT];
    struct am_played played;
    struct am_world world = AM_WORLD_NONE;
    const char *line = script + sizeof HEAD - 1;
    size_t bytes = 0;
    int refused = 0, holds = 1;
    if (am_new((const uint8_t *)script, sizeof HEAD - 1, &world, &played) != 0) {
        holds &= played.fault == AM_SCRIPT_NO_MEMORY && world.held == 0;
        holds &= am_new((const uint8_t *)script, sizeof HEAD - 1, &world, &played) == 0;
    }
    while (*line) {
        size_t size = (size_t)(strchr(line, '\n') - line);
        uint8_t fault = am_line(&world, (const uint8_t *)line, size, mine + bytes, sizeof mine - bytes, &played);
        if (fault == AM_SCRIPT_WRITE_FAILED) {
            holds &= played.line == 1 && played.bytes == 0;
            fault = am_answer(&world, mine + bytes, sizeof mine - bytes, &played);
        }
        holds &= fault == 0 && played.lines == 1;
        if (played.refused) {
            holds &= !refused++ && played.bytes == 7 && memcmp(mine + bytes, "err 10\n", 7) == 0;
            continue;
        }
        bytes += played.bytes;
        line += size + 1;
    }
    uint8_t fault = am_observed(&world, whole, sizeof whole, &played);
    holds &= fault == 0 || (fault == AM_SCRIPT_WRITE_FAILED && played.line == 0);
    holds &= am_observed(&world, whole, sizeof whole, &played) == 0 || fault == 0;
    fault = am_text(&world, true, 0, whole, sizeof whole, &played);
    holds &= fault == 0 || fault == AM_SCRIPT_WRITE_FAILED || fault == AM_SCRIPT_NO_MEMORY;
    holds &= am_text(&world, true, 0, whole, sizeof whole, &played) == 0 || fault == 0;
    am_free(&world);
    fault = am_play((const uint8_t *)script, sizeof script - 1, whole, sizeof whole, &played);
    if (!is_whole(fault, &played))
        fault = am_play((const uint8_t *)script, sizeof script - 1, whole, sizeof whole, &played);
    return holds && fault == 0 && played.bytes == bytes && memcmp(mine, whole, bytes) == 0;
}

/* The fault of a line that is joined has its place, unless there is no memory to join it. */
static int short_of_a_joined_line(void)
{
    static const char joined[] = "master\n/a x\nend\nmap x\nk \\\n srv\nend\nevents\n";
    struct am_played played;
    uint8_t fault = am_play((const uint8_t *)joined, sizeof joined - 1, out, sizeof out, &played);
    if (fault == AM_SCRIPT_NO_MEMORY)
        return played.column == 0 && played.expected == 0;
    return fault == AM_SCRIPT_BAD_MAP && played.line == 5
        && (played.column == 4 || (played.column == 0 && played.expected == 0));
}

static int short_of_memory(void)
{
    static const char map[] = "home -ro srv:/export/&\n", master[] = "/auto auto.home --timeout=60\n";
    static const char trace[] = "  mounted 3 4 5\n  unmounted 4 5\n  died\n";
    struct am_judged judged;
    struct am_entry entry;
    struct am_master_line told;
    struct am_place place = { .line = 0 };
    int holds = 1;
    uint8_t fault = am_map_look_up((const uint8_t *)map, sizeof map - 1, false, (const uint8_t *)"home", 4,
                                   out, sizeof out, &entry, &place);
    holds &= fault == 0 ? entry.bytes == 17 : fault == AM_MAP_NO_MEMORY;
    fault = am_master_line((const uint8_t *)master, sizeof master - 1, 0, out, sizeof out, &told, &place);
    holds &= fault == 0 ? told.timeout == 60 : fault == AM_MASTER_NO_MEMORY;
    fault = am_trace_holds((const uint8_t *)trace, sizeof trace - 1, &judged);
    holds &= fault == 0 ? judged.lawful == 1 : fault == AM_TRACE_NO_MEMORY && judged.line == 0;
    for (enum view view = PLAY; view <= WORLD; view++)
        holds &= short_of_room(view);
    holds &= short_of_a_world() && short_of_a_joined_line();
    return !holds;
}

/* ---- Packets and requests ---- */

union bytes {
    struct autofs_v5_packet packet;
    uint8_t bytes[sizeof(struct autofs_v5_packet)];
};

_Static_assert(AM_KIND_MISSING_INDIRECT == (int)autofs_ptype_missing_indirect, "kind 3");
_Static_assert(AM_KIND_EXPIRE_INDIRECT == (int)autofs_ptype_expire_indirect, "kind 4");
_Static_assert(AM_KIND_MISSING_DIRECT == (int)autofs_ptype_missing_direct, "kind 5");
_Static_assert(AM_KIND_EXPIRE_DIRECT == (int)autofs_ptype_expire_direct, "kind 6");

static union bytes packet_of(int kind, const char *name)
{
    union bytes made;
    memset(&made, 0, sizeof made);
    made.packet.hdr.proto_version = 5;
    made.packet.hdr.type = kind;
    made.packet.wait_queue_token = 17;
    made.packet.dev = 2;
    made.packet.ino = 0x123456789abcull;
    made.packet.uid = 3;
    made.packet.gid = 4;
    made.packet.pid = 5;
    made.packet.tgid = 6;
    made.packet.len = (uint32_t)strlen(name);
    memcpy(made.packet.name, name, strlen(name));
    return made;
}

static void packets(void)
{
    union bytes made = packet_of(autofs_ptype_missing_indirect, "home");
    struct am_packet told, before;
    memset(&told, CANARY, sizeof told);
    IS(sizeof made == AM_PACKET_SIZE && offsetof(struct autofs_v5_packet, name) == AM_PACKET_NAME);
    IS(am_packet_read(made.bytes, sizeof made, &told) == 0);
    IS(told.kind == 3 && told.token == 17 && told.dev == 2 && told.ino == 0x123456789abcull);
    IS(told.uid == 3 && told.gid == 4 && told.pid == 5 && told.tgid == 6 && told.name_len == 4);
    IS(am_packet_read(made.bytes, 300, &told) == 0);

    uint8_t room[AM_PACKET_SIZE + 32];
    for (size_t cap = 0; cap <= AM_PACKET_SIZE + 8; cap++) {
        memset(room, CANARY, sizeof room);
        uint8_t fault = am_packet_write(&told, (const uint8_t *)"home", 4, room + 16, cap);
        if (cap < AM_PACKET_SIZE ? fault != AM_PACKET_LENGTH || !all_are(room, sizeof room, CANARY)
                                 : fault != 0 || memcmp(room + 16, made.bytes, AM_PACKET_SIZE) != 0
                    || !all_are(room, 16, CANARY) || !all_are(room + 16 + AM_PACKET_SIZE, 16, CANARY))
            failed++, printf("failed: a packet into %zu bytes\n", cap);
    }
    memset(&before, CANARY, sizeof before);
    told = before;
    IS(am_packet_read(NULL, 0, &told) == AM_PACKET_LENGTH);
    IS(am_packet_read(made.bytes, 303, &told) == AM_PACKET_LENGTH);
    made.packet.hdr.proto_version = 4;
    IS(am_packet_read(made.bytes, sizeof made, &told) == AM_PACKET_VERSION);
    made = packet_of(7, "home");
    IS(am_packet_read(made.bytes, sizeof made, &told) == AM_PACKET_KIND);
    made = packet_of(autofs_ptype_expire_indirect, "");
    IS(am_packet_read(made.bytes, sizeof made, &told) == AM_PACKET_NAME_LENGTH);
    made = packet_of(autofs_ptype_expire_indirect, "a/b");
    IS(am_packet_read(made.bytes, sizeof made, &told) == AM_PACKET_BAD_NAME);
    IS(memcmp(&told, &before, sizeof told) == 0);
    made = packet_of(autofs_ptype_missing_direct, "");
    IS(am_packet_read(made.bytes, sizeof made, &told) == 0 && told.kind == 5 && told.name_len == 0);
    IS(am_packet_write(&told, NULL, 0, room, sizeof room) == 0);
    IS(memcmp(room, made.bytes, AM_PACKET_SIZE) == 0);
    told.kind = 9;
    IS(am_packet_write(&told, NULL, 0, room, sizeof room) == AM_PACKET_KIND);
    told.kind = 3;
    IS(am_packet_write(&told, NULL, 0, room, sizeof room) == AM_PACKET_NAME_LENGTH);
    IS(am_packet_write(&told, (const uint8_t *)"..", 2, room, sizeof room) == AM_PACKET_BAD_NAME);
    told.kind = 5;
    IS(am_packet_write(&told, text, 256, room, sizeof room) == AM_PACKET_NAME_LENGTH);
}

static void requests(void)
{
    IS(am_request_number(AM_READY) == AUTOFS_IOC_READY);
    IS(am_request_number(AM_FAIL) == AUTOFS_IOC_FAIL);
    IS(am_request_number(AM_CATATONIC) == AUTOFS_IOC_CATATONIC);
    IS(am_request_number(AM_SETTIMEOUT) == AUTOFS_IOC_SETTIMEOUT);
    IS(am_request_number(AM_EXPIRE) == AUTOFS_IOC_EXPIRE_MULTI);
    IS(am_request_number(AM_SETPIPE) == AUTOFS_DEV_IOCTL_SETPIPEFD);
    IS(am_request_number(0) == 0 && am_request_number(7) == 0 && am_request_number(UINT32_MAX) == 0);
}

/* ---- Maps ---- */

#define ENTRY "options behind a dash, or a location host:/path"
#define MAP "a map, its name or file:name"
#define OPTION "--timeout with seconds below 2^32, another option, or the end of the line"

/* The fault stands at this byte of this line, where this was expected. */
static int is_at(const struct am_place *place, uint64_t line, uint64_t column, const char *words)
{
    uint8_t said[128];
    size_t size = strlen(words);
    return place->line == line && place->column == column && place->pad == 0
        && am_expected_words(place->expected, said, sizeof said) == size && memcmp(said, words, size) == 0;
}

static int is_kept(const struct am_place *place)
{
    return place->line == 77 && place->column == 77 && place->expected == 77 && place->pad == 77;
}

static uint8_t look_up(const char *map, bool direct, const char *key, struct am_entry *entry, struct am_place *place)
{
    memset(out, CANARY, 256);
    return am_map_look_up((const uint8_t *)map, strlen(map), direct, (const uint8_t *)key, strlen(key), out,
                          128, entry, place);
}

static void maps(void)
{
    static const char map[] = "# homes\nhome -ro,soft srv:/export/&\n* big:/all/&\n";
    struct am_entry entry, before;
    struct am_place place = { .line = 77, .column = 77, .expected = 77, .pad = 77 };
    IS(look_up(map, false, "home", &entry, &place) == 0 && is_kept(&place));
    IS(entry.found == 1 && entry.has_options == 1 && entry.host_at == 7 && entry.path_at == 10);
    IS(entry.bytes == 22 && memcmp(out, "ro,softsrv/export/home", 22) == 0 && all_are(out + 22, 100, CANARY));
    IS(look_up(map, false, "work", &entry, &place) == 0 && entry.has_options == 0 && entry.host_at == 0);
    IS(entry.bytes == 12 && entry.path_at == 3 && memcmp(out, "big/all/work", 12) == 0);
    IS(look_up("home srv:/home", false, "work", &entry, &place) == 0 && is_kept(&place));
    IS(entry.found == 0 && entry.bytes == 0 && all_are(out, 128, CANARY));
    IS(look_up("/a//b srv:/home", true, "/a/b", &entry, &place) == 0 && entry.found == 1);
    memset(&before, CANARY, sizeof before);
    entry = before;
    IS(look_up("a srv:/a\n\n/b srv:/b\n", false, "a", &entry, &place) == AM_MAP_BAD_KEY && is_at(&place, 3, 1, "a key of this kind of map"));
    IS(look_up("a - srv:/a", false, "a", &entry, &place) == AM_MAP_BAD_OPTION && is_at(&place, 1, 3, ENTRY));
    IS(look_up("a", false, "a", &entry, &place) == AM_MAP_NO_LOCATION && is_at(&place, 1, 2, ENTRY));
    IS(look_up("a srv", false, "a", &entry, &place) == AM_MAP_BAD_LOCATION && is_at(&place, 1, 3, ENTRY));
    IS(memcmp(&entry, &before, sizeof entry) == 0 && all_are(out, 128, CANARY));
    IS(am_map_look_up(NULL, 0, false, NULL, 0, NULL, 0, &entry, &place) == 0 && entry.found == 0);
    for (size_t cap = 0; cap <= 24; cap++) {
        size_t part = cap < 22 ? cap : 22;
        memset(out, CANARY, 64);
        am_map_look_up((const uint8_t *)map, sizeof map - 1, false, (const uint8_t *)"home", 4, out, cap, &entry,
                       &place);
        if (entry.bytes != 22 || memcmp(out, "ro,softsrv/export/home", part) != 0
            || !all_are(out + part, 64 - part, CANARY))
            failed++, printf("failed: an entry into %zu bytes\n", cap);
    }
}

static uint8_t line_of(const char *master, size_t at, struct am_master_line *told, struct am_place *place)
{
    memset(out, CANARY, 256);
    return am_master_line((const uint8_t *)master, strlen(master), at, out, 128, told, place);
}

static void masters(void)
{
    static const char master[] = "/auto auto.home --timeout=60\n\n/- auto.direct\n";
    struct am_master_line told, before;
    struct am_place place = { .line = 77, .column = 77, .expected = 77, .pad = 77 };
    IS(line_of(master, 0, &told, &place) == 0 && told.found == 1 && told.lines == 2 && told.line == 1);
    IS(told.timeout == 60 && told.direct == 0 && told.map_at == 5 && told.bytes == 14 && told.pad == 0);
    IS(memcmp(out, "/autoauto.home", 14) == 0 && all_are(out + 14, 100, CANARY));
    IS(line_of(master, 1, &told, &place) == 0 && told.direct == 1 && told.line == 3 && told.map_at == 0);
    IS(memcmp(out, "auto.direct", 11) == 0);
    IS(line_of(master, 2, &told, &place) == 0 && told.found == 0 && told.lines == 2 && told.bytes == 0);
    IS(line_of(master, SIZE_MAX, &told, &place) == 0 && told.found == 0 && is_kept(&place));
    memset(&before, CANARY, sizeof before);
    told = before;
    IS(line_of("auto x", 0, &told, &place) == AM_MASTER_BAD_POINT && is_at(&place, 1, 1, "/- or a path below /"));
    IS(line_of("/auto", 0, &told, &place) == AM_MASTER_NO_MAP && is_at(&place, 1, 6, MAP));
    IS(line_of("/a yp:x", 0, &told, &place) == AM_MASTER_BAD_TYPE && is_at(&place, 1, 4, MAP));
    IS(line_of("/a x --timeout=y", 0, &told, &place) == AM_MASTER_BAD_TIMEOUT && is_at(&place, 1, 6, OPTION));
    IS(line_of("/a x\n/a y\n", 0, &told, &place) == AM_MASTER_TWICE && is_at(&place, 2, 1, "a mount point that no line above has"));
    IS(memcmp(&told, &before, sizeof told) == 0 && all_are(out, 128, CANARY));
    IS(am_master_line(NULL, 0, 0, NULL, 0, &told, &place) == 0 && told.lines == 0);
}

/* ---- Scripts ---- */

static uint8_t plays(enum view view, const char *of, struct am_played *played)
{
    memset(out, CANARY, sizeof out);
    memset(played, CANARY, sizeof *played);
    return view_of(view, (const uint8_t *)of, strlen(of), out, sizeof out, played);
}

/* The script stops at this fault of this line, and that much is written before it. */
static int stops(const char *of, uint32_t fault, uint32_t detail, uint64_t line, const char *answers)
{
    struct am_played played;
    uint8_t number = plays(PLAY, of, &played);
    return number == fault && played.fault == fault && played.detail == detail && played.line == line
        && played.lines == 0 && played.refused == 0 && played.bytes == strlen(answers)
        && memcmp(out, answers, strlen(answers)) == 0
        && all_are(out + strlen(answers), sizeof out - strlen(answers), CANARY);
}

static int is_same(enum view view, const char *of, const char *written)
{
    struct am_played played;
    uint8_t number = plays(view, of, &played);
    return number == 0 && played.fault == 0 && played.line == 0 && played.detail == 0 && played.column == 0
        && played.expected == 0
        && played.bytes == strlen(written) && memcmp(out, written, strlen(written)) == 0
        && all_are(out + strlen(written), sizeof out - strlen(written), CANARY);
}

/* The fault of the script stands at this byte of its line, where this was expected. */
static int slips(const char *of, uint64_t column, const char *words)
{
    struct am_played played;
    uint8_t said[128];
    size_t size = strlen(words);
    return plays(PLAY, of, &played) != 0 && played.column == column
        && am_expected_words(played.expected, said, sizeof said) == size && memcmp(said, words, size) == 0;
}

static void places_of_faults(void)
{
    static const char event[] = "the word of an event", path[] = "a path, which begins with /", end[] = "the end of the line";
    IS(slips("events\ndead\n", 1, event) && slips("events\n  walks 1", 3, event));
    IS(slips("events\nattach", 7, path) && slips("events\nattach \n", 8, path));
    IS(slips("events\nwalk 7 0 auto 5 room\n", 10, path) && slips("events\nwalk\t7  0 auto 5 room\n", 11, path));
    IS(slips("events\nwalk 7 0 /a 5 rom\n", 15, "room, full or gone"));
    IS(slips("events\nwalk x 0 / 0 room\n", 6, "a walker, a number below 2^32"));
    IS(slips("events\nresume 1 18446744073709551616 room\n", 10, "a moment in seconds, a number below 2^64"));
    IS(slips("events\nact 1 ok 3\n", 10, end) && slips("events\ndie now\n", 5, end));
    IS(slips("events\nact 1 fail 10\n", 12, "the number of an error, 1 to 9, or the end of the line"));
    IS(slips("events\nnscopy 0 full\n", 10, "reduced or the end of the line"));
    IS(slips("walk\n", 1, "limits, negative, master, map or events"));
    IS(slips("\nmaster\n/auto auto.home\n", 1, "a line that is just end, below this one"));
    IS(slips("limits 0 1 1\n", 8, "a limit, a number from 1 to 4294967295"));
    IS(slips("limits 1 65537 1\n", 10, "the most waits, a number from 1 to 65536"));
    IS(slips("master\n/a x\n/a y\nend\n", 1, "a mount point that no line above has"));
    IS(slips("master\nauto x\nend\n", 1, "/- or a path below /"));
    IS(slips("master\n/a x\nend\nmap x\nk -ro srv\nend\nevents\n", 7, "a location host:/path"));
    IS(slips("master\n/a x\nend\nmap x\nk \\\n  srv\nend\nevents\n", 5,
             "options behind a dash, or a location host:/path"));
    IS(slips("master\n/a x\nend\nevents\n", 4, "the name of a map that has a section"));
    memset(text, 'x', 8193);
    text[8193] = 0;
    IS(slips((const char *)text, 8193, end));
    IS(am_expected_words(0, NULL, 0) == 0 && am_expected_words(UINT32_MAX, NULL, 0) == 0);
    memset(out, CANARY, 8);
    IS(am_expected_words(1, out, 3) == sizeof event - 1 && memcmp(out, "the", 3) == 0 && all_are(out + 3, 5, CANARY));
}

static void faults_of_scripts(void)
{
    IS(stops("walk\n", AM_SCRIPT_BAD_SECTION, 0, 1, ""));
    IS(stops("\nmaster\n/auto auto.home\n", AM_SCRIPT_BAD_SECTION, 0, 2, ""));
    IS(stops("limits 0 1 1\n", AM_SCRIPT_BAD_LIMITS, 0, 1, ""));
    IS(stops("master\n/a x\n/a y\nend\n", AM_SCRIPT_BAD_MASTER, AM_MASTER_TWICE, 3, ""));
    IS(stops("master\nauto x\nend\n", AM_SCRIPT_BAD_MASTER, AM_MASTER_BAD_POINT, 2, ""));
    IS(stops("master\n/a x\nend\nmap x\nk\nend\nevents\n", AM_SCRIPT_BAD_MAP, AM_MAP_NO_LOCATION, 5, ""));
    IS(stops("master\n/a x\nend\nmap x\nk srv\nend\nevents\n", AM_SCRIPT_BAD_MAP, AM_MAP_BAD_LOCATION, 5, ""));
    IS(stops("master\n/a x\nend\nevents\n", AM_SCRIPT_NO_SUCH_MAP, 0, 2, ""));
    IS(stops(HEAD "attach /auto\nattach\nattach /auto\n", AM_SCRIPT_BAD_EVENT, 0, 9, "fs 2 attach 1 mount 2\n"));
    memset(text, 'x', 8193);
    memcpy(text, "events\n# ", 9);
    text[8200] = 0;
    memset(text + 9, 'x', 8191);
    IS(stops((const char *)text, AM_SCRIPT_LONG_LINE, 0, 2, ""));
    text[8199] = 0;
    IS(is_same(PLAY, (const char *)text, ""));
}

static void scripts(void)
{
    struct am_played played;
    IS(plays(PLAY, script, &played) == 0 && played.lines == 8 && played.refused == 0);
    IS(plays(PLAY, "events\nleave 7\nkind 0 /\n", &played) == 0 && played.lines == 2 && played.refused == 1);
    IS(is_same(PLAY, "events\nleave 7\nkind 0 /\n", "err 5\nkind private\n"));
    IS(is_same(TRACE, "events\nkind 0 /\n", "2: kind 0 /\n= kind private : 0\n"));
    IS(is_same(PLAY, "", "") && is_same(TRACE, "", "") && is_same(WORLD, "", ""));
    IS(plays(PICTURE, "", &played) == 0 && memmem(out, played.bytes, "no event was played", 19));
    for (enum view view = PLAY; view <= WORLD; view++) {
        memset(&played, CANARY, sizeof played);
        IS(view_of(view, NULL, 0, NULL, 0, &played) == 0 && (played.bytes > 0) == (view == PICTURE));
        played.bytes = 0;
        IS(all_are((uint8_t *)&played, sizeof played, 0));
    }
    faults_of_scripts();
    places_of_faults();

    static const char two[] = "events\nchange 0 / shared\nnscopy 0\nmount 1 /a\n";
    uint64_t sizes[2];
    for (uint32_t number = 0; number < 2; number++) {
        IS(am_world((const uint8_t *)two, sizeof two - 1, false, number, out, sizeof out, &played) == 0);
        sizes[number] = played.bytes;
        IS(played.lines == 3 && !memmem(out, played.bytes, "# namespace", 11));
    }
    IS(sizes[0] > 0 && sizes[1] > 0);
    IS(am_world((const uint8_t *)two, sizeof two - 1, false, 2, out, sizeof out, &played) == AM_SCRIPT_NO_SUCH_NAMESPACE);
    IS(played.bytes == 0 && played.lines == 0 && played.line == 4 && played.column == 0);
    IS(plays(WORLD, two, &played) == 0 && played.bytes > sizes[0] + sizes[1]);
    IS(memcmp(out, "# namespace 0\n", 14) == 0);

    uint64_t all = (plays(PICTURE, two, &played), played.bytes);
    IS(am_draw((const uint8_t *)two, sizeof two - 1, 2, 2, out, sizeof out, &played) == 0 && played.bytes < all);
    IS(played.lines == 3);
    IS(am_draw((const uint8_t *)two, sizeof two - 1, 1, 3, out, sizeof out, &played) == 0 && played.bytes == all);
    IS(am_draw((const uint8_t *)two, sizeof two - 1, 0, UINT64_MAX, out, sizeof out, &played) == 0);
    IS(played.bytes == all);
}

/* A script of so many lines, and its trace. */
static void many_events(size_t lines)
{
    static const char line[] = "leave 4294967295\n", head[] = "events\n";
    struct am_played played;
    len = sizeof head - 1;
    memcpy(text, head, len);
    for (size_t at = 0; at < lines; at++, len += sizeof line - 1)
        memcpy(text + len, line, sizeof line - 1);
    IS(am_play(text, len, room, sizeof room, &played) == 0 && played.lines == lines && played.refused == lines);
    IS(played.bytes == lines * 6 && memcmp(room, "err 5\nerr 5\n", 12) == 0);
    IS(am_trace(text, len, out, 24, &played) == 0 && played.lines == lines);
    IS(memcmp(out, "2: leave 4294967295\n= er", 24) == 0);
    IS(am_world(text, len, true, 0, out, sizeof out, &played) == 0 && played.lines == lines);
}

/* ---- Traces ---- */

static uint8_t judges(const char *of, struct am_judged *judged)
{
    memset(judged, CANARY, sizeof *judged);
    return am_trace_holds((const uint8_t *)of, strlen(of), judged);
}

static int is_lawful(const char *of)
{
    struct am_judged judged;
    return judges(of, &judged) == 0 && judged.lawful == 1 && judged.line == 0 && judged.column == 0
        && judged.expected == 0 && judged.law == 0;
}

/* The text is a trace, and the observation of this line is the first that breaks a law, and breaks this one. */
static int breaks(const char *of, uint64_t line, uint32_t law)
{
    struct am_judged judged;
    return judges(of, &judged) == 0 && judged.lawful == 0 && judged.line == line && judged.column == 0
        && judged.expected == 0 && judged.law == law;
}

/* The text is no trace: this line doesn't go on so at this byte. */
static int misses(const char *of, uint64_t line, uint64_t column, uint32_t expected)
{
    struct am_judged judged;
    return judges(of, &judged) == AM_TRACE_BAD_LINE && judged.lawful == 0 && judged.line == line
        && judged.column == column && judged.expected == expected && judged.law == 0;
}

#define QUEUED "  queued 1 attach 1 missing-indirect dev 2 ino 1 uid 0 gid 0 pid 7 tgid 7 name home\n"

static void traces(void)
{
    struct am_judged judged;
    IS(is_lawful("") && is_lawful("1: no event\n= no answer"));
    IS(is_lawful(QUEUED "  waits 7 token 1\n") && is_lawful(QUEUED "# odd\n  waits 7 token 1"));
    IS(breaks("  waits 7 token 1\n", 1, 2) && breaks("= a\n" QUEUED "= b\n" QUEUED, 4, 1));
    IS(breaks(QUEUED "  answered 1 ready\n", 2, 6) && breaks("  answered 1 ready", 1, 5));
    IS(am_trace_holds(NULL, 0, &judged) == 0 && judged.lawful == 1);
    IS(misses(" died\n", 1, 1, AM_EXPECTED_OBSERVATION) && misses("\n  die\n", 2, 3, AM_EXPECTED_OBSERVATION));
    IS(misses("  died \n", 1, 7, AM_EXPECTED_END) && misses("  waits x\n", 1, 9, AM_EXPECTED_NUMBER));
    IS(misses("a\nb\n  waits 7 token x\n", 3, 17, AM_EXPECTED_TOKEN));
    IS(misses("  reattached 2 attach 01\n", 1, 23, AM_EXPECTED_ATTACH) && misses("  catatonic\n", 1, 12, AM_EXPECTED_FS));
    IS(misses("  mounted 3 x\n", 1, 13, AM_EXPECTED_MOUNT) && misses("  answered 1 fail 1\n", 1, 13, AM_EXPECTED_STATUS));
    IS(misses("  queued 1 attach 1 missing\n", 1, 20, AM_EXPECTED_PACKET_TYPE));
    IS(misses("  queued 1 attach 1 missing-direct dev 4294967296\n", 1, 40, AM_EXPECTED_PACKET_NUMBER));
    IS(misses("  passed 7 fs 2 name a/b\n", 1, 22, AM_EXPECTED_KEY) && misses("  recorded nothing\n", 1, 11, AM_EXPECTED_ENTRY));
}

/* What am_trace writes of a script is a lawful trace; with the last observation said twice that must not be
   said so, it isn't. */
static void traces_of_scripts(void)
{
    struct am_played played;
    struct am_judged judged;
    IS(am_trace((const uint8_t *)script, sizeof script - 1, out, sizeof out, &played) == 0);
    IS(am_trace_holds(out, played.bytes, &judged) == 0 && judged.lawful == 1);
    uint8_t *queued = memmem(out, played.bytes, "  queued", 8);
    IS(queued != NULL);
    size_t line = (size_t)((uint8_t *)memchr(queued, '\n', 400) + 1 - queued);
    memcpy(out + played.bytes, queued, line);
    IS(am_trace_holds(out, played.bytes + line, &judged) == 0 && judged.lawful == 0);
    for (size_t end = 0; end <= played.bytes; end++)
        if (am_trace_holds(out, end, &judged) == 0 && judged.expected != 0)
            failed++, printf("failed: a trace of %zu bytes\n", end);
}

/* Each law has a sentence, and no other number has one. */
static void sentences(void)
{
    static const char first[] = "a packet of a token is queued once", last[] = "no mount that is in use is unmounted";
    for (uint32_t number = 1; number <= 11; number++) {
        memset(out, CANARY, 128);
        size_t size = am_law_sentence(number, out, 128);
        IS(size > 20 && size < 128 && all_are(out + size, 128 - size, CANARY) && memchr(out, 0, size) == NULL);
    }
    IS(am_law_sentence(1, out, 128) == sizeof first - 1 && memcmp(out, first, sizeof first - 1) == 0);
    IS(am_law_sentence(11, out, 128) == sizeof last - 1 && memcmp(out, last, sizeof last - 1) == 0);
    memset(out, CANARY, 8);
    IS(am_law_sentence(1, out, 3) == sizeof first - 1 && memcmp(out, first, 3) == 0 && all_are(out + 3, 5, CANARY));
    IS(am_law_sentence(0, NULL, 0) == 0 && am_law_sentence(12, NULL, 0) == 0 && am_law_sentence(UINT32_MAX, NULL, 0) == 0);
}

/* ---- Worlds ---- */

static uint8_t begins(const char *head, struct am_world *world, struct am_played *played)
{
    memset(played, CANARY, sizeof *played);
    return am_new((const uint8_t *)head, strlen(head), world, played);
}

static uint8_t asks(struct am_world *world, const char *line, struct am_played *played)
{
    memset(out, CANARY, 256);
    memset(played, CANARY, sizeof *played);
    return am_line(world, (const uint8_t *)line, strlen(line), out, 128, played);
}

static int answers(struct am_world *world, const char *line, const char *answer)
{
    struct am_played played;
    size_t size = strlen(answer);
    return asks(world, line, &played) == 0 && played.bytes == size && memcmp(out, answer, size) == 0
        && all_are(out + size, 256 - size, CANARY) && played.lines == (size > 0) && played.fault == 0 && played.line == 0
        && played.refused == (size > 3 && memcmp(answer, "err", 3) == 0);
}

/* No world begins of this head, which has this fault on this line. */
static int begins_no(const char *head, uint32_t fault, uint32_t detail, uint64_t line)
{
    struct am_played played;
    struct am_world world = AM_WORLD_NONE;
    return begins(head, &world, &played) == fault && played.fault == fault && played.detail == detail
        && played.line == line && played.bytes == 0 && world.held == 0;
}

static void heads(void)
{
    struct am_played played;
    struct am_world world = AM_WORLD_NONE;
    IS(begins("\n# none\n events\n\n# nothing", &world, &played) == 0 && world.held == 1);
    IS(all_are((uint8_t *)&played, sizeof played, 0));
    am_free(&world);
    am_free(&world);
    IS(world.held == 0);
    IS(begins_no("", AM_SCRIPT_BAD_SECTION, 0, 0) && begins_no("limits 1 1 1\n", AM_SCRIPT_BAD_SECTION, 0, 0));
    IS(begins_no("walk\n", AM_SCRIPT_BAD_SECTION, 0, 1) && begins_no("\nmaster\n/a x\n", AM_SCRIPT_BAD_SECTION, 0, 2));
    IS(begins_no("limits 0 1 1\n", AM_SCRIPT_BAD_LIMITS, 0, 1));
    IS(begins_no("master\n/a x\n/a y\nend\n", AM_SCRIPT_BAD_MASTER, AM_MASTER_TWICE, 3));
    IS(begins_no("master\n/a x\nend\nmap x\nk\nend\nevents\n", AM_SCRIPT_BAD_MAP, AM_MAP_NO_LOCATION, 5));
    IS(begins_no("master\n/a x\nend\nevents\n", AM_SCRIPT_NO_SUCH_MAP, 0, 2));
    IS(begins_no("events\n\nleave 7\nleave\n", AM_SCRIPT_BAD_EVENT, 0, 3) && begins_no("events\nleave\n", AM_SCRIPT_BAD_EVENT, 0, 2));
}

static void no_worlds(void)
{
    struct am_played played, before;
    struct am_world world = AM_WORLD_NONE, held;
    memset(&before, CANARY, sizeof before);
    IS(asks(&world, "leave 7", &played) == AM_NO_WORLD && all_are(out, 256, CANARY));
    IS(memcmp(&played, &before, sizeof played) == 0);
    IS(am_answer(&world, out, 128, &played) == AM_NO_WORLD && am_observed(&world, out, 128, &played) == AM_NO_WORLD);
    IS(am_text(&world, true, 0, out, 128, &played) == AM_NO_WORLD && all_are(out, 256, CANARY));
    IS(memcmp(&played, &before, sizeof played) == 0 && world.held == 0);
    IS(begins(HEAD, &world, &played) == 0);
    held = world;
    IS(begins("events\n", &world, &played) == AM_HAS_WORLD && memcmp(&played, &before, sizeof played) == 0);
    IS(memcmp(&world, &held, sizeof world) == 0 && answers(&world, "attach /auto", "fs 2 attach 1 mount 2\n"));
    am_free(&world);
}

static void one_world(void)
{
    struct am_played played;
    struct am_world world = AM_WORLD_NONE;
    IS(begins(HEAD, &world, &played) == 0);
    IS(am_answer(&world, out, 128, &played) == 0 && all_are((uint8_t *)&played, sizeof played, 0));
    IS(am_observed(&world, out, 128, &played) == 0 && all_are((uint8_t *)&played, sizeof played, 0));
    IS(answers(&world, "attach /auto", "fs 2 attach 1 mount 2\n") && answers(&world, " leave  7 ", "err 5\n"));
    IS(answers(&world, "", "") && answers(&world, "# a comment", "") && answers(&world, "leave 8", "err 5\n"));
    for (size_t cap = 0; cap <= 8; cap++) {
        size_t part = cap < 6 ? cap : 6;
        memset(out, CANARY, 64);
        IS(am_answer(&world, out, cap, &played) == 0 && played.bytes == 6 && played.lines == 1 && played.refused == 1);
        IS(memcmp(out, "err 5\n", part) == 0 && all_are(out + part, 64 - part, CANARY));
    }
    IS(answers(&world, "walk 7 0 /auto/home 100 room", "wait 1\n"));
    IS(am_observed(&world, out, 24, &played) == 0 && played.bytes > 24 && memcmp(out, "  queued 1 attach 1 miss", 24) == 0);
    uint64_t seen = played.bytes;
    IS(asks(&world, "walk", &played) == AM_SCRIPT_BAD_EVENT && played.line == 1 && played.fault == AM_SCRIPT_BAD_EVENT);
    IS(asks(&world, "leave 7\n", &played) == AM_SCRIPT_BAD_EVENT && asks(&world, "\n", &played) == AM_SCRIPT_BAD_EVENT);
    IS(played.bytes == 0 && played.lines == 0 && all_are(out, 256, CANARY));
    memset(text, 'x', 8193);
    IS(am_line(&world, text, 8193, out, 128, &played) == AM_SCRIPT_LONG_LINE && played.line == 1);
    IS(am_line(&world, NULL, 0, NULL, 0, &played) == 0 && played.lines == 0);
    IS(am_observed(&world, NULL, 0, &played) == 0 && played.bytes == seen);
    IS(am_answer(&world, out, 128, &played) == 0 && memcmp(out, "wait 1\n", 7) == 0);
    am_free(&world);
}

/* A script is played on a world event by event: its answers, its observations and its world are those of the
   whole script. */
static int plays_by_event(const uint8_t *whole, size_t size)
{
    static uint8_t mine[1 << 18], seen[1 << 22], trace[1 << 22];
    struct am_played played;
    struct am_world world = AM_WORLD_NONE;
    const uint8_t *line = memmem(whole, size, "\nevents\n", 8), *end = whole + size;
    size_t bytes = 0, shown = 0, kept = 0;
    line = line ? line + 8 : whole + 7;
    int holds = am_new(whole, (size_t)(line - whole), &world, &played) == 0;
    while (holds && line < end) {
        const uint8_t *stop = memchr(line, '\n', (size_t)(end - line));
        stop = stop ? stop : end;
        holds &= am_line(&world, line, (size_t)(stop - line), mine + bytes, sizeof mine - bytes, &played) == 0;
        bytes += played.bytes;
        if (played.lines > 0) {
            holds &= am_observed(&world, seen + shown, sizeof seen - shown, &played) == 0;
            shown += played.bytes;
        }
        line = stop + 1;
    }
    holds &= am_play(whole, size, room, sizeof room, &played) == 0 && played.bytes == bytes && memcmp(room, mine, bytes) == 0;
    holds &= am_trace(whole, size, trace, sizeof trace, &played) == 0;
    for (const uint8_t *at = trace; at < trace + played.bytes;) {
        const uint8_t *next = (const uint8_t *)memchr(at, '\n', sizeof trace) + 1;
        if (*at == ' ') {
            memcpy(room + kept, at, (size_t)(next - at));
            kept += (size_t)(next - at);
        }
        at = next;
    }
    holds &= kept == shown && memcmp(room, seen, kept) == 0;
    for (uint32_t number = 0; number < 3; number++) {
        uint8_t fault = am_world(whole, size, number == 2, number, room, sizeof room, &played);
        size_t length = played.bytes;
        holds &= fault == 0 || (fault == AM_SCRIPT_NO_SUCH_NAMESPACE && number < 2 && length == 0);
        holds &= am_text(&world, number == 2, number, seen, sizeof seen, &played) == fault && played.bytes == length
            && memcmp(room, seen, length) == 0 && played.lines == 0;
    }
    am_free(&world);
    return holds;
}

/* So many worlds are made and let go, and nothing of them is left: malloc counts as used what it holds back for the
   next calls, some hundred bytes, however many worlds there were. */
static void many_worlds(size_t count)
{
    struct am_played played;
    size_t before = 0;
    for (size_t at = 0; at <= count; at++) {
        struct am_world world = AM_WORLD_NONE;
        if (begins(HEAD, &world, &played) != 0 || !answers(&world, "attach /auto", "fs 2 attach 1 mount 2\n"))
            failed++, printf("failed: world %zu\n", at);
        am_free(&world);
        if (at == 0)
            before = mallinfo2().uordblks;
    }
    IS(mallinfo2().uordblks <= before + 4096);
}

static void worlds(size_t count)
{
    heads();
    no_worlds();
    one_world();
    IS(plays_by_event((const uint8_t *)script, sizeof script - 1));
    many_worlds(count);
}

/* ---- The examples ---- */

static size_t file_of(const char *name, const char *end, uint8_t *to, size_t cap)
{
    char path[4096];
    snprintf(path, sizeof path, "%s.%s", name, end);
    FILE *file = fopen(path, "rb");
    if (!file) {
        perror(path);
        exit(2);
    }
    size_t size = fread(to, 1, cap, file);
    fclose(file);
    return size;
}

/* With this room, what is written is the front of what is expected, and nothing else is touched. */
static int fills(enum view view, size_t cap, const uint8_t *expected, size_t size)
{
    enum { BESIDE = 16 };
    struct am_played played;
    size_t part = cap < size ? cap : size;
    memset(room, CANARY, cap + 2 * BESIDE);
    return view_of(view, text, len, room + BESIDE, cap, &played) == 0 && played.bytes == size && played.fault == 0
        && memcmp(room + BESIDE, expected, part) == 0 && all_are(room, BESIDE, CANARY)
        && all_are(room + BESIDE + part, cap - part + BESIDE, CANARY);
}

static void example(size_t step, const char *name)
{
    static const char *ends[] = { "out", "trace", "svg", "world" };
    len = file_of(name, "script", text, sizeof text);
    for (enum view view = PLAY; view <= WORLD; view++) {
        size_t size = file_of(name, ends[view], out, sizeof out);
        int holds = fills(view, size, out, size) && fills(view, size + 40, out, size) && fills(view, size - 1, out, size);
        for (size_t cap = 0; cap <= size; cap += view == PICTURE ? 61 * step : step)
            holds &= fills(view, cap, out, size);
        is(holds, name);
    }
    is(plays_by_event(text, len), name);
}

/* ---- Words ---- */

static void words(void)
{
    static const char *names[] = { "", "ENOENT", "EPERM", "EBUSY", "EEXIST", "EINVAL", "EAGAIN", "ELOOP",
                                   "ENAMETOOLONG", "ENOSPC", "NoMemory", "NotReleased", "Stranger", "" };
    IS(am_version() == AM_VERSION);
    for (uint32_t number = 0; number < sizeof names / sizeof *names; number++) {
        size_t size = strlen(names[number]);
        for (size_t cap = 0; cap < 16; cap++) {
            size_t part = cap < size ? cap : size;
            memset(out, CANARY, 32);
            if (am_error_name(number, out, cap) != size || memcmp(out, names[number], part) != 0
                || !all_are(out + part, 32 - part, CANARY))
                failed++, printf("failed: the name of error %u\n", number);
        }
    }
    IS(am_error_name(UINT32_MAX, NULL, 0) == 0);
}

/* ---- Texts that are none, and long ones ---- */

static uint32_t seed = 1;

static uint32_t next(void)
{
    return seed = seed * 1664525u + 1013904223u;
}

static void odd_bytes(int rounds)
{
    static const char *parts[] = { "/auto auto.home\n", "k h:/p\n", "* -ro h:/&\n", "/a/b h:/p\n", "/- m --timeout=7\n",
                                   "#\n", "\\\n", "\n", "\t", " ", "master\n", "map auto.home\n", "end\n", "events\n",
                                   HEAD, HEAD "attach /auto\n", "walk 7 0 /auto/k 100 room\n", "deliver 1\n",
                                   "act 1 ok\n", "die\n", "nscopy 0\n", "limits 3 2 1\n" };
    for (int round = 0; round < rounds; round++) {
        len = 0;
        for (uint32_t part = next() >> 28; part > 0; part--) {
            const char *some = parts[(next() >> 8) % (sizeof parts / sizeof *parts)];
            memcpy(text + len, some, strlen(some));
            len += strlen(some);
        }
        for (uint32_t count = (next() >> 8) % 64; count > 0; count--)
            text[len++] = (uint8_t)(next() >> 24);
        struct am_entry entry;
        struct am_master_line told;
        struct am_packet packet;
        struct am_judged judged;
        struct am_played played;
        struct am_place place;
        IS(am_map_look_up(text, len, round & 1, text, len / 2, out, 64, &entry, &place) <= AM_MAP_NO_MEMORY);
        IS(am_master_line(text, len, 0, out, 64, &told, &place) <= AM_MASTER_NO_MEMORY);
        IS(am_packet_read(text, round & 1 ? 304 : 300, &packet) <= AM_PACKET_BAD_NAME);
        IS(am_trace_holds(text, len, &judged) <= AM_TRACE_BAD_LINE && judged.lawful <= 1);
        for (enum view view = PLAY; view <= WORLD; view++) {
            uint8_t fault = view_of(view, text, len, out, 64, &played);
            IS(fault <= AM_SCRIPT_LONG_LINE && fault == played.fault && (fault > 0) == (played.line > 0));
            IS((fault > 0) == (played.column > 0) && (fault > 0) == (played.expected > 0));
        }
    }
}

/* A map of so many lines, whose last key is looked up. */
static void many_lines(size_t lines)
{
    struct am_entry entry;
    struct am_place place = { .line = 77, .column = 77, .expected = 77, .pad = 77 };
    for (len = 0; lines > 0; lines--)
        len += (size_t)sprintf((char *)text + len, "k%zu h:/%zu\n", lines, lines);
    IS(am_map_look_up(text, len, false, (const uint8_t *)"k1", 2, out, sizeof out, &entry, &place) == 0 && is_kept(&place));
    IS(entry.found == 1 && entry.bytes == 3 && memcmp(out, "h/1", 3) == 0);
}

/* ---- Two threads ---- */

static void *look_often(void *matches)
{
    static const char map[] = "home srv:/export/&\n";
    uint8_t mine[64];
    char expected[64];
    struct am_entry entry;
    struct am_world world = AM_WORLD_NONE;
    struct am_played begun;
    struct am_place place;
    *(int *)matches = am_new((const uint8_t *)HEAD, sizeof HEAD - 1, &world, &begun) == 0;
    for (int round = 0; round < 3000; round++) {
        uint8_t fault = am_map_look_up((const uint8_t *)map, sizeof map - 1, false, (const uint8_t *)"home", 4, mine,
                                       sizeof mine, &entry, &place);
        *(int *)matches &= fault == 0 && entry.bytes == 15 && memcmp(mine, "srv/export/home", 15) == 0;
        struct am_played played;
        fault = am_play((const uint8_t *)script, sizeof script - 1, mine, sizeof mine, &played);
        *(int *)matches &= fault == 0 && played.lines == 8 && memcmp(mine, "fs 2 attach 1 mount 2\nwait 1\n", 29) == 0;
        if (am_line(&world, (const uint8_t *)"nscopy 0", 8, mine, sizeof mine, &played) != 0 || played.refused)
            *(int *)matches = 0;
        *(int *)matches &= (size_t)sprintf(expected, "ns %d\n", round + 1) == played.bytes
            && memcmp(mine, expected, played.bytes) == 0;
        am_line(&world, mine, (size_t)sprintf((char *)mine, "nsdrop %d", round + 1), mine + 32, 32, &played);
    }
    am_free(&world);
    return NULL;
}

static void threads(void)
{
    pthread_t one, two;
    int first = 0, second = 0;
    pthread_create(&one, NULL, look_often, &first);
    pthread_create(&two, NULL, look_often, &second);
    pthread_join(one, NULL);
    pthread_join(two, NULL);
    IS(first && second);
}

static int count(void)
{
    printf("%d passed, %d failed\n", passed, failed);
    return failed != 0;
}

int main(int words_in, char **word)
{
    if (words_in == 3 && strcmp(word[1], "own") == 0) {
        int rounds = atoi(word[2]);
        packets();
        requests();
        maps();
        masters();
        scripts();
        traces();
        traces_of_scripts();
        sentences();
        worlds(50 * (size_t)rounds);
        words();
        odd_bytes(rounds);
        many_lines(500 * (size_t)rounds);
        many_events(500 * (size_t)rounds);
        threads();
        return count();
    }
    if (words_in == 2 && strcmp(word[1], "short") == 0)
        return short_of_memory();
    if (words_in > 3 && strcmp(word[1], "example") == 0) {
        for (int at = 3; at < words_in; at++)
            example((size_t)atoi(word[2]), word[at]);
        return count();
    }
    fprintf(stderr, "library_test: expected own ROUNDS, short, or example STEP FILE..\n");
    return 2;
}

/* dalvicna.h: a model of the Linux automounter, kernel and daemon, in a C program: scripts with their
   answers, traces, pictures and worlds; whether a trace is lawful; packets, requests, maps and master
   maps.

   Link with -ldalvicna (pkg-config dalvicna). Nothing else is to be linked beside: the library takes
   its memory by malloc, realloc and free, and keeps none behind a call but that of a struct am_world.

   Texts and buffers
     A text is a pointer and how many bytes it has; it needs no zero byte at its end. A pointer may be
     NULL where the number is 0, and nowhere else. What is read and what is written must not overlap.
     A buffer is a pointer and its room in bytes. A call puts what it writes at the front of the
     buffer, as far as there is room, and leaves what stands behind it as it was. It tells how many
     bytes there are, also where there is less room: call it with room 0 to learn the size. But am_line
     plays its event at each call, whatever the room; am_answer tells the size of its answer.

   Faults
     A fault is a number above 0. It leaves buffers and structs as they were, but for those that tell
     the fault; of a script, what was written before the fault is in the buffer. No call ends the
     program: where there is no memory, that is a fault too.

   Threads
     The only state between calls is that of a struct am_world. All calls on one such world are made by
     one thread, one at a time; two worlds have nothing to do with one another. Else any thread may make
     any call at any time, as long as no two calls share a buffer or struct that one of them writes. No
     call may be made in a signal handler, or in the forked child of a program with threads.

   Formats of scripts, traces, pictures, worlds, packets, maps and master maps, and the numbers of all
   faults: docs/FORMATS.md of the repository. That each call does as it says here is proved of the crate
   am_c, built for x86-64; what the checker doesn't see is this header, and the C program. The header wants C99
   or later, or C++11 or later. */
#ifndef DALVICNA_H
#define DALVICNA_H

#include <assert.h>
#include <stdbool.h>
#include <stddef.h>
#include <stdint.h>

#ifdef __cplusplus
extern "C" {
#endif

/* The version of this page. What a version offers stays in the later ones. */
#define AM_VERSION 1

/* The version of the library that is linked. */
uint32_t am_version(void);

/* ---- Scripts ---- */

/* The faults of a script. */
enum am_script_fault {
    AM_SCRIPT_BAD_SECTION = 1, /* the head isn't what a head is, or a section doesn't end */
    AM_SCRIPT_BAD_LIMITS,      /* the limits, or how long failures last, are no numbers in their ranges */
    AM_SCRIPT_BAD_MASTER,      /* a line of the master section: detail is of enum am_master_fault */
    AM_SCRIPT_BAD_MAP,         /* a line of a map section: detail is of enum am_map_fault */
    AM_SCRIPT_NO_SUCH_MAP,     /* a line of the master section names a map that has no section */
    AM_SCRIPT_BAD_EVENT,       /* a line behind `events` is no event */
    AM_SCRIPT_LONG_LINE,       /* a line has more than 8,192 bytes */
    AM_SCRIPT_NO_MEMORY,
    AM_SCRIPT_READ_FAILED,     /* there are more than 16 TiB of it */
    AM_SCRIPT_WRITE_FAILED,    /* there is no memory for what is written */
    AM_SCRIPT_NO_SUCH_NAMESPACE /* the namespace that was asked for isn't there: am_world and am_text alone */
};

/* How a script went. */
struct am_played {
    uint64_t bytes;   /* how many bytes were written, also where there is less room */
    uint64_t lines;   /* how many answers there are; 0 at a fault, and of am_new, am_observed and am_text */
    uint64_t refused; /* how many of these say that nothing was done */
    uint64_t line;    /* the line of the fault, from 1, of am_line always 1; 0 where there is none */
    uint64_t column;  /* the byte of that line at which it isn't as expected, from 1, one behind the last where it
                         ends too early; 0 where no byte is at fault (no memory, a stream, a line that may not stand
                         there by what stands above) */
    uint32_t fault;   /* the fault (enum am_script_fault); 0 where there is none */
    uint32_t detail;  /* what is wrong with a line of a map or master map; else 0 */
    uint32_t expected; /* what was expected at that byte (am_expected_words); 0 where column is */
};

/* Each of these reads a script, plays it on a world of its own from the beginning, and returns 0 or the
   first fault, as *played tells it. What was written up to the fault is in the buffer: the whole lines
   of all events above it (of a world, nothing). An event that finds no memory is answered by `err 10`
   and isn't a fault, but for a trace, a picture or a world where there is none for its line. A script that
   ends before its line `events` has no events, and that is no fault. */

/* The lines of the answers, as `automount_cli script` writes them. */
uint8_t am_play(const uint8_t *script, size_t len, uint8_t *out, size_t cap, struct am_played *played);

/* The trace: each event, its answer, and what is seen of it, as `automount_cli trace` writes it. */
uint8_t am_trace(const uint8_t *script, size_t len, uint8_t *out, size_t cap, struct am_played *played);

/* The picture (SVG) of its events from number first to number last, from 1; all are 1 to UINT64_MAX, of
   which at most 1,000,000 are drawn. A picture without any of them has no rows, and is no fault; that of a
   script without events says so. */
uint8_t am_draw(const uint8_t *script, size_t len, uint64_t first, uint64_t last, uint8_t *out, size_t cap,
                struct am_played *played);

/* The world that it leaves, as /proc/PID/mountinfo tells mounts, and what else there is in comments; where
   all is false, only the mounts of the namespace with this number: AM_SCRIPT_NO_SUCH_NAMESPACE, at the line of
   the last event, where it isn't there. */
uint8_t am_world(const uint8_t *script, size_t len, bool all, uint32_t namespace_number, uint8_t *out,
                 size_t cap, struct am_played *played);

/* Writes what this number of `expected` stands for, in words without a zero byte, as "a path, which begins
   with /", and returns how many bytes they have: 0 where no expectation has this number. */
size_t am_expected_words(uint32_t number, uint8_t *out, size_t cap);

/* ---- A world from event to event ---- */

/* A world that is asked event by event. It begins as AM_WORLD_NONE; the program writes neither field. Hand
   in one struct by its address: a copy of it that was made before a call isn't handed in after that call. */
struct am_world {
    uint64_t held; /* 1 where there is a world, else 0 */
    void *kept;
};

#define AM_WORLD_NONE { 0, NULL }

/* What these calls return beside the faults of a script; then nothing is touched. */
#define AM_NO_WORLD 254  /* the struct has no world */
#define AM_HAS_WORLD 255 /* the struct has a world already */

/* Begins the world of a head, which is all of a script up to its line `events`, and with that. 0, or the
   fault, as *played tells it, and there is no world: AM_SCRIPT_BAD_SECTION with line 0 where the text ends
   before `events`, and AM_SCRIPT_BAD_EVENT where an event stands behind it. am_free lets the world go. */
uint8_t am_new(const uint8_t *head, size_t len, struct am_world *world, struct am_played *played);

/* Plays one event, a line of a script with no line feed, and writes the line of its answer, which ends
   with a line feed: bytes is its length, lines 1, and refused 1 where nothing was done. A blank line and a
   comment have no answer: all three are 0. A line that is no event is a fault, and the world as it was.
   Less room than the answer has bytes is no fault, and the event is played: don't make the call again for
   the rest of its answer, which am_answer writes.
   AM_SCRIPT_WRITE_FAILED is no memory for the answer of an event that was played: am_answer has it. */
uint8_t am_line(struct am_world *world, const uint8_t *line, size_t len, uint8_t *out, size_t cap,
                struct am_played *played);

/* Writes the line of the last answer once more; nothing before the first. */
uint8_t am_answer(struct am_world *world, uint8_t *out, size_t cap, struct am_played *played);

/* Writes what the last event showed: the lines of a trace that tell its observations. A blank line, a comment
   and a line that is no event leave that as it was. */
uint8_t am_observed(struct am_world *world, uint8_t *out, size_t cap, struct am_played *played);

/* Writes the world as it is, as am_world writes the one that a script leaves. Of these three the only
   faults are that there is no memory, and of this one AM_SCRIPT_NO_SUCH_NAMESPACE. */
uint8_t am_text(struct am_world *world, bool all, uint32_t namespace_number, uint8_t *out, size_t cap,
                struct am_played *played);

/* Lets a world go, if there is one. */
void am_free(struct am_world *world);

/* ---- Traces ---- */

/* The faults of a text that is to be a trace. */
enum am_trace_fault {
    AM_TRACE_BAD_LINE = 1, /* a line that begins with a space is no observation */
    AM_TRACE_NO_MEMORY
};

/* What such a line was expected to go on with. */
enum am_expected {
    AM_EXPECTED_OBSERVATION = 1, /* an observation behind two spaces */
    AM_EXPECTED_NUMBER,
    AM_EXPECTED_TOKEN,
    AM_EXPECTED_ATTACH,
    AM_EXPECTED_FS,
    AM_EXPECTED_MOUNT,
    AM_EXPECTED_STATUS,          /* ready or a failure */
    AM_EXPECTED_PACKET_TYPE,
    AM_EXPECTED_PACKET_NUMBER,
    AM_EXPECTED_PACKET_NAME,
    AM_EXPECTED_KEY,             /* direct or a name */
    AM_EXPECTED_ENTRY,           /* an entry of the book */
    AM_EXPECTED_END              /* the end of the line */
};

/* What is found of a text that is to be a trace. */
struct am_judged {
    uint64_t line;     /* of AM_TRACE_BAD_LINE, or of the first observation that breaks a law, from 1; else 0 */
    uint64_t column;   /* of AM_TRACE_BAD_LINE the byte at which it doesn't go on as expected, from 1; else 0 */
    uint32_t expected; /* and what was expected there (enum am_expected); else 0 */
    uint32_t lawful;   /* 1 where the text is a trace that is lawful, else 0 */
    uint32_t law;      /* the law that is broken first (am_law_sentence); 0 where none is */
};

/* Reads a trace, of am_trace or recorded elsewhere, and tells whether it is lawful: docs/MODEL.md, "The laws of
   a trace". 0 where the text is a trace, lawful or not; else the first fault. Lines that don't begin with a
   space aren't looked at, so that a text without observations is lawful. The front of a lawful trace may
   not be: those whom an answer releases stand right behind it. */
uint8_t am_trace_holds(const uint8_t *text, size_t len, struct am_judged *judged);

/* Writes what the law of this number asks, in a sentence without a zero byte, and returns how many bytes it
   has: 0 where no law has this number. The laws have the numbers 1 to 11: docs/FORMATS.md, "Judged". */
size_t am_law_sentence(uint32_t number, uint8_t *out, size_t cap);

/* ---- Packets, requests, maps ---- */

/* The bytes of a packet, with its padding. */
#define AM_PACKET_SIZE 304
/* Where the name begins in them. */
#define AM_PACKET_NAME 44

/* The kinds of packets: the numbers of autofs_ptype_missing_indirect and so on in linux/auto_fs.h. */
enum am_packet_kind {
    AM_KIND_MISSING_INDIRECT = 3,
    AM_KIND_EXPIRE_INDIRECT,
    AM_KIND_MISSING_DIRECT,
    AM_KIND_EXPIRE_DIRECT
};

/* What a packet says (linux/auto_fs.h, struct autofs_v5_packet); its name stands in its bytes. */
struct am_packet {
    uint32_t kind;     /* enum am_packet_kind */
    uint32_t token;    /* wait_queue_token */
    uint32_t dev;
    uint32_t uid;
    uint32_t gid;
    uint32_t pid;
    uint32_t tgid;
    uint32_t name_len; /* bytes of the name */
    uint64_t ino;
};

/* The tests of a packet, in their order. */
enum am_packet_fault {
    AM_PACKET_LENGTH = 1,  /* neither 300 bytes nor 304; less room than 304 */
    AM_PACKET_VERSION,     /* proto_version isn't 5 */
    AM_PACKET_KIND,        /* the kind is none of 3 to 6 */
    AM_PACKET_NAME_LENGTH, /* above 255, or 0 in an indirect packet */
    AM_PACKET_BAD_NAME     /* the name of an indirect packet is no name */
};

/* Reads a packet: 0, or the first test that the bytes fail, and *packet is as it was. */
uint8_t am_packet_read(const uint8_t *bytes, size_t len, struct am_packet *packet);

/* Writes a packet of AM_PACKET_SIZE bytes with this name: 0, or the first test that it fails, and out
   is as it was. packet->name_len isn't looked at. */
uint8_t am_packet_write(const struct am_packet *packet, const uint8_t *name, size_t name_len,
                        uint8_t *out, size_t cap);

/* The requests of a daemon. */
enum am_request {
    AM_READY = 1,  /* AUTOFS_IOC_READY */
    AM_FAIL,       /* AUTOFS_IOC_FAIL */
    AM_CATATONIC,  /* AUTOFS_IOC_CATATONIC */
    AM_SETTIMEOUT, /* AUTOFS_IOC_SETTIMEOUT */
    AM_EXPIRE,     /* AUTOFS_IOC_EXPIRE_MULTI */
    AM_SETPIPE     /* AUTOFS_DEV_IOCTL_SETPIPEFD */
};

/* The number by which ioctl(2) takes a request on x86-64; 0 for what is none. */
uint32_t am_request_number(uint32_t request);

/* The faults of a map's line. */
enum am_map_fault {
    AM_MAP_BAD_KEY = 1,
    AM_MAP_BAD_OPTION,
    AM_MAP_NO_LOCATION,
    AM_MAP_BAD_LOCATION,
    AM_MAP_NO_MEMORY
};

/* Where a map or a master map isn't as expected. */
struct am_place {
    uint64_t line;     /* the line, from 1; of a line that is joined of several the first */
    uint64_t column;   /* the byte of that line, from 1, as of am_played; else 0 */
    uint32_t expected; /* what was expected there (am_expected_words); else 0 */
    uint32_t pad;      /* 0 */
};

/* An entry. Its options lie in the buffer from 0 to host_at, its host from there to path_at, and its
   path from there to bytes. */
struct am_entry {
    uint64_t bytes;       /* how many bytes there are, also where there is less room */
    uint64_t host_at;
    uint64_t path_at;
    uint32_t has_options; /* 1 where the line has options, else 0 */
    uint32_t found;       /* 1 where there is an entry for the key; where it is 0, all else is */
};

/* Reads a map, whose keys are paths where it is direct, and looks up a key: its first line, else the
   first `*` line, with the key for each & of host and path. The key is compared byte for byte and isn't
   tested: for a direct map hand in the canonical text, as /srv for /srv//. 0 also where there is no entry,
   and *place is as it was; else the first fault of the map (enum am_map_fault), and *place where it is, of which
   line is 0 where the look-up itself found no memory, and *entry is as it was. */
uint8_t am_map_look_up(const uint8_t *text, size_t len, bool direct, const uint8_t *key, size_t key_len,
                       uint8_t *out, size_t cap, struct am_entry *entry, struct am_place *place);

/* The faults of a master map's line. */
enum am_master_fault {
    AM_MASTER_BAD_POINT = 1,
    AM_MASTER_NO_MAP,
    AM_MASTER_BAD_TYPE,
    AM_MASTER_BAD_TIMEOUT,
    AM_MASTER_TWICE,
    AM_MASTER_NO_MEMORY
};

/* A line of a master map. Its point lies in the buffer from 0 to map_at, and the name of its map from
   there to bytes. */
struct am_master_line {
    uint64_t bytes;   /* how many bytes there are, also where there is less room */
    uint64_t map_at;
    uint64_t line;    /* its first raw line, from 1 */
    uint64_t lines;   /* how many lines the master map has */
    uint32_t timeout; /* seconds without use after which a mount may expire, 0 for never by itself */
    uint32_t direct;  /* 1 for the point /-, which has no bytes, else 0 */
    uint32_t found;   /* 1 where there is such a line; where it is 0, all but lines is */
    uint32_t pad;     /* 0 */
};

/* Reads a master map, and tells its line at a place, from 0. 0 also where there is no such line, and *place is
   as it was; else the first fault (enum am_master_fault), and *place where it is, of which line is 0 where there
   was no memory for what is told, and *told is as it was. */
uint8_t am_master_line(const uint8_t *text, size_t len, size_t at, uint8_t *out, size_t cap,
                       struct am_master_line *told, struct am_place *place);

/* ---- Words ---- */

/* Writes the word of the error that an answer `err N` tells, without a zero byte, and returns how many
   bytes it has: 0 where no error has this number. */
size_t am_error_name(uint32_t number, uint8_t *out, size_t cap);

/* ---- Sizes and offsets ---- */

#ifdef __cplusplus
#define AM_HOLDS(fact) static_assert(fact, #fact)
#else
#define AM_HOLDS(fact) _Static_assert(fact, #fact)
#endif
#define AM_AT(type, field, at) AM_HOLDS(offsetof(struct type, field) == (at))

AM_HOLDS(sizeof(struct am_played) == 56);
AM_AT(am_played, bytes, 0);
AM_AT(am_played, lines, 8);
AM_AT(am_played, refused, 16);
AM_AT(am_played, line, 24);
AM_AT(am_played, column, 32);
AM_AT(am_played, fault, 40);
AM_AT(am_played, detail, 44);
AM_AT(am_played, expected, 48);

AM_HOLDS(sizeof(struct am_world) == 16);
AM_AT(am_world, held, 0);
AM_AT(am_world, kept, 8);

AM_HOLDS(sizeof(struct am_judged) == 32);
AM_AT(am_judged, line, 0);
AM_AT(am_judged, column, 8);
AM_AT(am_judged, expected, 16);
AM_AT(am_judged, lawful, 20);
AM_AT(am_judged, law, 24);

AM_HOLDS(sizeof(struct am_packet) == 40);
AM_AT(am_packet, kind, 0);
AM_AT(am_packet, token, 4);
AM_AT(am_packet, dev, 8);
AM_AT(am_packet, uid, 12);
AM_AT(am_packet, gid, 16);
AM_AT(am_packet, pid, 20);
AM_AT(am_packet, tgid, 24);
AM_AT(am_packet, name_len, 28);
AM_AT(am_packet, ino, 32);

AM_HOLDS(sizeof(struct am_place) == 24);
AM_AT(am_place, line, 0);
AM_AT(am_place, column, 8);
AM_AT(am_place, expected, 16);
AM_AT(am_place, pad, 20);

AM_HOLDS(sizeof(struct am_entry) == 32);
AM_AT(am_entry, bytes, 0);
AM_AT(am_entry, host_at, 8);
AM_AT(am_entry, path_at, 16);
AM_AT(am_entry, has_options, 24);
AM_AT(am_entry, found, 28);

AM_HOLDS(sizeof(struct am_master_line) == 48);
AM_AT(am_master_line, bytes, 0);
AM_AT(am_master_line, map_at, 8);
AM_AT(am_master_line, line, 16);
AM_AT(am_master_line, lines, 24);
AM_AT(am_master_line, timeout, 32);
AM_AT(am_master_line, direct, 36);
AM_AT(am_master_line, found, 40);
AM_AT(am_master_line, pad, 44);

#ifdef __cplusplus
}
#endif

#endif

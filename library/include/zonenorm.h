/* zonenorm.h: DNS zones in their one canonical text, in process.
 *
 * A call takes octets, and hands out a text and a zonenorm_answer. It keeps nothing: no global state, no handle, no lock. Calls may
 * run in any number of threads at once. No call reads or writes a file, ends the process, longjmps or raises a signal.
 *
 * The engine is proved up to the C call: each export meets its contract for any octets (docs/library/c.md). Not proved are this
 * header, the compiler, the linker, malloc, and what a caller has to keep to:
 *  - A pointer and a length are those of readable octets that don't change during the call. NULL goes with length 0. Lengths are
 *    below 2^63. A zonenorm_input is fully initialised: start from ZONENORM_INPUT_INIT.
 *  - text, reason, removed, added, answer and room are the caller's alone: they overlap neither one another nor the input. What was
 *    in *text before is overwritten and not freed.
 *  - zonenorm_free frees a text, once. So does free(3), unless len is 0. A text has no NUL at its end.
 *  - malloc, realloc and free are those of one allocator. There is no call from a signal handler, nor in the child of a fork from a
 *    process with threads. A thread has 256 KiB of stack. */
#ifndef ZONENORM_H
#define ZONENORM_H
#include <stddef.h>
#include <stdint.h>
#include <stdlib.h>
#include <string.h>
#ifdef __cplusplus
extern "C" {
#endif

#define ZONENORM_ABI 1u
#define ZONENORM_VERSION "0.1.0"

typedef struct zonenorm_octets {
    const uint8_t *at; /* unspecified where len is 0 */
    size_t len;
} zonenorm_octets;

enum zonenorm_kind {
    ZONENORM_FILE = 0,      /* a master file: ten types in presentation format, all in the generic form (RFC 3597) */
    ZONENORM_TRANSFER = 1,  /* a transfer as it came over TCP, each message after its length; no origin */
    ZONENORM_ALL_TYPES = 2, /* a master file: further types in presentation format too */
    ZONENORM_FILES = 3      /* the same with $INCLUDE and $GENERATE, and a table of the included files */
};

typedef struct zonenorm_input {
    uint32_t kind;             /* enum zonenorm_kind */
    uint32_t reserved;         /* 0 */
    uint64_t limit;            /* most octets that are read; 0 means 2^30, and so does more */
    zonenorm_octets origin;    /* of a master file, in presentation format with its final dot */
    zonenorm_octets octets;    /* the input */
    zonenorm_octets directory; /* of ZONENORM_FILES: included files are below it; UTF-8, empty if their names are relative */
    const zonenorm_octets *names; size_t names_count; /* of included files, each as ZONENORM_WANTS_FILE gave it */
    const zonenorm_octets *files; size_t files_count; /* their octets, in the same order; as many */
} zonenorm_input;

#define ZONENORM_INPUT_INIT {0, 0, 0, {NULL, 0}, {NULL, 0}, {NULL, 0}, NULL, 0, NULL, 0}

enum zonenorm_status {
    ZONENORM_OK = 0,          /* accepted; the same zone; verified */
    ZONENORM_DIFFERENT = 1,   /* two zones differ, first at `line` of their canonical texts (not of zonenorm_diff); not verified */
    ZONENORM_BAD_ORIGIN = 2,  /* the origin spells no absolute name */
    ZONENORM_REFUSED = 3,     /* the input denotes no zone; the text is the line that the program prints, without a line feed,
                                 or empty if there was no memory for it */
    ZONENORM_NO_MEMORY = 4,   /* an allocation failed */
    ZONENORM_UNSUPPORTED = 5, /* a kind, an algorithm or a flag that this library doesn't have */
    ZONENORM_WANTS_FILE = 6   /* an $INCLUDE names a file that isn't among names; the text is its name and a line feed */
};

enum zonenorm_place { ZONENORM_WHOLE = 0, ZONENORM_LINE = 1, ZONENORM_MESSAGE = 2 };

/* What zonenorm_diff is asked for. */
enum zonenorm_flag {
    ZONENORM_WIRE = 1,      /* each record as an uncompressed message has it, and not as its canonical line */
    ZONENORM_FOLD_NAMES = 2 /* names in record data are compared without regard to case (RFC 4343) */
};

/* A field that says nothing is 0. */
typedef struct zonenorm_answer {
    uint32_t status;   /* enum zonenorm_status */
    uint32_t input;    /* the input that stopped a call on two, 1 or 2 */
    uint32_t fault;    /* the number of the fault (docs/FAULTS.md) */
    uint32_t place;    /* enum zonenorm_place */
    uint64_t line;     /* the line or the message of the fault, from 1; the first line at which two texts differ */
    uint64_t offset;   /* in the message */
    uint64_t count;    /* records of an accepted zone, or of a difference; entries that state no data */
    uint32_t file;     /* of ZONENORM_FILES: the file of the fault, i + 1 for files[i], 0 for octets */
    uint32_t reserved;
    uint64_t value;    /* of ZONENORM_FILES: the value of the $GENERATE whose line has the fault */
} zonenorm_answer;

/* Returns the ABI of the library that is linked: ZONENORM_ABI. */
uint32_t zonenorm_abi(void);

/* Hands out the canonical text of the zone that the input denotes. */
void zonenorm_normalise(const zonenorm_input *given, zonenorm_octets *text, zonenorm_answer *answer);

/* Puts that text into the caller's room and returns its length. The text is in the room if and only if it fits; otherwise the room
 * is unchanged. */
size_t zonenorm_normalise_into(const zonenorm_input *given, uint8_t *room, size_t room_len, zonenorm_answer *answer);

/* Hands out the records of that zone in canonical order, each as an uncompressed message has it: owner, type, class, TTL, length of
 * the data, data (RFC 1035 3.2.1). */
void zonenorm_records(const zonenorm_input *given, zonenorm_octets *text, zonenorm_answer *answer);
size_t zonenorm_records_into(const zonenorm_input *given, uint8_t *room, size_t room_len, zonenorm_answer *answer);

/* Compares two inputs: ZONENORM_OK if they denote one zone. The text is empty, or the line of a refusal. */
void zonenorm_compare(const zonenorm_input *first, const zonenorm_input *second, zonenorm_octets *text, zonenorm_answer *answer);

/* Hands out the records of the first zone of which the second has no equal, and those of the second of which the first has none, both
 * in canonical order: ZONENORM_OK if there are none, else ZONENORM_DIFFERENT, and count is the number of both. flags is a sum of enum
 * zonenorm_flag. A record keeps its letters also if names are compared without regard to case. If an input is refused, removed is the
 * line of the refusal. */
void zonenorm_diff(const zonenorm_input *first, const zonenorm_input *second, uint32_t flags, zonenorm_octets *removed,
                   zonenorm_octets *added, zonenorm_answer *answer);

/* Verifies the zone against its ZONEMD records (RFC 8976): ZONENORM_OK if one of them verifies it. The text has an octet for each of
 * those at the apex: 0 malformed, 1 other serial, 2 unknown scheme, 3 unknown algorithm, 4 repeated, 5 the digest differs, 6
 * verified. */
void zonenorm_verify(const zonenorm_input *given, zonenorm_octets *text, zonenorm_answer *answer);

/* Hands out the canonical line of the ZONEMD record that states the zone's digest, by SHA-384 (1) or SHA-512 (2). */
void zonenorm_digest(const zonenorm_input *given, uint32_t algorithm, zonenorm_octets *text, zonenorm_answer *answer);

/* Hands out a master file (ZONENORM_ALL_TYPES) with the data of further types in the generic form, line by line. If entries state no
 * data, the status is ZONENORM_REFUSED, fault is 0, count is how many there are, line and reason report the first, and the text is
 * handed out all the same. */
void zonenorm_generic(const zonenorm_input *given, zonenorm_octets *text, zonenorm_octets *reason, zonenorm_answer *answer);

/* Hands out a canonical text, or a diff of two, with the data of further types in presentation format. */
void zonenorm_words(const uint8_t *octets, size_t octets_len, zonenorm_octets *text, zonenorm_answer *answer);

/* Hands out the expanded text of a master file and the files that it includes (ZONENORM_FILES), each $GENERATE as its lines. If an entry
 * can't be expanded, the status is ZONENORM_REFUSED and the text is the line of the fault. */
void zonenorm_expand(const zonenorm_input *given, zonenorm_octets *text, zonenorm_answer *answer);

/* Frees a text. */
static inline void zonenorm_free(zonenorm_octets *text) {
    if (text->len) free((void *)text->at);
    text->at = NULL;
    text->len = 0;
}

/* Returns the octets of a string, without the NUL at its end. */
static inline zonenorm_octets zonenorm_string(const char *string) {
    zonenorm_octets octets = {(const uint8_t *)string, strlen(string)};
    return octets;
}

#ifdef __cplusplus
}
#endif
#endif

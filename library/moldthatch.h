/* Moldthatch for C. Link with libmoldthatch.a, which `programs/library` makes.
 *
 * A pointer and the length behind it are a slice: the pointer is not null, even
 * where the length is 0, and a slice that is written overlaps no other. Nothing
 * else is asked: each call takes any bytes and any numbers.
 */
#ifndef MOLDTHATCH_H
#define MOLDTHATCH_H

#include <stdbool.h>
#include <stddef.h>
#include <stdint.h>

#ifdef __cplusplus
extern "C" {
#endif

/* number is 0 where there is a result, and the refusal's number where there is
 * none. count says how many of the two values are carried; the others
 * are 0. A result carries a length, or a load address and a line count. */
typedef struct moldthatch_code {
    uint8_t number;
    size_t count;
    size_t first;
    size_t second;
} moldthatch_code;

/* The refusals, with what each carries. Text lines are counted from 1, blank ones
 * too. */
enum {
    MOLDTHATCH_TEXT_TOO_LONG = 1,            /* length */
    MOLDTHATCH_BAD_BYTE = 2,                 /* offset */
    MOLDTHATCH_MISSING_LINE_NUMBER = 3,      /* text line */
    MOLDTHATCH_LINE_NUMBER_OUT_OF_RANGE = 4, /* text line, value */
    MOLDTHATCH_ADDRESS_OVERFLOW = 5,
    MOLDTHATCH_NO_ROOM = 6,                  /* bytes needed */
    MOLDTHATCH_IMAGE_TOO_LONG = 7,           /* length */
    MOLDTHATCH_TOO_SHORT = 8,
    MOLDTHATCH_UNEXPECTED_EOF = 9,
    MOLDTHATCH_MISSING_END = 10,             /* offset of the link */
    MOLDTHATCH_LINK_BACKWARD = 11,           /* offset of the link */
    MOLDTHATCH_LINK_OUTSIDE = 12,            /* offset of the link */
    MOLDTHATCH_LINK_NO_END = 13,             /* offset of the link */
    MOLDTHATCH_UNKNOWN_DIALECT = 14,
    MOLDTHATCH_NUMBER_TOO_HIGH = 15,         /* text line */
    MOLDTHATCH_NOT_ASCENDING = 16,           /* text line */
    MOLDTHATCH_ZERO_IN_BODY = 17,            /* text line */
    MOLDTHATCH_BODY_LENGTH = 18,             /* text line */
    MOLDTHATCH_LIMIT_REACHED = 19,
    MOLDTHATCH_BAD_DISK = 20,
    MOLDTHATCH_BAD_NAME = 21,
    MOLDTHATCH_NAME_TAKEN = 22,
    MOLDTHATCH_NO_SUCH_FILE = 23,
    MOLDTHATCH_DIRECTORY_FULL = 24,
    MOLDTHATCH_DISK_FULL = 25,
    MOLDTHATCH_TOO_MANY_IMAGES = 26,
    MOLDTHATCH_TOO_MANY_LINES = 27,
    MOLDTHATCH_TARGET_TOO_HIGH = 28
};

/* The limits: the most bytes of a text and of an image (beyond them, 1 and 7), and
 * of an image that crunching makes; a sentence has fewer bytes than the last. */
enum {
    MOLDTHATCH_TEXT_LENGTH = 1048576,
    MOLDTHATCH_IMAGE_LENGTH = 1048576,
    MOLDTHATCH_CRUNCHED_LENGTH = 65539,
    MOLDTHATCH_SENTENCE_LENGTH = 128
};

/* The bytes of a disk image. */
enum { MOLDTHATCH_DISK_LENGTH = 174848 };

/* The bytes of a SHA-256. */
enum { MOLDTHATCH_SHA256_LENGTH = 32 };

enum { MOLDTHATCH_AUTO = 0, MOLDTHATCH_BASIC_V2 = 1, MOLDTHATCH_TSB = 2, MOLDTHATCH_BASIC35 = 3 };

/* What a text is crunched with. profile asks the machine profile of each line (15 to
 * 18), short_forms takes the short forms of V2 words: 0 is no, any other number yes. */
typedef struct moldthatch_crunch_options {
    uint16_t load;
    uint8_t dialect;
    uint8_t profile;
    uint8_t short_forms;
} moldthatch_crunch_options;

/* How an image is listed. remarks lists a remark as text, the second mode; links reads
 * the lines by links, not by terminators. */
typedef struct moldthatch_list_options {
    uint8_t dialect;
    uint8_t remarks;
    uint8_t links;
} moldthatch_list_options;

/* Where found is 1, a line of an image: its link, its number, its address in memory,
 * the offsets of its body, from up to to, and of what follows the line. All are 0
 * where there is none. */
typedef struct moldthatch_line {
    moldthatch_code code;
    uint8_t found;
    uint16_t link;
    uint16_t number;
    size_t address;
    size_t from;
    size_t to;
    size_t next;
} moldthatch_line;

/* Crunches a text to an image at the start of out: its length. A refusal changes
 * no byte of out, a result only its own. */
moldthatch_code moldthatch_crunch(const uint8_t *text, size_t text_length, uint16_t load, uint8_t dialect,
                                  uint8_t *out, size_t out_length);

/* The room that the image of a text needs. */
moldthatch_code moldthatch_crunch_room(const uint8_t *text, size_t text_length, uint16_t load, uint8_t dialect);

/* The same with options, and the room. */
moldthatch_code moldthatch_crunch_with(const uint8_t *text, size_t text_length, moldthatch_crunch_options options,
                                       uint8_t *out, size_t out_length);
moldthatch_code moldthatch_crunch_with_room(const uint8_t *text, size_t text_length, moldthatch_crunch_options options);

/* The line at a place, from 1, of the image that a text would have; the code carries the
 * text line that it comes from. */
moldthatch_line moldthatch_measured_line(const uint8_t *text, size_t text_length, moldthatch_crunch_options options,
                                         size_t place);

/* The text lines that give an image its lines, as many as out has room for: how many
 * were stored. */
size_t moldthatch_origins(const uint8_t *text, size_t text_length, size_t *out, size_t out_length);

/* The number of the dialect that a word names; the load address that programs of a
 * dialect have where no other is asked for; the number of the dialect by which a text
 * is taken, which is never MOLDTHATCH_AUTO. */
moldthatch_code moldthatch_dialect_by_name(const uint8_t *word, size_t word_length);
moldthatch_code moldthatch_default_load(uint8_t dialect);
moldthatch_code moldthatch_resolved_dialect(const uint8_t *text, size_t text_length, uint8_t dialect);

/* Whether a word is a TSB word, in capitals. */
bool moldthatch_is_tsb_word(const uint8_t *word, size_t word_length);

/* What stands between two braces of a string: a byte, and how often it is repeated.
 * count is 0 where it is no escape. */
moldthatch_code moldthatch_escape(const uint8_t *inside, size_t inside_length);

/* Lists an image at the start of out: the listing's length; out as above. */
moldthatch_code moldthatch_list(const uint8_t *image, size_t image_length, uint8_t *out, size_t out_length);

/* The room that the listing of an image needs. */
moldthatch_code moldthatch_list_room(const uint8_t *image, size_t image_length);

/* The same under a dialect. MOLDTHATCH_BASIC35 lists the words of BASIC 3.5 and knows
 * no TSB words; the other three list as moldthatch_list does. */
moldthatch_code moldthatch_list_under(const uint8_t *image, size_t image_length, uint8_t dialect,
                                      uint8_t *out, size_t out_length);
moldthatch_code moldthatch_list_under_room(const uint8_t *image, size_t image_length, uint8_t dialect);

/* The same with options, and the room. */
moldthatch_code moldthatch_list_with(const uint8_t *image, size_t image_length, moldthatch_list_options options,
                                     uint8_t *out, size_t out_length);
moldthatch_code moldthatch_list_with_room(const uint8_t *image, size_t image_length, moldthatch_list_options options);

/* What is left of a line that is listed in stretches. A line begins as
 * { MOLDTHATCH_WHOLE, 0, its number, 0 }, and is over with MOLDTHATCH_OVER; what lies
 * between is for the next call. */
enum { MOLDTHATCH_WHOLE = 0, MOLDTHATCH_BODY = 1, MOLDTHATCH_OVER = 2 };
typedef struct moldthatch_place {
    uint8_t kind;
    uint8_t mode;
    uint16_t number;
    size_t at;
} moldthatch_place;
typedef struct moldthatch_stretch {
    moldthatch_code code;
    moldthatch_place place;
} moldthatch_stretch;

/* Stores at the start of out what it holds of the line from a place on, in whole pieces:
 * the length, and the place behind it. Nine bytes always hold a piece. */
moldthatch_stretch moldthatch_list_stretch(const uint8_t *body, size_t body_length, moldthatch_list_options options,
                                           moldthatch_place place, uint8_t *out, size_t out_length);

/* Reads a whole image by its links, or by its terminators: its load address and its line
 * count. */
moldthatch_code moldthatch_check(const uint8_t *image, size_t image_length);
moldthatch_code moldthatch_check_terminators(const uint8_t *image, size_t image_length);

/* The line at an offset, by its link or by its terminator; none at the end. The first
 * line stands at offset 2. */
moldthatch_line moldthatch_step(const uint8_t *image, size_t image_length, size_t offset);
moldthatch_line moldthatch_step_terminators(const uint8_t *image, size_t image_length, size_t offset);

/* The first line with a number, by links, over at most so many lines; the code carries
 * how many were looked at. */
moldthatch_line moldthatch_find_line(const uint8_t *image, size_t image_length, uint16_t number, size_t limit);

/* A line index beside an image, and the report of its jumps to lines that are not
 * there, to the start of out: the length; out as above. */
moldthatch_code moldthatch_index(const uint8_t *image, size_t image_length, uint8_t *out, size_t out_length);
moldthatch_code moldthatch_index_report(const uint8_t *image, size_t image_length, uint8_t *out, size_t out_length);

/* What any bytes hold as an index, places from 1: a line's number and the offset of
 * its link; a jump's line, by its place, and its target; the place and the offset
 * of the first line with a number. count is 0 where there is none. */
moldthatch_code moldthatch_index_line(size_t place, const uint8_t *index, size_t index_length);
moldthatch_code moldthatch_index_jump(size_t place, const uint8_t *index, size_t index_length);
moldthatch_code moldthatch_index_look_up(size_t number, const uint8_t *index, size_t index_length);

/* What the machine makes of an image's links after loading it. count is 0 where every
 * link is as it was; 2 where one is changed, the first of these: its offset and its
 * new link; 1 where that is not known, first being 0 if the routine leaves the image,
 * 1 if it never ends. */
moldthatch_code moldthatch_relink(const uint8_t *image, size_t image_length);

/* Counts of words over up to 1,000 images: totals are 206 numbers, all 0 at first. first
 * is 0 where the image is counted or the totals are joined; the number of the refusal
 * for which the image is counted apart; 255 where the numbers are no totals. */
moldthatch_code moldthatch_count(uint64_t *totals, size_t totals_length, const uint8_t *image, size_t image_length);
moldthatch_code moldthatch_count_join(uint64_t *totals, size_t totals_length, const uint64_t *other, size_t other_length);

/* How many words are counted, and the share of a token in thousandths. */
uint64_t moldthatch_count_tokens(const uint64_t *totals, size_t totals_length);
uint64_t moldthatch_count_share(const uint64_t *totals, size_t totals_length, uint8_t token);

/* Whether numbers are totals that images can give; the tokens that are counted, by their
 * places from 0, and 0 behind the last. */
bool moldthatch_count_are_totals(const uint64_t *totals, size_t totals_length);
uint8_t moldthatch_count_token_at(size_t place);

/* What makes a program unfit for the master, with what each kind carries: a number is
 * that of the line. */
enum {
    MOLDTHATCH_NO_FAULT = 0,
    MOLDTHATCH_FAULT_MEMORY = 1,        /* load address, length: not within 0801 to 9FFF */
    MOLDTHATCH_FAULT_NUMBER = 2,        /* number: above 63999 */
    MOLDTHATCH_FAULT_ORDER = 3,         /* number: not above the one before */
    MOLDTHATCH_FAULT_ZERO = 4,          /* number, address of the body's first zero */
    MOLDTHATCH_FAULT_LENGTH = 5,        /* number, length of the body: not 1 to 250 */
    MOLDTHATCH_FAULT_TARGET = 6,        /* number, target of a jump that no line has */
    MOLDTHATCH_FAULT_LINK = 7,          /* number, the link that the machine makes of it */
    MOLDTHATCH_FAULT_LINKS_LEAVE = 8,   /* the machine leaves the program when it links it */
    MOLDTHATCH_FAULT_LINKS_ENDLESS = 9  /* the machine never ends linking it */
};

/* A place among the faults of an image, for the next call alone. */
typedef struct moldthatch_walk {
    uint8_t stage;
    uint8_t mode;
    uint8_t listed;
    uint8_t begun;
    size_t at;
    size_t value;
    size_t offset;
    size_t least;
} moldthatch_walk;
typedef struct moldthatch_fault {
    uint8_t kind;
    size_t first;
    size_t second;
    moldthatch_walk place;
} moldthatch_fault;

/* Marks the numbers that an image's lines have, as far as its links lead, in 65,536
 * bytes that are all 0 at first. */
void moldthatch_mark_numbers(const uint8_t *image, size_t image_length, uint8_t *marked, size_t marked_length);

/* The place before all faults, and the next fault from a place on with the place behind
 * it. Where moldthatch_check refuses the image, faults of lines behind are not found. */
moldthatch_walk moldthatch_fault_start(void);
moldthatch_fault moldthatch_next_fault(const uint8_t *image, size_t image_length, const uint8_t *marked,
                                       size_t marked_length, moldthatch_walk place);

/* Disk images (D64). Each call but format checks the disk first. A refusal changes
 * no byte of it. A name has 1 to 16 bytes, none of them A0. */

/* Makes a disk without files. */
moldthatch_code moldthatch_disk_format(uint8_t *disk, size_t disk_length);

/* Saves an image under a name that no file of the disk has. */
moldthatch_code moldthatch_disk_save(uint8_t *disk, size_t disk_length, const uint8_t *name, size_t name_length,
                                     const uint8_t *image, size_t image_length);

/* Reads the file of a name to the start of out: its length; out as above. */
moldthatch_code moldthatch_disk_read(const uint8_t *disk, size_t disk_length, const uint8_t *name, size_t name_length,
                                     uint8_t *out, size_t out_length);

/* Scratches the file of a name. */
moldthatch_code moldthatch_disk_scratch(uint8_t *disk, size_t disk_length, const uint8_t *name, size_t name_length);

/* Checks a disk: how many files it has, and how many sectors are free. */
moldthatch_code moldthatch_disk_check(const uint8_t *disk, size_t disk_length);

/* The directory as a text, a line for each file and one for the free sectors, to the
 * start of out, as much of it as fits: how many bytes that are. */
moldthatch_code moldthatch_disk_directory(const uint8_t *disk, size_t disk_length, uint8_t *out, size_t out_length);

/* The name that a text stands for, with {xx} for any byte, to the start of out, as much
 * of it as fits: how many bytes that are. */
size_t moldthatch_disk_name(const uint8_t *text, size_t text_length, uint8_t *out, size_t out_length);

/* The SHA-256 of any bytes, to the start of out: its length, MOLDTHATCH_SHA256_LENGTH; out
 * as above. */
moldthatch_code moldthatch_sha256(const uint8_t *bytes, size_t bytes_length, uint8_t *out, size_t out_length);

/* The sentence of a refusal, for a person: stores as much of it as fits at the start
 * of out, and answers how many bytes that are, 0 for a number that is no refusal's.
 * first and second are the code's. No byte behind the sentence is changed: out is no
 * C string until a 0 is put there. */
size_t moldthatch_sentence(uint8_t number, size_t first, size_t second, uint8_t *out, size_t out_length);

#ifdef __cplusplus
}
#endif

#endif

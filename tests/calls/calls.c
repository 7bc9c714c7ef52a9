/* Calls every function of the library, on input that it takes and on input that it refuses, and writes what comes of it. calls.rs writes
 * the same. */
#include "moldthatch.h"

#include <stdio.h>

#define BYTES(text) (const uint8_t *)(text), sizeof(text) - 1

static const char text[] = "10 PRINT\"HI\"\n\n20 sY64738\n";
static const char zero[] = "10 PRINT\"{0}A\":REM hi\n20 GOTO 30\n";
static const moldthatch_crunch_options plain = {0x0801, MOLDTHATCH_AUTO, 0, 0};
static const moldthatch_crunch_options strict = {0x0801, MOLDTHATCH_BASIC_V2, 1, 1};
static const moldthatch_list_options by_links = {MOLDTHATCH_AUTO, 1, 1};
static uint8_t out[256], disk[MOLDTHATCH_DISK_LENGTH];
static uint64_t totals[206], others[206];

static int refused(moldthatch_code code)
{
    size_t length = moldthatch_sentence(code.number, code.first, code.second, out, sizeof out);
    if (code.number != 0)
        printf("%.*s (refusal %d)\n", (int)length, (const char *)out, code.number);
    return code.number != 0;
}

static void number(const char *name, moldthatch_code code)
{
    printf("%s: ", name);
    if (!refused(code))
        printf("%zu\n", code.first);
}

static void pair(const char *name, moldthatch_code code)
{
    printf("%s: ", name);
    if (refused(code))
        return;
    if (code.count == 2)
        printf("%zu %zu\n", code.first, code.second);
    else
        printf("none\n");
}

static void line(const char *name, moldthatch_line line)
{
    printf("%s: ", name);
    if (refused(line.code))
        return;
    if (line.found)
        printf("%d %d %zu %zu %zu %zu, %zu\n", line.number, line.link, line.address, line.from, line.to, line.next,
               line.code.first);
    else
        printf("none, %zu\n", line.code.first);
}

/* Writes a result's bytes, or why there are none. */
static void bytes(const char *name, moldthatch_code code)
{
    printf("%s: ", name);
    if (!refused(code)) {
        fwrite(out, 1, code.first, stdout);
        printf("\n");
    }
}

static void texts(void)
{
    size_t places[4];
    number("crunch", moldthatch_crunch(BYTES(text), 0x0801, MOLDTHATCH_AUTO, out, sizeof out));
    number("crunch_room", moldthatch_crunch_room(BYTES("X"), 0x0801, MOLDTHATCH_AUTO));
    number("crunch_with", moldthatch_crunch_with(BYTES(text), strict, out, sizeof out));
    number("crunch_with", moldthatch_crunch_with(BYTES(zero), strict, out, sizeof out));
    number("crunch_with", moldthatch_crunch_with(BYTES(text), plain, out, 5));
    number("crunch_with_room", moldthatch_crunch_with_room(BYTES(text), plain));
    number("crunch_with_room", moldthatch_crunch_with_room(BYTES(zero), strict));
    line("measured_line", moldthatch_measured_line(BYTES(text), plain, 2));
    line("measured_line", moldthatch_measured_line(BYTES(text), plain, 3));
    line("measured_line", moldthatch_measured_line(BYTES("X"), plain, 1));
    printf("origins: %zu", moldthatch_origins(BYTES(text), places, 4));
    printf(" %zu %zu\n", places[0], places[1]);
    number("dialect_by_name", moldthatch_dialect_by_name(BYTES(" Tsb ")));
    number("dialect_by_name", moldthatch_dialect_by_name(BYTES("X")));
    number("default_load", moldthatch_default_load(MOLDTHATCH_BASIC35));
    number("resolved_dialect", moldthatch_resolved_dialect(BYTES(text), MOLDTHATCH_AUTO));
    number("resolved_dialect", moldthatch_resolved_dialect(BYTES("10 \x80"), MOLDTHATCH_AUTO));
    printf("is_tsb_word: %d %d\n", moldthatch_is_tsb_word(BYTES("COLOUR")), moldthatch_is_tsb_word(BYTES("PRINT")));
    pair("escape", moldthatch_escape(BYTES("clr*3")));
    pair("escape", moldthatch_escape(BYTES("heart")));
}

static void images(void)
{
    static uint8_t image[64];
    size_t length = moldthatch_crunch_with(BYTES(zero), plain, image, sizeof image).first;
    bytes("list", moldthatch_list(image, length, out, sizeof out));
    number("list_room", moldthatch_list_room(image, 1));
    bytes("list_under", moldthatch_list_under(image, length, MOLDTHATCH_BASIC35, out, sizeof out));
    number("list_under_room", moldthatch_list_under_room(image, length, MOLDTHATCH_BASIC35));
    bytes("list_with", moldthatch_list_with(image, length, by_links, out, sizeof out));
    bytes("list_with", moldthatch_list_with(image, 1, by_links, out, sizeof out));
    number("list_with_room", moldthatch_list_with_room(image, length, by_links));
    number("list_with_room", moldthatch_list_with_room(image, 1, by_links));
    moldthatch_line first = moldthatch_step(image, length, 2);
    moldthatch_stretch left = {{0, 0, 0, 0}, {MOLDTHATCH_WHOLE, 0, first.number, 0}};
    while (left.place.kind != MOLDTHATCH_OVER) {
        left = moldthatch_list_stretch(image + first.from, first.to - first.from, by_links, left.place, out, 9);
        bytes("list_stretch", left.code);
    }
    pair("check", moldthatch_check(image, length));
    pair("check", moldthatch_check(image, length - 1));
    pair("check_terminators", moldthatch_check_terminators(image, length));
    pair("check_terminators", moldthatch_check_terminators(image, 4));
    line("step", first);
    line("step", moldthatch_step(image, length, length - 2));
    line("step", moldthatch_step(image, length, 1000));
    line("step_terminators", moldthatch_step_terminators(image, length, 2));
    line("step_terminators", moldthatch_step_terminators(image, 1, 2));
    line("find_line", moldthatch_find_line(image, length, 20, 2));
    line("find_line", moldthatch_find_line(image, length, 30, 2));
    line("find_line", moldthatch_find_line(image, length, 20, 1));
    pair("relink", moldthatch_relink(image, length));
    static uint8_t marked[65536];
    moldthatch_mark_numbers(image, length, marked, sizeof marked);
    moldthatch_walk place = moldthatch_fault_start();
    for (;;) {
        moldthatch_fault fault = moldthatch_next_fault(image, length, marked, sizeof marked, place);
        printf("fault: %d %zu %zu\n", fault.kind, fault.first, fault.second);
        if (fault.kind == MOLDTHATCH_NO_FAULT)
            break;
        place = fault.place;
    }
    size_t index_length = moldthatch_index(image, length, out, sizeof out).first;
    pair("index_line", moldthatch_index_line(2, out, index_length));
    pair("index_jump", moldthatch_index_jump(1, out, index_length));
    pair("index_look_up", moldthatch_index_look_up(30, out, index_length));
    number("index_report", moldthatch_index_report(image, length, out, sizeof out));
    moldthatch_count(totals, 206, image, length);
    moldthatch_count_join(totals, 206, others, 206);
    printf("count: %d of %d\n", (int)moldthatch_count_share(totals, 206, 0x8F), (int)moldthatch_count_tokens(totals, 206));
    others[205] = 1;
    printf("count_are_totals: %d %d\n", moldthatch_count_are_totals(totals, 206), moldthatch_count_are_totals(others, 206));
    printf("count_token_at: %d %d\n", moldthatch_count_token_at(0), moldthatch_count_token_at(197));
}

static void disks(void)
{
    uint8_t name[16];
    size_t length = moldthatch_disk_name(BYTES("hi{a1}"), name, sizeof name);
    printf("disk_name: %zu %d\n", length, name[2]);
    bytes("disk_directory", moldthatch_disk_directory(disk, sizeof disk, out, sizeof out));
    moldthatch_disk_format(disk, sizeof disk);
    moldthatch_disk_save(disk, sizeof disk, name, length, BYTES(text));
    bytes("disk_directory", moldthatch_disk_directory(disk, sizeof disk, out, sizeof out));
    bytes("disk_read", moldthatch_disk_read(disk, sizeof disk, name, length, out, sizeof out));
    moldthatch_disk_scratch(disk, sizeof disk, name, length);
    bytes("disk_read", moldthatch_disk_read(disk, sizeof disk, name, length, out, sizeof out));
    pair("disk_check", moldthatch_disk_check(disk, sizeof disk));
}

static void digests(void)
{
    uint8_t digest[MOLDTHATCH_SHA256_LENGTH];
    size_t length = moldthatch_sha256(BYTES("abc"), digest, sizeof digest).first;
    printf("sha256: ");
    for (size_t i = 0; i < length; i++)
        printf("%02x", digest[i]);
    printf("\n");
}

/* What no caller in Rust can ask for: a number that names no dialect, and a digest in too short a buffer. */
static int unknown(void)
{
    moldthatch_crunch_options crunch = {0x0801, 4, 0, 0};
    moldthatch_list_options list = {4, 0, 0};
    moldthatch_place place = {MOLDTHATCH_BODY, 1, 2, 3};
    moldthatch_stretch stretch = moldthatch_list_stretch(BYTES(text), list, place, out, sizeof out);
    return moldthatch_sha256(BYTES(text), out, MOLDTHATCH_SHA256_LENGTH - 1).number == 6
           && moldthatch_crunch_with(BYTES(text), crunch, out, sizeof out).number == 14
           && moldthatch_crunch_with_room(BYTES(text), crunch).number == 14
           && moldthatch_measured_line(BYTES(text), crunch, 1).code.number == 14
           && moldthatch_list_with(BYTES(text), list, out, sizeof out).number == 14
           && moldthatch_list_with_room(BYTES(text), list).number == 14 && stretch.code.number == 14
           && stretch.place.kind == place.kind && stretch.place.mode == place.mode
           && stretch.place.number == place.number && stretch.place.at == place.at
           && moldthatch_default_load(4).number == 14
           && moldthatch_resolved_dialect(BYTES(text), 4).number == 14;
}

int main(void)
{
    texts();
    images();
    disks();
    digests();
    return unknown() ? 0 : 1;
}

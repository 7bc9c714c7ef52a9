/* Crunches two lines, reads the image by its links, lists it, saves it on a disk, says why there is no room for it elsewhere, and
 * crunches and lists a line for a Plus/4. */
#include "moldthatch.h"

#include <stdio.h>
#include <string.h>

static const char text[] = "10 PRINT \"Hi{0}\"\n20 GOTO 10\n";

static const char plus4[] = "10 do:loop until a\n";

/* Writes why there is no result. */
static void tell(moldthatch_code refusal)
{
    uint8_t sentence[MOLDTHATCH_SENTENCE_LENGTH];
    size_t length = moldthatch_sentence(refusal.number, refusal.first, refusal.second, sentence, sizeof sentence);
    printf("%.*s (refusal %d)\n", (int)length, (const char *)sentence, refusal.number);
}

int main(void)
{
    uint8_t image[64], listing[256];
    moldthatch_code crunched =
        moldthatch_crunch((const uint8_t *)text, sizeof text - 1, 0x0801, MOLDTHATCH_AUTO, image, sizeof image);
    if (crunched.number != 0) {
        tell(crunched);
        return 1;
    }
    moldthatch_code read = moldthatch_check(image, crunched.first);
    printf("%zu bytes, address %zu, %zu lines\n", crunched.first, read.first, read.second);

    moldthatch_code shown = moldthatch_list(image, crunched.first, listing, sizeof listing);
    fwrite(listing, 1, shown.first, stdout);

    moldthatch_code relinked = moldthatch_relink(image, crunched.first);
    if (relinked.count == 2)
        printf("the machine changes the link at offset %zu to %zu\n", relinked.first, relinked.second);

    static uint8_t disk[MOLDTHATCH_DISK_LENGTH];
    static const uint8_t name[] = "COVER";
    moldthatch_disk_format(disk, sizeof disk);
    moldthatch_code saved = moldthatch_disk_save(disk, sizeof disk, name, sizeof name - 1, image, crunched.first);
    if (saved.number != 0) {
        tell(saved);
        return 1;
    }
    moldthatch_code holds = moldthatch_disk_check(disk, sizeof disk);
    moldthatch_code again = moldthatch_disk_read(disk, sizeof disk, name, sizeof name - 1, listing, sizeof listing);
    printf("%zu file, %zu sectors free, %zu bytes read back, %s\n", holds.first, holds.second, again.first,
           again.first == crunched.first && memcmp(listing, image, again.first) == 0 ? "the same" : "others");
    tell(moldthatch_disk_save(disk, sizeof disk, name, sizeof name - 1, image, crunched.first));

    moldthatch_code short_of_room =
        moldthatch_crunch((const uint8_t *)text, sizeof text - 1, 0x0801, MOLDTHATCH_AUTO, image, 8);
    tell(short_of_room);

    moldthatch_code own =
        moldthatch_crunch((const uint8_t *)plus4, sizeof plus4 - 1, 0x1001, MOLDTHATCH_BASIC35, image, sizeof image);
    moldthatch_code words = moldthatch_list_under(image, own.first, MOLDTHATCH_BASIC35, listing, sizeof listing);
    fwrite(listing, 1, words.first, stdout);
    return 0;
}

/* The calls that need no open table, on volumes that this program lays out itself, byte by byte. */
#include "checks.h"

#include <stdio.h>
#include <stdlib.h>
#include <string.h>

/* ---- Blank volumes of each kind ---- */

static void try_blank_system_area(const struct kind *kind, const uint8_t *image)
{
    struct block out = new_block(24);
    uint64_t answer = bm_check_system(image, kind->system_size, out.bytes, 20);
    expect(answers(answer, 0, 0) && has_counts(out.bytes, 0, kind->clusters, 0, 0, 0),
           "check_system: the area is sound");
    expect(guards_stand(&out) && all_are(out.bytes + 20, 4, OLD_BYTE), "check_system: bytes past the counts stay");
    answer = bm_check_system(image, kind->image_size, NULL, 0);
    expect(answers(answer, 0, 0), "check_system: bytes past the area are ignored");
    answer = bm_check_system(image, kind->system_size - 1, NULL, 0);
    expect(answers(answer, 1, 0), "check_system: an area one byte short is finding 1");
    free(out.all);
}

static void try_blank_entries(const struct kind *kind, const uint8_t *image)
{
    struct block out = new_block(BM_ENTRY_SIZE);
    uint32_t last = kind->root_entries - 1;
    int none = answers(bm_entry(image, kind->image_size, 0, out.bytes, out.length), 0, 0) &&
               answers(bm_entry(image, kind->image_size, last, out.bytes, out.length), 0, 0);
    int out_of_range = answers(bm_entry(image, kind->image_size, last + 1, out.bytes, out.length), 0, 0) &&
                       answers(bm_entry(image, kind->image_size, UINT32_MAX, out.bytes, out.length), 0, 0);
    expect(none, "entry: no slot of a blank volume has one");
    expect(out_of_range, "entry: none at a slot out of range");
    expect(guards_stand(&out) && all_are(out.bytes, out.length, OLD_BYTE), "entry: none leaves out as it came");
    free(out.all);
}

static void try_blank(const struct kind *kind)
{
    struct block image = new_block(kind->sectors * 512);
    struct block wanted = new_block(kind->sectors * 512);
    struct block out = new_block(24);
    uint64_t answer;
    printf("-- a blank %s\n", kind->name);
    lay_out_blank(kind, wanted.bytes);
    expect(image.length == kind->image_size && kind->system_size == kind->first_data * 512, "the header's sizes");
    answer = bm_format(image.bytes, image.length, kind->byte);
    expect(answers(answer, 0, 0), "format: 0");
    expect(memcmp(image.bytes, wanted.bytes, image.length) == 0, "format: every byte is as it must be");
    expect(guards_stand(&image), "format: nothing outside the image");
    answer = bm_check(image.bytes, image.length, out.bytes, out.length);
    expect(answers(answer, 0, 0), "check: sound");
    expect(has_counts(out.bytes, 0, kind->clusters, 0, 0, 0), "check: no files, all clusters free");
    expect(guards_stand(&out) && all_are(out.bytes + 20, 4, OLD_BYTE), "check: bytes past the counts stay");
    memset(out.bytes, OLD_BYTE, out.length);
    answer = bm_free_space(image.bytes, image.length, out.bytes, out.length);
    expect(answers(answer, 0, kind->clusters), "free space: all clusters");
    expect(has_words(out.bytes, kind->clusters, kind->clusters, 512, kind->per_cluster), "free space: four words");
    expect(guards_stand(&out) && all_are(out.bytes + 16, 8, OLD_BYTE), "free space: bytes past the words stay");
    try_blank_system_area(kind, image.bytes);
    try_blank_entries(kind, image.bytes);
    expect(memcmp(image.bytes, wanted.bytes, image.length) == 0, "only format altered the image");
    free(image.all);
    free(wanted.all);
    free(out.all);
}

/* ---- Format's one refusal ---- */

static void refuse_format(struct block *image, size_t length, uint32_t kind, const char *what)
{
    memset(image->bytes, OLD_BYTE, image->length);
    expect(answers(bm_format(image->bytes, length, kind), BM_NOT_OF_A_KIND, 0), what);
    expect(guards_stand(image) && all_are(image->bytes, image->length, OLD_BYTE), "format: .. and the image stays");
}

static void try_format_refusals(void)
{
    struct block image = new_block(BM_IMAGE_SIZE_FD);
    puts("-- format refuses");
    refuse_format(&image, BM_IMAGE_SIZE_FE, 0, "format: 40 for kind 0");
    refuse_format(&image, BM_IMAGE_SIZE_FE, 0xFB, "format: 40 for kind FB");
    refuse_format(&image, BM_IMAGE_SIZE_FE, 0x1FE, "format: 40 for kind 1FE");
    refuse_format(&image, BM_IMAGE_SIZE_FE, 0xFFFFFFFEu, "format: 40 for kind FFFFFFFE");
    refuse_format(&image, BM_IMAGE_SIZE_FE, BM_KIND_FC, "format: 40 for another kind's length");
    refuse_format(&image, BM_IMAGE_SIZE_FE - 1, BM_KIND_FE, "format: 40 for one byte less");
    refuse_format(&image, BM_IMAGE_SIZE_FE + 1, BM_KIND_FE, "format: 40 for one byte more");
    refuse_format(&image, 0, BM_KIND_FE, "format: 40 for no bytes");
    free(image.all);
}

/* ---- The volume of the listing ---- */

/* An out buffer one byte short stays as it came, and the answer is the same. */
static void try_short_out(const uint8_t *image)
{
    struct block out = new_block(21);
    size_t size = BM_IMAGE_SIZE_FE;
    expect(answers(bm_check(image, size, out.bytes, 19), 0, 0), "check: the same with a short out");
    expect(answers(bm_check_system(image, size, out.bytes, 19), 0, 0), "check_system: the same with a short out");
    expect(answers(bm_free_space(image, size, out.bytes, 15), 0, 309), "free space: the same with a short out");
    expect(answers(bm_entry(image, size, 0, out.bytes, 21), 0, 1), "entry: the same with a short out");
    expect(guards_stand(&out) && all_are(out.bytes, 21, OLD_BYTE), "a short out stays as it came");
    free(out.all);
}

static void try_null(const uint8_t *image)
{
    size_t size = BM_IMAGE_SIZE_FE;
    puts("-- NULL with length 0");
    expect(answers(bm_format(NULL, 0, BM_KIND_FE), 40, 0), "format: 40");
    expect(answers(bm_check(NULL, 0, NULL, 0), 1, 0), "check: finding 1");
    expect(answers(bm_check_system(NULL, 0, NULL, 0), 1, 0), "check_system: finding 1");
    expect(answers(bm_free_space(NULL, 0, NULL, 0), 40, 0), "free space: 40");
    expect(answers(bm_entry(NULL, 0, 0, NULL, 0), 40, 0), "entry: 40");
    expect(answers(bm_check(image, size, NULL, 0), 0, 0), "check: out may be NULL");
    expect(answers(bm_check_system(image, size, NULL, 0), 0, 0), "check_system: out may be NULL");
    expect(answers(bm_free_space(image, size, NULL, 0), 0, 309), "free space: out may be NULL");
    expect(answers(bm_entry(image, size, 1, NULL, 0), 0, 1), "entry: out may be NULL");
}

static void try_entries(const uint8_t *image)
{
    static const uint8_t day[] = "DAY001  LOG\x20\xBD\x90\x21\x07\x03\x00\x01\x04\x00";
    static const uint8_t tare[] = "TARE    KEY\x21\x00\x35\x21\x07\x02\x00\x28\x00\x00";
    struct block out = new_block(30);
    size_t size = BM_IMAGE_SIZE_FE;
    expect(answers(bm_entry(image, size, 0, out.bytes, 22), 0, 1), "entry 0: there");
    expect(memcmp(out.bytes, tare, 22) == 0, "entry 0: the 22 bytes of TARE.KEY");
    expect(answers(bm_entry(image, size, 1, out.bytes, 30), 0, 1), "entry 1: there");
    expect(memcmp(out.bytes, day, 22) == 0, "entry 1: the 22 bytes of DAY001.LOG");
    expect(out.bytes[BM_ENTRY_ATTRIBUTE] == 0x20 && out.bytes[BM_ENTRY_TIME] == 0xBD &&
               out.bytes[BM_ENTRY_DATE] == 0x21 && out.bytes[BM_ENTRY_START] == 3 &&
               out.bytes[BM_ENTRY_FILE_SIZE + 1] == 4 && out.bytes[BM_ENTRY_NAME] == 'D',
           "entry 1: the fields stand where the header says");
    expect(guards_stand(&out) && all_are(out.bytes + 22, 8, OLD_BYTE), "entry: bytes past the 22 stay");
    expect(answers(bm_entry(image, size, 2, NULL, 0), 0, 0), "entry 2: never used");
    expect(answers(bm_entry(image, size, 64, NULL, 0), 0, 0), "entry 64: out of range");
    expect(answers(bm_entry(image, size, 0x80000000u, NULL, 0), 0, 0), "entry 2,147,483,648: out of range");
    free(out.all);
}

static void try_listing_volume(void)
{
    struct block image = new_block(BM_IMAGE_SIZE_FE);
    struct block before = new_block(BM_IMAGE_SIZE_FE);
    struct block out = new_block(20);
    puts("-- the volume of the listing");
    lay_out_listing(image.bytes);
    memcpy(before.bytes, image.bytes, image.length);
    expect(answers(bm_check(image.bytes, image.length, out.bytes, 20), 0, 0), "check: sound");
    expect(has_counts(out.bytes, 2, 309, 4, 0, 0), "check: 2 files, 309 free, 4 held, 0 bad, 0 reserved");
    memset(out.bytes, OLD_BYTE, 20);
    expect(answers(bm_check_system(image.bytes, BM_SYSTEM_SIZE_FE, out.bytes, 20), 0, 0), "check_system: sound");
    expect(has_counts(out.bytes, 2, 309, 4, 0, 0), "check_system: the same counts");
    expect(answers(bm_free_space(image.bytes, image.length, out.bytes, 16), 0, 309), "free space: 309");
    expect(has_words(out.bytes, 309, 313, 512, 1), "free space: 309 of 313 clusters of 1 sector of 512");
    try_entries(image.bytes);
    try_short_out(image.bytes);
    try_null(image.bytes);
    expect(memcmp(image.bytes, before.bytes, image.length) == 0 && guards_stand(&image), "the image was only read");
    free(image.all);
    free(before.all);
    free(out.all);
}

/* ---- One change of the listing's volume for each finding ---- */

struct change {
    const char *what;
    uint32_t finding, place;
    size_t at;
    uint8_t byte;
    int in_both_copies;
};

static const struct change changes[] = {
    {"byte 512 of no kind is finding 1", 1, 0, COPY_1, 0xF9, 0},
    {"byte 512 of another kind is finding 1", 1, 0, COPY_1, 0xFD, 0},
    {"a mark that is not FF is finding 2 at 2", 2, 2, COPY_1 + 2, 0xF0, 1},
    {"copies that differ are finding 2 at 511", 2, 511, COPY_2 + 511, 1, 0},
    {"value 001 is finding 3 at cluster 200", 3, 200, COPY_1 + 300, 0x01, 1},
    {"a slot after a never used one is finding 4 at slot 3", 4, 3, ROOT + 3 * 32, 0xE5, 0},
    {"a directory is finding 4 at slot 1", 4, 1, ROOT + 32 + 11, 0x10, 0},
    {"a size too large is finding 5 at slot 0", 5, 0, ROOT + 29, 0x02, 0},
    {"a chain that ends early is finding 5 at slot 1", 5, 1, ROOT + 32 + 26, 0x04, 0},
    {"a chain that ends with FF7 is finding 5 at slot 1", 5, 1, COPY_1 + 7, 0x70, 1},
    {"a chain that ends with FF6 is finding 5 at slot 1", 5, 1, COPY_1 + 7, 0x60, 1},
    {"a chain that ends with FF0 is finding 5 at slot 1", 5, 1, COPY_1 + 7, 0x00, 1},
    {"an end value in no file is finding 7 at cluster 200", 7, 200, COPY_1 + 300, 0xFF, 1},
};

static void try_change(const struct change *change, struct block *image)
{
    struct block out = new_block(22);
    uint64_t answer;
    uint32_t refusal = change->finding == 1 ? BM_NOT_OF_A_KIND : BM_NOT_SOUND;
    lay_out_listing(image->bytes);
    image->bytes[change->at] = change->byte;
    if (change->in_both_copies)
        image->bytes[change->at + 512] = change->byte;
    if (change->finding == 7) { /* FFF takes the low half of the next byte too. */
        image->bytes[change->at + 1] |= 0x0F;
        image->bytes[change->at + 513] |= 0x0F;
    }
    answer = bm_check(image->bytes, image->length, out.bytes, out.length);
    expect(answers(answer, change->finding, change->place), change->what);
    answer = bm_check_system(image->bytes, BM_SYSTEM_SIZE_FE, out.bytes, out.length);
    expect(answers(answer, change->finding, change->place), ".. for check_system too");
    answer = bm_free_space(image->bytes, image->length, out.bytes, out.length);
    expect(answers(answer, refusal, 0), ".. and free space refuses by its number");
    expect(guards_stand(&out) && all_are(out.bytes, out.length, OLD_BYTE), ".. and out stays as it came");
    answer = bm_entry(image->bytes, image->length, 0, out.bytes, out.length);
    if (change->finding == 1)
        expect(answers(answer, BM_NOT_OF_A_KIND, 0) && all_are(out.bytes, 22, OLD_BYTE), ".. and entry refuses by 40");
    else
        expect(answers(answer, 0, 1) && memcmp(out.bytes, "TARE    KEY", 11) == 0, ".. and entry still answers");
    free(out.all);
}

/* DAY001.LOG becomes one cluster long and starts at TARE.KEY's. Its old clusters are in no file: a later finding. */
static void try_shared(struct block *image)
{
    lay_out_listing(image->bytes);
    image->bytes[ROOT + 32 + 26] = 2;
    put16(image->bytes + ROOT + 32 + 28, 512);
    expect(answers(bm_check(image->bytes, image->length, NULL, 0), 6, 2), "a cluster in two files is finding 6");
    expect(answers(bm_check_system(image->bytes, BM_SYSTEM_SIZE_FE, NULL, 0), 6, 2), ".. for check_system too");
    expect(answers(bm_free_space(image->bytes, image->length, NULL, 0), 41, 0), ".. and free space refuses by 41");
}

static void try_findings(void)
{
    struct block image = new_block(BM_IMAGE_SIZE_FE);
    size_t n;
    puts("-- each finding");
    for (n = 0; n < sizeof changes / sizeof changes[0]; n++)
        try_change(&changes[n], &image);
    try_shared(&image);
    lay_out_listing(image.bytes);
    expect(answers(bm_check(image.bytes, image.length - 1, NULL, 0), 1, 0), "an image one byte short is finding 1");
    expect(answers(bm_entry(image.bytes, image.length - 1, 0, NULL, 0), 40, 0), ".. and entry refuses by 40");
    expect(answers(bm_free_space(image.bytes, 513, NULL, 0), 40, 0), "free space refuses 513 bytes by 40");
    free(image.all);
}

/* ---- Label and erased slot ---- */

static void try_label(void)
{
    static const uint8_t label[] = "SCALE      \x08\x00\x35\x21\x07\x4D\x00\x07\x00\x00";
    struct block image = new_block(BM_IMAGE_SIZE_FE);
    struct block out = new_block(22);
    puts("-- a label and an erased slot");
    lay_out_listing(image.bytes);
    put_entry(image.bytes + ROOT + 64, "\xE5LD     LOG", 0x20, 0, 9, 9);
    put_entry(image.bytes + ROOT + 96, "SCALE      ", 0x08, 0x3500, 77, 7);
    expect(answers(bm_check(image.bytes, image.length, out.bytes, 20), 0, 0), "check: sound");
    expect(has_counts(out.bytes, 2, 309, 4, 0, 0), "check: neither counts as a file");
    expect(answers(bm_entry(image.bytes, image.length, 2, out.bytes, 22), 0, 0), "entry: none for an erased slot");
    expect(answers(bm_entry(image.bytes, image.length, 3, out.bytes, 22), 0, 1), "entry: the label");
    expect(memcmp(out.bytes, label, 22) == 0, "entry: the label as stored");
    free(image.all);
    free(out.all);
}

void try_volumes(void)
{
    size_t n;
    for (n = 0; n < 4; n++)
        try_blank(&kinds[n]);
    try_format_refusals();
    try_listing_volume();
    try_findings();
    try_label();
}

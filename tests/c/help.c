/* The functions of balladmoor_help.h, beside the calls and beside numbers of document 01. */
#include "balladmoor_help.h"

#include "desk.h"

#include <stdio.h>
#include <stdlib.h>

/* ---- Stamps ---- */

static int same_stamp(const struct bm_stamp *a, const struct bm_stamp *b)
{
    return a->hour == b->hour && a->minute == b->minute && a->step == b->step && a->year == b->year &&
           a->month == b->month && a->day == b->day;
}

/* What create refuses by for that date and time, as people write them. */
static uint32_t refusal_of(uint32_t year, uint32_t month, uint32_t day, uint32_t hour, uint32_t minute, uint32_t second)
{
    struct desk desk = new_desk(lay_out_blank_fe, BM_TABLE_SIZE(1));
    struct bm_stamp stamp = bm_stamp_of(year, month, day, hour, minute, second);
    uint64_t answer = bm_create(desk.image.bytes, desk.image.length, desk.table.bytes, desk.table.length, NAME("A"), 0,
                                BM_STAMP(stamp));
    put_away(&desk);
    return BM_NUMBER(answer);
}

static void try_stamps(void)
{
    struct bm_stamp stamp = bm_stamp_of(1983, 9, 1, 18, 5, 58);
    struct bm_stamp wanted = {18, 5, 29, 3, 9, 1};
    puts("-- stamps");
    expect(same_stamp(&stamp, &wanted), "1983-09-01 18:05:58 is hour 18, minute 5, step 29, year 3, month 9, day 1");
    expect(refusal_of(1980, 1, 1, 0, 0, 0) == 0, "the first that is taken");
    expect(refusal_of(2099, 12, 31, 23, 59, 59) == 0, "the last that is taken");
    expect(refusal_of(1979, 12, 31, 23, 59, 59) == BM_BAD_STAMP, "43 for the year 1979");
    expect(refusal_of(2100, 1, 1, 0, 0, 0) == BM_BAD_STAMP, "43 for the year 2100");
    expect(refusal_of(0, 1, 1, 0, 0, 0) == BM_BAD_STAMP, "43 for the year 0");
    expect(refusal_of(1983, 0, 1, 0, 0, 0) == BM_BAD_STAMP, "43 for month 0");
    expect(refusal_of(1983, 9, 1, 18, 5, 60) == BM_BAD_STAMP, "43 for second 60");
    expect(refusal_of(1983, 9, 1, 18, 5, UINT32_MAX) == BM_BAD_STAMP, "43 for second 4,294,967,295");
}

/* Every word, read by division: 5, 6 and 5 bits, 7, 4 and 5 bits, highest first. */
static void try_stored_words(void)
{
    uint32_t word, times = 0, dates = 0, wrong = 0;
    for (word = 0; word < 0x10000; word++) {
        struct bm_stamp stamp = bm_stored_stamp(word, word);
        struct bm_stamp wanted = {word / 2048, word / 32 % 64, word % 32, word / 512, word / 32 % 16, word % 32};
        wrong += !same_stamp(&stamp, &wanted);
        times += (uint32_t)bm_has_time(&stamp);
        dates += (uint32_t)bm_has_date(&stamp);
    }
    expect(wrong == 0, "each stored word is its three numbers");
    expect(times == 24 * 60 * 30, "as many times are in range as there are");
    expect(dates == 120 * 12 * 31, "as many dates are in range as there are");
}

/* One file is made with that stamp, and its entry read. */
static int comes_back(const struct bm_stamp *stamp)
{
    struct desk desk = new_desk(lay_out_blank_fe, BM_TABLE_SIZE(1));
    struct bm_entry_fields entry;
    uint32_t slot = 0;
    uint64_t answer = bm_create(desk.image.bytes, desk.image.length, desk.table.bytes, desk.table.length, NAME("A"), 0,
                                BM_STAMP(*stamp));
    int found = bm_next_entry(desk.image.bytes, desk.image.length, &slot, &entry);
    put_away(&desk);
    return BM_NUMBER(answer) == 0 && found && same_stamp(&entry.stamp, stamp) && bm_has_time(&entry.stamp) &&
           bm_has_date(&entry.stamp);
}

/* Each number in all its range, the others moving along. */
static void try_stored_stamps(void)
{
    uint32_t n, back = 0;
    for (n = 0; n < 120; n++) {
        struct bm_stamp stamp = {n % 24, n % 60, n % 30, n, n % 12 + 1, n % 31 + 1};
        back += (uint32_t)comes_back(&stamp);
    }
    expect(back == 120, "120 stamps that create stores come back from entry");
}

/* ---- Counts and space ---- */

static void try_counts(const uint8_t *image)
{
    uint8_t out[BM_COUNTS_SIZE];
    struct bm_counts counts;
    struct bm_space space;
    puts("-- counts and space");
    bm_check(image, BM_IMAGE_SIZE_FE, out, sizeof out);
    counts = bm_counts_of(out);
    expect(counts.files == 2 && counts.free == 309 && counts.held == 4 && counts.bad == 0 && counts.reserved == 0,
           "check's counts");
    bm_free_space(image, BM_IMAGE_SIZE_FE, out, sizeof out);
    space = bm_space_of(out);
    expect(space.free == 309 && space.clusters == 313 && space.cluster_size == 512, "free space, clusters of a sector");
}

static void try_space_of_fd(void)
{
    static uint8_t image[BM_IMAGE_SIZE_MOST];
    uint8_t out[BM_SPACE_SIZE];
    struct bm_space space;
    bm_format(image, sizeof image, BM_KIND_FD);
    bm_free_space(image, sizeof image, out, sizeof out);
    space = bm_space_of(out);
    expect(space.free == 354 && space.clusters == 354 && space.cluster_size == 1024, "free space, clusters of two");
}

/* Numbers whose bytes all differ. */
static void try_numbers(void)
{
    static const uint8_t bytes[20] = {1, 2, 3, 4, 5, 6, 7, 8, 9, 10, 11, 12, 13, 14, 15, 16, 17, 18, 19, 240};
    struct bm_counts counts = bm_counts_of(bytes);
    expect(bm_number_2(bytes + 18) == 0xF013 && bm_number_4(bytes + 16) == 0xF0131211u, "numbers, low byte first");
    expect(counts.files == 0x04030201u && counts.free == 0x08070605u && counts.held == 0x0C0B0A09u &&
               counts.bad == 0x100F0E0Du && counts.reserved == 0xF0131211u,
           "five words in their order");
}

/* ---- Entries ---- */

static int is_listed(const struct bm_entry_fields *entry, const char *name, uint32_t attribute, uint32_t size,
                     uint32_t start, struct bm_stamp stamp)
{
    return strcmp(entry->name, name) == 0 && entry->attribute == attribute && entry->size == size &&
           entry->start == start && same_stamp(&entry->stamp, &stamp);
}

/* The volume of document 01's listing, with an erased slot before the second file and a label behind it. */
static void try_entries(uint8_t *image)
{
    struct bm_entry_fields entry;
    uint32_t slot = 0;
    puts("-- entries");
    memmove(image + ROOT + 64, image + ROOT + 32, 32);
    image[ROOT + 32] = 0xE5;
    put_entry(image + ROOT + 96, "MY OLD DISK", BM_LABEL, 0, 0, 0);
    expect(bm_next_entry(image, BM_IMAGE_SIZE_FE, &slot, &entry) && slot == 0, "the first is in slot 0");
    expect(is_listed(&entry, "TARE.KEY", 0x21, 40, 2, bm_stamp_of(1983, 9, 1, 6, 40, 0)), "it is document 01's tare");
    expect(memcmp(entry.stored, image + ROOT, 12) == 0 && memcmp(entry.stored + 12, image + ROOT + 22, 10) == 0,
           ".. with its bytes as they are stored");
    slot++;
    expect(bm_next_entry(image, BM_IMAGE_SIZE_FE, &slot, &entry) && slot == 2, "the next is past an erased slot");
    expect(is_listed(&entry, "DAY001.LOG", 0x20, 1025, 3, bm_stamp_of(1983, 9, 1, 18, 5, 58)), "it is document 01's day");
    slot++;
    expect(bm_next_entry(image, BM_IMAGE_SIZE_FE, &slot, &entry) && slot == 3, "then the label");
    expect(strcmp(entry.name, "MY OLD DISK") == 0 && entry.attribute == BM_LABEL, "its text has no dot");
    slot++;
    expect(!bm_next_entry(image, BM_IMAGE_SIZE_FE, &slot, &entry), "and no more");
    slot = 0;
    expect(!bm_next_entry(image, BM_IMAGE_SIZE_FE - 1, &slot, &entry), "none on an image of no kind");
    slot = UINT32_MAX;
    expect(!bm_next_entry(image, BM_IMAGE_SIZE_FE, &slot, &entry) && slot == UINT32_MAX, "none past all slots");
}

/* The constants for any kind are those of the kinds' largest. */
static void try_largest(void)
{
    size_t image = 0, slots = 0, system = 0, n;
    for (n = 0; n < 4; n++) {
        image = kinds[n].image_size > image ? kinds[n].image_size : image;
        slots = kinds[n].root_entries > slots ? kinds[n].root_entries : slots;
        system = kinds[n].system_size > system ? kinds[n].system_size : system;
    }
    expect(image == BM_IMAGE_SIZE_MOST && slots == BM_SLOTS_MOST && system == BM_SYSTEM_SIZE_MOST, "the largest sizes");
}

/* A root with an entry in every slot: as many as the kind has, each once. */
static void try_full_root(const struct kind *kind)
{
    struct block image = new_block(kind->image_size);
    struct bm_entry_fields entry;
    uint32_t slot, seen = 0;
    char name[12];
    lay_out_blank(kind, image.bytes);
    for (slot = 0; slot < kind->root_entries; slot++) {
        sprintf(name, "F%-10u", (unsigned)slot);
        put_entry(image.bytes + 512 * (1 + 2 * kind->fat_sectors) + 32 * slot, name, 0x20, 0, 0, 0);
    }
    for (slot = 0; bm_next_entry(image.bytes, image.length, &slot, &entry); slot++)
        seen += entry.name[0] == 'F' && (uint32_t)atoi(entry.name + 1) == slot;
    expect(seen == kind->root_entries && seen <= BM_SLOTS_MOST, "every slot of a full root, each once");
    free(image.all);
}

/* ---- Names ---- */

static int reads(const char *stored, const char *text)
{
    char name[13];
    bm_name_text((const uint8_t *)stored, name);
    return strcmp(name, text) == 0;
}

static void try_name_texts(void)
{
    puts("-- names");
    expect(reads("TARE    KEY", "TARE.KEY"), "TARE.KEY");
    expect(reads("TARE       ", "TARE"), "the dot stands only before an extension");
    expect(reads("19830901LOG", "19830901.LOG"), "a name without spaces");
    expect(reads("A B     C  ", "A?B.C"), "a space inside is ?");
    expect(reads("        KEY", ".KEY"), "an extension alone");
    expect(reads("aZ9$&#@!%'(", "?Z9$&#@!.%'("), "signs, and a small letter is ?");
    expect(reads(")-{}_*+\x80\x01\x7F.", ")-{}_*+?.???") == 0 && reads(")-{}_*+\x80\x01\x7F.", ")-{}_???.???"),
           "other bytes are ?");
}

/* A stored name of signs that callers may give and of some that they may not. */
static void any_name(uint8_t *name)
{
    static const char signs[] = "AZ09$_}' a*\x05\x80.";
    int n, wild = rand() % 2 * 6;
    for (n = 0; n < 11; n++)
        name[n] = (uint8_t)signs[rand() % (8 + wild)];
    while (rand() % 2 && n > 1)
        name[--n] = ' ';
}

static uint8_t volume[BM_IMAGE_SIZE_FE];

/* The volume has the file of this stored name in slot 1. */
static void lay_out_name(const uint8_t *name)
{
    lay_out_blank(&kinds[0], volume);
    put_entry(volume + ROOT, "ANOTHER    ", 0, 0, 0, 0);
    put_entry(volume + ROOT + 32, (const char *)name, 0, 0, 0, 0);
}

/* Opens that file by its text. The answer's number, or 99 for another file. */
static uint32_t opened_by_text(const char *text)
{
    uint8_t table[BM_TABLE_SIZE(1)] = {0};
    uint64_t answer = bm_open(volume, sizeof volume, table, sizeof table, NAME(text), BM_READ);
    return BM_NUMBER(answer) == 0 && table[BM_RECORD_SLOT] != 1 ? 99 : BM_NUMBER(answer);
}

/* A text without ? opens its file. Any other is refused by 42, and so is one with nothing before the extension. With
 * something before it, a text is a pattern that matches its file. */
static void try_names_opened(void)
{
    int n, found = 0, refused = 0, matched = 0;
    srand(1);
    for (n = 0; n < 2000; n++) {
        uint8_t name[11];
        char text[13];
        uint32_t number;
        int begins;
        any_name(name);
        if (name[0] == '.')
            continue;
        lay_out_name(name);
        bm_name_text(name, text);
        begins = text[0] != '.' && text[0] != '\0';
        number = opened_by_text(text);
        matched += answers(bm_find(volume, sizeof volume, NAME(text), 1, 0), 0, 1) == begins ? 1 : -2000;
        if (strchr(text, '?') == NULL && begins)
            found += number == 0 ? 1 : -2000;
        else
            refused += number == BM_BAD_NAME ? 1 : -2000;
    }
    expect(found > 500, "a text without ? opens its file");
    expect(refused > 500, "any other is refused by 42");
    expect(matched > 1000, "each is a pattern for its file, if something stands before the dot");
}

/* ---- Sentences ---- */

static const uint32_t numbers[] = {
    0,
    BM_INVALID_FUNCTION,
    BM_FILE_NOT_FOUND,
    BM_TOO_MANY_OPEN,
    BM_ACCESS_DENIED,
    BM_INVALID_HANDLE,
    BM_INVALID_ACCESS,
    BM_NO_MORE_FILES,
    BM_NOT_OF_A_KIND,
    BM_NOT_SOUND,
    BM_BAD_NAME,
    BM_BAD_STAMP,
    99, /* a number that is none */
};

static void try_sentences(void)
{
    size_t n, k;
    puts("-- sentences");
    for (n = 0; n < sizeof numbers / sizeof numbers[0]; n++) {
        const char *sentence = bm_sentence(numbers[n]);
        char what[256];
        int own = sentence[strlen(sentence) - 1] == '.';
        for (k = 0; k < n; k++)
            own = own && strcmp(sentence, bm_sentence(numbers[k])) != 0;
        sprintf(what, "%u: %.200s", (unsigned)numbers[n], sentence);
        expect(own, what);
    }
}

int main(void)
{
    static uint8_t image[BM_IMAGE_SIZE_FE];
    int n;
    lay_out_listing(image);
    try_stamps();
    try_stored_words();
    try_stored_stamps();
    try_counts(image);
    try_space_of_fd();
    try_numbers();
    try_entries(image);
    try_largest();
    for (n = 0; n < 4; n++)
        try_full_root(&kinds[n]);
    try_name_texts();
    try_names_opened();
    try_sentences();
    return tally();
}

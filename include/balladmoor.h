/* balladmoor.h: the calls of the scale's volume code, for C.
 *
 * Link with libscale.a, which is for x86-64: -lscale. It wants memset and nothing else of a C library.
 *
 * Numbers are uint32_t (bm_seek's offset is an int32_t), and any value may come in: one that is out of range is
 * refused, never misread. A run of bytes is a pointer and then its length. A length of 0 is allowed, with any pointer,
 * NULL too. The runs of one call must not overlap. A call uses no other memory of the caller and keeps nothing between
 * calls: which files are open stands in the open table, which is the caller's too. A run that is const is only read.
 *
 * Every call answers one uint64_t: take it apart by BM_NUMBER and BM_VALUE. BM_NUMBER is 0 if the call ended well, else
 * the number of the refusal; BM_VALUE is the value, 0 after a refusal. bm_check and bm_check_system never refuse: there
 * BM_NUMBER is the finding (0: sound) and BM_VALUE its place.
 *
 * What does not fit one number is put into `out`, as 32-bit words, low byte first, unless said otherwise. If `out` is
 * shorter than what is to be put there, it is left as it came and the answer is the same: a caller who needs the answer
 * alone gives NULL and 0. A refusal leaves all memory as it came. Bytes of `out` past what is put there stay.
 *
 * Each call's comment has its refusals in the order in which they are tested. INTERFACE.md has examples, and how much
 * stack a call takes. balladmoor_help.h has small functions that most programs want beside the calls.
 */
#ifndef BALLADMOOR_H
#define BALLADMOOR_H

#include <stddef.h>
#include <stdint.h>

#ifdef __cplusplus
extern "C" {
#endif

/* The version of header and archive, also in the file VERSION. */
#define BM_VERSION "2.1.0"

/* The two halves of an answer. */
#define BM_NUMBER(answer) ((uint32_t)((uint64_t)(answer) >> 32))
#define BM_VALUE(answer) ((uint32_t)((uint64_t)(answer)&0xFFFFFFFFu))

/* The four kinds of diskette, by the byte that names them (byte 512 of an image). */
#define BM_KIND_FE 0xFEu /* 320 sectors, 313 clusters of 1 sector, 64 slots */
#define BM_KIND_FF 0xFFu /* 640 sectors, 315 clusters of 2 sectors, 112 slots */
#define BM_KIND_FC 0xFCu /* 360 sectors, 351 clusters of 1 sector, 64 slots */
#define BM_KIND_FD 0xFDu /* 720 sectors, 354 clusters of 2 sectors, 112 slots */

/* Bytes of a sector. */
#define BM_SECTOR_SIZE 512u

/* Bytes of a whole image of each kind, and of the largest. */
#define BM_IMAGE_SIZE_FE 163840u
#define BM_IMAGE_SIZE_FF 327680u
#define BM_IMAGE_SIZE_FC 184320u
#define BM_IMAGE_SIZE_FD 368640u
#define BM_IMAGE_SIZE_MOST 368640u

/* Bytes of each kind's system area (boot sector, both copies of the table, root), and of the largest. */
#define BM_SYSTEM_SIZE_FE 3584u
#define BM_SYSTEM_SIZE_FF 5120u
#define BM_SYSTEM_SIZE_FC 4608u
#define BM_SYSTEM_SIZE_FD 6144u
#define BM_SYSTEM_SIZE_MOST 6144u

/* Slots of the largest root. They count from 0. */
#define BM_SLOTS_MOST 112u

/* Bytes that each call puts into `out`. */
#define BM_COUNTS_SIZE 20u /* bm_check, bm_check_system */
#define BM_SPACE_SIZE 16u  /* bm_free_space */
#define BM_ENTRY_SIZE 22u  /* bm_entry */

/* Where bm_check and bm_check_system put each count in `out`, as 4 bytes, low byte first. All but the first count
 * clusters, and these four add up to all clusters of the volume. */
#define BM_COUNTS_FILES 0u     /* files */
#define BM_COUNTS_FREE 4u      /* free */
#define BM_COUNTS_HELD 8u      /* held by files */
#define BM_COUNTS_BAD 12u      /* bad: the table has FF7 */
#define BM_COUNTS_RESERVED 16u /* reserved: the table has FF0 to FF6 */

/* Where bm_entry puts each field in `out`. All numbers are low byte first. */
#define BM_ENTRY_NAME 0u       /* 11 bytes: name 8, extension 3, padded by spaces */
#define BM_ENTRY_ATTRIBUTE 11u /* 1 byte */
#define BM_ENTRY_TIME 12u      /* 2 bytes */
#define BM_ENTRY_DATE 14u      /* 2 bytes */
#define BM_ENTRY_START 16u     /* 2 bytes */
#define BM_ENTRY_FILE_SIZE 18u /* 4 bytes */

/* The open table: records of BM_RECORD_SIZE bytes, one after the other, in bytes that the caller lends. A table of
 * BM_TABLE_SIZE(n) bytes has n places; no more than BM_PLACES_MOST are used. A program sets all its bytes to 0 before
 * the first call, when no file is open, and need not look into it later. A handle is the number of a place. */
#define BM_RECORD_SIZE 16u
#define BM_PLACES_MOST 16u
#define BM_TABLE_SIZE(places) (BM_RECORD_SIZE * (places))

/* Where each field stands in a record. Numbers are low byte first; the other bytes are 0 and never looked at. */
#define BM_RECORD_USED 0u    /* 1 byte: 0 if not used */
#define BM_RECORD_ACCESS 1u  /* 1 byte: BM_READ, BM_WRITE or BM_READ_AND_WRITE; else the place is not live */
#define BM_RECORD_WRITTEN 2u /* 1 byte: 0 if not written */
#define BM_RECORD_SLOT 4u    /* 4 bytes: the file's slot in the root */
#define BM_RECORD_POINTER 8u /* 4 bytes: the byte of the file where the next read or write begins */

/* Accesses. */
#define BM_READ 0u
#define BM_WRITE 1u
#define BM_READ_AND_WRITE 2u

/* From where bm_seek counts: its methods. */
#define BM_FROM_START 0u
#define BM_FROM_POINTER 1u
#define BM_FROM_END 2u

/* Functions of bm_mode. */
#define BM_MODE_ASK 0u
#define BM_MODE_SET 1u

/* Bits of an attribute. */
#define BM_READ_ONLY 0x01u
#define BM_HIDDEN 0x02u
#define BM_SYSTEM 0x04u
#define BM_LABEL 0x08u /* the label's: no caller may give it */
#define BM_ARCHIVE 0x20u

/* Refusal numbers: 1 to 18 as in the DOS manual's error return table, then this code's own. */
#define BM_INVALID_FUNCTION 1u /* no such seek method or mode function; a seek that leads below 0 or too far */
#define BM_FILE_NOT_FOUND 2u   /* no such plain file */
#define BM_TOO_MANY_OPEN 4u    /* no unused place */
#define BM_ACCESS_DENIED 5u    /* see each call */
#define BM_INVALID_HANDLE 6u   /* the handle is not live: not used, or it names no file of this volume */
#define BM_INVALID_ACCESS 12u  /* no such access */
#define BM_NO_MORE_FILES 18u   /* no file at or after the slot matches */
#define BM_NOT_OF_A_KIND 40u   /* the image is of no kind */
#define BM_NOT_SOUND 41u       /* bm_check finds something */
#define BM_BAD_NAME 42u        /* a name or a pattern breaks the rules */
#define BM_BAD_STAMP 43u       /* a time or date out of its ranges */

/* Makes a blank volume.
 *
 * kind is one of the four kind bytes, and image is as long as that kind's image. What stood in image is lost: data
 * bytes become F6; all before them zero, but for the kind byte and FF FF at the beginning of each copy of the table.
 *
 * Value: 0.
 * Refusal: 40 if kind is no kind byte or the image has not that kind's length; image is left as it came. */
uint64_t bm_format(uint8_t *image, size_t image_length, uint32_t kind);

/* Judges a whole image.
 *
 * BM_NUMBER is 0 if the volume is sound, else the first of these findings that holds, with BM_VALUE as its place:
 *   1  the image is of no kind: no kind byte at 512, or not its length   place 0
 *   2  a table's first bytes are wrong, or its two copies differ         byte of the copy
 *   3  a table entry with a value that means nothing                     cluster
 *   4  a directory entry that can't be, or a name or label twice         slot
 *   5  a file's chain of clusters is too short, broken or without end   slot
 *   6  a cluster in two files                                            cluster
 *   7  a cluster in use that is in no file                               cluster
 *
 * A file may have more clusters than its size needs; they are held too.
 *
 * out: if sound, 20 bytes: files, free clusters, clusters held by files, bad clusters, reserved clusters. Where a
 * cluster is bad, the disk is worn. No call puts a file's bytes into a bad or reserved cluster.
 * It never refuses. The image is only read. */
uint64_t bm_check(const uint8_t *image, size_t image_length, uint8_t *out, size_t out_length);

/* Judges a system area alone: the sectors before the first data sector.
 *
 * The kind is taken from byte 512. More bytes than the kind's system area are ignored, so a whole image may be given;
 * fewer are finding 1. Answer and out are those of bm_check. It never refuses. The area is only read. */
uint64_t bm_check_system(const uint8_t *area, size_t area_length, uint8_t *out, size_t out_length);

/* Counts the free clusters of a sound volume.
 *
 * Value: the free clusters.
 * out: 16 bytes: free clusters, all clusters, 512 (bytes of a sector), sectors per cluster.
 * Refusals: 40 if the image is of no kind; 41 if the volume is not sound. The image is only read. */
uint64_t bm_free_space(const uint8_t *image, size_t image_length, uint8_t *out, size_t out_length);

/* Gives the directory entry at a slot of the root, of a file or of the label. Slots count from 0.
 *
 * The volume need not be sound.
 * Value: 1; or 0 for none, if the slot is out of range, erased or never used.
 * out: if the value is 1, 22 bytes as stored: name 11, attribute 1, time 2, date 2, start 2, size 4.
 * Refusal: 40 if the image is of no kind. The image is only read. */
uint64_t bm_entry(const uint8_t *image, size_t image_length, uint32_t slot, uint8_t *out, size_t out_length);

/* ---- Files. All calls from here on want a sound volume, but for bm_rescue, the last.
 *
 * A name is its characters, without a byte 0 at the end: 1 to 8, then optionally a dot and 0 to 3 more; letters (small
 * ones become capitals), digits and $ & # @ ! % ' ( ) - { } _. A stamp is six numbers: hour 0-23, minute 0-59, step (of
 * two seconds) 0-29, year (from 1980) 0-119, month 1-12, day 1-31. */

/* Finds a file by a pattern: the first at or after a slot that matches. bm_entry tells more of it.
 *
 * A pattern is spelled as a name is, and may have ? and * too. ? matches any one byte of the 11 that a name has, also
 * padding; * stands last in its part, counts as one of its 8 or 3 characters, and matches all the rest of the part. So
 * DAY???.LOG matches DAY1.LOG, *.* matches every name, and * alone only names without an extension. A pattern without
 * ? and * matches the file of that name.
 *
 * A hidden file matches only if mask has BM_HIDDEN, a system file only if it has BM_SYSTEM, and one that is both only
 * if it has both. The other bits of mask don't matter. The label is never found. All matches, once each:
 *
 *     answer = bm_find(image, length, pattern, pattern_length, 0, mask);
 *     while (BM_NUMBER(answer) == 0) {
 *         .. the file in slot BM_VALUE(answer) ..
 *         answer = bm_find(image, length, pattern, pattern_length, BM_VALUE(answer) + 1, mask);
 *     }
 *
 * Value: the slot.
 * Refusals: 40, 41; 42; 18 if no file at or after slot matches, and for a slot that is out of range. The image is only
 * read. */
uint64_t bm_find(const uint8_t *image, size_t image_length, const uint8_t *pattern, size_t pattern_length,
                 uint32_t slot, uint32_t mask);

/* Opens a file, hidden and system ones too, with the pointer at 0. It takes the lowest unused place.
 *
 * Value: the handle.
 * Refusals: 40, 41; 12 if access is above 2; 42; 2; 5 if the file is read-only and access not BM_READ; 4 if no place is
 * unused. */
uint64_t bm_open(const uint8_t *image, size_t image_length, uint8_t *table, size_t table_length, const uint8_t *name,
                 size_t name_length, uint32_t access);

/* Makes an empty file and opens it with BM_READ_AND_WRITE, even one that is marked read-only.
 *
 * A file of that name is emptied: its bytes are lost and all its clusters free. Else the lowest erased or never used
 * slot is taken. The entry gets the attribute and the stamp. It takes the lowest unused place.
 *
 * Value: the handle.
 * Refusals: 40, 41; 42; 43; 5 if attribute has another bit than BM_READ_ONLY, BM_HIDDEN, BM_SYSTEM and BM_ARCHIVE, if
 * there is a file of that name that is open or read-only, or if there is none and no slot for it; 4 if no place is
 * unused. */
uint64_t bm_create(uint8_t *image, size_t image_length, uint8_t *table, size_t table_length, const uint8_t *name,
                   size_t name_length, uint32_t attribute, uint32_t hour, uint32_t minute, uint32_t step, uint32_t year,
                   uint32_t month, uint32_t day);

/* Reads from the pointer on, as many bytes as buffer and file allow, and moves the pointer behind them.
 *
 * The bytes come to the front of buffer; the rest of it stays.
 *
 * Value: how many bytes; 0 with the pointer at or past the end of the file.
 * Refusals: 40, 41; 6; 5 if the place has BM_WRITE. */
uint64_t bm_read(const uint8_t *image, size_t image_length, uint8_t *table, size_t table_length, uint32_t handle,
                 uint8_t *buffer, size_t buffer_length);

/* Writes at the pointer, as many bytes as there is room for, and moves the pointer behind them.
 *
 * The room is all of the file's own clusters, which are used first, and all free ones. Where the pointer was past the
 * end of the file, the bytes between become 0. The entry's size and start are stored at once. If it writes nothing,
 * nothing changes.
 *
 * Value: how many bytes; fewer than data_length if the room ends before, 0 with the pointer at or past it.
 * Refusals: 40, 41; 6; 5 if the place has BM_READ. */
uint64_t bm_write(uint8_t *image, size_t image_length, uint8_t *table, size_t table_length, uint32_t handle,
                  const uint8_t *data, size_t data_length);

/* Moves the pointer by offset from byte 0, from the pointer or from the end of the file. It may stand past the end.
 *
 * Value: the pointer.
 * Refusals: 40, 41; 1 if method is above 2; 6; 1 if the pointer would be below 0 or above 4,294,967,295. */
uint64_t bm_seek(const uint8_t *image, size_t image_length, uint8_t *table, size_t table_length, uint32_t handle,
                 uint32_t method, int32_t offset);

/* Closes a file: its place is unused again. If bytes were written by this handle, the entry gets BM_ARCHIVE and the
 * stamp.
 *
 * Value: 0.
 * Refusals: 40, 41; 43, even where nothing was written; 6. */
uint64_t bm_close(uint8_t *image, size_t image_length, uint8_t *table, size_t table_length, uint32_t handle,
                  uint32_t hour, uint32_t minute, uint32_t step, uint32_t year, uint32_t month, uint32_t day);

/* Deletes a file: all its clusters are free and its slot is erased.
 *
 * Value: 0.
 * Refusals: 40, 41; 42; 2; 5 if the file is open or read-only. */
uint64_t bm_delete(uint8_t *image, size_t image_length, const uint8_t *table, size_t table_length, const uint8_t *name,
                   size_t name_length);

/* Renames a file.
 *
 * Value: 0.
 * Refusals: 40, 41; 42 for either name; 2; 5 if the file is open or read-only, or a file has the new name, itself
 * included. */
uint64_t bm_rename(uint8_t *image, size_t image_length, const uint8_t *table, size_t table_length, const uint8_t *name,
                   size_t name_length, const uint8_t *new_name, size_t new_name_length);

/* Asks for a file's attribute (BM_MODE_ASK; the attribute given is not looked at) or sets it (BM_MODE_SET).
 *
 * Value: the attribute for BM_MODE_ASK, 0 for BM_MODE_SET.
 * Refusals: 40, 41; 1 if function is above 1; 42; 2; and for BM_MODE_SET 5 if attribute has another bit than
 * BM_READ_ONLY, BM_HIDDEN, BM_SYSTEM and BM_ARCHIVE, or if the file is open. */
uint64_t bm_mode(uint8_t *image, size_t image_length, const uint8_t *table, size_t table_length, const uint8_t *name,
                 size_t name_length, uint32_t function, uint32_t attribute);

/* Says whether view, a call for programs in Rattle that gives a part of the image itself, would be refused.
 *
 * offset is the byte of the file from which view would begin; none is refused.
 *
 * Value: 0.
 * Refusals: 40, 41; 42; 2. */
uint64_t bm_view_number(const uint8_t *image, size_t image_length, const uint8_t *name, size_t name_length,
                        uint32_t offset);

/* Reads a file off a volume that need not be sound, through the file's own chain of clusters. It is for a volume that
 * the other calls refuse by 41, as a reset in the middle of a save may leave it.
 *
 * The file's first bytes come to the front of out, as many as out and file allow: here an out that is too short is
 * filled. The rest of out stays. Where several plain files have the name, the one in the lowest slot counts.
 *
 * Value: how many bytes.
 * Refusals: 40; 42; 2; 5 if the file's chain is too short, broken or without end, as in finding 5 of bm_check. */
uint64_t bm_rescue(const uint8_t *image, size_t image_length, const uint8_t *name, size_t name_length, uint8_t *out,
                   size_t out_length);

#ifdef __cplusplus
}
#endif

#endif

/* What the command asks beside the scale's calls: the crate `member`, in libmember.a. Answers are those of
 * balladmoor.h: BM_NUMBER is 0 or the number of the refusal, BM_VALUE the value, 0 after a refusal. An image need not
 * be sound, and is only read. */
#ifndef MEMBER_H
#define MEMBER_H

#include <stddef.h>
#include <stdint.h>

/* What stands at a slot of the root. Directories and long names are other systems': by the growers' rules the one is a
 * plain file, the other a label. */
#define MEMBER_NO_SLOT 0u /* nothing: the root has fewer slots */
#define MEMBER_NO_ENTRY 1u
#define MEMBER_FILE 2u
#define MEMBER_LABEL 3u
#define MEMBER_DIRECTORY 4u
#define MEMBER_LONG_NAME 5u

/* Value: one of these. Refusal: 40 if the image is of no kind. */
uint64_t member_slot(const uint8_t *image, size_t image_length, uint32_t slot);

/* What the table has for a cluster. Clusters count from 2. */
#define MEMBER_NO_CLUSTER 0u /* nothing: the disk has no such cluster */
#define MEMBER_FREE 1u
#define MEMBER_BAD 2u
#define MEMBER_RESERVED 3u
#define MEMBER_NO_VALUE 4u /* a value that means nothing */
#define MEMBER_LINK 5u
#define MEMBER_END 6u

/* Value: one of these. Refusal: 40 if the image is of no kind. */
uint64_t member_cluster(const uint8_t *image, size_t image_length, uint32_t cluster);

/* Which files hold a cluster: their chains come to it. A chain that is broken is followed as far as it goes.
 *
 * Value: the lowest slot from this one on whose file holds the cluster, and one more, which is from where to ask for
 * the next; 0 if there is none. Refusal: 40 if the image is of no kind. */
uint64_t member_holder(const uint8_t *image, size_t image_length, uint32_t cluster, uint32_t slot);

/* A date as bm_entry gives it. Value: the digits YYYYMMDD, in decimal. Refusal: 43 if it is out of its ranges. */
uint64_t member_date(uint32_t word);

/* A time as bm_entry gives it. Value: the digits HHMMSS, in decimal. Refusal: 43 if it is out of its ranges. */
uint64_t member_time(uint32_t word);

#endif

/* A program without a C library: it brings memset, which the archive wants, and nothing else. It stores a day's weighing,
 * reads it back, and uses the functions of balladmoor_help.h. */
#include "balladmoor_help.h"

static uint8_t image[BM_IMAGE_SIZE_MOST], table[BM_TABLE_SIZE(1)], out[BM_ENTRY_SIZE], back[32];
static int passed, failed;

void *memset(void *at, int byte, size_t length);

void *memset(void *at, int byte, size_t length)
{
    volatile uint8_t *bytes = at; /* else the compiler makes a call of memset of it */
    while (length > 0)
        bytes[--length] = (uint8_t)byte;
    return at;
}

/* ---- The machine ---- */

static long linux_call(long call, long a, const void *b, size_t c)
{
    long result;
    __asm__ volatile("syscall" : "=a"(result) : "a"(call), "D"(a), "S"(b), "d"(c) : "rcx", "r11", "memory");
    return result;
}

static void print(const char *text)
{
    size_t length = 0;
    while (text[length] != '\0')
        length++;
    linux_call(1, 1, text, length);
}

static void print_number(int number)
{
    char digit[2] = {(char)('0' + number % 10), '\0'};
    if (number >= 10)
        print_number(number / 10);
    print(digit);
}

static void expect(int holds, const char *what)
{
    print(holds ? "ok: " : "FAILED: ");
    print(what);
    print("\n");
    if (holds)
        passed++;
    else
        failed++;
}

/* ---- The calls ---- */

#define IMAGE image, sizeof image
#define TABLE table, sizeof table

static const uint8_t day[] = {'D', 'A', 'Y', '0', '0', '1', '.', 'L', 'O', 'G'};
static const uint8_t line[] = {'6', '1', '2', '5', '0', '\n'};

static int is_text(const char *a, const char *b)
{
    while (*a != '\0' && *a == *b)
        a++, b++;
    return *a == *b;
}

static void store(void)
{
    struct bm_stamp stamp = bm_stamp_of(1983, 9, 1, 18, 5, 58);
    expect(BM_NUMBER(bm_format(IMAGE, BM_KIND_FD)) == 0, "format");
    expect(BM_NUMBER(bm_create(IMAGE, TABLE, day, sizeof day, 0, BM_STAMP(stamp))) == 0, "create");
    expect(BM_VALUE(bm_write(IMAGE, TABLE, 0, line, sizeof line)) == sizeof line, "write");
    expect(BM_NUMBER(bm_close(IMAGE, TABLE, 0, BM_STAMP(stamp))) == 0, "close");
}

static void look(void)
{
    struct bm_entry_fields entry;
    struct bm_counts counts;
    uint32_t slot = 0;
    expect(bm_next_entry(IMAGE, &slot, &entry) && is_text(entry.name, "DAY001.LOG"), "the entry's name");
    expect(entry.size == sizeof line && entry.stamp.step == 29 && bm_has_date(&entry.stamp), "its size and stamp");
    expect(BM_NUMBER(bm_check(IMAGE, out, sizeof out)) == 0, "check");
    counts = bm_counts_of(out);
    expect(counts.files == 1 && counts.free == 353 && counts.held == 1, "its counts: files, free, held");
    expect(counts.bad == 0 && counts.reserved == 0, "its counts: bad, reserved");
    expect(BM_NUMBER(bm_free_space(IMAGE, out, sizeof out)) == 0 && bm_space_of(out).cluster_size == 1024, "free space");
    expect(BM_NUMBER(bm_open(IMAGE, TABLE, day, sizeof day, BM_READ)) == 0, "open");
    expect(BM_VALUE(bm_read(IMAGE, TABLE, 0, back, sizeof back)) == sizeof line && back[4] == '0', "read");
    expect(BM_NUMBER(bm_delete(IMAGE, TABLE, day, sizeof day)) == BM_ACCESS_DENIED, "delete refuses an open file");
    expect(is_text(bm_sentence(0), "The call ended well."), "a sentence");
}

/* The machine begins at _start; main wants the stack on a multiple of 16 bytes. */
__asm__(".globl _start\n_start: andq $-16, %rsp\n call main\n movl %eax, %edi\n movl $231, %eax\n syscall");

int main(void);

int main(void)
{
    store();
    look();
    print_number(passed);
    print(" passed, ");
    print_number(failed);
    print(" failed\n");
    return failed == 0 ? 0 : 1;
}

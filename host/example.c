/* A table over a listing, from C: directories and files are made, moved and deleted, by one call after the other and
 * by a script; what a move needs is asked; files are added to and written inside; directories are shown; table and
 * listing are kept in a file's bytes and read again; and each answer is printed. */
#include <stdio.h>
#include <string.h>

#include "overlay.h"

/* A table, its record and its work buffer. */
struct plan {
    uint8_t table[1024];
    uint8_t work[1024];
    uint64_t record[OVERLAY_RECORD_LENGTH];
};

/* What a call is lent, in the order of its parameters. */
#define LISTING listing, sizeof listing
#define TABLE(plan) (plan)->table, sizeof(plan)->table, (plan)->record, OVERLAY_RECORD_LENGTH
#define LENT(plan) TABLE(plan), (plan)->work, sizeof(plan)->work
#define PATH(text) (const uint8_t *)(text), strlen(text)
#define PLACE place, OVERLAY_PLACE_LENGTH
#define LEAST least, OVERLAY_LEAST_LENGTH

/* A published tree of one directory `a` with a file `a/f` of 5 bytes. */
static const uint8_t listing[] = {'R', 'D', 'L', 1, 0, 2, 0, 0, 0,
                                  1, 0, 1, 0, 0, 0, 0, 0, 0, 0xf0, 0x3f, 0, 0, 0, 0, 0, 0, 0, 0, 'a',
                                  3, 0, 2, 0, 0, 0, 0, 0, 0, 0, 0x40, 5, 0, 0, 0, 0, 0, 0, 0, 'a', '/', 'f'};

/* The script: mkdir `s`, then write `s/t` with the data "hi", then write `s` with no data. */
#define NO_LIMIT 255, 255, 255, 255, 255, 255, 255, 255
static const uint8_t script[] = {'T', 'S', 'C', '1', 3, 0, 0, 0,
                                 2, 0, 1, 0, 0, 0, 0, 0, 0, 0, 0, 0, 0, 0, 0xf0, 0x3f, NO_LIMIT, 's',
                                 1, 0, 3, 0, 2, 0, 0, 0, 0, 0, 0, 0, 0, 0, 0xf0, 0x3f, NO_LIMIT, 's', '/', 't',
                                 'h', 'i',
                                 1, 0, 1, 0, 0, 0, 0, 0, 0, 0, 0, 0, 0, 0, 0xf0, 0x3f, NO_LIMIT, 's'};

static const uint64_t no_limit = UINT64_MAX;
static const uint64_t one_second = 0x3ff0000000000000; /* the bits of 1.0 */

static int differences = 0;

/* Prints an answer, and counts it where its number or its value is another one. */
static void expect(const char *call, uint64_t answer, int number, uint64_t value) {
    if (overlay_is_accepted(answer))
        printf("%-28s accepted, value %llu\n", call, (unsigned long long)overlay_answer_value(answer));
    else
        printf("%-28s refused with %d, path %d, length %llu\n", call, overlay_answer_number(answer),
               overlay_answer_path(answer), (unsigned long long)overlay_answer_length(answer));
    if (overlay_answer_number(answer) != number || overlay_answer_value(answer) != value) {
        printf("  expected %d with %llu\n", number, (unsigned long long)value);
        differences++;
    }
}

/* One of the four numbers of a row. */
static uint64_t number_in(const uint8_t *report, int row, int column) {
    uint64_t number = 0;
    for (int i = 7; i >= 0; i--)
        number = number << 8 | report[OVERLAY_ROW_LENGTH * row + 8 * column + i];
    return number;
}

/* Runs the script on the table, and then on a new one. */
static void run_scripts(struct plan *plan) {
    static const char *calls[] = {"  mkdir s", "  write s/t", "  write s"};
    static const int numbers[] = {OVERLAY_ACCEPTED, OVERLAY_ACCEPTED, OVERLAY_IS_A_DIRECTORY};
    static const uint64_t values[] = {0, 2, 1};
    static struct plan other;
    uint8_t report[3 * OVERLAY_ROW_LENGTH];

    expect("run a script", overlay_run(LISTING, LENT(plan), script, sizeof script, report, sizeof report),
           OVERLAY_ACCEPTED, 0);
    for (int row = 0; row < 3; row++)
        expect(calls[row], number_in(report, row, 0) | number_in(report, row, 1) << 8 | number_in(report, row, 2) << 16,
               numbers[row], values[row]);
    if (number_in(report, 2, 3) != plan->record[OVERLAY_RECORD_CHARGE])
        differences++;
    expect("is_file s/t", overlay_is_file(LISTING, TABLE(plan), PATH("s/t")), OVERLAY_ACCEPTED, 1);

    expect("run seven bytes", overlay_run(LISTING, LENT(plan), script, 7, report, sizeof report),
           OVERLAY_MALFORMED_SCRIPT, 0);
    expect("run, two rows", overlay_run(LISTING, LENT(plan), script, sizeof script, report, 2 * OVERLAY_ROW_LENGTH),
           OVERLAY_SHORT_REPORT, 0);
    expect("run on a new table",
           overlay_run_new(LISTING, LENT(&other), script, sizeof script, report, sizeof report, 40),
           OVERLAY_ACCEPTED, 0);
    if (other.record[OVERLAY_RECORD_COUNT] != 2 || !overlay_check_table(TABLE(&other)))
        differences++;
}

/* Adds to the listed file `a/f`, whose five bytes are lent, and writes inside what has become an own file. That is
 * charged 256 + 3 + 40 + 16 as long as it has 1 to 16 bytes, so that it grows from 8 to 11 at the limit 315, and a 17th
 * byte needs 331. */
static void change_content(void) {
    static const char content[] = "track 12\0\0!";
    static struct plan plan;
    size_t head = 24 + strlen("a/f");

    expect("open", overlay_open_table(TABLE(&plan), 40), OVERLAY_ACCEPTED, 0);
    expect("append to a/f, nothing lent",
           overlay_append_bytes(LISTING, LENT(&plan), PATH("a/f"), PATH(" 42"), NULL, 0, one_second, no_limit),
           OVERLAY_LENT_COUNT, 0);
    expect("write inside a/f, not own",
           overlay_write_file_at(LISTING, LENT(&plan), PATH("a/f"), PATH("1"), 6, one_second, no_limit),
           OVERLAY_NOT_FOUND, 3);
    expect("append to a/f",
           overlay_append_bytes(LISTING, LENT(&plan), PATH("a/f"), PATH(" 42"), PATH("track"), one_second, no_limit),
           OVERLAY_ACCEPTED, 3);
    expect("write inside a/f",
           overlay_write_file_at(LISTING, LENT(&plan), PATH("a/f"), PATH("1"), 6, one_second, no_limit),
           OVERLAY_ACCEPTED, 1);
    expect("write behind a gap, at 314",
           overlay_write_file_at(LISTING, LENT(&plan), PATH("a/f"), PATH("!"), 10, one_second, 314),
           OVERLAY_LIMIT, 0);
    expect("write behind a gap, at 315",
           overlay_write_file_at(LISTING, LENT(&plan), PATH("a/f"), PATH("!"), 10, one_second, 315),
           OVERLAY_ACCEPTED, 1);
    expect("write a 17th byte, at 330",
           overlay_write_file_at(LISTING, LENT(&plan), PATH("a/f"), PATH("!"), 16, one_second, 330),
           OVERLAY_LIMIT, 0);
    expect("write at 2^64 - 1",
           overlay_write_file_at(LISTING, LENT(&plan), PATH("a/f"), PATH("!"), UINT64_MAX, one_second, no_limit),
           OVERLAY_RANGE_TOO_LARGE, 0);
    expect("a gap up to 2^64 - 1",
           overlay_write_file_at(LISTING, LENT(&plan), PATH("a/f"), NULL, 0, UINT64_MAX, one_second, no_limit),
           OVERLAY_NO_ROOM, 0);
    expect("a gap, a limit below that",
           overlay_write_file_at(LISTING, LENT(&plan), PATH("a/f"), NULL, 0, UINT64_MAX, one_second, no_limit - 1),
           OVERLAY_LIMIT, 0);
    if (plan.record[OVERLAY_RECORD_USED] != head + sizeof content - 1 || plan.record[OVERLAY_RECORD_CHARGE] != 315 ||
        memcmp(plan.table + head, content, sizeof content - 1) != 0)
        differences++;
}

/* Asks what would let a rename through. Prints the two numbers, and counts them where they or the value are others. */
static void expect_least(const struct plan *plan, const char *source, const char *destination, uint64_t value,
                         uint64_t limit, uint64_t length) {
    uint64_t least[OVERLAY_LEAST_LENGTH] = {8, 9};
    char call[40];

    snprintf(call, sizeof call, "least for %s %s", source, destination);
    expect(call, overlay_least_rename(LISTING, TABLE(plan), PATH(source), PATH(destination), LEAST), OVERLAY_ACCEPTED,
           value);
    printf("  limit %llu, table %llu bytes\n", (unsigned long long)least[OVERLAY_LEAST_LIMIT],
           (unsigned long long)least[OVERLAY_LEAST_TABLE_LENGTH]);
    if (least[OVERLAY_LEAST_LIMIT] != limit || least[OVERLAY_LEAST_TABLE_LENGTH] != length) {
        printf("  expected %llu and %llu\n", (unsigned long long)limit, (unsigned long long)length);
        differences++;
    }
}

/* Asks what moving `a` to `b/c/a` needs, moves it, and asks what moving it back needs.
 * The table holds b (charge 297, 25 bytes), b/c (299, 27) and b/c/g (317, 34), whose 5 bytes are charged as 16: 913 in
 * 86 bytes. The move adds a (297, 25) and a/f (299, 27) as deleted, b/c/a (301, 29), and b/c/a/f (319, 34) as a
 * reference to a/f, whose 3 bytes are charged as 16: 2,129 in 201 bytes. Its walk asks for less, 913 + 3 + 518. Moving
 * it back changes neither sum; it plans 2 * 7 + 3 + 256 for the key b/c/a/f, beside the charge. */
static void move_with_the_least(struct plan *plan) {
    uint64_t least[OVERLAY_LEAST_LENGTH] = {8, 9};

    expect_least(plan, "a", "b/c/a", 1, 2129, 201);
    expect("rename a b/c/a at 2128", overlay_rename(LISTING, LENT(plan), PATH("a"), PATH("b/c/a"), 2128),
           OVERLAY_LIMIT, 0);
    expect("rename a b/c/a at 2129", overlay_rename(LISTING, LENT(plan), PATH("a"), PATH("b/c/a"), 2129),
           OVERLAY_ACCEPTED, 0);
    expect_least(plan, "b/c/a", "a", 1, 2402, 201);
    expect_least(plan, "b/c/a", "b/c/a", 1, 0, 201);
    expect_least(plan, "b", "b/c/b", 0, 0, 0);
    expect("least for .. a", overlay_least_rename(LISTING, TABLE(plan), PATH(".."), PATH("a"), LEAST),
           OVERLAY_MALFORMED_PATH, 0);
    if (least[OVERLAY_LEAST_LIMIT] != 8 || least[OVERLAY_LEAST_TABLE_LENGTH] != 9)
        differences++;
}

/* Prints the names that were written for a shown directory. Each stands behind its length in 16 bits. */
static void print_names(const uint8_t *names, size_t length) {
    for (size_t at = 0; at < length;) {
        int name_length = names[at] | names[at + 1] << 8;
        printf("  %.*s\n", name_length, (const char *)names + at + 2);
        at += 2 + name_length;
    }
}

/* Shows what lies in `b/c`, then what else can be asked of a path. */
static void show_directories(const struct plan *plan) {
    static const uint8_t children[] = {1, 0, 'a', 1, 0, 'd'};
    uint8_t output[16];

    expect("show b/c, a byte too short", overlay_show(LISTING, TABLE(plan), PATH("b/c"), output, sizeof children - 1),
           OVERLAY_NO_ROOM, 0);
    uint64_t answer = overlay_show(LISTING, TABLE(plan), PATH("b/c"), output, sizeof output);
    expect("show b/c", answer, OVERLAY_ACCEPTED, sizeof children);
    print_names(output, overlay_answer_value(answer));
    if (memcmp(output, children, sizeof children) != 0)
        differences++;
    for (size_t at = sizeof children; at < sizeof output; at++)
        if (output[at] != 0)
            differences++;
    answer = overlay_show(LISTING, TABLE(plan), PATH(""), output, sizeof output);
    expect("show the root", answer, OVERLAY_ACCEPTED, 3);
    print_names(output, overlay_answer_value(answer));
    expect("show b/c/d, empty", overlay_show(LISTING, TABLE(plan), PATH("b/c/d"), NULL, 0), OVERLAY_ACCEPTED, 0);
    expect("show b/c/a/f", overlay_show(LISTING, TABLE(plan), PATH("b/c/a/f"), output, sizeof output),
           OVERLAY_NOT_A_DIRECTORY, 7);
    expect("show a", overlay_show(LISTING, TABLE(plan), PATH("a"), output, sizeof output), OVERLAY_NOT_FOUND, 1);
}

/* Keeps the table with the listing in a file's bytes, reads them into another table, and goes on with a call over the
 * listing where it stands in the file. */
static void keep_and_read(const struct plan *plan) {
    static struct plan other;
    static uint8_t file[OVERLAY_KEPT_OVERHEAD + sizeof listing + sizeof plan->table];
    uint64_t place[OVERLAY_PLACE_LENGTH];
    size_t length = OVERLAY_KEPT_OVERHEAD + sizeof listing + plan->record[OVERLAY_RECORD_USED];

    expect("keep, a byte too short", overlay_write_kept(LISTING, TABLE(plan), file, length - 1), OVERLAY_NO_ROOM, 0);
    expect("keep", overlay_write_kept(LISTING, TABLE(plan), file, sizeof file), OVERLAY_ACCEPTED, length);
    expect("read", overlay_read_kept(file, length, TABLE(&other), PLACE), OVERLAY_ACCEPTED, 0);
    const uint8_t *kept = file + place[OVERLAY_PLACE_START];
    size_t kept_length = place[OVERLAY_PLACE_LISTING_LENGTH];
    if (kept_length != sizeof listing || memcmp(kept, LISTING) != 0)
        differences++;
    if (memcmp(other.table, plan->table, sizeof other.table) != 0 ||
        memcmp(other.record, plan->record, sizeof other.record) != 0)
        differences++;
    expect("unlink s/t in what was read", overlay_unlink(kept, kept_length, LENT(&other), PATH("s/t"), no_limit),
           OVERLAY_ACCEPTED, 0);

    expect("read, a byte cut off", overlay_read_kept(file, length - 1, TABLE(&other), PLACE), OVERLAY_DAMAGED, 0);
    expect("read a listing", overlay_read_kept(LISTING, TABLE(&other), PLACE), OVERLAY_NOT_KEPT, 0);
    expect("open, entry size 41", overlay_open_table(TABLE(&other), 41), OVERLAY_ACCEPTED, 0);
    expect("keep, entry size 41", overlay_write_kept(LISTING, TABLE(&other), file, sizeof file),
           OVERLAY_OTHER_ENTRY_SIZE, 0);
}

int main(void) {
    static struct plan plan;
    expect("open", overlay_open_table(TABLE(&plan), 40), OVERLAY_ACCEPTED, 0);
    if (!overlay_check_listing(LISTING))
        differences++;

    expect("is_file a/f", overlay_is_file(LISTING, TABLE(&plan), PATH("a/f")), OVERLAY_ACCEPTED, 1);
    expect("mkdir b/c, parents",
           overlay_mkdir(LISTING, LENT(&plan), PATH("b/c"), true, false, one_second, no_limit), OVERLAY_ACCEPTED, 0);
    expect("write b/c/g",
           overlay_write_bytes(LISTING, LENT(&plan), PATH("b/c/g"), PATH("hello"), one_second, no_limit),
           OVERLAY_ACCEPTED, 5);
    expect("write n/g",
           overlay_write_bytes(LISTING, LENT(&plan), PATH("n/g"), PATH("hello"), one_second, no_limit),
           OVERLAY_NOT_FOUND, 3);
    move_with_the_least(&plan);
    expect("rename b/c/a b/c/a at limit 0",
           overlay_rename(LISTING, LENT(&plan), PATH("b/c/a"), PATH("b/c/a"), 0), OVERLAY_ACCEPTED, 0);
    expect("is_file b/c/a/f", overlay_is_file(LISTING, TABLE(&plan), PATH("b/c/a/f")), OVERLAY_ACCEPTED, 1);
    expect("exists a", overlay_exists(LISTING, TABLE(&plan), PATH("a")), OVERLAY_ACCEPTED, 0);
    expect("rmdir b/c", overlay_rmdir(LISTING, LENT(&plan), PATH("b/c"), no_limit), OVERLAY_NOT_EMPTY, 3);
    expect("unlink b/c/g", overlay_unlink(LISTING, LENT(&plan), PATH("b/c/g"), no_limit), OVERLAY_ACCEPTED, 0);
    expect("mkdir b/c/d", overlay_mkdir(LISTING, LENT(&plan), PATH("b/c/d"), false, false, one_second, no_limit),
           OVERLAY_ACCEPTED, 0);
    show_directories(&plan);
    expect("is_dir ..", overlay_is_dir(LISTING, TABLE(&plan), PATH("..")), OVERLAY_MALFORMED_PATH, 0);

    /* A record that does not agree with the table, or is not four numbers, is refused. */
    uint64_t wrong[OVERLAY_RECORD_LENGTH];
    memcpy(wrong, plan.record, sizeof wrong);
    wrong[OVERLAY_RECORD_CHARGE]++;
    expect("exists a, another charge",
           overlay_exists(LISTING, plan.table, sizeof plan.table, wrong, OVERLAY_RECORD_LENGTH, PATH("a")),
           OVERLAY_MALFORMED_TABLE, 0);
    expect("exists a, three numbers",
           overlay_exists(LISTING, plan.table, sizeof plan.table, plan.record, 3, PATH("a")),
           OVERLAY_MALFORMED_TABLE, 0);

    change_content();
    run_scripts(&plan);
    keep_and_read(&plan);
    if (!overlay_check_table(TABLE(&plan)))
        differences++;
    printf("%llu entries, %llu bytes, charge %llu\n", (unsigned long long)plan.record[OVERLAY_RECORD_COUNT],
           (unsigned long long)plan.record[OVERLAY_RECORD_USED], (unsigned long long)plan.record[OVERLAY_RECORD_CHARGE]);
    printf(differences == 0 ? "all as expected\n" : "%d differences\n", differences);
    return differences != 0;
}

/* examples/host/run builds this program and runs it; see the Makefile beside it. */

/*
 * host OLD.pbn NEW.pbn [FINISHED.pbn]: solves what is left to be solved in the new edition of a collection, and writes
 * the finished edition, in which every board with a whole deal has its table.
 *
 * Golavimes plans: it lists each deal of the new edition that has no table in either edition, once. The double-dummy
 * solver of Bo Haglund and Soren Hein, Debian's libdds, solves these deals. A line is printed for each, with the
 * position of its board in the new edition and the tricks as a DoubleDummyTricks tag has them: N, S, E, W, each in
 * NT, S, H, D, C. The totals follow. With FINISHED.pbn Golavimes then finishes the new edition, and the last line has
 * the bytes written. That file comes into place when it is complete, in place of one that may be there; it is never
 * one of the two that are read.
 *
 * The program ends with 0 if all was solved and written, with 2 after a refusal of Golavimes, and with 1 if a file,
 * memory or the solver failed it. In the last two cases the reason is on the standard error output.
 */
#define _POSIX_C_SOURCE 200809L /* for stat, mkstemp and fsync */

#include <errno.h>
#include <stdio.h>
#include <stdlib.h>
#include <string.h>
#include <sys/stat.h>
#include <unistd.h>

#include <dds/dll.h>

#include "golavimes.h"

/* An edition, and what is lent for it. Lengths of cards and entries are in words. */
struct edition {
    const char *path;
    struct stat file;
    uint8_t *text;
    size_t text_length;
    uint32_t *cards;
    size_t cards_length;
    uint32_t *entries;
    size_t entries_length;
};

/* Memory for count elements. It is never a null pointer, since Golavimes takes none, also where the count is 0. */
static void *memory(uint64_t count, size_t size, const char *what)
{
    void *lent = NULL;
    if (count <= SIZE_MAX / size)
        lent = malloc(count == 0 ? size : (size_t)count * size);
    if (lent == NULL) {
        fprintf(stderr, "host: no memory for %lu times %lu bytes of %s. Close other programs, or split the collection.\n",
                (unsigned long)count, (unsigned long)size, what);
        exit(1);
    }
    return lent;
}

/* Lends words in place of those lent before. Their old contents are of no use. */
static void lend_words(uint32_t **words, size_t *length, uint64_t count, const char *what)
{
    free(*words);
    *words = memory(count, sizeof **words, what);
    *length = (size_t)count;
}

/* Ends the program. The system's own reason is number, 0 where it has none. */
static void file_failed(const char *path, const char *wrong, int number, const char *what_to_do)
{
    fprintf(stderr, "host: %s %s%s%s. %s\n", path, wrong, number == 0 ? "" : ": ", number == 0 ? "" : strerror(number),
            what_to_do);
    exit(1);
}

static void not_read(const char *path)
{
    file_failed(path, "cannot be read", errno, "Give the paths of two PBN files; /dev/null is an empty edition.");
}

/* Takes a file into memory, whole and whatever its length. Nothing is lent for its cards and entries yet. */
static void open_edition(struct edition *edition, const char *path)
{
    size_t room = 65536, got;
    FILE *file = fopen(path, "rb");
    if (file == NULL || fstat(fileno(file), &edition->file) != 0)
        not_read(path);
    edition->path = path;
    edition->text = memory(room, 1, "text");
    edition->text_length = 0;
    while ((got = fread(edition->text + edition->text_length, 1, room - edition->text_length, file)) != 0) {
        edition->text_length += got;
        if (edition->text_length == room) {
            uint8_t *text = memory(2 * (uint64_t)room, 1, "text");
            memcpy(text, edition->text, room);
            free(edition->text);
            edition->text = text;
            room = 2 * room;
        }
    }
    if (ferror(file))
        not_read(path);
    fclose(file);
    edition->cards = NULL;
    edition->entries = NULL;
    lend_words(&edition->cards, &edition->cards_length, 0, "cards");
    lend_words(&edition->entries, &edition->entries_length, 0, "entries");
}

static void close_edition(struct edition *edition)
{
    free(edition->text);
    free(edition->cards);
    free(edition->entries);
}

/* Whether a path names the file of an edition, by whatever path that was given. */
static int is_file_of(const struct stat *file, const struct edition *edition)
{
    return file->st_dev == edition->file.st_dev && file->st_ino == edition->file.st_ino;
}

/*
 * Sees, before anything is solved, whether the finished edition may and can be written to a path. Returns the mode of
 * the file that is there, or the one that a new file gets.
 */
static mode_t check_place(const char *path, const struct edition *before, const struct edition *after)
{
    const char *slash = strrchr(path, '/');
    size_t length = slash == NULL ? 0 : (size_t)(slash - path) + 1;
    char *folder = memory(length + 2, 1, "path");
    struct stat file;
    mode_t mask = umask(0);

    umask(mask);
    memcpy(folder, path, length);
    strcpy(folder + length, ".");
    if (access(folder, W_OK | X_OK) != 0)
        file_failed(folder, "cannot be written to", errno, "Give FINISHED.pbn in a folder that is there and is yours.");
    free(folder);
    if (stat(path, &file) != 0)
        return 0666 & ~mask;
    if (is_file_of(&file, before) || is_file_of(&file, after))
        file_failed(path, "is one of the editions that are read", 0, "Give another path for FINISHED.pbn.");
    if (!S_ISREG(file.st_mode))
        file_failed(path, "is there and is no ordinary file", 0, "Give another path for FINISHED.pbn.");
    return file.st_mode & 0777;
}

/*
 * Plans with exactly the memory that is needed. The first call lends none. Each refusal 2, 3 or 4 carries how much is
 * needed of one thing; that is lent, and the call is made again. A need that is met is not refused again, so this ends.
 * The slips are handed back, to be freed.
 */
static uint64_t *plan(struct edition *before, struct edition *after, uint64_t answer[10])
{
    size_t slips_length = 0;
    uint64_t *slips = memory(0, sizeof *slips, "slips");

    for (;;) {
        struct edition *meant;
        golavimes_plan(before->text, before->text_length, after->text, after->text_length, before->cards,
                       before->cards_length, before->entries, before->entries_length, after->cards,
                       after->cards_length, after->entries, after->entries_length, slips, slips_length, answer);
        meant = answer[1] == GOLAVIMES_EDITION_OLD ? before : after;
        switch (answer[0]) {
        case GOLAVIMES_BOX_FULL:
            lend_words(&meant->cards, &meant->cards_length, GOLAVIMES_CARD_WORDS * answer[2], "cards");
            break;
        case GOLAVIMES_LIST_FULL:
            lend_words(&meant->entries, &meant->entries_length, GOLAVIMES_ENTRY_WORDS * answer[2], "entries");
            break;
        case GOLAVIMES_SLIPS_SHORT:
            free(slips);
            slips = memory(GOLAVIMES_SLIP_NUMBERS * answer[2], sizeof *slips, "slips");
            slips_length = (size_t)(GOLAVIMES_SLIP_NUMBERS * answer[2]);
            break;
        default: /* taken, or a refusal that no memory cures */
            return slips;
        }
    }
}

/*
 * The deal for the solver. Both sides have hands in the order N, E, S, W. Golavimes has a hand as one number, 13 bits a
 * suit in the order C, D, H, S, the 2 lowest; the solver has a number for each suit in the order S, H, D, C, the 2 at
 * bit 2.
 */
static struct ddTableDeal solver_deal(const uint64_t hands[4])
{
    struct ddTableDeal deal;
    int k;
    for (k = 0; k < 16; k++)
        deal.cards[k / 4][k % 4] = (unsigned int)(hands[k / 4] >> (13 * (3 - k % 4)) & 0x1fff) << 2;
    return deal;
}

/*
 * Solves one deal. Golavimes has a table by declarers N, S, E, W, each in NT, S, H, D, C; the solver by strains S, H, D,
 * C, NT, each for N, E, S, W.
 */
static void solve(const uint64_t hands[4], uint8_t table[GOLAVIMES_TABLE])
{
    static const int declarers[4] = {0, 2, 1, 3}, strains[5] = {4, 0, 1, 2, 3};
    struct ddTableResults results;
    int cell, code = CalcDDtable(solver_deal(hands), &results);

    if (code != RETURN_NO_FAULT) {
        char line[80];
        ErrorMessage(code, line);
        fprintf(stderr, "host: the solver failed with %d: %s\n", code, line);
        exit(1);
    }
    for (cell = 0; cell < GOLAVIMES_TABLE; cell++)
        table[cell] = (uint8_t)results.resTable[strains[cell % 5]][declarers[cell / 5]];
}

/* Solves the deals on the slips, and prints a line for each. The tables are handed back, to be freed. */
static uint8_t *solve_slips(const uint64_t *slips, uint64_t count)
{
    uint8_t *tables = memory(GOLAVIMES_TABLE * count, 1, "tables");
    uint64_t k;

    SetMaxThreads(0); /* as many as the machine has */
    for (k = 0; k < count; k++) {
        const uint64_t *slip = slips + GOLAVIMES_SLIP_NUMBERS * k;
        uint8_t *table = tables + GOLAVIMES_TABLE * k, digits[GOLAVIMES_DIGITS_PAGE];
        uint64_t written[4];
        solve(slip + 1, table);
        golavimes_dd_table_to_pbn(table, digits, sizeof digits, written);
        printf("board=%lu tricks=%.*s\n", (unsigned long)slip[0], (int)written[3], (const char *)digits);
    }
    FreeMemory();
    return tables;
}

static void print_totals(const uint64_t answer[10])
{
    printf("total=%lu blank=%lu own=%lu old=%lu near=%lu twin=%lu solve=%lu\n", (unsigned long)answer[3],
           (unsigned long)answer[4 + GOLAVIMES_STATE_BLANK], (unsigned long)answer[4 + GOLAVIMES_STATE_OWN],
           (unsigned long)answer[4 + GOLAVIMES_STATE_OLD], (unsigned long)answer[4 + GOLAVIMES_STATE_NEAR],
           (unsigned long)answer[4 + GOLAVIMES_STATE_TWIN], (unsigned long)answer[4 + GOLAVIMES_STATE_SOLVE]);
}

/*
 * Finishes the new edition that was planned, with the cards and entries that were lent for planning. The first call
 * lends no page: refusal 7 carries the bytes needed. The page is handed back, to be freed.
 */
static uint8_t *finish(struct edition *before, struct edition *after, const uint8_t *tables, uint64_t count,
                       uint64_t answer[4])
{
    uint8_t *page = memory(0, 1, "page");
    size_t page_length = 0;

    for (;;) {
        golavimes_finish(before->text, before->text_length, after->text, after->text_length, before->cards,
                         before->cards_length, before->entries, before->entries_length, after->cards,
                         after->cards_length, after->entries, after->entries_length, tables,
                         (size_t)(GOLAVIMES_TABLE * count), page, page_length, answer);
        if (answer[0] != GOLAVIMES_PAGE_FULL)
            return page;
        free(page);
        page = memory(answer[2], 1, "page");
        page_length = (size_t)answer[2];
    }
}

/* Whether a text was written to a file and is on the disk. The file is closed in each case. */
static int stored(int descriptor, mode_t mode, const uint8_t *text, uint64_t length)
{
    FILE *file = fdopen(descriptor, "wb");
    int whole;
    if (file == NULL) {
        close(descriptor);
        return 0;
    }
    whole = fwrite(text, 1, (size_t)length, file) == length && fflush(file) == 0 && fchmod(descriptor, mode) == 0 &&
            fsync(descriptor) == 0;
    return fclose(file) == 0 && whole;
}

/* Puts a text into a file: into another file of the same folder, which is renamed when it is complete. */
static void put_in_place(const char *path, mode_t mode, const uint8_t *text, uint64_t length)
{
    static const char ending[] = ".XXXXXX"; /* mkstemp finds a name that is free */
    size_t path_length = strlen(path);
    char *beside = memory(path_length + sizeof ending, 1, "path");
    int descriptor;

    memcpy(beside, path, path_length);
    memcpy(beside + path_length, ending, sizeof ending);
    descriptor = mkstemp(beside);
    if (descriptor == -1)
        file_failed(path, "cannot be written", errno, "Give FINISHED.pbn in a folder that is there and is yours.");
    if (!stored(descriptor, mode, text, length) || rename(beside, path) != 0) {
        int number = errno;
        unlink(beside);
        file_failed(path, "cannot be written", number, "Make room on the disk, or give another path for FINISHED.pbn.");
    }
    free(beside);
}

static int refused(const struct edition *before, const struct edition *after, const uint64_t *answer)
{
    const char *edition = answer[1] == GOLAVIMES_EDITION_OLD   ? "old"
                          : answer[1] == GOLAVIMES_EDITION_NEW ? "new"
                                                               : "none";
    fprintf(stderr, "host: refusal %lu, edition %s, carrying %lu.\n", (unsigned long)answer[0], edition,
            (unsigned long)answer[2]);
    if (answer[0] == GOLAVIMES_OVERLONG)
        fprintf(stderr, "host: %s has %lu bytes and may have %lu. Split the collection into several files.\n",
                answer[1] == GOLAVIMES_EDITION_OLD ? before->path : after->path, (unsigned long)answer[2],
                (unsigned long)GOLAVIMES_TEXT_LIMIT);
    return 2;
}

/* Solves and, where there is a path for it, finishes. The status is handed back. */
static int run(struct edition *before, struct edition *after, const char *path)
{
    mode_t mode = path == NULL ? 0 : check_place(path, before, after);
    uint64_t answer[10], *slips = plan(before, after, answer);
    int status = 0;

    if (answer[0] != 0) {
        status = refused(before, after, answer);
    } else {
        uint64_t count = answer[4 + GOLAVIMES_STATE_SOLVE], finished[4];
        uint8_t *tables = solve_slips(slips, count);
        print_totals(answer);
        if (path != NULL) {
            uint8_t *page = finish(before, after, tables, count, finished);
            if (finished[0] != 0) {
                status = refused(before, after, finished);
            } else {
                put_in_place(path, mode, page, finished[3]);
                printf("written=%lu\n", (unsigned long)finished[3]);
            }
            free(page);
        }
        free(tables);
    }
    free(slips);
    return status;
}

int main(int argc, char **argv)
{
    struct edition before, after;
    int status;

    if (argc != 3 && argc != 4) {
        fprintf(stderr, "usage: host OLD.pbn NEW.pbn [FINISHED.pbn]\n"
                        "Solves each deal of NEW.pbn that has no double-dummy table in either file, and writes NEW.pbn\n"
                        "with a table for every whole deal to FINISHED.pbn.\n"
                        "Without an old edition give /dev/null for OLD.pbn.\n");
        return 1;
    }
    open_edition(&before, argv[1]);
    open_edition(&after, argv[2]);
    status = run(&before, &after, argc == 4 ? argv[3] : NULL);
    if (fflush(stdout) != 0 || ferror(stdout)) {
        fprintf(stderr, "host: the output cannot be written: %s. Is the disk full?\n", strerror(errno));
        status = 1;
    }
    close_edition(&before);
    close_edition(&after);
    return status;
}

/* ./lin builds this program and runs it; see the Makefile beside it. */

/*
 * lin FILE.lin: writes a collection that was saved as LIN to the standard output, as PBN.
 *
 * Golavimes converts: dealer, vulnerability, deal, calls and cards of each board, its contract and its declarer, and
 * nothing else. How long the page must be is asked with an empty one: refusal 7 carries the bytes needed.
 *
 * The program ends with 0 if the page was written, with 1 after a refusal of Golavimes, and with 2 if it was not given
 * one file, or a file or memory failed it. In the last two cases the reason is on the standard error output, and no
 * part of a page was written but where the output itself failed.
 */
#include <errno.h>
#include <stdio.h>
#include <stdlib.h>
#include <string.h>

#include "golavimes.h"

/* Memory for so many bytes. It is never a null pointer, since Golavimes takes none, also where the count is 0. */
static uint8_t *memory(uint64_t count, const char *what)
{
    uint8_t *lent = NULL;
    if (count <= SIZE_MAX)
        lent = malloc(count == 0 ? 1 : (size_t)count);
    if (lent == NULL) {
        fprintf(stderr, "lin: no memory for %lu bytes of %s. Close other programs, or split the collection.\n",
                (unsigned long)count, what);
        exit(2);
    }
    return lent;
}

static void not_read(const char *path)
{
    fprintf(stderr, "lin: %s cannot be read: %s. Give the path of a LIN file.\n", path, strerror(errno));
    exit(2);
}

/* Takes a file into memory, whole and whatever its length. */
static uint8_t *text_of(const char *path, size_t *length)
{
    size_t room = 65536, got;
    uint8_t *text = memory(room, "text");
    FILE *file = fopen(path, "rb");

    if (file == NULL)
        not_read(path);
    *length = 0;
    while ((got = fread(text + *length, 1, room - *length, file)) != 0) {
        *length += got;
        if (*length == room) {
            uint8_t *more = memory(2 * (uint64_t)room, "text");
            memcpy(more, text, room);
            free(text);
            text = more;
            room = 2 * room;
        }
    }
    if (ferror(file))
        not_read(path);
    fclose(file);
    return text;
}

/* Converts with exactly the page that is needed. It is handed back, to be freed. */
static uint8_t *converted(const uint8_t *text, size_t text_length, uint64_t answer[5])
{
    uint8_t *page = memory(0, "page");

    golavimes_lin_to_pbn(text, text_length, page, 0, answer);
    if (answer[0] == GOLAVIMES_PAGE_FULL) {
        size_t page_length = (size_t)answer[2];
        free(page);
        page = memory(answer[2], "page");
        golavimes_lin_to_pbn(text, text_length, page, page_length, answer);
    }
    return page;
}

static int refused(const char *path, const uint64_t answer[5])
{
    fprintf(stderr, "lin: refusal %lu, carrying %lu.\n", (unsigned long)answer[0], (unsigned long)answer[2]);
    if (answer[0] == GOLAVIMES_OVERLONG)
        fprintf(stderr, "lin: %s has %lu bytes and may have %lu. Split the collection into several files.\n", path,
                (unsigned long)answer[2], (unsigned long)GOLAVIMES_TEXT_LIMIT);
    if (answer[0] == GOLAVIMES_NO_DEAL)
        fprintf(stderr,
                "lin: %s gives no deal: no board has a card, or one has a card twice or more than 13 cards in a hand.\n"
                "lin: Give a LIN file, and mend the hands in its md commands.\n",
                path);
    return 1;
}

static int written(const uint8_t *page, uint64_t length)
{
    if (fwrite(page, 1, (size_t)length, stdout) == length && fflush(stdout) == 0)
        return 0;
    fprintf(stderr, "lin: the output cannot be written: %s. Is the disk full?\n", strerror(errno));
    return 2;
}

int main(int argc, char **argv)
{
    uint8_t *text, *page;
    size_t text_length;
    uint64_t answer[5];
    int status;

    if (argc != 2) {
        fprintf(stderr, "usage: lin FILE.lin\n"
                        "Writes the boards of a LIN file to the standard output, as PBN.\n");
        return 2;
    }
    text = text_of(argv[1], &text_length);
    page = converted(text, text_length, answer);
    status = answer[0] != 0 ? refused(argv[1], answer) : written(page, answer[3]);
    free(page);
    free(text);
    return status;
}

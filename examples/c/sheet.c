/* Prints the sheet of a case file:

       sheet CASE

   Status: 0 for a sheet, 1 for a refused file, 2 for wrong use, a failed read or a failed write. */
#include <stdio.h>
#include <string.h>

#include "kinarsop.h"

enum { SHEET, REFUSED, FAILED };

/* One byte more than the longest case has, so that a file that goes on behind it is refused. */
enum { MOST_READ = KINARSOP_LONGEST_CASE + 1 };

/* The front of the file; `length` says how many bytes were read. */
static bool read_file(const char *name, uint8_t file[MOST_READ], size_t *length)
{
    FILE *stream = fopen(name, "rb");
    if (stream == NULL)
        return false;
    *length = fread(file, 1, MOST_READ, stream);
    const bool whole = !ferror(stream);
    return fclose(stream) == 0 && whole;
}

static bool write_text(const uint8_t *text, size_t length)
{
    return fwrite(text, 1, length, stdout) == length && fflush(stdout) == 0;
}

static bool is_refused(const uint8_t *text, size_t length)
{
    static const char word[] = "REFUSED";
    const size_t letters = sizeof word - 1;
    return letters <= length && memcmp(text, word, letters) == 0;
}

/* The buffer has room for every sheet, so the call itself is not refused. */
static int show_sheet(const uint8_t *file, size_t length)
{
    uint8_t text[KINARSOP_SHEET_ROOM];
    const struct kinarsop_sheet_answer answer = kinarsop_sheet(file, length, text, sizeof text);
    if (!write_text(text, answer.length)) {
        perror("sheet: standard output");
        return FAILED;
    }
    return is_refused(text, answer.length) ? REFUSED : SHEET;
}

int main(int argc, char **argv)
{
    if (argc != 2) {
        fputs("usage: sheet CASE\n", stderr);
        return FAILED;
    }
    uint8_t file[MOST_READ];
    size_t length = 0;
    if (!read_file(argv[1], file, &length)) {
        perror(argv[1]);
        return FAILED;
    }
    return show_sheet(file, length);
}

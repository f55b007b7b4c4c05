/* Prints the groups of a sheet: `sheet` and the number of its refusal, or index, low, middle and high of each target. */
#include "drawing.h"

#include <stdio.h>

int main(int argc, char **argv)
{
    static uint8_t sheet[DRAWING_SHEET_ROOM];
    static double groups[DRAWING_GROUP_SIZE * DRAWING_MOST_TARGETS];
    const size_t room = sizeof groups / sizeof groups[0];

    FILE *file = argc == 2 ? fopen(argv[1], "rb") : NULL;
    if (file == NULL) {
        fprintf(stderr, "usage: groups SHEET\n");
        return 2;
    }
    size_t length = fread(sheet, 1, sizeof sheet, file);
    fclose(file);

    /* No number of a group is below 0, and floats past the last group keep their values. */
    for (size_t i = 0; i < room; i++)
        groups[i] = -1;
    unsigned number = fill_groups(sheet, length, groups, room);
    if (number != 0) {
        printf("sheet %u\n", number);
        return 0;
    }
    for (size_t i = 0; i < room && groups[i] >= 0; i += DRAWING_GROUP_SIZE)
        printf("%zu %.0f %.1f %.0f\n", i / DRAWING_GROUP_SIZE, groups[i], groups[i + 1], groups[i + 2]);
    return 0;
}

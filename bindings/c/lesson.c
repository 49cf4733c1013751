/* The first lesson from C: a clip of two rows is cut across its join, and the first frame past it is looked for. */
#include <stdio.h>
#include "segment_table.h"

int main(void) {
    uint64_t clip[10] = {0, 10, 30, 0, 0, 1, 5, 20, 30, 0}, cut[10], rows, source, frame, flag, index, number;
    int64_t shifts[2] = {0, 0}, moved[2], shift;
    number = st_cut(clip, 10, shifts, 2, 25, 40, cut, 10, moved, 2, &rows, &index);
    if (number == 0) number = st_origin(cut, 5 * rows, moved, rows, 5, &source, &frame, &flag, &shift, &index);
    if (number == 0) printf("frame 5 is frame %llu of source %llu\n", (unsigned long long)frame, (unsigned long long)source);
    else printf("refused %llu at %llu\n", (unsigned long long)number, (unsigned long long)index);
    return number != 0;
}

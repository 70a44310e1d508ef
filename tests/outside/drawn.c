/*
 * Drawn jobs as files, FOLDER/0 and so on.
 *
 *     drawn JOBS SEED FOLDER
 */
#include <stdio.h>
#include <stdlib.h>

#include "draw.h"

int main(int count, char **words) {
    if (count != 4) {
        fputs("drawn JOBS SEED FOLDER\n", stderr);
        return 2;
    }
    unsigned long jobs = strtoul(words[1], NULL, 10);
    draw_from(strtoull(words[2], NULL, 10));
    for (unsigned long i = 0; i < jobs; i++) {
        struct file f;
        draw_job(&f);
        damage(&f);
        char name[512];
        snprintf(name, sizeof name, "%s/%lu", words[3], i);
        FILE *file = fopen(name, "wb");
        if (file == NULL || fwrite(f.bytes, 1, f.length, file) != f.length || fclose(file) != 0) {
            perror(name);
            return 2;
        }
    }
    return 0;
}

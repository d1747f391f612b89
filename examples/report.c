/* Prints the report of the job file that is named, or the number of its refusal. */
#include <stdio.h>

#include "siting.h"

int main(int argc, char **argv)
{
    static uint8_t job[16385]; /* one byte more than a job may have */
    uint8_t out[128];
    FILE *file = argc == 2 ? fopen(argv[1], "rb") : NULL;
    if (file == NULL) {
        fprintf(stderr, "usage: report FILE\n");
        return 2;
    }
    size_t length = fread(job, 1, sizeof job, file);
    fclose(file);

    int64_t result = siting_report(job, length, out, sizeof out);
    if (result < 0) {
        printf("refused: %d\n", (int)-result);
        return 1;
    }
    fwrite(out, 1, (size_t)result, stdout);
    return 0;
}

/* One call of libaecp or of libaec on a file: library LIBRARY CALL BITS SIGNED BLOCK INTERVAL FILE LEN, where LIBRARY is ours or
 * theirs, CALL encode or decode, and LEN the most bytes of the result. `measured` is what bench/library.py counts. Prints the length
 * of the result.
 *
 * With one word more, RUNS, it calls both libraries in turn, so often, and prints the least seconds of processor time of a call of
 * ours, then of theirs. Both calls write to the same buffer, which was written before. */
#include "calls.h"
#include <stdio.h>
#include <stdlib.h>
#include <string.h>
#include <time.h>

__attribute__((noinline)) long measured(const work *it) { return call(it); }

static double seconds(const work *it) {
    struct timespec begin, end;
    clock_gettime(CLOCK_PROCESS_CPUTIME_ID, &begin);
    if (call(it) < 0) exit(3);
    clock_gettime(CLOCK_PROCESS_CPUTIME_ID, &end);
    return end.tv_sec - begin.tv_sec + (end.tv_nsec - begin.tv_nsec) * 1e-9;
}

static void compare(work *it, int runs) {
    double least[2] = {1e9, 1e9};
    for (int run = 0; run < 2 * runs; run++) {
        it->is_ours = run % 2 == 0;
        double taken = seconds(it);
        if (taken < least[run % 2]) least[run % 2] = taken;
    }
    printf("%.6f %.6f\n", least[0], least[1]);
}

int main(int count, char **words) {
    if (count != 9 && count != 10) return 2;
    work it = {.is_ours = !strcmp(words[1], "ours"),
               .is_coding = !strcmp(words[2], "encode"),
               .bits = atoi(words[3]),
               .is_signed = atoi(words[4]),
               .block = atoi(words[5]),
               .interval = atoi(words[6]),
               .out_len = strtoul(words[8], 0, 10)};
    FILE *file = fopen(words[7], "rb");
    if (!file || fseek(file, 0, SEEK_END)) return 2;
    it.in_len = ftell(file);
    rewind(file);
    it.in = malloc(it.in_len + 1);
    it.out = malloc(it.out_len + 1);
    if (!it.in || !it.out || fread(it.in, 1, it.in_len, file) != it.in_len) return 2;
    memset(it.out, 0, it.out_len + 1);
    if (count == 10)
        compare(&it, atoi(words[9]));
    else
        printf("%ld\n", measured(&it));
    return 0;
}

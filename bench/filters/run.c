// run N: the least time of N decisions in each case. run count: the tests that one decision makes.
#include <stdint.h>
#include <stdio.h>
#include <stdlib.h>
#include <string.h>
#include <time.h>

uint64_t decisions(uint32_t form, uint64_t free, uint32_t hit, uint64_t n);

static unsigned long tests, divisions;
void tested(void) { tests++; }
void divided(void) { divisions++; }

static double now(void) {
    struct timespec t;
    clock_gettime(CLOCK_PROCESS_CPUTIME_ID, &t);
    return t.tv_sec * 1e9 + t.tv_nsec;
}

static void count(uint32_t form, uint64_t free, uint32_t hit) {
    tests = divisions = 0;
    decisions(form, free, hit, 2);
    unsigned long t = tests, d = divisions;
    tests = divisions = 0;
    decisions(form, free, hit, 4);
    printf(" %g %g\n", (double)(tests - t) / 2, (double)(divisions - d) / 2);
}

static void measure(uint32_t form, uint64_t free, uint32_t hit, uint64_t n) {
    double best = 1e30;
    for (int i = 0; i < 5; i++) {
        double t = now();
        decisions(form, free, hit, n);
        t = now() - t;
        best = t < best ? t : best;
    }
    printf(" %.3f\n", best / n);
}

int main(int words, char **word) {
    if (words != 2)
        return 2;
    // first, last, none, and the last place with seven free ones before it
    static const uint32_t hits[4] = {0, 7, 8, 7}, frees[4] = {0, 0, 0, 7};
    for (uint32_t form = 0; form < 5; form++)
        for (int k = 0; k < 4; k++) {
            uint64_t yes = decisions(form, frees[k], hits[k], 4);
            if (yes != (hits[k] == 8 ? 0 : 4)) {
                printf("form %u, case %d: %llu of 4 pass\n", form, k, (unsigned long long)yes);
                return 1;
            }
            printf("%u %d", form, k);
            if (!strcmp(word[1], "count"))
                count(form, frees[k], hits[k]);
            else
                measure(form, frees[k], hits[k], strtoull(word[1], 0, 10));
        }
}

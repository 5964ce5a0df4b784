/* Times the code library and libfec on the same words, in one run: ns per word and their ratio. */
#include <fec.h>
#include <stdbool.h>
#include <stdint.h>
#include <stdio.h>
#include <stdlib.h>
#include <string.h>
#include <time.h>

enum { SYMBOLS = 450, PARITY = 44, PAD = 511 - SYMBOLS, WORDS = 400, ROUNDS = 7 };

/* Completes or repairs words of 450 symbols, one after the other. */
void code_run_words(uint16_t *words, size_t symbols, size_t *answers, size_t count, bool completing);

static uint16_t clean[WORDS][SYMBOLS], ours[WORDS][SYMBOLS];
static int fec_clean[WORDS][SYMBOLS], fec_words[WORDS][SYMBOLS];
static size_t answers[WORDS];
static int fec_answers[WORDS];
static void *fec;
static uint32_t state = 1;

static uint32_t next(void) {
    state ^= state << 13;
    state ^= state >> 17;
    state ^= state << 5;
    return state;
}

static double now(void) {
    struct timespec t;
    clock_gettime(CLOCK_MONOTONIC, &t);
    return t.tv_sec * 1e9 + t.tv_nsec;
}

static double least(double a, double b) { return a < b ? a : b; }

/* What making the code costs, to be taken off. */
static double making(void) {
    double best = 1e18;
    for (int r = 0; r < 20; r++) {
        double t = now();
        code_run_words(ours[0], 0, answers, 0, false);
        best = least(best, now() - t);
    }
    return best;
}

static double complete_ours(double made) {
    double best = 1e18;
    for (int r = 0; r < ROUNDS; r++) {
        memcpy(ours, clean, sizeof ours);
        double t = now();
        code_run_words(&ours[0][0], WORDS * SYMBOLS, answers, WORDS, true);
        best = least(best, now() - t);
    }
    return (best - made) / WORDS;
}

static double complete_fec(void) {
    double best = 1e18;
    for (int r = 0; r < ROUNDS; r++) {
        memcpy(fec_words, fec_clean, sizeof fec_words);
        double t = now();
        for (int k = 0; k < WORDS; k++) encode_rs_int(fec, fec_words[k], fec_words[k] + SYMBOLS - PARITY);
        best = least(best, now() - t);
    }
    return best / WORDS;
}

static double repair_ours(double made) {
    static uint16_t damaged[WORDS][SYMBOLS];
    memcpy(damaged, ours, sizeof damaged);
    double best = 1e18;
    for (int r = 0; r < ROUNDS; r++) {
        memcpy(ours, damaged, sizeof ours);
        double t = now();
        code_run_words(&ours[0][0], WORDS * SYMBOLS, answers, WORDS, false);
        best = least(best, now() - t);
    }
    return (best - made) / WORDS;
}

static double repair_fec(void) {
    static int damaged[WORDS][SYMBOLS];
    memcpy(damaged, fec_words, sizeof damaged);
    double best = 1e18;
    for (int r = 0; r < ROUNDS; r++) {
        memcpy(fec_words, damaged, sizeof fec_words);
        double t = now();
        for (int k = 0; k < WORDS; k++) fec_answers[k] = decode_rs_int(fec, fec_words[k], NULL, 0);
        best = least(best, now() - t);
    }
    return best / WORDS;
}

/* Damages the same symbols of both copies of each word. */
static void damage(int count) {
    for (int k = 0; k < WORDS; k++) {
        memcpy(ours[k], clean[k], sizeof ours[k]);
        for (int i = 0; i < count;) {
            int place = next() % SYMBOLS;
            if (ours[k][place] != clean[k][place]) continue;
            ours[k][place] ^= 1 + next() % 511;
            i++;
        }
        for (int i = 0; i < SYMBOLS; i++) fec_words[k][i] = ours[k][i];
    }
}

/* Within 22 damaged symbols both must give the word back. */
static void compare(int count) {
    for (int k = 0; k < WORDS; k++) {
        if (count > 22) continue;
        if (answers[k] != (size_t)count || memcmp(ours[k], clean[k], sizeof ours[k])) {
            printf("word %d with %d damaged symbols was not repaired\n", k, count);
            exit(1);
        }
        for (int i = 0; i < SYMBOLS; i++)
            if (fec_words[k][i] != clean[k][i]) {
                printf("libfec: word %d with %d damaged symbols was not repaired\n", k, count);
                exit(1);
            }
    }
}

static void line(const char *what, double a, double b) { printf("%-28s %9.0f %9.0f %7.2f\n", what, a, b, b / a); }

int main(void) {
    static const int counts[] = {0, 1, 11, 22, 23};
    fec = init_rs_int(9, 0x211, 0, 1, PARITY, PAD);
    if (!fec) return 1;
    for (int k = 0; k < WORDS; k++)
        for (int i = 0; i < SYMBOLS; i++) fec_clean[k][i] = clean[k][i] = i < SYMBOLS - PARITY ? next() % 512 : 0;
    double made = making();
    printf("making a code takes %.0f us\n", made / 1000);
    printf("%-28s %9s %9s %7s\n", "ns per word", "code", "libfec", "ratio");
    double a = complete_ours(made), b = complete_fec();
    line("complete", a, b);
    for (int k = 0; k < WORDS; k++)
        for (int i = 0; i < SYMBOLS; i++) {
            if (ours[k][i] != fec_words[k][i]) {
                printf("word %d is not completed as libfec does\n", k);
                return 1;
            }
            clean[k][i] = ours[k][i];
        }
    for (unsigned c = 0; c < sizeof counts / sizeof *counts; c++) {
        char what[40];
        snprintf(what, sizeof what, "repair, %d damaged", counts[c]);
        damage(counts[c]);
        a = repair_ours(made);
        b = repair_fec();
        compare(counts[c]);
        line(what, a, b);
    }
    return 0;
}

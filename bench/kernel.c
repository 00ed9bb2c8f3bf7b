/* The measure: the rounds of a trial over the same table in plain C. It reads a lawful model text, starts both ends of "left until
   right" from the whole in right and 0 elsewhere, makes COUNT rounds of them, the lower end rounded down and the upper one up, and
   prints both ends of each state as the program does. Both ends are worked out in one pass over the table, each with one 64-bit
   division a choice. States in right or outside left are held.
     kernel MODEL AIM LEFT RIGHT COUNT    AIM is best or worst; LEFT and RIGHT have a digit for each state */
#include <stdint.h>
#include <stdio.h>
#include <stdlib.h>
#include <string.h>

enum { STATES = 512, CHOICES = 2048, BRANCHES = 4096, WHOLE = 1000000000 };

static uint32_t states, denominator;
static uint32_t first_choice[STATES + 1], first_branch[CHOICES + 1];
static uint32_t target[BRANCHES], weight[BRANCHES];
static uint32_t lower[STATES], upper[STATES], lower_before[STATES], upper_before[STATES];
static uint8_t held[STATES];

static void fail(const char *why) {
    fprintf(stderr, "kernel: %s\n", why);
    exit(1);
}

static void load(const char *path) {
    FILE *file = fopen(path, "r");
    char line[128];
    uint32_t s = 0, c = 0, b = 0;
    if (!file) fail("no model");
    while (fgets(line, sizeof line, file)) {
        if (line[0] == 'm') {
            if (sscanf(line, "mdp\t%u\t%u", &states, &denominator) != 2) fail("a bad header");
        } else if (line[0] == 's') {
            first_choice[s++] = c;
        } else if (line[0] == 'c') {
            first_branch[c++] = b;
        } else if (line[0] == 'b') {
            if (sscanf(line, "b\t%u\t%u", &target[b], &weight[b]) != 2) fail("a bad branch");
            b++;
        }
    }
    first_choice[s] = c;
    first_branch[c] = b;
    fclose(file);
}

static void start(const char *left, const char *right) {
    if (strlen(left) != states || strlen(right) != states) fail("not as many digits as states");
    for (uint32_t s = 0; s < states; s++) {
        held[s] = right[s] == '1' || left[s] != '1';
        lower[s] = upper[s] = right[s] == '1' ? WHOLE : 0;
    }
}

static void one_round(int greater) {
    memcpy(lower_before, lower, states * sizeof *lower);
    memcpy(upper_before, upper, states * sizeof *upper);
    for (uint32_t s = 0; s < states; s++) {
        if (held[s]) continue;
        uint64_t best_lower = 0, best_upper = 0;
        for (uint32_t c = first_choice[s]; c < first_choice[s + 1]; c++) {
            uint64_t down = 0, up = denominator - 1;
            for (uint32_t b = first_branch[c]; b < first_branch[c + 1]; b++) {
                down += (uint64_t)weight[b] * lower_before[target[b]];
                up += (uint64_t)weight[b] * upper_before[target[b]];
            }
            down /= denominator;
            up /= denominator;
            int first = c == first_choice[s];
            if (first || (greater ? down > best_lower : down < best_lower)) best_lower = down;
            if (first || (greater ? up > best_upper : up < best_upper)) best_upper = up;
        }
        lower[s] = (uint32_t)best_lower;
        upper[s] = (uint32_t)best_upper;
    }
}

int main(int count, char **words) {
    if (count != 6) fail("write MODEL AIM LEFT RIGHT COUNT");
    load(words[1]);
    start(words[3], words[4]);
    int greater = strcmp(words[2], "best") == 0;
    unsigned long rounds = strtoul(words[5], NULL, 10);
    for (unsigned long k = 0; k < rounds; k++) one_round(greater);
    for (uint32_t s = 0; s < states; s++) printf("ends %u %u after %lu\n", lower[s], upper[s], rounds);
    return 0;
}

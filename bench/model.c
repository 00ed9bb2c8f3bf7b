/* Prints the text of a model with so many states, choices a state and branches a choice, and the denominator 1,000,000. Targets
   and weights are drawn by a small generator, alike each time. The last state has the label b, the one before it none, and the
   others have the label a: so a run of a's comes to b, or ends before it where there is neither.
     model STATES CHOICES BRANCHES */
#include <stdint.h>
#include <stdio.h>
#include <stdlib.h>

enum { DENOMINATOR = 1000000 };

static uint64_t state = 1;

static uint32_t draw(uint32_t below) {
    state = state * 6364136223846793005u + 1442695040888963407u;
    return (uint32_t)((state >> 33) % below);
}

static uint32_t least(uint32_t a, uint32_t b) {
    return a < b ? a : b;
}

/* A row: so many of the states, ascending, and weights that add up to the denominator. */
static void print_row(uint32_t states, uint32_t branches) {
    uint32_t wanted = branches, rest = DENOMINATOR;
    for (uint32_t target = 0; wanted; target++) {
        if (draw(states - target) >= wanted) continue;
        uint32_t most = rest - (wanted - 1);
        uint32_t weight = wanted == 1 ? rest : 1 + draw(least(most, 2 * (rest / wanted)));
        printf("b\t%u\t%u\n", target, weight);
        rest -= weight;
        wanted--;
    }
}

int main(int count, char **words) {
    if (count != 4) {
        fprintf(stderr, "model: write STATES CHOICES BRANCHES\n");
        return 1;
    }
    uint32_t states = (uint32_t)strtoul(words[1], NULL, 10);
    uint32_t choices = (uint32_t)strtoul(words[2], NULL, 10);
    uint32_t branches = (uint32_t)strtoul(words[3], NULL, 10);
    printf("mdp\t%u\t%d\n", states, DENOMINATOR);
    for (uint32_t s = 0; s < states; s++) {
        printf("s\t%s\n", s + 2 < states ? "a" : s + 1 < states ? "-" : "b");
        for (uint32_t c = 0; c < choices; c++) {
            printf("c\n");
            print_row(states, branches);
        }
    }
    printf("end\n");
    return 0;
}

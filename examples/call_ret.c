/* Replays the image CALL, RET through the host library, and shows two areas of the
 * window after each step. All memory is in the first window: the second one is empty. */
#include <inttypes.h>
#include <stdio.h>

#include "deqbaryn.h"

#define BASE 0xD0000000u
#define AREAS 64

/* byte offsets in the core record */
enum { D = 0, PC = 128, PSW = 132, PCXI = 136, FCX = 140, BTV = 160 };

static const uint8_t image[] = {
    1, 0, 0, 0, /* one entry */
    0, 0, 0, 0x80, 2, 0, 0, 0, 16, 0, 0, 0, /* 80000000, two records, at byte 16 */
    0x40, 0, 0, 0, 4, 0, 0, 0, /* CALL to PC + 4 */
    0x42, 0, 0, 0, 0, 0, 0, 0, /* RET */
};

static uint8_t core[DEQBARYN_CORE_BYTES];
static uint8_t window[64 * AREAS];

static void put_word(uint8_t *bytes, size_t i, uint32_t word) {
    for (int k = 0; k < 4; k++)
        bytes[i + k] = (uint8_t)(word >> (8 * k));
}

static uint32_t word_at(const uint8_t *bytes, size_t i) {
    return bytes[i] | (uint32_t)bytes[i + 1] << 8 | (uint32_t)bytes[i + 2] << 16 |
           (uint32_t)bytes[i + 3] << 24;
}

static void show_area(size_t n) {
    printf("area %08" PRIX32 ":", BASE + 64 * (uint32_t)n);
    for (size_t k = 0; k < 16; k++)
        printf(" %08" PRIX32, word_at(window, 64 * n + 4 * k));
    printf("\n");
}

int main(void) {
    if (deqbaryn_version() != DEQBARYN_VERSION) {
        printf("version %" PRIu32 ", not %d\n", deqbaryn_version(), DEQBARYN_VERSION);
        return 1;
    }
    /* the free list: all areas, upward */
    for (uint32_t n = 0; n + 1 < AREAS; n++)
        put_word(window, 64 * n, 0xD0001 + n);
    put_word(core, FCX, 0xD0000);
    put_word(core, PC, 0x80000000);
    put_word(core, PSW, 0x00000B80);
    put_word(core, BTV, 0x80010000);
    /* D8 to D15 hold their numbers, which then show in a saved area */
    for (uint32_t n = 8; n < 16; n++)
        put_word(core, D + 4 * n, n);

    uint64_t answer = deqbaryn_start(core, sizeof core, BASE, window, sizeof window, 0, NULL, 0,
                                     image, sizeof image);
    if ((answer & 0xFF) != DEQBARYN_ACCEPTED) {
        printf("refused %u %u\n", (unsigned)(answer >> 8 & 0xFF), (unsigned)(answer >> 32));
        return 1;
    }
    printf("accepted\n");

    int steps = 0;
    do {
        uint32_t pc = word_at(core, PC);
        answer = deqbaryn_step(core, sizeof core, BASE, window, sizeof window, 0, NULL, 0, image,
                               sizeof image);
        unsigned number = answer >> 8 & 0xFF, tin = answer >> 16 & 0xFF;
        switch (answer & 0xFF) {
        case DEQBARYN_INSTRUCTION:
            printf("ins");
            break;
        case DEQBARYN_INTERRUPT:
            printf("int %u", number);
            break;
        case DEQBARYN_TRAP:
            printf("trap %u/%u", number, tin);
            break;
        default:
            printf("no step: kind %u, number %u\n", (unsigned)(answer & 0xFF), number);
            return 1;
        }
        printf(" %08" PRIX32 " %08" PRIX32 " %08" PRIX32 " %08" PRIX32 "\n", pc,
               word_at(core, PC), word_at(core, FCX), word_at(core, PCXI));
        show_area(0);
        show_area(1);
        steps++;
    } while ((answer & 0xFF) != DEQBARYN_TRAP);
    printf("end %d\n", steps);
    return 0;
}

/* Writes 60,000 words of eight letters that all fall into one place of a map of up to 8,192 places, where the map hashes by std's hasher with its fixed
 * seed: the length, then each byte, by a product of 128 bits whose halves are joined by xor; the lowest 13 bits of the joined halves are the place. */
#include <stdint.h>
#include <stdio.h>

#define MULTIPLIER 0x9e3779b97f4a7c15u
#define SEED 0x243f6a8885a308d3u

static const char letters[] = "abcdefghijklmnopqrstuvwxyz0123456789_";
enum { MANY = sizeof letters - 1, LENGTH = 8, WORDS = 60000, PLACES = 8192 };

static uint64_t folded(uint64_t a, uint64_t b) {
    unsigned __int128 product = (unsigned __int128)a * b;
    return (uint64_t)product ^ (uint64_t)(product >> 64);
}

static uint64_t with_letter(uint64_t state, char letter) {
    return folded(state ^ (uint64_t)letter * 0x010101, MULTIPLIER ^ 2);
}

static int written;

/* The words that go on so from here. */
static void write_words(uint64_t state, char *word, int at) {
    for (int i = 0; i < MANY && written < WORDS; i++) {
        word[at] = letters[i];
        uint64_t next = with_letter(state, letters[i]);
        if (at + 1 < LENGTH) {
            write_words(next, word, at + 1);
        } else if (((next ^ next >> 32) & (PLACES - 1)) == 0) {
            puts(word);
            written++;
        }
    }
}

int main(void) {
    char word[LENGTH + 1] = "";
    write_words(folded(SEED ^ LENGTH, MULTIPLIER ^ 16), word, 0);
    return written < WORDS;
}

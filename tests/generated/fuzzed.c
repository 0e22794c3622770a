/* Gives the fuzzer's harness, which judges each call, bytes of any kind, the same each time: so many inputs. */
#include "../fuzz/fuzz.c"

enum { LONGEST_INPUT = 200 };

int main(int words, char **word)
{
    uint8_t bytes[LONGEST_INPUT];
    uint32_t state = 1;
    unsigned long inputs = words > 1 ? strtoul(word[1], 0, 10) : 1000;
    for (unsigned long i = 0; i < inputs; i++) {
        for (int k = 0; k < LONGEST_INPUT; k++) {
            state = state * 1103515245u + 12345u;
            bytes[k] = (uint8_t)(state >> 16);
        }
        LLVMFuzzerTestOneInput(bytes, 20 + i % (LONGEST_INPUT - 20));
    }
    return 0;
}

/* Reads texts and DER, a line each in hexadecimal, and prints its octets or text so, or what is done with it. */
#include <stdint.h>
#include <stdio.h>
#include <stdlib.h>
#include <string.h>

enum { ROOM = 4096, REJECTED = -1, NO_CALL = -4096 };
/* The length of a result, or a negative number if the input is rejected. A text has a 0 after it. It is read into
   contents octets, below which there is room for a tag and a length. A whole element is printed. */
__attribute__((noinline)) int text_to_octets(const char *text, size_t len, uint8_t *out);
__attribute__((noinline)) int octets_to_text(const uint8_t *der, size_t len, char *out);

int main(void) {
    static char line[2 * ROOM];
    static uint8_t in[ROOM], out[ROOM];
    while (fgets(line, sizeof line, stdin)) {
        size_t len = 0;
        while (sscanf(line + 2 * len, "%2hhx", &in[len]) == 1)
            in[++len] = 0;
        int is_text = in[0] >= ' ' && in[0] <= '~' && in[0] != 0x26; /* the only tag in this range */
        int size = is_text ? text_to_octets((char *)in, len, out + 2) : octets_to_text(in, len, (char *)out + 2);
        for (int i = 0; i < size; i++)
            printf("%02x", out[i + 2]);
        puts(size == NO_CALL ? "no call" : size < 0 ? "rejected" : "");
    }
}

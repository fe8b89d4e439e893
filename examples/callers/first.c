/* A first caller in C: the amplitude of a level, and the parity of a message. README shows how to build it. */
#include <more1090_generator.h>
#include <stdio.h>

int main(void) {
    const uint8_t message[7] = {0x58, 0, 0, 0, 0xe0, 0xef, 0x0d};
    float amplitude = 0;
    if (more1090_level(315, &amplitude) != MORE1090_OK)
        return 1;
    printf("31.5 dB: amplitude %.9g; parity %06x\n", (double)amplitude, (unsigned)more1090_parity(message, sizeof message));
    return 0;
}

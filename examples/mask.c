/*
 * Puts a mask into block 1 of a volume, in memory: opens the file that is named, erases the block,
 * writes the mask and reads it back. Without the erase the mask would merge with what stood there.
 */
#include <stdio.h>
#include <stdlib.h>

#include "fv.h"

/* Goes no further than the first call that is not a success: nothing is written that was not erased. */
static void done(const char *call, uint32_t number)
{
    if (number != 0) {
        fprintf(stderr, "%s: %u\n", call, number);
        exit(1);
    }
}

int main(int count, char **words)
{
    static uint8_t volume[1 << 24], state[FV_STATE_BYTES], answer[FV_ANSWER_BYTES], back[4];
    const uint8_t mask[4] = {0x0F, 0xF0, 0x55, 0xAA};
    const uint64_t blocks[3] = {1, 1, UINT64_MAX}; /* block 1, one block; the end. Little endian, as x86-64 is */
    FILE *file = count > 1 ? fopen(words[1], "rb") : NULL;
    if (!file) {
        fprintf(stderr, "usage: mask VOLUME\n");
        return 2;
    }
    size_t length = fread(volume, 1, sizeof volume, file);
    fclose(file);
    done("open", fv_open(state, sizeof state, volume, length, 0));
    done("erase", fv_erase(state, sizeof state, volume, length, (const uint8_t *)blocks, sizeof blocks));
    done("write", fv_write(state, sizeof state, volume, length, 1, 0, mask, sizeof mask, answer, sizeof answer));
    done("read", fv_read(state, sizeof state, volume, length, 1, 0, back, sizeof back, answer, sizeof answer));
    printf("%02X %02X %02X %02X\n", back[0], back[1], back[2], back[3]);
    return 0;
}

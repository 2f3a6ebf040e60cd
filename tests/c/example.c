#include <stdio.h>
#include "vrbolist.h"

int main(void) {
    const uint8_t image[] = {0, 0, 0, 0, 0, 0, 0, 1, 0x01, 0x34, 0xD7, 0xAD};
    vrbolist_image_answer told = vrbolist_image_for_day(image, sizeof image, 20240302);
    if (told.number != 0)
        printf("refused %d: do not flash\n", (int)told.number);
    return told.number == 6 ? 0 : 1;
}

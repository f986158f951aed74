/*
 * Stands for the program replay where a library is given and nothing is to be proved:
 * standard input to standard output, the listing by the library.
 */
#include "hall.h"

#include <stdio.h>

int main(void)
{
    static uint8_t file[HALL_MAX_FILE + 1], hall[HALL_LENGTH], text[HALL_MAX_LISTING];
    uint8_t words[HALL_ANSWER_LENGTH];
    size_t length = fread(file, 1, sizeof file, stdin);
    if (hall_run_list(file, length, hall, sizeof hall, text, sizeof text, words, sizeof words) != HALL_OK) {
        return 1;
    }
    return fwrite(text, 1, hall_word(words, HALL_LISTING_LENGTH), stdout) == 0;
}

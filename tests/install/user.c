/*
 * A program of somebody who has the installed files alone. Opens a hall, waits for
 * the end of a line, submits and settles, and prints the version of the library. With
 * the word `texts` it prints the texts of refusals.
 */
#include <hall.h>
#include <hall_names.h>

#include <stdio.h>
#include <string.h>

/* The version as pkg-config says it. */
static void print_version(uint32_t version)
{
    printf("%u.%u.%u\n", (unsigned)(version / 1000000), (unsigned)(version / 1000 % 1000), (unsigned)(version % 1000));
}

/* A line for each kind under which a number may be given, none for what is no refusal. */
static void print_texts(uint32_t number)
{
    for (uint32_t kind = 0; kind <= HALL_DELIVER; kind++) {
        const char *text = hall_refusal_text(number, kind);
        if (strcmp(text, hall_refusal_text(HALL_OK, 0)) != 0) {
            printf("%u %u %s\n", (unsigned)number, (unsigned)kind, text);
        }
    }
}

/* Whether a value that is submitted is then delivered. */
static int delivers(uint8_t *hall)
{
    uint8_t words[HALL_ANSWER_LENGTH];
    return hall_step(hall, HALL_LENGTH, HALL_SUBMIT, 3, 700, 0, words, sizeof words) == HALL_OK &&
           hall_settle(hall, HALL_LENGTH, words, sizeof words) == HALL_OK &&
           hall_page(hall, HALL_LENGTH, 1, 1, words, sizeof words) == HALL_OK &&
           hall_word(words, HALL_PAGE_REPORT) == 2 && hall_word(words, HALL_PAGE_VALUE) == 700;
}

static void print_all_texts(void)
{
    for (uint32_t number = 1; number < 100; number++) {
        print_texts(number);
    }
}

int main(int argc, char **argv)
{
    uint8_t hall[HALL_LENGTH];
    if (argc == 2 && strcmp(argv[1], "texts") == 0) {
        print_all_texts();
        return 0;
    }
    if (hall_version() != HALL_VERSION || hall_open_built_in(hall, sizeof hall, 3, 7) != HALL_OK) {
        return 1;
    }
    puts("opened");
    fflush(stdout);
    (void)getchar();
    if (!delivers(hall)) {
        return 1;
    }
    print_version(hall_version());
    return 0;
}

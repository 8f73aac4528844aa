/* Prints the answers to a step file: answer_file [FILE]. Without a name it reads standard input. */
#include <stdio.h>

#include "weldrika.h"

/* One byte more than a step file may have: of a longer file this much is refused as the whole is. */
static uint8_t input[WELDRIKA_STEP_FILE + 1];
static uint8_t text[WELDRIKA_TEXT];

int main(int argc, char **argv)
{
    FILE *file = argc > 1 ? fopen(argv[1], "rb") : stdin;
    if (file == NULL) {
        perror(argv[1]);
        return 1;
    }
    size_t read = fread(input, 1, sizeof input, file);
    if (ferror(file)) {
        perror("answer_file");
        return 1;
    }
    size_t length = weldrika_answer_file(input, read, text, sizeof text);
    return fwrite(text, 1, length, stdout) == length && fflush(stdout) == 0 ? 0 : 1;
}

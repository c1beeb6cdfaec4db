/* Prints the report of the network file on standard input, or X,number,record. */
#include <inttypes.h>
#include <stdio.h>

#include "jubaxendi.h"

int main(void)
{
    static uint8_t file[32769], text[32768];
    uint64_t answer[8];
    size_t length = fread(file, 1, sizeof file, stdin);

    uint64_t refusal = jubaxendi_report(file, length, text, sizeof text, answer);
    if (refusal != 0)
        printf("X,%" PRIu64 ",%" PRIu64 "\n", refusal / 65536, refusal % 65536);
    else
        fwrite(text, 1, answer[0], stdout);
    return 0;
}

/* Prints the text of a refusal's number: refusal NUMBER. Links emulate_text.c and no library. */
#include <stdio.h>
#include <stdlib.h>

#include "emulate.h"

int main(int count, char **words)
{
    if (count != 2) {
        fprintf(stderr, "%s NUMBER\n", words[0]);
        return 2;
    }
    puts(emulate_refusal_text((uint32_t)strtoul(words[1], NULL, 10)));
    return 0;
}

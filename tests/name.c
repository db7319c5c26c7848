/* Prints a line for each symbol that it is called with: the answer's number, the state's, the name, the suffix. */
#include "vault.h"
#include <stdio.h>
#include <string.h>

int main(int count, char **words) {
    static uint8_t buffer[65536];
    for (int i = 1; i < count; i++) {
        const uint8_t *symbol = (const uint8_t *)words[i];
        size_t length = strlen(words[i]);
        uint64_t report[2] = {0, 0};
        uint32_t answer = vault_print(symbol, length, VAULT_PLAIN, buffer, sizeof buffer, report, 2);
        if (answer != VAULT_NO_ROOM && answer != vault_check(symbol, length)) {
            fprintf(stderr, "%s: check and print differ\n", words[i]);
            return 1;
        }
        printf("%u %u [%.*s] [%s]\n", (unsigned)answer, (unsigned)report[1], (int)report[0], (const char *)buffer, words[i] + vault_suffix(symbol, length));
    }
    return 0;
}

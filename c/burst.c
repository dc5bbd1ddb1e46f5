/* Sends a burst with a code of a book and prints its phases.
 *
 *   cc -std=c11 -Wall -Wextra -Werror -I include c/burst.c crates/kamzhules/out/libkamzhules.a -o target/burst
 */
#include <stdio.h>
#include <stdlib.h>
#include <string.h>

#include "kamzhules.h"

static const char book[] =
    "l m q c v h0 h1 h2 h3\n"
    "1 8 0 1 2 5 2 - -\n"
    "4 4 3 3 3 11 03 04 02\n";

static void print_symbol(const char *what, const struct kz_symbol *symbol)
{
    printf("%s: phases", what);
    for (int place = 0; place < symbol->places; place++)
        printf(" %d", symbol->phases[place]);
    printf("\n");
}

int main(void)
{
    const uint8_t *text = (const uint8_t *)book;
    struct kz_code code;
    struct kz_fault fault = kz_entry(text, strlen(book), 0, &code);
    if (fault.number != KZ_OK) {
        printf("line %d, column %d: refused %d\n", fault.line, fault.column, fault.number);
        return EXIT_FAILURE;
    }
    printf("step %d of %d phases\n", kz_step(code), code.phases);

    struct kz_sender sender;
    struct kz_symbol symbol;
    if (kz_begin(&sender, code, &symbol) != KZ_OK)
        return EXIT_FAILURE;
    print_symbol("reference", &symbol);

    static const uint16_t words[] = {3, 4, 1, 2};
    for (size_t i = 0; i < sizeof words / sizeof words[0]; i++) {
        char what[16];
        snprintf(what, sizeof what, "word %d", words[i]);
        uint8_t number = kz_send(&sender, words[i], &symbol);
        if (number == KZ_OK)
            print_symbol(what, &symbol);
        else
            printf("%s: refused %d\n", what, number);
    }

    uint8_t sent;
    if (kz_end(&sender, &sent) != KZ_OK)
        return EXIT_FAILURE;
    printf("sent %d\n", sent);
    printf("after the end: refused %d\n", kz_send(&sender, 1, &symbol));

    /* What the program `steps` prints for the book: first its length, then the text. */
    size_t length = kz_steps(text, strlen(book), NULL, 0);
    uint8_t listing[256];
    if (length > sizeof listing || kz_steps(text, strlen(book), listing, sizeof listing) != length)
        return EXIT_FAILURE;
    fwrite(listing, 1, length, stdout);
    return EXIT_SUCCESS;
}

/* Reads a payment, a card number and an amount, and tests the number by Luhn's rule. An amount of 1000 or more fails an assertion. */
#include <assert.h>
#include <ctype.h>
#include <stdio.h>
#include <stdlib.h>
#include <string.h>

/* Whether the digits, each second one from the right doubled, have a sum that 10 divides. Spaces are passed over. */
static int is_card(const char *text)
{
    int sum = 0, digits = 0;
    for (size_t i = strlen(text); i-- > 0;) {
        if (text[i] == ' ')
            continue;
        if (!isdigit((unsigned char)text[i]))
            return 0;
        int value = (text[i] - '0') * (1 + digits % 2);
        sum += value > 9 ? value - 9 : value;
        digits++;
    }
    return digits >= 12 && sum % 10 == 0;
}

int main(void)
{
    char line[80];
    if (fgets(line, sizeof line, stdin) == NULL)
        return 1;
    char *amount = strchr(line, ';');
    if (amount == NULL)
        return 1;
    *amount++ = 0;
    if (!is_card(line)) {
        printf("no card\n");
        return 2;
    }
    assert(atoi(amount) < 1000);
    printf("paid\n");
    return 0;
}

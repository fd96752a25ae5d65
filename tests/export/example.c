/* Checks sheet S with certificate Q of document 01 and prints the line. */
#include "gustvane.h"
#include "samples.h"
#include <stdio.h>

static uint16_t work[GUSTVANE_WORKSPACE];

int main(void) {
    size_t number, place;
    switch (gustvane_check(S, sizeof S, Q, sizeof Q, work, GUSTVANE_WORKSPACE, &number, &place)) {
    case GUSTVANE_ACCEPTED: return puts("accepted") == EOF;
    case GUSTVANE_CONFIRMED: return printf("confirmed scan %zu\n", number) < 0;
    default: return printf("refused %zu at %zu\n", number, place) < 0;
    }
}

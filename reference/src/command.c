#include "command.h"

#include <stdio.h>

void print_command(struct command x)
{
    switch (x.kind) {
    case NOP:
        fputs("NOP", stdout);
        break;
    case ACT:
        printf("ACT %u %u", x.bank, x.row);
        break;
    case READ:
        printf("READ %u %u", x.bank, x.column);
        break;
    case WRT:
        printf("WRT %u %u %u", x.bank, x.column, (unsigned)x.word);
        break;
    case PRE:
        printf("PRE %u", x.bank);
        break;
    case DEAC:
        fputs("DEAC", stdout);
        break;
    case REFR:
        fputs("REFR", stdout);
        break;
    case MRS:
        printf("MRS %u", (unsigned)x.word);
        break;
    }
}

/* Writes the schedule of ADOL-C's revolve as a text that reversal_cli reads, for STEPS steps and SNAPS checkpoints.

       from_revolve STEPS SNAPS */
#include <adolc/revolve.h>
#include <stdio.h>
#include <stdlib.h>

static void turn(int from, int first) {
    printf("Forward(%d, %d, False, True, WORK)\n", from, from + 1);
    if (first)
        printf("EndForward()\n");
    printf("Reverse(%d, %d, True)\n", from + 1, from);
}

int main(int count, char **words) {
    if (count != 3)
        return 2;
    int snaps = atoi(words[2]), check = -1, capo = 0, fine = atoi(words[1]), info = 0, shot = 0;
    for (;;) {
        int from = capo;
        switch (revolve(&check, &capo, &fine, snaps, &info)) {
        case revolve_takeshot: /* stored by the Forward of the advance that follows */
            shot = 1;
            break;
        case revolve_advance:
            printf("Forward(%d, %d, %s, False, %s)\n", from, capo, shot ? "True" : "False", shot ? "RAM" : "NONE");
            shot = 0;
            break;
        case revolve_restore: /* its last use is for the step that begins with it */
            printf("%s(%d, RAM, WORK)\n", fine - capo == 1 ? "Move" : "Copy", capo);
            break;
        case revolve_firsturn:
            turn(capo, 1);
            break;
        case revolve_youturn:
            turn(capo, 0);
            break;
        case revolve_terminate:
            printf("EndReverse()\n");
            return 0;
        default:
            return 1;
        }
    }
}

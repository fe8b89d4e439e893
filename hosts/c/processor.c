/* Prints the processors for which the code was compiled that a run call reaches here, x86-64-v2 or x86-64-v3 (interface/calls.c).
 * hosts/tries/processor.sh holds it to what the system says of the processor. */
#include "more1090_generator.h"
#include <stdio.h>

typedef void function(void);
extern function *more1090_chosen_run, more1090_proved_run, more1090_proved_v3_run;

int main(void) {
    if (more1090_chosen_run != more1090_proved_run && more1090_chosen_run != more1090_proved_v3_run) return 1;
    return puts(more1090_chosen_run == more1090_proved_v3_run ? "x86-64-v3" : "x86-64-v2") < 0;
}

/* The texts of the header, a line each, as library/h263rps/words.py has them. */
#include "h263rps.h"

#include <stdio.h>
#include <string.h>

int main(void) {
    uint32_t n;
    for (n = 0; n < 200; n++)
        if (strcmp(h263rps_status_text(n), "no status"))
            printf("status %s\n", h263rps_status_text(n));
    for (n = 0; n < 200; n++)
        if (strcmp(h263rps_fault_text(n), "no fault"))
            printf("fault %u %s\n", (unsigned)n, h263rps_fault_text(n));
    for (n = 0; n < 200; n++)
        if (strcmp(h263rps_message_fault_text(n), "no fault"))
            printf("message %u %s\n", (unsigned)n, h263rps_message_fault_text(n));
    for (n = 0; n < 200; n++)
        if (strcmp(h263rps_param_text(n), "no parameter"))
            printf("parameter %s\n", h263rps_param_text(n));
    return 0;
}

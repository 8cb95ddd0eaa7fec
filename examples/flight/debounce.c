/* Debounces a switch: samples '0' and '1' come in, and a change goes out once four samples in a row agree on it. */
#include <p10.h>
#include <stdbool.h>
#include <stdio.h>

#define AGREEING 4

struct contact {
    bool closed;
    int against;              /* samples in a row against `closed` */
};

/* Whether this sample changes what the contact is taken to be. */
static bool sample(struct contact *contact, bool closed)
{
    if (!c_assert(contact != 0)) {
        return false;
    }
    if (!c_assert(contact->against < AGREEING)) {
        contact->against = 0;
    }
    if (closed == contact->closed) {
        contact->against = 0;
        return false;
    }
    contact->against++;
    if (contact->against < AGREEING) {
        return false;
    }
    contact->closed = closed;
    contact->against = 0;
    return true;
}

int main(void)
{
    struct contact gear = { false, 0 };
    int changes = 0;
    int byte = getchar();
    while (byte == '0' || byte == '1') {
        if (sample(&gear, byte == '1')) {
            (void)putchar(gear.closed ? 'C' : 'O');
            changes++;
        } else {
            (void)putchar('.');
        }
        byte = getchar();
    }
    (void)putchar('\n');
    return changes;
}

/* Two objects of two generated files in one program: linked
 * The file is C and C++. With STATIC it includes the two files, else their headers. */
#ifdef STATIC
#include "one.c"
#include "two.c"
#else
#include "one.h"
#include "two.h"
#endif
#include <stdio.h>

/* The objects of the type, one behind the other: a test-and-set bit. */
struct bits {
    unsigned char at[ONE_OBJECTS + TWO_OBJECTS];
    unsigned made;
};

/* One thread uses them here. */
static unsigned apply(void *self, unsigned operation)
{
    unsigned char *bit = (unsigned char *)self, before = *bit;
    *bit = operation == 0;
    return before;
}

static unsigned read_state(void *self)
{
    return *(unsigned char *)self;
}

static void renew(void *self, unsigned state)
{
    *(unsigned char *)self = (unsigned char)state;
}

static struct one_object make_one(void *of, unsigned state)
{
    struct bits *bits = (struct bits *)of;
    struct one_object object = {&bits->at[bits->made++], apply, read_state};
    renew(object.self, state);
    return object;
}

static struct two_object make_two(void *of, unsigned state)
{
    struct bits *bits = (struct bits *)of;
    struct two_object object = {&bits->at[bits->made++], apply, read_state};
    renew(object.self, state);
    return object;
}

static struct bits bits;
static struct one_universal one;
static struct two_universal two;

int main(void)
{
    struct one_caller of_one[ONE_PROCESSES];
    struct two_caller of_two[TWO_PROCESSES];
    unsigned response = 0;
    one_callers(&one, make_one, &bits, renew, of_one);
    two_callers(&two, make_two, &bits, renew, of_two);
    for (unsigned k = 0; k < 100; k++)
        if (one_call(&of_one[k % 2], 0, &response) != ONE_OK || response != k % 3)
            return 1;
    for (unsigned k = 0; k < 100; k++)
        if (two_call(&of_two[k % 2], 0, &response) != TWO_OK || response != (k + 1) % 3)
            return 2;
    printf("%s %s\n", one_object_operation_name(0), two_state_name(1));
    return 0;
}

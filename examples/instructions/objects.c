/* Objects of types by what machines have, each held to its table by check_object: prints the type of each.
 *
 * cnum writes the programs and their headers into this folder; compile all its files in C together:
 *
 *     ./cnum show --as c --prefix test_and_set --shortest types/test_and_set.toml > examples/instructions/test_and_set.c
 *     ./cnum show --as h --prefix test_and_set --shortest types/test_and_set.toml > examples/instructions/test_and_set.h
 *     ./cnum show --as c --prefix fetch_or_and catalogue/fetch_or_and_3bit.json catalogue/fetch_or_and_3bit.toml > examples/instructions/fetch_or_and.c
 *     ./cnum show --as h --prefix fetch_or_and catalogue/fetch_or_and_3bit.json catalogue/fetch_or_and_3bit.toml > examples/instructions/fetch_or_and.h
 *     ./cnum show --as c --prefix fetch_add --shortest catalogue/fetch_add_mod4.toml > examples/instructions/fetch_add.c
 *     ./cnum show --as h --prefix fetch_add --shortest catalogue/fetch_add_mod4.toml > examples/instructions/fetch_add.h
 *     ./cnum show --as c --prefix swap --shortest catalogue/swap_3.toml > examples/instructions/swap.c
 *     ./cnum show --as h --prefix swap --shortest catalogue/swap_3.toml > examples/instructions/swap.h
 *     ./cnum show --as c --prefix compare_and_swap --shortest catalogue/cas_9.toml > examples/instructions/compare_and_swap.c
 *     ./cnum show --as h --prefix compare_and_swap --shortest catalogue/cas_9.toml > examples/instructions/compare_and_swap.h
 *     ./cnum show --as c --prefix sticky_bit --shortest types/sticky_bit.toml > examples/instructions/sticky_bit.c
 *     ./cnum show --as h --prefix sticky_bit --shortest types/sticky_bit.toml > examples/instructions/sticky_bit.h
 *
 * All of a state is in one word, and each call is one function of <stdatomic.h>, so one step. There is none of load-linked and
 * store-conditional: C has no function for either, and a pair in assembly would not be two steps of an object, since what the compiler
 * puts between them may break the link for good. On machines that have the two, atomic_compare_exchange_strong is made of them. */
#include "compare_and_swap.h"
#include "fetch_add.h"
#include "fetch_or_and.h"
#include "sticky_bit.h"
#include "swap.h"
#include "test_and_set.h"
#include <stdio.h>
#include <string.h>

/* A test-and-set bit: atomic_exchange writes 1 and takes what was there, in one step. */
static unsigned tas(void *self, unsigned operation)
{
    (void)operation;
    return atomic_exchange((_Atomic unsigned *)self, 1);
}

/* Three bits that are set and cleared by masks: atomic_fetch_or and atomic_fetch_and change all of
 * them and take what was there, in one step. To read them is another step, one load of the word:
 * what other threads do between the two, the protocol allows for. */
static unsigned mask(void *self, unsigned operation)
{
    if (strcmp(fetch_or_and_operation_name(operation), "or110") == 0)
        return atomic_fetch_or((_Atomic unsigned *)self, 6);
    return atomic_fetch_and((_Atomic unsigned *)self, 4);
}

static unsigned read_bits(void *self)
{
    return atomic_load((_Atomic unsigned *)self);
}

/* A count modulo 4. atomic_fetch_add wraps at a power of 2, which is a multiple of 4: so the word
 * modulo 4 is the state, and one step changes it. */
static unsigned add(void *self, unsigned operation)
{
    return atomic_fetch_add((_Atomic unsigned *)self, operation + 1) % 4;
}

/* A word that is exchanged: atomic_exchange writes a value and takes the one before, in one step.
 * */
static unsigned exchange(void *self, unsigned operation)
{
    return atomic_exchange((_Atomic unsigned *)self, operation);
}

/* A word that is compared with 0. atomic_compare_exchange_strong looks at it and changes it, or
 * looks and does not, in one step. It does not fail where 0 is there, as the weak one may. */
static unsigned put(void *self, unsigned operation)
{
    unsigned before = 0;
    atomic_compare_exchange_strong((_Atomic unsigned *)self, &before, operation + 1);
    return before;
}

/* A sticky bit: 0 is unset, and a bit is put in as its value and 1. The response is found in what
 * the one step of put took. */
static unsigned stick(void *self, unsigned operation)
{
    unsigned before = put(self, operation);
    return before == 0 ? operation : before - 1;
}

/* The same word for each object, since check_object uses one at a time. */
static void *word_in(void *of, unsigned state)
{
    atomic_init((_Atomic unsigned *)of, state);
    return of;
}

static struct test_and_set_object make_bit(void *of, unsigned state)
{
    return (struct test_and_set_object){word_in(of, state), tas};
}

static struct fetch_or_and_object make_bits(void *of, unsigned state)
{
    return (struct fetch_or_and_object){word_in(of, state), mask, read_bits};
}

static struct fetch_add_object make_count(void *of, unsigned state)
{
    return (struct fetch_add_object){word_in(of, state), add};
}

static struct swap_object make_cell(void *of, unsigned state)
{
    return (struct swap_object){word_in(of, state), exchange};
}

static struct compare_and_swap_object make_word(void *of, unsigned state)
{
    return (struct compare_and_swap_object){word_in(of, state), put};
}

static struct sticky_bit_object make_sticky(void *of, unsigned state)
{
    return (struct sticky_bit_object){word_in(of, state), stick};
}

int main(void)
{
    _Atomic unsigned word;
    puts(test_and_set_check_object(make_bit, &word).what ? "no test-and-set" : "test-and-set");
    puts(fetch_or_and_check_object(make_bits, &word).what ? "no fetch-and-or" : "fetch-and-or and fetch-and-and");
    puts(fetch_add_check_object(make_count, &word).what ? "no fetch-and-add" : "fetch-and-add");
    puts(swap_check_object(make_cell, &word).what ? "no swap" : "swap");
    puts(compare_and_swap_check_object(make_word, &word).what ? "no compare-and-swap" : "compare-and-swap");
    puts(sticky_bit_check_object(make_sticky, &word).what ? "no sticky bit" : "sticky bit");
    return 0;
}

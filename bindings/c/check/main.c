/*
 * Tests of cbgrid for C: results against dense matrices, in every semiring and form of lists; each code; null pointers;
 * refused memory and threads; and nothing lost. With --few it makes few rounds, for valgrind. Compiled with LARGE it makes
 * each call once on matrices of thousands of entries.
 */
#include "check.h"

int main(int argc, char **argv) {
    int is_few = argc > 1 && !strcmp(argv[1], "--few");
#ifdef LARGE
    test_columns();
#else
    test_codes();
    test_kept_codes();
    test_limits();
    test_misfits();
    test_threads(is_few);
#endif
    test_operations(is_few);
    test_products(is_few);
    test_graphs(is_few);
    test_selections(is_few);
    test_updates(is_few);
    return report();
}

/* Whether the numbers of the arguments rise. */
#include <stdio.h>
#include <stdlib.h>

static int rises(const long *xs, size_t many)
{
    for (size_t i = 1; i < many; i++) {
        if (xs[i - 1] >= xs[i])
            return 0; // an equal one is one too many
    }
    return 1;
}

int main(int argc, char **argv)
{
    long xs[64] = { 0x10, 017, 42L };
    size_t many = argc > 1 ? (size_t)(argc - 1) : 3;
    for (int i = 1; i < argc && i <= 64; i++)
        xs[i - 1] = strtol(argv[i], NULL, 10);
    printf("%s\n", rises(xs, many) ? "they rise" : "they don't");
    return EXIT_SUCCESS;
}

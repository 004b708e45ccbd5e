/* The functions of crates/benchmarks, by the same operations in the same order, in BuDDy 2.4:
 *   cc -O2 bench/buddy.c -lbdd -o /tmp/buddy && /tmp/buddy queens 8
 */
#include <bdd.h>
#include <stdio.h>
#include <stdlib.h>
#include <string.h>
#include <time.h>

static long operations;

static bdd keep(bdd made)
{
    operations++;
    return bdd_addref(made);
}

/* Takes the place of a node that is used no more. */
static void replace(bdd *node, bdd made)
{
    bdd_delref(*node);
    *node = made;
}

static bdd var(int v) { return keep(bdd_ithvar(v)); }
static bdd not_(bdd a) { return keep(bdd_not(a)); }
static bdd and_(bdd a, bdd b) { return keep(bdd_and(a, b)); }
static bdd or_(bdd a, bdd b) { return keep(bdd_or(a, b)); }
static bdd xor_(bdd a, bdd b) { return keep(bdd_xor(a, b)); }
static bdd ite_(bdd a, bdd b, bdd c) { return keep(bdd_ite(a, b, c)); }

static int takes(int row, int column, int r, int c)
{
    int same = row == r && column == c;
    return !same && (row == r || column == c || abs(row - r) == abs(column - c));
}

static void queens(int n)
{
    bdd all = bdd_addref(bddtrue);
    for (int row = 0; row < n; row++) {
        bdd some = bdd_addref(bddfalse);
        for (int column = 0; column < n; column++)
            replace(&some, or_(some, var(row * n + column)));
        replace(&all, and_(all, some));
    }
    for (int row = 0; row < n; row++)
        for (int column = 0; column < n; column++) {
            bdd alone = bdd_addref(bddtrue);
            for (int r = 0; r < n; r++)
                for (int c = 0; c < n; c++)
                    if (takes(row, column, r, c))
                        replace(&alone, and_(alone, not_(var(r * n + c))));
            bdd absent = not_(var(row * n + column));
            replace(&alone, or_(absent, alone));
            replace(&all, and_(all, alone));
            bdd_delref(alone);
        }
}

static void parity(int n)
{
    bdd odd = bdd_addref(bddfalse);
    for (int v = 0; v < n; v++)
        replace(&odd, xor_(odd, var(v)));
}

static void adder(int n)
{
    int width = n / 2;
    bdd carry = bdd_addref(bddfalse);
    for (int v = 0; v < width; v++) {
        bdd a = var(v);
        bdd b = var(v + width);
        bdd differ = xor_(a, b);
        xor_(differ, carry);
        bdd both = and_(a, b);
        bdd passed = and_(differ, carry);
        carry = or_(both, passed);
    }
}

static void hidden_weighted_bit(int n)
{
    bdd counts[n + 2];
    int size = 1;
    counts[0] = bdd_addref(bddtrue);
    for (int v = 0; v < n; v++) {
        bdd bit = var(v);
        bdd below = bddfalse;
        for (int k = 0; k < size; k++) {
            bdd count = counts[k];
            counts[k] = ite_(bit, below, count);
            below = count;
        }
        counts[size] = and_(bit, below);
        size++;
    }
    bdd hidden = bdd_addref(bddfalse);
    for (int v = 0; v < n; v++)
        replace(&hidden, or_(hidden, and_(counts[v + 1], var(v))));
}

int main(int argc, char **argv)
{
    if (argc != 3)
        return 2;
    int n = atoi(argv[2]);
    int is_board = strcmp(argv[1], "queens") == 0;
    bdd_init(1000000, 200000);
    bdd_setmaxincrease(1000000);
    bdd_gbc_hook(NULL);
    bdd_setvarnum(is_board ? n * n : n);
    struct timespec start, end;
    clock_gettime(CLOCK_MONOTONIC, &start);
    if (is_board)
        queens(n);
    else if (strcmp(argv[1], "parity") == 0)
        parity(n);
    else if (strcmp(argv[1], "adder") == 0)
        adder(n);
    else
        hidden_weighted_bit(n);
    clock_gettime(CLOCK_MONOTONIC, &end);
    long micros = (end.tv_sec - start.tv_sec) * 1000000L + (end.tv_nsec - start.tv_nsec) / 1000;
    printf("buddy %s %d: %d live nodes, %ld operations, %ld us\n", argv[1], n, bdd_getnodenum(), operations, micros);
    return 0;
}

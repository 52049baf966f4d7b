/* Each function of quadrensolo.h on document 01's fact, "(atoms 1)" and "(rule 1 () ())". The expected values are written by hand from document 01:
 * its printed clause file and answer, and the rows of its table, with Q-3 of document 02. */
#include <stdio.h>
#include <string.h>

#include "quadrensolo.h"

static int done, wrong;

static void expect(const char *what, int holds)
{
    done++;
    if (!holds) {
        wrong++;
        printf("WRONG: %s\n", what);
    }
}

static void expect_reply(const char *what, struct qs_reply r, uint64_t number, uint64_t spot, uint64_t a, uint64_t b, uint64_t c, uint64_t d)
{
    done++;
    int holds = r.number == number && r.spot == spot && r.a == a && r.b == b && r.c == c && r.d == d;
    wrong += !holds;
    printf("%s%s: number %llu spot %llu a %llu b %llu c %llu d %llu\n", holds ? "" : "WRONG: ", what, (unsigned long long)r.number,
           (unsigned long long)r.spot, (unsigned long long)r.a, (unsigned long long)r.b, (unsigned long long)r.c, (unsigned long long)r.d);
}

/* from byte `from` on, all bytes are c */
static int all(const uint8_t *p, size_t from, size_t len, uint8_t c)
{
    for (size_t i = from; i < len; i++)
        if (p[i] != c)
            return 0;
    return 1;
}

#define TEXT(s) (const uint8_t *)(s), sizeof(s) - 1

static const char fact[] = "(atoms 1)\n(rule 1 () ())\n";
static const char clauses[] =
    "p cnf 7 16\n2 0\n1 -2 0\n-1 2 0\n1 -4 0\n1 -5 0\n-6 -4 0\n6 4 0\n4 -7 5 0\n4 7 -5 0\n-4 -7 -5 0\n-4 7 5 0\n-3 2 0\n3 -2 0\n-2 4 0\n-2 -5 0\n-1 3 0\n";

static void reads(void)
{
    expect_reply("read the fact", qs_read(TEXT(fact)), 0, 0, 7, 16, 0, 0);
    expect_reply("read no bytes", qs_read(NULL, 0), 2, 0, 0, 0, 0, 0);
    expect_reply("read 127 atoms", qs_read(TEXT("(atoms 127)\n")), 3, 7, 0, 0, 0, 0);
    expect_reply("read atom 2 of 1", qs_read(TEXT("(atoms 1)\n(rule 2 () ())\n")), 4, 16, 0, 0, 0, 0);
}

static void lines(void)
{
    uint8_t buf[16];
    memset(buf, 'x', sizeof buf);
    expect_reply("line 0 at place 3", qs_line(TEXT(fact), 0, 3, buf, sizeof buf), 0, 0, 11, 0, 0, 0);
    expect("its bytes", memcmp(buf, "xxxp cnf 7 16\nxx", 16) == 0);
    memset(buf, 'x', sizeof buf);
    expect_reply("line 16", qs_line(TEXT(fact), 16, 0, buf, sizeof buf), 0, 0, 7, 0, 0, 0);
    expect("its bytes", memcmp(buf, "-1 3 0\nxxxxxxxxx", 16) == 0);
    memset(buf, 'x', sizeof buf);
    expect_reply("line 17", qs_line(TEXT(fact), 17, 0, buf, sizeof buf), 9, 16, 0, 0, 0, 0);
    expect_reply("line 0 at place 6", qs_line(TEXT(fact), 0, 6, buf, sizeof buf), 8, 11, 0, 0, 0, 0);
    expect_reply("line 0 past the end", qs_line(TEXT(fact), 0, 17, buf, sizeof buf), 8, 11, 0, 0, 0, 0);
    expect_reply("line 0 into no bytes", qs_line(TEXT(fact), 0, 0, NULL, 0), 8, 11, 0, 0, 0, 0);
    expect("nothing is written", all(buf, 0, sizeof buf, 'x'));
}

static void runs(void)
{
    uint8_t buf[256];
    size_t len = sizeof clauses - 1;
    memset(buf, 'x', sizeof buf);
    expect_reply("all lines", qs_run(TEXT(fact), 0, buf, sizeof buf), 0, 0, 17, len, 0, 0);
    expect("their bytes", memcmp(buf, clauses, len) == 0 && all(buf, len, sizeof buf, 'x'));
    memset(buf, 'x', sizeof buf);
    expect_reply("lines 1 on into 12 bytes", qs_run(TEXT(fact), 1, buf, 12), 0, 0, 2, 11, 0, 0);
    expect("their bytes", memcmp(buf, "2 0\n1 -2 0\n", 11) == 0 && all(buf, 11, sizeof buf, 'x'));
    memset(buf, 'x', sizeof buf);
    expect_reply("lines 0 on into 10 bytes", qs_run(TEXT(fact), 0, buf, 10), 8, 11, 0, 0, 0, 0);
    expect_reply("lines 17 on", qs_run(TEXT(fact), 17, buf, sizeof buf), 9, 16, 0, 0, 0, 0);
    expect("nothing is written", all(buf, 0, sizeof buf, 'x'));
}

static const uint8_t model[] = {1, 1, 1, 1, 0, 0, 1, 'x', 'x'};

static void checks(void)
{
    uint8_t assignment[9], levels[3];
    memset(assignment, 'x', 9);
    memset(levels, 'x', 3);
    expect_reply("check the model", qs_check(TEXT(fact), TEXT("s SATISFIABLE\nv 1 2 3 4 -5 -6 7 0\n"), assignment, 9, levels, 3), 0, 0, 1, 1, 0, 0);
    expect("its assignment and level", memcmp(assignment, model, 9) == 0 && levels[0] == 1 && all(levels, 1, 3, 'x'));
    memset(assignment, 'x', 9);
    memset(levels, 'x', 3);
    expect_reply("check 5 and 6 left out", qs_check(TEXT(fact), TEXT("s SATISFIABLE\nv 1 2 3 4 7 0\n"), assignment, 9, levels, 3), 0, 0, 1, 1, 2, 0);
    expect("the same assignment and level", memcmp(assignment, model, 9) == 0 && levels[0] == 1 && all(levels, 1, 3, 'x'));
    memset(assignment, 'x', 9);
    memset(levels, 'x', 3);
    expect_reply("check no atoms", qs_check(TEXT("(atoms 0)\n"), TEXT("s SATISFIABLE\nv 0\n"), assignment, 9, levels, 3), 0, 0, 0, 0, 0, 0);
    expect_reply("check UNSATISFIABLE", qs_check(TEXT(fact), TEXT("s UNSATISFIABLE\n"), assignment, 9, levels, 3), 12, 0, 0, 0, 0, 0);
    expect_reply("check no bytes", qs_check(TEXT(fact), NULL, 0, assignment, 9, levels, 3), 11, 0, 0, 0, 0, 0);
    expect_reply("check with 6 bytes", qs_check(TEXT(fact), TEXT("s UNKNOWN\n"), assignment, 6, levels, 3), 8, 7, 0, 0, 0, 0);
    expect_reply("check with no level", qs_check(TEXT(fact), TEXT("s UNKNOWN\n"), assignment, 9, NULL, 0), 8, 1, 0, 0, 0, 0);
    expect("nothing is written", all(assignment, 0, 9, 'x') && all(levels, 0, 3, 'x'));
    expect_reply("check clause 1 false", qs_check(TEXT(fact), TEXT("s SATISFIABLE\nv 1 -2 3 4 -5 -6 7 0\n"), assignment, 9, levels, 3), 16, 1, 0, 0, 0, 0);
    expect("the assignment is zeroed", all(assignment, 0, 7, 0) && all(assignment, 7, 9, 'x') && all(levels, 0, 3, 'x'));
    memset(assignment, 'x', 9);
    expect_reply("check 7 left out", qs_check(TEXT(fact), TEXT("s SATISFIABLE\nv 1 2 3 4 -5 -6 0\n"), assignment, 9, levels, 3), 16, 11, 0, 0, 0, 0);
    expect("the assignment is zeroed", all(assignment, 0, 7, 0) && all(assignment, 7, 9, 'x') && all(levels, 0, 3, 'x'));
    expect_reply("check all left out", qs_check(TEXT(fact), TEXT("s SATISFIABLE\nv 0\n"), assignment, 9, levels, 3), 16, 1, 0, 0, 0, 0);
    expect_reply("check 8 stray", qs_check(TEXT(fact), TEXT("s SATISFIABLE\nv 8 0\n"), assignment, 9, levels, 3), 13, 16, 0, 0, 0, 0);
    expect_reply("check 1 repeated", qs_check(TEXT(fact), TEXT("s SATISFIABLE\nv 1 -1 0\n"), assignment, 9, levels, 3), 14, 18, 0, 0, 0, 0);
}

static void fills(void)
{
    uint8_t assignment[9], levels[3];
    memset(assignment, 'x', 9);
    memset(levels, 'x', 3);
    expect_reply("fill out {}", qs_fill(TEXT(fact), (const uint8_t *)"\0", 1, assignment, 9, levels, 3), 18, 1, 0, 0, 0, 0);
    expect_reply("fill out no bytes", qs_fill(TEXT(fact), NULL, 0, assignment, 9, levels, 3), 17, 1, 0, 0, 0, 0);
    expect_reply("fill out byte 2", qs_fill(TEXT(fact), (const uint8_t *)"\2", 1, assignment, 9, levels, 3), 17, 0, 0, 0, 0, 0);
    expect_reply("fill out with 6 bytes", qs_fill(TEXT(fact), (const uint8_t *)"\1", 1, assignment, 6, levels, 3), 8, 7, 0, 0, 0, 0);
    expect("nothing is written", all(assignment, 0, 9, 'x') && all(levels, 0, 3, 'x'));
    expect_reply("fill out {1}", qs_fill(TEXT(fact), (const uint8_t *)"\1", 1, assignment, 9, levels, 3), 0, 0, 1, 1, 0, 0);
    expect("its assignment and level", memcmp(assignment, model, 9) == 0 && levels[0] == 1 && all(levels, 1, 3, 'x'));
}

int main(void)
{
    reads();
    lines();
    runs();
    checks();
    fills();
    printf("%d expectations, %d wrong\n", done, wrong);
    return wrong != 0;
}

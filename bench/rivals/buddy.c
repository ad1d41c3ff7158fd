/* The rule's list of a function text, made over BuDDy's diagrams: a rival for the measurements, for texts without a fault of
   types f, fd and fr. It reads the file named and writes `.p` with the number of rows, and the rows. */
#include <bdd.h>
#include <stdio.h>
#include <string.h>

static int columns;
static char chosen[17];
static char list[40000][17];
static int rows;

/* The list for a lower and an upper root, and its cover. */
static bdd generate(bdd l, bdd u)
{
    int v;
    bdd v0, v1, l0, l1, u0, u1, p0, p1, g0, g1, r, t, gs, g, a, b;
    if (l == bddfalse)
        return bddfalse;
    if (u == bddtrue) {
        memcpy(list[rows++], chosen, 17);
        return bddtrue;
    }
    v = l == bddtrue ? bdd_var(u) : bdd_var(l);
    if (l != bddtrue && bdd_var(u) < v)
        v = bdd_var(u);
    v0 = bdd_nithvar(v);
    v1 = bdd_ithvar(v);
    l0 = bdd_addref(bdd_restrict(l, v0));
    l1 = bdd_addref(bdd_restrict(l, v1));
    u0 = bdd_addref(bdd_restrict(u, v0));
    u1 = bdd_addref(bdd_restrict(u, v1));
    p0 = bdd_addref(bdd_apply(l0, u1, bddop_diff));
    p1 = bdd_addref(bdd_apply(l1, u0, bddop_diff));
    chosen[v] = '0';
    g0 = bdd_addref(generate(p0, u0));
    chosen[v] = '1';
    g1 = bdd_addref(generate(p1, u1));
    chosen[v] = '-';
    a = bdd_addref(bdd_apply(l0, g0, bddop_diff));
    b = bdd_addref(bdd_apply(l1, g1, bddop_diff));
    r = bdd_addref(bdd_or(a, b));
    t = bdd_addref(bdd_and(u0, u1));
    gs = bdd_addref(generate(r, t));
    bdd_delref(a);
    bdd_delref(b);
    a = bdd_addref(bdd_or(g0, gs));
    b = bdd_addref(bdd_or(g1, gs));
    g = bdd_addref(bdd_ite(v1, b, a));
    bdd_delref(l0);
    bdd_delref(l1);
    bdd_delref(u0);
    bdd_delref(u1);
    bdd_delref(p0);
    bdd_delref(p1);
    bdd_delref(g0);
    bdd_delref(g1);
    bdd_delref(r);
    bdd_delref(t);
    bdd_delref(gs);
    bdd_delref(a);
    bdd_delref(b);
    return g;
}

/* A row's cube. */
static bdd cube(const char *signs)
{
    bdd made = bdd_addref(bddtrue);
    int i;
    for (i = columns - 1; i >= 0; i--) {
        bdd next;
        if (signs[i] != '0' && signs[i] != '1')
            continue;
        next = bdd_addref(bdd_and(made, signs[i] == '1' ? bdd_ithvar(i) : bdd_nithvar(i)));
        bdd_delref(made);
        made = next;
    }
    return made;
}

static bdd with(bdd set, bdd more)
{
    bdd made = bdd_addref(bdd_or(set, more));
    bdd_delref(set);
    return made;
}

int main(int count, char **words)
{
    char line[1024], signs[1024], out[16], type[8] = "fd";
    bdd on = bddfalse, other = bddfalse, upper;
    int i;
    FILE *file = count == 2 ? fopen(words[1], "r") : NULL;
    if (!file)
        return 2;
    bdd_init(100000, 10000);
    while (fgets(line, sizeof line, file)) {
        bdd made;
        line[strcspn(line, "#")] = 0;
        if (sscanf(line, " .i %d", &columns) == 1)
            bdd_setvarnum(columns);
        else if (sscanf(line, " .type %7s", type) == 1)
            continue;
        else if (strstr(line, ".e"))
            break;
        if (strchr(line, '.') || sscanf(line, "%1023s %15s", signs, out) != 2)
            continue;
        made = cube(signs);
        if (out[0] == '1')
            on = with(on, made);
        else if ((!strcmp(type, "fd") && out[0] == '-') || (!strcmp(type, "fr") && out[0] == '0'))
            other = with(other, made);
        bdd_delref(made);
    }
    fclose(file);
    upper = bdd_addref(!strcmp(type, "fr") ? bdd_not(other) : bdd_or(on, other));
    memset(chosen, '-', sizeof chosen);
    chosen[columns] = 0;
    generate(on, upper);
    printf(".p %d\n", rows);
    for (i = 0; i < rows; i++)
        printf("%s 1\n", list[i]);
    bdd_done();
    return 0;
}

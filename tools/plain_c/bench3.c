/* BASELINE, NOT A STOCK STACK: two cases more, in a file of their own, so that the compilers build those of bench2.c as before.
 *   gcc -O2 -Wall -o uabench3 bench3.c      ./uabench3 CASE FILE N [WORD]     the same words as bench_messages */
#define SERVES
#include "bench2.c"
/* a node's value is this Int32 with this SourceTimestamp */
static int tset(const Node *n, int32_t v, int64_t t) {
    Entry *e = tfind(n);
    if (!e || e->kind != 6) return 0;
    e->v = (DV){ .mask = 5, .src = t }; e->v.v.kind = 6; e->v.v.i = v;
    return 1;
}
/* a Double by the least digits that read back as it */
static void wdouble(Out *o, double v) {
    char b[32]; int m = 0;
    for (int d = 15; d <= 17; d++) { m = snprintf(b, sizeof b, "%.*g", d, v); if (strtod(b, 0) == v) break; }
    need(o, m); memcpy(o->p + o->n, b, m); o->n += m;
}
int main(int argc, char **argv) {
    if (argc < 4) return 2;
    size_t n; uint8_t *p = slurp(argv[2], &n); long turns = atol(argv[3]), good = 0, sum = 0; Out o = { 0 }; In i = { p, p + n, 0 };
    if (!strcmp(argv[1], "set") && argc > 4) {
        size_t m; uint8_t *t = slurp(argv[4], &m); Req q; if (!tload((char *)t, m) || !rreq(&i, &q)) return 1;
        for (long k = 0; k < turns; k++) for (int j = 0; j < q.n; j++) { good += tset(&q.v[j].node, 7, 132000000000000000); __asm__ volatile("" ::: "memory"); }
    } else if (!strcmp(argv[1], "plain")) {
        V2 v = rv2(&i); if (v.kind != 11 || !v.array) return 1;
        for (long k = 0; k < turns; k++) {
            o.n = 0; wt(&o, "[");
            for (int32_t j = 0; j < v.n; j++) { double d; memcpy(&d, (uint64_t *)v.a + j, 8); if (j) wt(&o, ", "); wdouble(&o, d); }
            wt(&o, "]"); good++;
        }
        sum = o.n;
    } else return 2;
    printf("%s good %ld sum %ld\n", argv[1], good, sum); return good ? 0 : 1;
}

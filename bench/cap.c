/* The cap of a stock, by the same definition as `capping::cap`: the usual bucket peeling of vertices and of edges.
   Reads a sheet, finds the cap a hundred times, and prints it with the number of clashes in the last community. */
#include <stdio.h>
#include <stdlib.h>
#include <string.h>

enum { N = 1024, M = 16384, RUNS = 100 };
static int n, m, ends[M][2], start[N + 1], near[2 * M], edge[2 * M], living[M];

static void lay(void) {
    static int at[N];
    memset(start, 0, sizeof start);
    for (int e = 0; e < m; e++) { start[ends[e][0] + 1]++; start[ends[e][1] + 1]++; }
    for (int c = 0; c < n; c++) start[c + 1] += start[c];
    for (int c = 0; c < n; c++) at[c] = start[c];
    for (int e = 0; e < m; e++) {
        int a = ends[e][0], b = ends[e][1];
        near[at[a]] = b; edge[at[a]++] = e; near[at[b]] = a; edge[at[b]++] = e;
    }
}

/* Peels `size` items with their counts by buckets; `lower` of an item is told through `take`. Returns the largest
   count met at a removal, and leaves in `level` that of each item. */
static int bin[M + 2], pos[M], vert[M], count[M], level[M];
static void sort_items(int size) {
    int top = 0, sum = 0;
    for (int i = 0; i < size; i++) if (count[i] > top) top = count[i];
    memset(bin, 0, (top + 2) * sizeof *bin);
    for (int i = 0; i < size; i++) bin[count[i]]++;
    for (int d = 0; d <= top; d++) { int k = bin[d]; bin[d] = sum; sum += k; }
    for (int i = 0; i < size; i++) { pos[i] = bin[count[i]]; vert[pos[i]] = i; bin[count[i]]++; }
    for (int d = top; d > 0; d--) bin[d] = bin[d - 1];
    bin[0] = 0;
}
static void lower(int u, int floor) {
    if (count[u] <= floor) return;
    int d = count[u], pu = pos[u], pw = bin[d], w = vert[pw];
    if (u != w) { pos[u] = pw; vert[pu] = w; pos[w] = pu; vert[pw] = u; }
    bin[d]++; count[u]--;
}

static int degeneracy(void) {
    int most = 0;
    for (int c = 0; c < n; c++) count[c] = start[c + 1] - start[c];
    sort_items(n);
    for (int i = 0; i < n; i++) {
        int v = vert[i];
        if (count[v] > most) most = count[v];
        for (int k = start[v]; k < start[v + 1]; k++) lower(near[k], count[v]);
    }
    return most;
}

static int community(void) {
    static int mark[N], gone[M];
    int most = 0;
    memset(count, 0, m * sizeof *count);
    memset(gone, 0, m * sizeof *gone);
    for (int e = 0; e < m; e++) {
        int a = ends[e][0], b = ends[e][1];
        for (int k = start[a]; k < start[a + 1]; k++) mark[near[k]] = 1;
        for (int k = start[b]; k < start[b + 1]; k++) count[e] += mark[near[k]];
        for (int k = start[a]; k < start[a + 1]; k++) mark[near[k]] = 0;
    }
    sort_items(m);
    for (int i = 0; i < m; i++) {
        int e = vert[i], a = ends[e][0], b = ends[e][1];
        if (count[e] > most) most = count[e];
        level[e] = most;
        for (int k = start[a]; k < start[a + 1]; k++) mark[near[k]] = gone[edge[k]] ? 0 : edge[k] + 1;
        for (int k = start[b]; k < start[b + 1]; k++)
            if (!gone[edge[k]] && mark[near[k]]) { lower(edge[k], count[e]); lower(mark[near[k]] - 1, count[e]); }
        for (int k = start[a]; k < start[a + 1]; k++) mark[near[k]] = 0;
        gone[e] = 1;
    }
    for (int e = 0; e < m; e++) living[e] = level[e] == most;
    return most;
}

static int cap(void) {
    lay();
    int d = degeneracy();
    if (n == 0) return 0;
    if (m == 0) return 1;
    int t = community();
    return d + 1 < t + 2 ? d + 1 : t + 2;
}

int main(void) {
    int a, b, top = 0, sum = 0;
    if (scanf("s %d %d", &n, &m) != 2 || n > N || m > M) return 1;
    for (int e = 0; e < m; e++) {
        if (scanf(" p %d %d", &a, &b) != 2) return 1;
        ends[e][0] = a; ends[e][1] = b;
    }
    for (int r = 0; r < RUNS; r++) top = cap();
    for (int e = 0; e < m; e++) sum += living[e];
    printf("%d\t%d\n", top, sum);
    return 0;
}

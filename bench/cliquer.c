/* Searches a DIMACS graph for a largest clique by the library cliquer, as often as it is told, and prints its size. */
#include <cliquer/cliquer.h>
#include <stdio.h>
#include <stdlib.h>

int main(int argc, char **argv) {
    if (argc != 3) return 1;
    graph_t *graph = graph_read_dimacs_file(argv[1]);
    if (!graph) return 1;
    clique_options options = {.reorder_function = reorder_by_default};
    int most = 0;
    for (int turn = atoi(argv[2]); turn > 0; turn--)
        most = clique_unweighted_max_weight(graph, &options);
    printf("%d\n", most);
    graph_free(graph);
    return 0;
}

/* Runs many plans in one start of MPI: each line of a list is a shared object, a file for what is written, and words.
 * The plans are compiled with main, MPI_Init and MPI_Finalize under other names. */
#include <dlfcn.h>
#include <mpi.h>
#include <stdio.h>
#include <stdlib.h>
#include <string.h>

int plan_init(int *words, char ***word);
int plan_finalize(void);
int plan_init(int *words, char ***word) { return (void)words, (void)word, MPI_SUCCESS; }
int plan_finalize(void) { return MPI_SUCCESS; }

/* What a plan writes goes to its file, on standard error and behind that its status too. */
static void run(int self, char **word, int words) {
    if (self == 0 && (!freopen(word[1], "w", stdout) || !freopen(word[1], "a", stdout) || !freopen(word[1], "a", stderr)))
        MPI_Abort(MPI_COMM_WORLD, 9);
    void *plan = dlopen(word[0], RTLD_NOW | RTLD_LOCAL);
    void *entry = plan ? dlsym(plan, "plan_main") : NULL;
    int (*run_plan)(int, char **);
    if (!entry)
        MPI_Abort(MPI_COMM_WORLD, 9);
    memcpy(&run_plan, &entry, sizeof(entry));
    const int status = run_plan(words - 1, word + 1);
    dlclose(plan);
    fflush(stdout), fflush(stderr);
    if (self == 0)
        printf("status %d\n", status);
    fflush(stdout);
}

int main(int words, char **word) {
    static char line[4096], *part[64];
    int self;
    FILE *list = words == 2 ? fopen(word[1], "r") : NULL;
    MPI_Init(&words, &word);
    MPI_Comm_rank(MPI_COMM_WORLD, &self);
    while (list && fgets(line, sizeof(line), list)) {
        int parts = 0;
        for (char *at = strtok(line, " \n"); at && parts < 63; at = strtok(NULL, " \n"))
            part[parts++] = at;
        part[parts] = NULL;
        run(self, part, parts);
    }
    MPI_Finalize();
    return list ? 0 : 9;
}

/* Runs programs side by side, each as a process of its own with the file on standard input and its output in memory.

   side time RUNS SECONDS LEAST FILE PROGRAM...
       Rounds of one run of each program in turn. A program has RUNS runs at most, and no more once its runs have taken SECONDS together
       and there were LEAST. Prints "same" or "different" (whether all first runs printed the same) and then for each program the number
       of its runs and the shortest in nanoseconds, from just before the process is started until it has ended.
   side compare PACK PROGRAM...
       Gives each file of PACK (its length in four bytes, then the file) to each program, by turns as a file and as a pipe, and compares
       what they print. Prints a line for each file: "same" or "different", and the first and the last line that the first program
       prints, with tabs between. A file that makes a difference goes to standard error in hexadecimal, with what each program prints. */
#define _GNU_SOURCE
#include <fcntl.h>
#include <spawn.h>
#include <stdio.h>
#include <stdlib.h>
#include <string.h>
#include <sys/mman.h>
#include <sys/wait.h>
#include <time.h>
#include <unistd.h>

enum { PROGRAMS_MOST = 8, OUT_MOST = 65536 };

static void fail(const char *what)
{
    fprintf(stderr, "side: ");
    perror(what);
    exit(2);
}

static double now(void)
{
    struct timespec t;
    clock_gettime(CLOCK_MONOTONIC, &t);
    return (double)t.tv_sec * 1e9 + (double)t.tv_nsec;
}

/* Runs the program with the given standard input and output; answers the nanoseconds. */
static double run(char *program, int in, int out, int *status)
{
    static char *none[] = { NULL };
    char *arguments[] = { program, NULL };
    posix_spawn_file_actions_t actions;
    posix_spawn_file_actions_init(&actions);
    posix_spawn_file_actions_adddup2(&actions, in, 0);
    posix_spawn_file_actions_adddup2(&actions, out, 1);
    pid_t child;
    double start = now();
    if (posix_spawn(&child, program, &actions, NULL, arguments, none)) fail(program);
    if (waitpid(child, status, 0) != child) fail("waitpid");
    double end = now();
    posix_spawn_file_actions_destroy(&actions);
    return end - start;
}

static int memory(const char *name)
{
    int made = memfd_create(name, MFD_CLOEXEC);
    if (made < 0) fail("memfd_create");
    return made;
}

static void empty(int file)
{
    if (ftruncate(file, 0) || lseek(file, 0, SEEK_SET) < 0) fail("ftruncate");
}

static int time_them(int runs, double seconds, int least, const char *file, char **programs, int count)
{
    static char text[PROGRAMS_MOST][OUT_MOST];
    double best[PROGRAMS_MOST] = { 0 }, spent[PROGRAMS_MOST] = { 0 };
    int done[PROGRAMS_MOST] = { 0 }, same = 1, status;
    ssize_t got[PROGRAMS_MOST];
    int in = open(file, O_RDONLY | O_CLOEXEC), out = memory("out");
    if (in < 0) fail(file);
    for (int any = 1; any;) {
        any = 0;
        for (int i = 0; i < count; i++) {
            if (done[i] >= runs || (done[i] >= least && spent[i] >= seconds * 1e9)) continue;
            empty(out);
            lseek(in, 0, SEEK_SET);
            double took = run(programs[i], in, out, &status);
            if (status) same = 0;
            if (done[i] == 0) {
                got[i] = pread(out, text[i], OUT_MOST, 0);
                if (got[i] != got[0] || memcmp(text[i], text[0], (size_t)got[0])) same = 0;
            }
            if (done[i] == 0 || took < best[i]) best[i] = took;
            spent[i] += took;
            done[i]++;
            any = 1;
        }
    }
    printf("%s", same ? "same" : "different");
    for (int i = 0; i < count; i++) printf(" %d %.0f", done[i], best[i]);
    printf("\n");
    return 0;
}

static int compare(const char *pack, char **programs, int count)
{
    static char data[OUT_MOST], text[PROGRAMS_MOST][OUT_MOST];
    unsigned char size[4];
    FILE *files = fopen(pack, "rb");
    if (!files) fail(pack);
    int in = memory("in"), out = memory("out"), different = 0;
    for (long number = 0; fread(size, 1, 4, files) == 4; number++) {
        size_t length = (size_t)size[0] << 24 | (size_t)size[1] << 16 | (size_t)size[2] << 8 | size[3];
        if (length > OUT_MOST || fread(data, 1, length, files) != length) fail("the pack");
        ssize_t got[PROGRAMS_MOST];
        int status[PROGRAMS_MOST], same = 1;
        for (int i = 0; i < count; i++) {
            int ends[2];
            empty(out);
            if (number % 2) {
                if (pipe2(ends, O_CLOEXEC) || write(ends[1], data, length) != (ssize_t)length) fail("the pipe");
                close(ends[1]);
                run(programs[i], ends[0], out, &status[i]);
                close(ends[0]);
            } else {
                empty(in);
                if (pwrite(in, data, length, 0) != (ssize_t)length) fail("the input");
                run(programs[i], in, out, &status[i]);
            }
            got[i] = pread(out, text[i], OUT_MOST, 0);
            if (status[i] || got[i] != got[0] || memcmp(text[i], text[0], (size_t)got[0])) same = 0;
        }
        const char *end = text[0] + got[0], *first = memchr(text[0], '\n', (size_t)got[0]), *last = end - (got[0] > 0);
        while (last > text[0] && last[-1] != '\n') last--;
        printf("%s\t%.*s\t%.*s", same ? "same" : "different", (int)((first ? first : end) - text[0]), text[0], (int)(end - last), last);
        if (end == text[0] || end[-1] != '\n') printf("\n");
        if (!same) {
            different = 1;
            fprintf(stderr, "file %ld:", number);
            for (size_t i = 0; i < length; i++) fprintf(stderr, " %02X", (unsigned char)data[i]);
            for (int i = 0; i < count; i++)
                fprintf(stderr, "\n%s (status %d) prints:\n%.*s", programs[i], status[i], (int)got[i], text[i]);
            fprintf(stderr, "\n");
        }
    }
    return different;
}

int main(int argc, char **argv)
{
    if (argc > 6 && argc <= 6 + PROGRAMS_MOST && !strcmp(argv[1], "time"))
        return time_them(atoi(argv[2]), atof(argv[3]), atoi(argv[4]), argv[5], argv + 6, argc - 6);
    if (argc > 3 && argc <= 3 + PROGRAMS_MOST && !strcmp(argv[1], "compare")) return compare(argv[2], argv + 3, argc - 3);
    fprintf(stderr, "side: time RUNS SECONDS LEAST FILE PROGRAM... or compare PACK PROGRAM...\n");
    return 2;
}

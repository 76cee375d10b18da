// Measures `digest_md5` beside md5sum: see `digest`.
#include <stdio.h>
#include <stdlib.h>
#include <string.h>
#include <sys/resource.h>
#include <sys/wait.h>
#include <unistd.h>

// The proved function: a slice is a pointer and a length.
void digest_md5(const unsigned char *bytes, size_t size, unsigned char *out, size_t room);

enum { TIMES = 64, MOST_ROUNDS = 99 };

static void fail(const char *what) {
    perror(what);
    exit(2);
}

static double user_seconds(int who) {
    struct rusage used;
    if (getrusage(who, &used) != 0) fail("getrusage");
    return used.ru_utime.tv_sec + used.ru_utime.tv_usec / 1e6;
}

// Runs md5sum on a file, takes the 32 digits that it prints, and returns its user seconds.
static double md5sum(const char *file, char digits[33]) {
    int ends[2];
    if (pipe(ends) != 0) fail("pipe");
    double before = user_seconds(RUSAGE_CHILDREN);
    pid_t child = fork();
    if (child == 0) {
        dup2(ends[1], 1);
        close(ends[0]);
        execlp("md5sum", "md5sum", file, (char *)NULL);
        _exit(127);
    }
    close(ends[1]);
    FILE *from = fdopen(ends[0], "r");
    if (from == NULL || fread(digits, 1, 32, from) != 32) fail("md5sum");
    digits[32] = 0;
    while (fgetc(from) != EOF) {}
    fclose(from);
    if (waitpid(child, NULL, 0) != child) fail("waitpid");
    return user_seconds(RUSAGE_CHILDREN) - before;
}

// Calls the library so many times, and returns its user seconds.
static double ours(const unsigned char *bytes, size_t size, char digits[33]) {
    unsigned char digest[16];
    double before = user_seconds(RUSAGE_SELF);
    for (int i = 0; i < TIMES; i++) digest_md5(bytes, size, digest, sizeof digest);
    double after = user_seconds(RUSAGE_SELF);
    for (int i = 0; i < 16; i++) sprintf(digits + 2 * i, "%02x", digest[i]);
    return after - before;
}

static int by_size(const void *a, const void *b) {
    double x = *(const double *)a, y = *(const double *)b;
    return (x > y) - (x < y);
}

int main(int count, char **words) {
    if (count != 4) return 2;
    int rounds = atoi(words[3]);
    if (rounds < 1 || rounds > MOST_ROUNDS) return 2;
    size_t size = 4194304;
    unsigned char *bytes = malloc(size);
    FILE *once = fopen(words[1], "rb");
    if (bytes == NULL || once == NULL || fread(bytes, 1, size, once) != size) fail(words[1]);

    char expected[33], got[33], ignored[33];
    md5sum(words[1], expected);
    double ratio[MOST_ROUNDS], best = 1e9, best_sum = 1e9;
    for (int i = 0; i < rounds; i++) {
        double t = ours(bytes, size, got);
        double s = md5sum(words[2], ignored);
        ratio[i] = s / t;
        if (t < best) best = t;
        if (s < best_sum) best_sum = s;
    }
    qsort(ratio, rounds, sizeof ratio[0], by_size);
    double megabytes = TIMES * (double)size / 1e6, median = ratio[rounds / 2];
    int agree = strcmp(expected, got) == 0;
    printf("digest::md5  %.0f MB/s  %s\n", megabytes / best, got);
    printf("md5sum       %.0f MB/s  %s  %s\n", megabytes / best_sum, expected, agree ? "the same" : "ANOTHER");
    printf("ratio        %.2f best, %.2f median of %d rounds\n", best_sum / best, median, rounds);
    return agree && median >= 0.8 ? 0 : 1;
}

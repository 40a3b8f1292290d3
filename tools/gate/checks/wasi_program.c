// A program for WASI with a C library, for the tests of capture: it reads words from the file that its first word
// names, sorts them by a comparison that it hands the library, prints them, and ends with a status of its own.
#include <stdio.h>
#include <stdlib.h>
#include <string.h>

static int compare(const void *one, const void *other) {
    return strcmp(*(char *const *)one, *(char *const *)other);
}

int main(int count, char **given) {
    char line[80], *words[64];
    int found = 0;
    FILE *file = count > 1 ? fopen(given[1], "r") : NULL;
    if (file == NULL) {
        fprintf(stderr, "no file\n");
        return 2;
    }
    while (fgets(line, sizeof line, file) != NULL) {
        for (char *word = strtok(line, " \n"); word != NULL && found < 64; word = strtok(NULL, " \n")) {
            words[found++] = strdup(word);
        }
    }
    fclose(file);
    qsort(words, (size_t)found, sizeof words[0], compare);
    for (int at = 0; at < found; at++) {
        printf("%2d %s\n", at, words[at]);
    }
    printf("%s=%s\n", "ORDER", getenv("ORDER"));
    exit(found);
}

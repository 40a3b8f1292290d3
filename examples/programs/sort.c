/* Sorts numbers that it reads from a file or makes by itself, and prints them with floats. */
#include <stdio.h>
#include <stdlib.h>
#include <string.h>
#include <time.h>

static int by_size(const void *left, const void *right) {
    int a = *(const int *)left, b = *(const int *)right;
    return (a > b) - (a < b);
}

static int read_numbers(const char *name, int *numbers, int most) {
    FILE *file = fopen(name, "r");
    int count = 0;
    if (file == NULL) {
        return -1;
    }
    while (count < most && fscanf(file, "%d", &numbers[count]) == 1) {
        count++;
    }
    fclose(file);
    return count;
}

int main(int words, char **word) {
    int numbers[200], count = 60;
    double sum = 0;
    if (words > 1) {
        count = read_numbers(word[1], numbers, 200);
        if (count < 0) {
            printf("%s is not there\n", word[1]);
            return 1;
        }
    } else {
        for (int i = 0; i < count; i++) {
            numbers[i] = (i * 7919 + 13) % 101;
        }
    }
    qsort(numbers, count, sizeof numbers[0], by_size);
    for (int i = 0; i < count; i++) {
        sum += numbers[i] / 2.0;
    }
    printf("%d numbers from %d to %d, their halves add up to %f, a third of one is %g\n", count, numbers[0],
           numbers[count - 1], sum, numbers[count / 2] / 3.0);
    char *text = malloc(100);
    strcpy(text, "done");
    printf("%s at a time that is %s\n", text, time(NULL) > 0 ? "known" : "not known");
    free(text);
    return 0;
}

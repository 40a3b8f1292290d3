/* A function of JavaScript in the table, a jump over frames, a memory that grows, and an end by exit. */
#include <emscripten.h>
#include <setjmp.h>
#include <stdio.h>
#include <stdlib.h>

typedef int (*Compare)(const void *, const void *);

EM_JS(Compare, compare_of_javascript, (), {
    return addFunction((left, right) => HEAP32[left >> 2] - HEAP32[right >> 2], 'iii');
});
EM_JS(double, half, (double x), { return x / 2; });
EM_JS(int, fill, (char *place, int count), {
    for (let i = 0; i < count; i++) HEAP8[place + i] = 97 + i % 26;
    return count;
});

static jmp_buf top;

static void deep(int depth) {
    if (depth == 0) {
        longjmp(top, 42);
    }
    deep(depth - 1);
    printf("this is never printed\n");
}

int main(void) {
    int numbers[40];
    for (int i = 0; i < 40; i++) {
        numbers[i] = i * 37 % 41;
    }
    qsort(numbers, 40, sizeof numbers[0], compare_of_javascript());
    for (int i = 0; i < 40; i++) {
        printf("%d ", numbers[i]);
    }
    char *big = malloc(30 << 20);
    big[fill(big, 100)] = 0;
    printf("\n%s\n", big);
    int value = setjmp(top);
    if (value == 0) {
        deep(5);
    }
    printf("the jump came with %d, a half of it is %f\n", value, half(value));
    exit(3);
}

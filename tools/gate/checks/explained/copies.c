#include <stddef.h>
void *memcpy(void *to, const void *from, size_t count);
void shift(char *place, size_t count) { memcpy(place, place + 65536, count); }
char text[] = "text";

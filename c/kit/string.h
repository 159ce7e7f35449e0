/* As far as the programs of this folder need it: the kit's compiler comes without C's headers. */
#ifndef KIT_STRING_H
#define KIT_STRING_H
#include <stddef.h>
int memcmp(const void *a, const void *b, size_t length);
void *memcpy(void *to, const void *from, size_t length);
void *memset(void *to, int octet, size_t length);
int strcmp(const char *a, const char *b);
int strncmp(const char *a, const char *b, size_t length);
size_t strlen(const char *text);
char *strchr(const char *text, int octet);
#endif

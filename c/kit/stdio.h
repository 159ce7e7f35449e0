/* As far as the programs of this folder need it: the kit's compiler comes without C's headers. */
#ifndef KIT_STDIO_H
#define KIT_STDIO_H
#include <stddef.h>
typedef struct kit_file FILE;
extern FILE *stderr;
FILE *fopen(const char *path, const char *mode);
int fclose(FILE *file);
size_t fread(void *to, size_t size, size_t count, FILE *file);
int printf(const char *form, ...);
int fprintf(FILE *file, const char *form, ...);
int snprintf(char *to, size_t room, const char *form, ...);
#endif

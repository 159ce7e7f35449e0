/* As far as the programs of this folder need it: the kit's compiler comes without C's headers. */
#ifndef KIT_STDLIB_H
#define KIT_STDLIB_H
unsigned long long strtoull(const char *text, char **end, int base);
_Noreturn void exit(int status);
#endif

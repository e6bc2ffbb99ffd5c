/* What the programs of this folder use of the C library. The toolchain has the library and none of its headers, and those of
 * the machine may be another processor's. */
typedef _Bool bool;
#define false 0
#define true 1
#define NULL ((void *)0)
typedef __UINT8_TYPE__ uint8_t;
typedef __UINT16_TYPE__ uint16_t;
typedef __UINT32_TYPE__ uint32_t;
typedef __UINT64_TYPE__ uint64_t;
typedef __SIZE_TYPE__ size_t;
typedef long ssize_t;

enum { STDIN_FILENO, STDOUT_FILENO, STDERR_FILENO };

void *memcpy(void *, const void *, size_t);
void *memmove(void *, const void *, size_t);
void *memset(void *, int, size_t);
int memcmp(const void *, const void *, size_t);
void *calloc(size_t, size_t);
void free(void *);
void exit(int);
unsigned long long strtoull(const char *, char **, int);
int dprintf(int, const char *, ...);
ssize_t read(int, void *, size_t);
ssize_t write(int, const void *, size_t);

#ifndef HEADERS_STDIO_H
#define HEADERS_STDIO_H
int printf(const char *format, ...);
#endif

/* Wide characters: a FILE of ours is a cookie, for which the C library has none, so they are bytes here. */
#define _GNU_SOURCE
#include "preload.h"

#include <limits.h>
#include <stdio.h>
#include <stdlib.h>
#include <wchar.h>

#undef putwc
#undef getwc

static int put_wide(const wchar_t *text, size_t count, FILE *file) {
  char bytes[MB_LEN_MAX];
  mbstate_t state = {0};
  int code = 0;
  flockfile(file);
  for (size_t i = 0; i < count && !code; i++) {
    size_t n = wcrtomb(bytes, text[i], &state);
    if (n == (size_t)-1 || fwrite(bytes, 1, n, file) != n) code = -1;
  }
  funlockfile(file);
  return code;
}
static wint_t get_wide(FILE *file) {
  mbstate_t state = {0};
  wchar_t wide = 0;
  for (int c; (c = getc(file)) != EOF;) {
    char byte = (char)c;
    size_t n = mbrtowc(&wide, &byte, 1, &state);
    if (n == (size_t)-1) return WEOF;
    if (n != (size_t)-2) return (wint_t)wide;
  }
  return WEOF;
}
static wchar_t *get_line(wchar_t *to, int room, FILE *file) {
  int at = 0;
  flockfile(file);
  for (wint_t c = 0; at < room - 1 && c != L'\n'; to[at++] = (wchar_t)c)
    if ((c = get_wide(file)) == WEOF) break;
  funlockfile(file);
  if (room < 1 || (!at && room > 1)) return NULL;
  to[at] = 0;
  return to;
}

/* `name` of the C library, or where the FILE is ours, this. */
#define WIDE(type, name, given, passed, this)  \
  EXPORT type name given {                     \
    NEXT(name);                                \
    return is_stream(&f) ? this : next passed; \
  }
WIDE(wint_t, fputwc, (wchar_t c, FILE *f), (c, f), (put_wide(&c, 1, f) ? WEOF : (wint_t)c))
WIDE(int, fputws, (const wchar_t *s, FILE *f), (s, f), (put_wide(s, wcslen(s), f) ? -1 : 1))
WIDE(wint_t, fgetwc, (FILE *f), (f), get_wide(f))
WIDE(wchar_t *, fgetws, (wchar_t *to, int room, FILE *f), (to, room, f), get_line(to, room, f))
WIDE(int, fwide, (FILE *f, int mode), (f, mode), mode)
EXPORT wint_t putwc(wchar_t c, FILE *f) { return fputwc(c, f); }
EXPORT wint_t putwchar(wchar_t c) { return fputwc(c, stdout); }
EXPORT wint_t getwc(FILE *f) { return fgetwc(f); }
EXPORT wint_t getwchar(void) { return fgetwc(stdin); }
EXPORT wint_t fputwc_unlocked(wchar_t c, FILE *f) { return fputwc(c, f); }
EXPORT wint_t putwc_unlocked(wchar_t c, FILE *f) { return fputwc(c, f); }
EXPORT wint_t putwchar_unlocked(wchar_t c) { return fputwc(c, stdout); }
EXPORT int fputws_unlocked(const wchar_t *s, FILE *f) { return fputws(s, f); }
EXPORT wint_t fgetwc_unlocked(FILE *f) { return fgetwc(f); }
EXPORT wint_t getwc_unlocked(FILE *f) { return fgetwc(f); }
EXPORT wint_t getwchar_unlocked(void) { return fgetwc(stdin); }
EXPORT wchar_t *fgetws_unlocked(wchar_t *to, int room, FILE *f) { return fgetws(to, room, f); }
EXPORT wchar_t *__fgetws_chk(wchar_t *to, size_t has, int room, FILE *f) {
  if (room > 0 && (size_t)room > has) abort();
  return fgetws(to, room, f);
}
EXPORT wchar_t *__fgetws_unlocked_chk(wchar_t *to, size_t has, int room, FILE *f) {
  return __fgetws_chk(to, has, room, f);
}
EXPORT wint_t ungetwc(wint_t c, FILE *f) {
  NEXT(ungetwc);
  char bytes[MB_LEN_MAX];
  mbstate_t state = {0};
  if (!is_stream(&f)) return next(c, f);
  size_t n = c == WEOF ? (size_t)-1 : wcrtomb(bytes, (wchar_t)c, &state);
  if (n == (size_t)-1) return WEOF;
  while (n--)
    if (ungetc((unsigned char)bytes[n], f) == EOF) return WEOF;
  return c;
}

EXPORT int vfwprintf(FILE *f, const wchar_t *format, va_list given) {
  NEXT(vfwprintf);
  if (!is_stream(&f)) return next(f, format, given);
  int length = -1;
  wchar_t *text = NULL;
  for (size_t room = 256; length < 0 && room <= 1 << 22; room *= 4) {
    va_list again;
    va_copy(again, given);
    free(text);
    text = malloc(room * sizeof *text);
    length = text ? vswprintf(text, room, format, again) : -1;
    va_end(again);
  }
  if (length >= 0 && put_wide(text, (size_t)length, f)) length = -1;
  free(text);
  return length;
}
EXPORT int vwprintf(const wchar_t *s, va_list a) { return vfwprintf(stdout, s, a); }
EXPORT int __vfwprintf_chk(FILE *f, int k, const wchar_t *s, va_list a) { return (void)k, vfwprintf(f, s, a); }
EXPORT int __vwprintf_chk(int k, const wchar_t *s, va_list a) { return (void)k, vfwprintf(stdout, s, a); }
#define WITH_ARGUMENTS(last, call)  \
  {                                 \
    va_list a;                      \
    va_start(a, last);              \
    int r = call;                   \
    va_end(a);                      \
    return r;                       \
  }
EXPORT int fwprintf(FILE *f, const wchar_t *s, ...) WITH_ARGUMENTS(s, vfwprintf(f, s, a))
EXPORT int wprintf(const wchar_t *s, ...) WITH_ARGUMENTS(s, vfwprintf(stdout, s, a))
EXPORT int __fwprintf_chk(FILE *f, int k, const wchar_t *s, ...) WITH_ARGUMENTS(s, ((void)k, vfwprintf(f, s, a)))
EXPORT int __wprintf_chk(int k, const wchar_t *s, ...) WITH_ARGUMENTS(s, ((void)k, vfwprintf(stdout, s, a)))

/* Wide characters are not scanned from a FILE of ours. */
#define SCANS_WIDE(own, symbol)                                                                        \
  EXPORT int own(FILE *f, const wchar_t *s, va_list a) __asm__(symbol);                                \
  int own(FILE *f, const wchar_t *s, va_list a) {                                                      \
    static int (*next)(FILE *, const wchar_t *, va_list);                                              \
    if (!next) next = (int (*)(FILE *, const wchar_t *, va_list))dlsym(RTLD_NEXT, symbol);             \
    if (!is_stream(&f)) return next(f, s, a);                                                          \
    uncovered("wscanf", "wscanf and its like are not covered: refused, in a rerun too");               \
    return errno = ENOSYS, EOF;                                                                        \
  }
#define SCANS_WIDE_AS(own, symbol, given, call) \
  EXPORT int own given __asm__(symbol);         \
  int own given call
SCANS_WIDE(scan, "vfwscanf")
SCANS_WIDE(scan99, "__isoc99_vfwscanf")
SCANS_WIDE_AS(scan_input, "vwscanf", (const wchar_t *s, va_list a), { return scan(stdin, s, a); })
SCANS_WIDE_AS(scan_input99, "__isoc99_vwscanf", (const wchar_t *s, va_list a), { return scan99(stdin, s, a); })
SCANS_WIDE_AS(scan_file, "fwscanf", (FILE * f, const wchar_t *s, ...), WITH_ARGUMENTS(s, scan(f, s, a)))
SCANS_WIDE_AS(scan_file99, "__isoc99_fwscanf", (FILE * f, const wchar_t *s, ...), WITH_ARGUMENTS(s, scan99(f, s, a)))
SCANS_WIDE_AS(scan_words, "wscanf", (const wchar_t *s, ...), WITH_ARGUMENTS(s, scan(stdin, s, a)))
SCANS_WIDE_AS(scan_words99, "__isoc99_wscanf", (const wchar_t *s, ...), WITH_ARGUMENTS(s, scan99(stdin, s, a)))

/* Wide characters, of streams that are read and written. */
#define _GNU_SOURCE
#include <locale.h>
#include <stdarg.h>
#include <stdio.h>
#include <wchar.h>

extern wchar_t *__fgetws_chk(wchar_t *, size_t, int, FILE *), *__fgetws_unlocked_chk(wchar_t *, size_t, int, FILE *);
extern int __fwprintf_chk(FILE *, int, const wchar_t *, ...), __wprintf_chk(int, const wchar_t *, ...);
extern int __vfwprintf_chk(FILE *, int, const wchar_t *, va_list), __vwprintf_chk(int, const wchar_t *, va_list);
static FILE *f;

static void lists(const wchar_t *s, ...) {
  va_list a, b, c, d;
  va_start(a, s);
  va_copy(b, a), va_copy(c, a), va_copy(d, a);
  vfwprintf(f, s, a);
  vwprintf(s, b);
  __vfwprintf_chk(f, 1, s, c);
  __vwprintf_chk(1, s, d);
  va_end(a), va_end(b), va_end(c), va_end(d);
}

int main(void) {
  wchar_t line[99];
  long sum = 0;
  setlocale(LC_ALL, "C.UTF-8");
  f = fopen("wide.txt", "w+");
  sum += fwide(f, 1);
  sum += fwprintf(f, L"%d \u00e9\n", 5) + __fwprintf_chk(f, 1, L"%ls\n", L"two");
  sum += wprintf(L"%d \u00e9\n", 5) + __wprintf_chk(1, L"%ls\n", L"two");
  lists(L"%d, %d\n", 6, 7);
  sum += fputwc(L'a', f) + putwc(L'b', f) + fputwc_unlocked(L'c', f) + putwc_unlocked(L'd', f);
  sum += putwchar(L'e') + putwchar_unlocked(L'\n');
  sum += (fputws(L"f\n", f) >= 0) + (fputws_unlocked(L"\u20ac\n", f) >= 0);
  rewind(f);
  while (fgetws(line, 99, f) && wcslen(line) > 3) wprintf(L"%ls", line);
  for (int i = 0; i < 3; i++) sum += i ? fgetwc(f) : getwc(f) + fgetwc_unlocked(f) + getwc_unlocked(f);
  sum += ungetwc(L'\u20ac', f);
  sum += (fgetws_unlocked(line, 99, f) != NULL) + (__fgetws_chk(line, 99, 99, f) != NULL) + line[0];
  sum += (__fgetws_unlocked_chk(line, 99, 99, f) != NULL);
  sum += getwchar() + getwchar_unlocked();
  wprintf(L"%ld\n", sum);
  fclose(f);
  return 0;
}

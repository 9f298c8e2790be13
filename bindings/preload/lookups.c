/* Functions that a program looks up by their names: where it would find the C library's, it finds ours. An allocator
 * begins its own thread so, past the libraries before it. */
#define _GNU_SOURCE
#include "preload.h"
#undef dlsym

typedef void *look_up(void *, const char *);
__attribute__((visibility("hidden"))) look_up *detio_next_dlsym;
static look_up *found(void) {
  if (!detio_next_dlsym) detio_next_dlsym = (look_up *)dlvsym(RTLD_NEXT, "dlsym", "GLIBC_2.2.5");
  return detio_next_dlsym;
}
/* What comes after us by this name. */
void *detio_find_next(void *handle, const char *name) { return found()(handle, name); }

/* Our function in place of one of the C library's, or NULL. Where another library has one by this name, which goes on
 * to the C library's, it must not come back to us. */
__attribute__((visibility("hidden"))) void *detio_in_place(void *handle, const char *name) {
  const void *there = found() && handle != RTLD_DEFAULT ? detio_find_next(handle, name) : NULL;
  if (!c_library.end) begin_callers();
  if (!there || (!is_in(&c_library, there) && !is_in(&kernel_code, there))) return NULL;
  void *ours = detio_find_next(RTLD_DEFAULT, name);
  return is_in(&own_code, ours) ? ours : NULL;
}

/* Where the library is made with a sanitizer, it comes before the sanitizer's, whose functions come after ours. So a
 * thread that begins is known to it before it waits for its turn. Its allocator asks no clock while it holds its locks,
 * since the processor's counts are questions of ours. It looks functions up before it can look at ours: so none is. */
#ifdef __SANITIZE_ADDRESS__
const char *__asan_default_options(void);
EXPORT __attribute__((no_sanitize_address)) const char *__asan_default_options(void) {
  return "verify_asan_link_order=0:detect_leaks=0:allocator_release_to_os_interval_ms=-1";
}
#else
/* RTLD_NEXT is after who calls: so the C library's own function has our caller as its caller. */
EXPORT __attribute__((naked)) void *dlsym(void *handle __attribute__((unused)),
                                          const char *name __attribute__((unused))) {
  __asm__("endbr64\n\t"
          "push %rdi\n\t"
          "push %rsi\n\t"
          "sub $8, %rsp\n\t"
          "call detio_in_place\n\t"
          "add $8, %rsp\n\t"
          "pop %rsi\n\t"
          "pop %rdi\n\t"
          "test %rax, %rax\n\t"
          "jz 1f\n\t"
          "ret\n"
          "1:\n\t"
          "jmp *detio_next_dlsym(%rip)");
}
#endif

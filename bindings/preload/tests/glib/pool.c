/* GLib: a pool of threads, a queue between them, a timer of a main loop. */
#include <glib.h>

static GAsyncQueue *done;
static GMainLoop *loop;
static void works(gpointer number, gpointer given) {
  (void)given;
  g_usleep(1000);
  g_async_queue_push(done, GINT_TO_POINTER(GPOINTER_TO_INT(number) * 7));
}
static gboolean ticks(gpointer given) {
  int *left = given;
  g_print("tick %d at %s\n", *left, g_thread_self() ? "a thread" : "none");
  if (--*left) return G_SOURCE_CONTINUE;
  g_main_loop_quit(loop);
  return G_SOURCE_REMOVE;
}

int main(void) {
  int left = 3;
  done = g_async_queue_new();
  GThreadPool *pool = g_thread_pool_new(works, NULL, 4, FALSE, NULL);
  for (int i = 1; i <= 20; i++) g_thread_pool_push(pool, GINT_TO_POINTER(i), NULL);
  for (int i = 0; i < 20; i++) g_print("%d ", GPOINTER_TO_INT(g_async_queue_pop(done)));
  g_print("\n%d\n", g_random_int_range(0, 1000000));
  g_thread_pool_free(pool, FALSE, TRUE);
  loop = g_main_loop_new(NULL, FALSE);
  g_timeout_add(2, ticks, &left);
  g_main_loop_run(loop);
  return 0;
}

#include <stdio.h>
#include <uv.h>
static void work(uv_work_t *w) { (void)w; }
static void done(uv_work_t *w, int s) { (void)w; printf("done %d\n", s); }
static void rings(uv_timer_t *t) { puts("rings"); uv_timer_stop(t); }
int main(void) { uv_work_t w[5]; uv_timer_t t;
for (int i = 0; i < 5; i++) uv_queue_work(uv_default_loop(), &w[i], work, done); uv_timer_init(uv_default_loop(), &t);
uv_timer_start(&t, rings, 20, 0); return uv_run(uv_default_loop(), UV_RUN_DEFAULT); }

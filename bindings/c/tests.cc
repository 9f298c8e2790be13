/* Tests of detio.hpp, in a folder of their own: c++ -std=c++11 tests.cc -I . -L ../out -ldetio -lpthread */
#include "checks.h"
#include "detio.hpp"

#include <atomic>
#include <cstdio>
#include <cstdlib>
#include <fstream>
#include <sys/resource.h>
#include <system_error>
#include <unistd.h>

static void each_call(detio_cc::thread &io) {
  int64_t a = io.open("/a", DETIO_READ_WRITE, DETIO_CREATE | DETIO_EXCLUSIVE);
  CHECK(a == 0 && io.write(a, "hello") == 5 && io.lseek(a, 1) == 1 && io.read(a, 2) == "el");
  CHECK(io.pread(a, 9, 3) == "lo" && io.pwrite(a, "J", 0) == 1 && io.fstat(a).count == 5);
  io.ftruncate(a, 2);
  CHECK(io.fstat(a).count == 2 && io.dup(a) == 1 && io.dup_from(a, 7) == 7 && io.dup2(a, 9) == 9 && io.getfl(a) == 2);
  io.setfl(a, DETIO_APPEND);
  CHECK(io.getfl(a) == 6);
  io.link("/a", "/b");
  io.rename("/b", "/c");
  io.unlink("/c");
  io.mkdir("/d");
  io.rmdir("/d");
  CHECK(io.pipe() == std::make_pair(int64_t(2), int64_t(3)) && io.socketpair().second == 5);
  io.shutdown(5, DETIO_SHUT_WRITE);
  io.close(a);
  int64_t listener = io.tcp_listen();
  int64_t port = static_cast<int64_t>(io.fstat(listener).count), stream = io.tcp_connect(port);
  CHECK(listener == 0 && stream == 6 && io.tcp_accept(listener) == 8);
  try {
    io.open("/missing");
    CHECK(false);
  } catch (const detio_cc::failed &it) {
    CHECK(it.error == DETIO_ENOENT && std::string(it.what()) == "open /missing: ENOENT");
  }
}

static void a_run_is_replayed() {
  std::atomic<int> reads(0);
  auto function = [&](detio_cc::thread &io) {
    int64_t at = io.host_open("tests-cc.txt");
    reads += static_cast<int>(io.read(at, 9).size());
    io.close(at);
  };
  std::ofstream("tests-cc.txt") << "four";
  detio_cc::run recorded(2);
  recorded.play(function);
  std::vector<uint8_t> log = recorded.finish();
  CHECK(remove("tests-cc.txt") == 0);
  detio_cc::run replayed(log);
  replayed.play(function);
  CHECK(replayed.finish().size() == log.size() && reads == 16);
  detio_cc::run other(log);
  try {
    other.play([](detio_cc::thread &io) { io.tcp_listen(); });
    CHECK(false);
  } catch (const detio_cc::stopped &it) {
    CHECK(it.code == DETIO_DIVERGED && std::string(it.what()).find("asked listen at port 0; the log has open ok 0") !=
                                           std::string::npos);
  }
  detio_cc::run shorter(log);
  shorter.play([](detio_cc::thread &) {});
  try {
    shorter.finish();
    CHECK(false);
  } catch (const detio_cc::stopped &it) {
    CHECK(it.code == 0 && std::string(it.what()).find("stopped: the log diverged: thread 0 ended") == 0);
  }
}

/* The thread that fails first is the cause, and the others go on. */
static void the_cause_is_thrown() {
  detio_settings settings = {sizeof(detio_settings), 2, 300, 100, 2, 4096};
  detio_cc::run run(settings, 10);
  try {
    run.play([](detio_cc::thread &io) {
      if (io.number() == 1) {
        io.work(500);
        throw std::logic_error("the cause");
      }
      io.pipe();
      io.read(0, 1);
    });
    CHECK(false);
  } catch (const std::logic_error &it) {
    CHECK(std::string(it.what()) == "the cause");
  }
}

static void reads_in_vain(detio_cc::thread &io) {
  try {
    io.read(0, 1);
  } catch (const detio_cc::failed &it) {
    CHECK(it.error == DETIO_EINTR || it.error == DETIO_EBADF);
  }
}

/* A scope is left, by an exception or not, while a thread waits: it is stopped and joined. */
static void a_scope_is_left() {
  static std::atomic<int> stops;
  stops = 0;
  for (int thrown = 0; thrown < 2; thrown++) {
    try {
      detio_cc::run run(2);
      run.start([](detio_cc::thread &io) {
        try {
          if (io.number() == 0) io.pipe();
          for (;;) reads_in_vain(io);
        } catch (const detio_cc::stopped &it) {
          CHECK(it.code == DETIO_STOPPED);
          stops++;
          throw;
        }
      });
      if (thrown) throw std::runtime_error("left");
    } catch (const std::runtime_error &it) {
      CHECK(thrown && std::string(it.what()) == "left");
    }
    CHECK(stops == 2 * (thrown + 1));
  }
}

#if !defined(__SANITIZE_ADDRESS__) && !defined(__SANITIZE_THREAD__)
/* There is memory for the stacks of two threads, and not of 16: those that began are stopped and joined. */
static void a_thread_cannot_start() {
  std::ifstream status("/proc/self/statm");
  rlim_t pages = 0;
  struct rlimit before, less;
  status >> pages;
  CHECK(getrlimit(RLIMIT_AS, &before) == 0);
  detio_cc::run run(16);
  less = before;
  less.rlim_cur = (pages + 12000) * 4096;
  std::atomic<int> began(0), stops(0);
  CHECK(pages && setrlimit(RLIMIT_AS, &less) == 0);
  try {
    run.start([&](detio_cc::thread &io) {
      began++;
      try {
        if (io.number() == 0) io.pipe();
        for (;;) reads_in_vain(io);
      } catch (const detio_cc::stopped &) {
        stops++;
      }
    });
    CHECK(false);
  } catch (const std::system_error &) {
    CHECK(began < 16 && stops == began);
  }
  CHECK(setrlimit(RLIMIT_AS, &before) == 0);
}
#else
static void a_thread_cannot_start() {}
#endif

static void what_is_refused_throws() {
  for (size_t threads : {size_t(0), size_t(17)}) {
    try {
      detio_cc::run run(threads);
      CHECK(false);
    } catch (const detio_cc::stopped &it) {
      CHECK(it.code == DETIO_BAD_SETTINGS && std::string(it.what()) == "run: DETIO_BAD_SETTINGS");
    }
  }
  try {
    detio_cc::run run((std::vector<uint8_t>()));
    CHECK(false);
  } catch (const detio_cc::stopped &it) {
    CHECK(it.code == DETIO_NOT_A_LOG);
  }
}

int main(int argc, char **argv) {
  alarm(60); /* what hangs ends */
  detio_cc::run run(1);
  run.play(each_call);
  CHECK(!run.finish().empty() && run.still(0).empty());
  a_run_is_replayed();
  the_cause_is_thrown();
  what_is_refused_throws();
  a_thread_cannot_start();
  for (int times = argc > 1 ? atoi(argv[1]) : 1; times > 0; times--) a_scope_is_left();
  printf("detio.hpp is as it should be\n");
  return 0;
}

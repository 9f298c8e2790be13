/* Threads whose calls are recorded and replayed, for C++11 and later: detio_threads.h, with an owner for each run.
 *
 *     detio_cc::run run(2);                            // or detio_cc::run run(log), a replay
 *     run.play([](detio_cc::thread &io) {              // each in a thread of its own; an exception comes out here
 *       int64_t at = io.open("/a", DETIO_READ_WRITE, DETIO_CREATE);
 *       io.write(at, "hello");
 *     });
 *     std::vector<uint8_t> log = run.finish();      // throws unless the run ended
 *
 * However a scope with a run is left, the run is stopped, its threads are joined, and it is freed. */
#ifndef DETIO_HPP
#define DETIO_HPP

#include "detio_threads.h"

#include <exception>
#include <memory>
#include <new>
#include <stdexcept>
#include <string>
#include <thread>
#include <utility>
#include <vector>

namespace detio_cc {

/* The run cannot go on, or did not end: a code of detio.h, or 0 where the run did not end. */
class stopped : public std::runtime_error {
 public:
  stopped(uint32_t code, const std::string &what) : std::runtime_error(what), code(code) {}
  uint32_t code;
};

/* A call failed: a number of detio_error, and the call with its path. */
class failed : public std::runtime_error {
 public:
  failed(uint32_t error, const std::string &call)
      : std::runtime_error(call + ": " + detio_error_name(error)), error(error) {}
  uint32_t error;
};

class run;

/* What a function makes its calls by. Descriptors are numbers of the run, and not of the system. */
class thread {
 public:
  thread(const thread &) = delete;
  thread &operator=(const thread &) = delete;
  size_t number() const { return number_; }

  /* Works for so many units of the thread's clock, so that others come first meanwhile. */
  void work(uint64_t units) { done(detio_thread_work(run_, number_, units), "work"); }

  /* Any call, by its words (detio.h); of a read the bytes are in `bytes`. */
  detio_reply call(const detio_call &asked, const char *name, const std::string &text = "",
                   const std::string &second = "") {
    detio_reply reply;
    done(detio_thread_call(run_, number_, &asked, text.data(), text.size(), second.data(), second.size(), &reply,
                           &data_[0], data_.size()), name);
    bool has_path = asked.kind != DETIO_WRITE && asked.kind != DETIO_PWRITE && !text.empty();
    if (reply.kind == DETIO_FAILURE) throw failed(reply.error, has_path ? name + (" " + text) : name);
    return reply;
  }
  std::string bytes(const detio_reply &reply) const {
    return std::string(reinterpret_cast<const char *>(&data_[0]), static_cast<size_t>(reply.count));
  }

  int64_t open(const std::string &path, uint32_t access = DETIO_READ_ONLY, uint32_t flags = 0) {
    return call(of(DETIO_OPEN, 0, 0, 0, access, flags), "open", path).first;
  }
  int64_t host_open(const std::string &path, uint32_t access = DETIO_READ_ONLY, uint32_t flags = 0) {
    return call(of(DETIO_HOST_OPEN, 0, 0, 0, access, flags), "host_open", path).first;
  }
  void close(int64_t at) { call(of(DETIO_CLOSE, at), "close"); }
  std::string read(int64_t at, int64_t count) { return bytes(call(of(DETIO_READ, at, count), "read")); }
  uint64_t write(int64_t at, const std::string &data) { return call(of(DETIO_WRITE, at), "write", data).count; }
  std::string pread(int64_t at, int64_t count, int64_t position) {
    return bytes(call(of(DETIO_PREAD, at, count, position), "pread"));
  }
  uint64_t pwrite(int64_t at, const std::string &data, int64_t position) {
    return call(of(DETIO_PWRITE, at, 0, position), "pwrite", data).count;
  }
  int64_t lseek(int64_t at, int64_t offset, uint32_t whence = DETIO_SET) {
    return call(of(DETIO_LSEEK, at, offset, 0, whence), "lseek").first;
  }
  void ftruncate(int64_t at, int64_t size) { call(of(DETIO_FTRUNCATE, at, size), "ftruncate"); }
  detio_reply fstat(int64_t at) { return call(of(DETIO_FSTAT, at), "fstat"); }
  int64_t dup(int64_t at) { return call(of(DETIO_DUP, at), "dup").first; }
  int64_t dup_from(int64_t at, int64_t least) { return call(of(DETIO_DUP_FROM, at, least), "dup_from").first; }
  int64_t dup2(int64_t at, int64_t target) { return call(of(DETIO_DUP2, at, target), "dup2").first; }
  int64_t getfl(int64_t at) { return call(of(DETIO_GETFL, at), "getfl").first; }
  void setfl(int64_t at, uint32_t flags) { call(of(DETIO_SETFL, at, 0, 0, 0, flags), "setfl"); }
  void link(const std::string &old, const std::string &name) { call(of(DETIO_LINK), "link", old, name); }
  void unlink(const std::string &path) { call(of(DETIO_UNLINK), "unlink", path); }
  void rename(const std::string &old, const std::string &name) { call(of(DETIO_RENAME), "rename", old, name); }
  void mkdir(const std::string &path) { call(of(DETIO_MKDIR), "mkdir", path); }
  void rmdir(const std::string &path) { call(of(DETIO_RMDIR), "rmdir", path); }
  std::pair<int64_t, int64_t> pipe() { return both(call(of(DETIO_PIPE), "pipe")); }
  std::pair<int64_t, int64_t> socketpair() { return both(call(of(DETIO_SOCKETPAIR), "socketpair")); }
  void shutdown(int64_t at, uint32_t how = DETIO_SHUT_BOTH) { call(of(DETIO_SHUTDOWN, at, 0, 0, how), "shutdown"); }
  int64_t tcp_listen(int64_t port = 0) { return call(of(DETIO_TCP_LISTEN, 0, port), "tcp_listen").first; }
  int64_t tcp_connect(int64_t port) { return call(of(DETIO_TCP_CONNECT, 0, port), "tcp_connect").first; }
  int64_t tcp_accept(int64_t listener) { return call(of(DETIO_TCP_ACCEPT, listener), "tcp_accept").first; }

 private:
  friend class run;
  thread(detio_run *run, size_t number) : run_(run), number_(number), data_(32767) {}
  static detio_call of(uint32_t kind, int64_t at = 0, int64_t number = 0, int64_t position = 0, uint32_t choice = 0,
                       uint32_t flags = 0) {
    detio_call it = {kind, choice, flags, at, number, position};
    return it;
  }
  static std::pair<int64_t, int64_t> both(const detio_reply &it) { return std::make_pair(it.first, it.second); }
  void done(uint32_t code, const char *name) const {
    if (code == DETIO_DONE) return;
    char line[400] = "";
    if (code == DETIO_END_OF_LOG || code == DETIO_DIVERGED) detio_run_strayed(run_, line, sizeof line);
    throw stopped(code, std::string(name) + ": " + detio_code_name(code) + (*line ? ": " : "") + line);
  }

  detio_run *run_;
  size_t number_;
  std::vector<uint8_t> data_;
};

/* A run, or a replay. It is used by one thread of the program, apart from those that play it. */
class run {
 public:
  explicit run(size_t threads, unsigned wait = 10, size_t room = size_t(1) << 22) : run_(new detio_run()) {
    detio_settings settings = {sizeof(detio_settings), threads, 1000, 100, 2, room};
    begun(detio_run_begin(run_.get(), &settings, wait));
  }
  run(const detio_settings &settings, unsigned wait) : run_(new detio_run()) {
    begun(detio_run_begin(run_.get(), &settings, wait));
  }
  explicit run(const std::vector<uint8_t> &log) : run_(new detio_run()) {
    begun(detio_run_replay(run_.get(), log.empty() ? &none() : &log[0], log.size()));
  }
  run(const run &) = delete;
  run &operator=(const run &) = delete;
  ~run() {
    if (!threads_.empty()) stop();
    join();
    detio_run_free(run_.get());
  }

  /* No thread goes on: each call that waits, and each that is made later, throws `stopped`. */
  void stop() { detio_run_stop(run_.get(), DETIO_STOP_MEMORY, 0); }

  /* Calls the function in each thread of the run, and comes back at once; `join` waits for them. */
  template <typename Function> void start(Function function) {
    failures_.assign(run_->threads, failure());
    try {
      threads_.reserve(run_->threads);
      for (size_t i = 0; i < run_->threads; i++) {
        threads_.push_back(std::thread([this, i, function]() { plays(i, function); }));
      }
    } catch (...) {
      stop();
      join();
      throw;
    }
  }

  /* Waits until each thread has ended. */
  void join() {
    for (std::thread &it : threads_) it.join();
    threads_.clear();
  }

  /* Both, and throws what the function threw in the thread that failed first, in the order of turns. */
  template <typename Function> void play(Function function) {
    start(function);
    join();
    const failure *first = nullptr;
    for (const failure &it : failures_) {
      if (it.what && (!first || it.before(*first))) first = &it;
    }
    if (first) std::rethrow_exception(first->what);
  }

  /* The run is over: its log. Throws `stopped` where it did not end. */
  std::vector<uint8_t> finish() {
    detio_run_end ended;
    join();
    begun_or(detio_run_finish(run_.get(), &ended), "finish");
    char line[400] = "";
    detio_run_strayed(run_.get(), line, sizeof line);
    if (ended.how != DETIO_ALL_ENDED) {
      throw stopped(0, std::string(detio_end_name(ended.how)) + (*line ? ": " : "") + line);
    }
    return log();
  }

  /* What the log has so far. */
  std::vector<uint8_t> log() {
    size_t length = 0;
    begun_or(detio_run_log(run_.get(), 0, nullptr, 0, &length), "log");
    std::vector<uint8_t> bytes(length);
    if (length) begun_or(detio_run_log(run_.get(), 0, &bytes[0], bytes.size(), &length), "log");
    return bytes;
  }

  /* Who waits for whom, where no thread came for so many milliseconds; else nothing. */
  std::string still(unsigned milliseconds) {
    char line[400] = "";
    detio_run_still(run_.get(), milliseconds, line, sizeof line);
    return line;
  }

 private:
  /* What a function threw, and when; a run that is stopped is never the cause. */
  struct failure {
    std::exception_ptr what;
    bool follows = false;
    uint64_t clock = 0;
    bool before(const failure &other) const {
      return follows != other.follows ? other.follows : clock < other.clock;
    }
  };
  struct ends {
    detio_run *run;
    size_t number;
    ~ends() { detio_thread_end(run, number); }
  };

  template <typename Function> void plays(size_t number, const Function &function) {
    failure &fails = failures_[number];
    uint64_t turn = 0;
    ends end = {run_.get(), number};
    try {
      thread io(run_.get(), number);
      function(io);
    } catch (const stopped &it) {
      fails.follows = it.code == DETIO_STOPPED;
      fails.what = std::current_exception();
    } catch (...) {
      fails.what = std::current_exception();
    }
    detio_thread_turn(run_.get(), number, &turn, &fails.clock);
  }
  static const uint8_t &none() {
    static const uint8_t it = 0;
    return it;
  }
  static void begun_or(uint32_t code, const char *name) {
    if (code != DETIO_DONE) throw stopped(code, std::string(name) + ": " + detio_code_name(code));
  }
  static void begun(uint32_t code) { begun_or(code, "run"); }

  std::unique_ptr<detio_run> run_;
  std::vector<failure> failures_;
  std::vector<std::thread> threads_;
};

}  // namespace detio_cc

#endif

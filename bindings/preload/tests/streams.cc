// Threads, futures, streams and thread-local objects of C++.
#include <chrono>
#include <condition_variable>
#include <fstream>
#include <future>
#include <iostream>
#include <mutex>
#include <string>
#include <thread>
#include <vector>

static std::mutex m;
static std::condition_variable c;

struct Local {
  int number = 0;
  ~Local() {
    std::lock_guard<std::mutex> held(m);
    std::cout << "gone " << number << "\n";
  }
};
thread_local Local local;

int main() {
  std::ifstream in("input.txt");
  std::string line;
  std::size_t sum = 0;
  while (std::getline(in, line)) sum += line.size();
  std::vector<std::thread> threads;
  for (int i = 1; i < 4; i++)
    threads.emplace_back([i] {
      local.number = i;
      for (int k = 0; k < 5; k++) {
        std::lock_guard<std::mutex> held(m);
        std::cout << i << k << ' ';
      }
      std::this_thread::sleep_for(std::chrono::milliseconds(i));
    });
  auto answer = std::async(std::launch::async, [] { return 42; });
  {
    std::unique_lock<std::mutex> held(m);
    c.wait_for(held, std::chrono::milliseconds(5));
  }
  for (auto &it : threads) it.join();
  std::cout << sum << " " << answer.get() << std::endl;
}

#include <cstdio>
#include <future>
#include <thread>
#include <vector>
struct Last { int n = 0;
~Last() { std::printf("%d\n", n); } };
thread_local Last last;
int main() { std::vector<std::thread> all;
for (int i = 0; i < 8; i++) all.emplace_back([i] { last.n = i; }); for (auto &t : all) t.join(); }

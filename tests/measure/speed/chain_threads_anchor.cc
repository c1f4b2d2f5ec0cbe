// Ten tasks that pass tokens through queues of depth sixteen, a thread for each task, with the tokens that the argument names; it fails where a token is lost or changed.
#include <condition_variable>
#include <cstdint>
#include <cstdlib>
#include <mutex>
#include <queue>
#include <thread>
#include <vector>

class Stream {
 public:
  void write(int token) {
    std::unique_lock<std::mutex> lock(mutex_);
    has_room_.wait(lock, [this] { return tokens_.size() < 16; });
    tokens_.push(token);
    lock.unlock();
    has_token_.notify_one();
  }

  int read() {
    std::unique_lock<std::mutex> lock(mutex_);
    has_token_.wait(lock, [this] { return !tokens_.empty(); });
    const int token = tokens_.front();
    tokens_.pop();
    lock.unlock();
    has_room_.notify_one();
    return token;
  }

 private:
  std::mutex mutex_;
  std::condition_variable has_room_, has_token_;
  std::queue<int> tokens_;
};

int main(int count, char** words) {
  const int tokens = count > 1 ? std::atoi(words[1]) : 0;
  static Stream streams[9];
  std::vector<std::thread> tasks;
  tasks.emplace_back([tokens] {
    for (int i = 0; i < tokens; ++i) streams[0].write(i);
  });
  for (int task = 1; task < 9; ++task) {
    tasks.emplace_back([tokens, task] {
      for (int i = 0; i < tokens; ++i) streams[task].write(streams[task - 1].read());
    });
  }
  uint64_t sum = 0;
  tasks.emplace_back([tokens, &sum] {
    for (int i = 0; i < tokens; ++i) sum += streams[8].read();
  });
  for (std::thread& task : tasks) task.join();
  return sum != static_cast<uint64_t>(tokens) * (tokens - 1) / 2;
}

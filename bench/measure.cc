// Runs a program, and prints after its output what it took: microseconds of wall time and of
// processors, and the most KB of memory.
//
//   measure [--silent] PROGRAM WORD..
//
// What a silent program prints is written to /dev/null, so that no reader takes a processor
// meanwhile, or holds it up.
//
// A child begins with the memory of whoever forks it as its peak, and Python takes more than some
// workloads do. So bench/run has this small program fork. The status is the program's, or 1 if a
// signal stopped it.

#include <fcntl.h>
#include <sys/resource.h>
#include <sys/wait.h>
#include <unistd.h>

#include <chrono>
#include <cstdio>
#include <cstring>

namespace {

// Becomes the program; says nothing if that fails.
[[noreturn]] void Become(char** words, bool silent) {
  if (!silent || dup2(open("/dev/null", O_WRONLY), STDOUT_FILENO) == STDOUT_FILENO) execv(words[0], words);
  _exit(127);
}

}  // namespace

int main(int count, char** words) {
  const bool silent = count > 1 && std::strcmp(words[1], "--silent") == 0;
  const int first = silent ? 2 : 1;
  if (count <= first) return 2;
  const auto began = std::chrono::steady_clock::now();
  const pid_t child = fork();
  if (child == 0) Become(words + first, silent);
  int status = 0;
  struct rusage used;
  if (child < 0 || wait4(child, &status, 0, &used) != child) return 1;
  const auto wall = std::chrono::duration_cast<std::chrono::microseconds>(std::chrono::steady_clock::now() - began);
  const long long processors =
      (used.ru_utime.tv_sec + used.ru_stime.tv_sec) * 1000000LL + used.ru_utime.tv_usec + used.ru_stime.tv_usec;
  std::printf("%lld %lld %ld\n", static_cast<long long>(wall.count()), processors, used.ru_maxrss);
  return WIFEXITED(status) ? WEXITSTATUS(status) : 1;
}

// Runs a program, ends it after so many seconds of the processor, or ten times as many by the clock, and writes to standard
// error its seconds by the clock, those of the processor, the greatest memory that it held in KiB, and its status, 137 where
// it was ended; the program's own standard error goes nowhere. A program that the benchmark's Python started itself would be
// said to have held what Python held.
#include <chrono>
#include <csignal>
#include <cstdio>
#include <cstdlib>
#include <fcntl.h>
#include <sys/resource.h>
#include <sys/wait.h>
#include <unistd.h>

static pid_t child;

static void end(int) { kill(-child, SIGKILL); }

static double seconds(timeval t) { return t.tv_sec + t.tv_usec / 1e6; }

int main(int count, char **words) {
    if (count < 4) return std::fprintf(stderr, "usage: launch BYTES SECONDS PROGRAM WORD..\n"), 2;
    std::signal(SIGALRM, end);
    auto start = std::chrono::steady_clock::now();
    child = fork();
    if (child == 0) {
        setpgid(0, 0);
        rlim_t bytes = std::strtoull(words[1], nullptr, 10);
        rlimit limit{bytes, bytes};
        if (bytes) setrlimit(RLIMIT_AS, &limit);
        rlim_t most = std::strtoull(words[2], nullptr, 10);
        rlimit busy{most, most};
        setrlimit(RLIMIT_CPU, &busy);
        dup2(open("/dev/null", O_WRONLY), 2);
        execvp(words[3], words + 3);
        _exit(127);
    }
    if (child < 0) return 1;
    setpgid(child, child);
    alarm(10 * std::atoi(words[2]));
    int status = 0;
    rusage usage{};
    while (wait4(child, &status, 0, &usage) < 0) {}
    double clock = std::chrono::duration<double>(std::chrono::steady_clock::now() - start).count();
    std::fprintf(stderr, "%f %f %ld %d", clock, seconds(usage.ru_utime) + seconds(usage.ru_stime), usage.ru_maxrss,
                 WIFEXITED(status) ? WEXITSTATUS(status) : 128 + WTERMSIG(status));
}

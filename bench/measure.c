// Runs a program once, and prints the nanoseconds until it ended, its peak memory in KiB, its status, and the
// nanoseconds of processor time that it and the system took for it.
//
//     cc -O2 -static -o measure measure.c
//     measure SECONDS IN OUT PROGRAM ARGS..
//
// IN and OUT are its standard streams. Past so many seconds of processor time it is killed; the status is 128 and the
// signal then. This is a separate program, not a few lines of Python, since the system counts the memory of whoever
// starts a program as the program's own until it begins: here some hundred KiB.
#include <fcntl.h>
#include <stdio.h>
#include <stdlib.h>
#include <sys/resource.h>
#include <sys/wait.h>
#include <time.h>
#include <unistd.h>

static void begin(char **words)
{
	struct rlimit limit = { strtoul(words[0], NULL, 10), RLIM_INFINITY };
	int in = open(words[1], O_RDONLY);
	int out = open(words[2], O_WRONLY | O_CREAT | O_TRUNC, 0600);
	if (in < 0 || out < 0 || dup2(in, 0) < 0 || dup2(out, 1) < 0 || setrlimit(RLIMIT_CPU, &limit) < 0)
		_exit(126);
	execvp(words[3], words + 3);
	_exit(127);
}

int main(int count, char **words)
{
	struct timespec start, end;
	struct rusage used;
	const long long second = 1000000000;
	int status;
	if (count < 5)
		return 2;
	clock_gettime(CLOCK_MONOTONIC, &start);
	pid_t child = fork();
	if (child == 0)
		begin(words + 1);
	if (child < 0 || wait4(child, &status, 0, &used) < 0)
		return 2;
	clock_gettime(CLOCK_MONOTONIC, &end);
	int code = WIFEXITED(status) ? WEXITSTATUS(status) : 128 + WTERMSIG(status);
	long long nanos = (end.tv_sec - start.tv_sec) * second + end.tv_nsec - start.tv_nsec;
	long long processor = (used.ru_utime.tv_sec + used.ru_stime.tv_sec) * second;
	processor += (used.ru_utime.tv_usec + used.ru_stime.tv_usec) * 1000LL;
	printf("%lld %ld %d %lld\n", nanos, used.ru_maxrss, code, processor);
	return 0;
}

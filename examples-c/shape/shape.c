/*
 * shape.c: a router in user space. Packets come from a TUN device, wait in a queue, and leave to another device at a
 * rate. Those of the other direction pass by with the delay alone.
 */
#define _GNU_SOURCE
#include <errno.h>
#include <poll.h>
#include <signal.h>
#include <stdio.h>
#include <stdlib.h>
#include <string.h>
#include <sys/prctl.h>
#include <sys/random.h>
#include <sys/resource.h>
#include <sys/signalfd.h>
#include <time.h>
#include <unistd.h>

#include "options.h"
#include "shaper.h"
#include "tun.h"

/* So many packets of a device are read before the other things have their turn. */
enum { READS_AT_ONCE = 64 };

struct program {
	struct options options;
	struct pool pool;
	struct queue queue;
	struct shaper shaper;
	struct line back;              /* packets of the other direction, on their way */
	int in, out, signals;
	uint64_t back_packets;         /* that came in the other direction */
	uint64_t unwritten;            /* packets that a device didn't take */
	uint64_t unread;               /* packets that came while no buffer was left */
	bool ends;
};

static uint64_t now_ns(void)
{
	struct timespec time;

	clock_gettime(CLOCK_MONOTONIC, &time);
	return (uint64_t)time.tv_sec * 1000000000 + (uint64_t)time.tv_nsec;
}

/* Reads a packet into a new buffer: NULL where the device has none. Without a buffer the packet is read and let go. */
static struct buffer *read_packet(struct program *program, int device)
{
	uint8_t nothing[1];
	ssize_t count;

	for (;;) {
		struct buffer *buffer = pool_take(&program->pool);

		if (buffer != NULL) {
			count = read(device, buffer->bytes, sizeof buffer->bytes);
			if (count > 0) {
				buffer->count = (uint32_t)count;
				return buffer;
			}
			pool_give(&program->pool, buffer);
			return NULL;
		}
		if (read(device, nothing, sizeof nothing) <= 0)
			return NULL;
		program->unread++;
	}
}

static void write_packet(struct program *program, int device, struct buffer *buffer, uint32_t count)
{
	if (write(device, buffer->bytes, count) != (ssize_t)count)
		program->unwritten++;
	pool_give(&program->pool, buffer);
}

static void read_devices(struct program *program)
{
	struct buffer *buffer;
	uint64_t now = now_ns();

	for (int i = 0; i < READS_AT_ONCE && (buffer = read_packet(program, program->in)) != NULL; i++)
		shaper_come(&program->shaper, now, buffer);
	for (int i = 0; i < READS_AT_ONCE && (buffer = read_packet(program, program->out)) != NULL; i++) {
		buffer->due = now + program->options.delay;
		program->back_packets++;
		line_put(&program->back, buffer);
	}
}

static void write_devices(struct program *program)
{
	struct buffer *buffer;
	uint64_t now = now_ns();

	while ((buffer = shaper_leave(&program->shaper, now)) != NULL)
		write_packet(program, program->out, buffer, buffer->packet.len);
	while (program->back.first != NULL && program->back.first->due <= now) {
		buffer = line_take(&program->back);
		write_packet(program, program->in, buffer, buffer->count);
	}
}

static void print_statistics(const struct program *program)
{
	struct rusage usage;

	shaper_print(&program->shaper, program->options.in, stdout);
	getrusage(RUSAGE_SELF, &usage);
	printf(" back %llu unwritten %llu unread %llu cpu %lld.%06llds memory %ldkB\n",
	       (unsigned long long)program->back_packets, (unsigned long long)program->unwritten,
	       (unsigned long long)program->unread,
	       (long long)(usage.ru_utime.tv_sec + usage.ru_stime.tv_sec +
			   (usage.ru_utime.tv_usec + usage.ru_stime.tv_usec) / 1000000),
	       (long long)((usage.ru_utime.tv_usec + usage.ru_stime.tv_usec) % 1000000), usage.ru_maxrss);
	fflush(stdout);
}

static void read_signals(struct program *program)
{
	struct signalfd_siginfo signal;

	while (read(program->signals, &signal, sizeof signal) == sizeof signal) {
		if (signal.ssi_signo == SIGUSR1)
			print_statistics(program);
		else
			program->ends = true;
	}
}

/* Waits until a packet or a signal is there, or the link or a delay wants the program. Answers whether all is well. */
static bool wait_for_work(struct program *program)
{
	struct pollfd files[] = {
		{ .fd = program->in, .events = POLLIN },
		{ .fd = program->out, .events = POLLIN },
		{ .fd = program->signals, .events = POLLIN },
	};
	uint64_t next = shaper_next(&program->shaper), now;
	struct timespec time;

	if (program->back.first != NULL && program->back.first->due < next)
		next = program->back.first->due;
	now = now_ns();
	next = next > now ? next - now : 0;
	time = (struct timespec){ .tv_sec = (time_t)(next / 1000000000), .tv_nsec = (long)(next % 1000000000) };
	if (ppoll(files, 3, next > (uint64_t)3600 * 1000000000 ? NULL : &time, NULL) < 0 && errno != EINTR)
		return false;
	if ((files[0].revents | files[1].revents) & (POLLERR | POLLNVAL)) {
		fprintf(stderr, "shape: a device is gone\n");
		return false;
	}
	if (files[2].revents & POLLIN)
		read_signals(program);
	return true;
}

/* Runs until a signal ends it. Answers whether nothing failed. */
static bool run(struct program *program)
{
	while (!program->ends) {
		shaper_serve(&program->shaper, now_ns());
		read_devices(program);
		write_devices(program);
		if (!wait_for_work(program))
			return false;
	}
	return true;
}

/* Gives all buffers back. Answers whether each came back once. */
static bool flush(struct program *program)
{
	struct buffer *buffer;

	shaper_flush(&program->shaper, now_ns());
	while ((buffer = line_take(&program->back)) != NULL)
		pool_give(&program->pool, buffer);
	return pool_is_whole(&program->pool);
}

/* Signals come as bytes of a file from here on. */
static bool open_signals(struct program *program)
{
	sigset_t set;

	sigemptyset(&set);
	sigaddset(&set, SIGINT);
	sigaddset(&set, SIGTERM);
	sigaddset(&set, SIGUSR1);
	if (sigprocmask(SIG_BLOCK, &set, NULL) != 0)
		return false;
	program->signals = signalfd(-1, &set, SFD_NONBLOCK | SFD_CLOEXEC);
	return program->signals >= 0;
}

static bool open_devices(struct program *program)
{
	program->in = tun_open(program->options.in);
	if (program->in < 0) {
		fprintf(stderr, "shape: %s: %s\n", program->options.in, strerror(errno));
		return false;
	}
	program->out = tun_open(program->options.out);
	if (program->out < 0) {
		fprintf(stderr, "shape: %s: %s\n", program->options.out, strerror(errno));
		return false;
	}
	return true;
}

/* Makes the pool and the queue. */
static bool open_queue(struct program *program)
{
	struct options *options = &program->options;
	char fault[160];

	if (!options->has_seed && getrandom(options->seed, sizeof options->seed, 0) != sizeof options->seed) {
		fprintf(stderr, "shape: no random bytes for the seed\n");
		return false;
	}
	if (!pool_open(&program->pool, options->buffers)) {
		fprintf(stderr, "shape: no memory for %zu buffers\n", options->buffers);
		return false;
	}
	program->queue = (struct queue){ .kind = options->kind, .pool = &program->pool };
	if (!options->kind->open(&program->queue, options->words, options->seed, fault, sizeof fault)) {
		fprintf(stderr, "shape: %s\n", fault);
		pool_close(&program->pool);
		return false;
	}
	shaper_open(&program->shaper, &program->pool, &program->queue, options->rate, options->delay);
	return true;
}

static const char usage[] =
	"shape --in DEVICE --out DEVICE --rate RATE [OPTION]... [PARAMETER]...\n"
	"\n"
	"Packets from the TUN device --in wait in a queue, and leave to the TUN device --out\n"
	"at the rate. Packets from --out leave to --in. Devices that aren't there are made.\n"
	"\n"
	"  --rate 20mbit      of the link, as tc(8) writes it: 1000bit to 1tbit\n"
	"  --delay 10ms       that each packet takes besides, both ways [default: 0]\n"
	"  --queue maltcove   or fifo [default: maltcove]\n"
	"  --buffers 16384    buffers, of 2048 bytes each\n"
	"  --seed HEX32       of the flow hash [default: random bytes]\n"
	"\n"
	"PARAMETERs of maltcove are tc-fq_codel's, as 'limit 1000 target 5ms noecn'; of a\n"
	"fifo 'limit N' packets [default: 1000].\n"
	"\n"
	"SIGUSR1 prints the statistics, and so does the end. SIGINT and SIGTERM end it:\n"
	"what waits is flushed. The status is 0, or 1 where a device failed or a buffer\n"
	"wasn't given back once, or 2 where a word is wrong.\n";

int main(int argc, char **argv)
{
	static struct program program;
	char fault[160];
	bool is_well;

	if (!options_read(&program.options, argc - 1, argv + 1, fault, sizeof fault)) {
		fprintf(stderr, "shape: %s\n", fault);
		return 2;
	}
	if (program.options.wants_help) {
		fputs(usage, stdout);
		return 0;
	}
	if (program.options.in == NULL || program.options.out == NULL || program.options.rate == 0) {
		fprintf(stderr, "shape: --in, --out and --rate are needed ('shape --help' describes them)\n");
		return 2;
	}
	if (!open_queue(&program))
		return 2;
	/* timers of this thread are a microsecond late at most, by the kernel's plan, and not 50 */
	prctl(PR_SET_TIMERSLACK, 1000, 0, 0, 0);
	is_well = open_signals(&program) && open_devices(&program);
	if (is_well) {
		printf("ready\n");
		fflush(stdout);
		is_well = run(&program);
		print_statistics(&program);
	}
	if (!flush(&program)) {
		fprintf(stderr, "shape: a buffer wasn't given back, or twice\n");
		is_well = false;
	}
	if (is_well)
		printf("flushed: all %zu buffers are back, each once\n", program.options.buffers);
	program.queue.kind->close(&program.queue);
	pool_close(&program.pool);
	return is_well ? 0 : 1;
}

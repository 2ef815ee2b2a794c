/*
 * The load of a traced kernel: rounds of tasks on the siblings of one core, nearly all of them SCHED_FIFO.
 *
 * It is the guest's first program, /init. The kernel's command line ends with what it is to do:
 *
 *     -- load SEED ROUNDS MILLISECONDS SHAPE
 *
 * Each round draws how many tasks there are, their priorities, their cookies and what they do. It forks the tasks,
 * pins each to one CPU, and lets them set their first cookies. Then it traces them until the round's end, and writes:
 *
 *     ROUND K seed N cpus N tasks N ...     what was drawn
 *     LOADTASK PID CPU PRIORITY FROM TO     each task; a fair one has priority 0
 *     TRACE
 *     ...                                   the kernel's trace
 *     TRACEEND
 *
 * FROM and TO are what the kernel had charged the task for forced idle as the trace began and after it, in ns; TO is -1
 * if the task has ended.
 *
 * The SHAPE `mixed` draws among all priorities and groups. `equal` draws many equal priorities, two cookies, and many
 * calls of prctl. `exits` is `mixed`, and some half of the tasks end while they are traced. In `fair` some half ends too,
 * and one task is a fair one. It shares its cookie with the highest FIFO task, of another CPU, so that it runs beside
 * siblings that are forced idle. No task yields. None changes its priority or its CPU.
 */
#define _GNU_SOURCE
#include <errno.h>
#include <fcntl.h>
#include <linux/futex.h>
#include <sched.h>
#include <signal.h>
#include <stdarg.h>
#include <stdint.h>
#include <stdio.h>
#include <stdlib.h>
#include <string.h>
#include <sys/mman.h>
#include <sys/mount.h>
#include <sys/prctl.h>
#include <sys/reboot.h>
#include <sys/stat.h>
#include <sys/syscall.h>
#include <sys/wait.h>
#include <time.h>
#include <unistd.h>

#define TRACING "/sys/kernel/debug/tracing/"
#define MICROSECOND 1000ull
#define MILLISECOND 1000000ull
#define SECOND 1000000000ull

enum { CORE_SCHEDULING = 62, CREATE = 1, SHARE_TO = 2 };
enum { MOST_TASKS = 32, MOST_CPUS = 8 };

/* ---- what goes out and comes in */

static void write_all(const char *bytes, int length)
{
	while (length > 0) {
		ssize_t written = write(1, bytes, length);

		if (written <= 0)
			break;
		bytes += written;
		length -= written;
	}
}

static void say(const char *format, ...)
{
	char text[1024];
	va_list words;

	va_start(words, format);
	int length = vsnprintf(text, sizeof text, format, words);
	va_end(words);
	/* (what has no room is cut, and the length is that of the whole) */
	if (length >= (int)sizeof text)
		length = sizeof text - 1;
	write_all(text, length);
}

static void set(const char *path, const char *value)
{
	int file = open(path, O_WRONLY | O_TRUNC);

	if (file < 0 || write(file, value, strlen(value)) < 0)
		say("not set: %s\n", path);
	close(file);
}

static void show(const char *path)
{
	char text[256] = "";
	int file = open(path, O_RDONLY);

	if (file < 0 || read(file, text, sizeof text - 1) < 0)
		say("not there: %s\n", path);
	close(file);
	text[strcspn(text, "\n")] = 0;
	say("%s: %s\n", path, text);
}

static void show_whole(const char *path)
{
	static char bytes[65536];
	int length, file = open(path, O_RDONLY);

	while ((length = read(file, bytes, sizeof bytes)) > 0)
		write_all(bytes, length);
	close(file);
}

/* ---- drawing */

static uint64_t random_state;

/* Near seeds give far draws. */
static void begin_draws(uint64_t seed)
{
	uint64_t mixed = seed + 0x9e3779b97f4a7c15ull;

	mixed = (mixed ^ (mixed >> 30)) * 0xbf58476d1ce4e5b9ull;
	mixed = (mixed ^ (mixed >> 27)) * 0x94d049bb133111ebull;
	random_state = mixed ^ (mixed >> 31);
}

static int draw(int below)
{
	random_state = random_state * 6364136223846793005ull + 1442695040888963407ull;
	return (uint32_t)(random_state >> 33) % below;
}

/* ---- time and CPUs */

static uint64_t now(void)
{
	struct timespec time;

	clock_gettime(CLOCK_MONOTONIC, &time);
	return time.tv_sec * SECOND + time.tv_nsec;
}

static void sleep_until(uint64_t moment)
{
	struct timespec time = { moment / SECOND, moment % SECOND };

	while (clock_nanosleep(CLOCK_MONOTONIC, TIMER_ABSTIME, &time, 0) == EINTR)
		;
}

/* What the kernel has charged a task for forced idle, in ns, -1 if there is no such task. Its text is MILLISECONDS.REST,
 * the rest of six digits. */
static long long forced_idle_of(int pid)
{
	static char text[16384];
	char path[64];
	int length = 0, got;

	snprintf(path, sizeof path, "/proc/%d/sched", pid);
	int file = open(path, O_RDONLY);

	if (file < 0)
		return -1;
	while ((got = read(file, text + length, sizeof text - 1 - length)) > 0)
		length += got;
	close(file);
	text[length] = 0;
	char *at = strstr(text, "core_forceidle_sum");

	at = at ? strchr(at, ':') : 0;
	if (!at)
		return -1;
	long long milliseconds = strtoll(at + 1, &at, 10);

	return milliseconds * (long long)MILLISECOND + (*at == '.' ? strtoll(at + 1, 0, 10) : 0);
}

static int pin(int pid, int cpu)
{
	cpu_set_t cpus;

	CPU_ZERO(&cpus);
	CPU_SET(cpu, &cpus);
	return sched_setaffinity(pid, sizeof cpus, &cpus);
}

/* A FIFO task has a priority from 1, and a fair task 0. */
static void set_priority(int priority)
{
	struct sched_param parameters = { .sched_priority = priority };

	if (sched_setscheduler(0, priority ? SCHED_FIFO : SCHED_OTHER, &parameters))
		say("no priority %d: %d\n", priority, errno);
}

/* ---- what init and the tasks share */

struct task {
	uint32_t bell;                 /* the futex on which the task waits; its value stays 0 */
	int pid, cpu, priority, group; /* priority 0: a fair task; group 0: no cookie at first */
	int spin;                      /* at most so many microseconds it spins */
	int life;                      /* so many microseconds after the start it ends; 0: never */
	long long forced_idle;         /* what it had been charged as the trace began, in ns */
};

static struct room {
	uint32_t stage, ready;
	uint64_t start, end;
	uint64_t phase, active; /* of each phase the tasks are active for a part, and then sleep */
	int cpus, count;
	/* At most so many microseconds most tasks spin, and all sleep; of 1000 doings so many are calls of prctl, of 10
	 * calls so many CREATE, and of 1000 doings so many wakes. */
	int spin, nap, change, makes, wakes;
	struct task tasks[MOST_TASKS];
} *room;

static void futex_wait(uint32_t *word, uint32_t value, uint64_t most)
{
	struct timespec time = { most / SECOND, most % SECOND };

	syscall(SYS_futex, word, FUTEX_WAIT, value, most ? &time : 0, 0, 0);
}

static void futex_wake(uint32_t *word, int most)
{
	syscall(SYS_futex, word, FUTEX_WAKE, most, 0, 0, 0);
}

static void open_stage(uint32_t stage)
{
	__atomic_store_n(&room->stage, stage, __ATOMIC_SEQ_CST);
	futex_wake(&room->stage, 1000);
}

static void wait_for_stage(uint32_t stage)
{
	__atomic_add_fetch(&room->ready, 1, __ATOMIC_SEQ_CST);
	while (__atomic_load_n(&room->stage, __ATOMIC_SEQ_CST) < stage)
		futex_wait(&room->stage, stage - 1, 0);
}

static void wait_until_ready(int count)
{
	while (__atomic_load_n(&room->ready, __ATOMIC_SEQ_CST) < (uint32_t)count)
		usleep(2000);
	usleep(10000);
}

/* ---- a task */

/* The first task of a group makes its cookie, and shares it with the others. */
static void set_first_cookie(int me)
{
	int group = room->tasks[me].group;

	if (!group)
		return;
	for (int other = 0; other < me; other++)
		if (room->tasks[other].group == group)
			return;
	prctl(CORE_SCHEDULING, CREATE, 0, 0, 0);
	for (int other = me + 1; other < room->count; other++)
		if (room->tasks[other].group == group)
			prctl(CORE_SCHEDULING, SHARE_TO, room->tasks[other].pid, 0, 0);
}

static void change_cookie(int other)
{
	if (draw(10) < room->makes)
		prctl(CORE_SCHEDULING, CREATE, 0, 0, 0);
	else
		prctl(CORE_SCHEDULING, SHARE_TO, room->tasks[other].pid, 0, 0);
}

static void wake_some(void)
{
	for (int left = 1 + draw(3); left > 0; left--)
		futex_wake(&room->tasks[draw(room->count)].bell, 1);
}

static void spin_until(uint64_t moment)
{
	while (now() < moment)
		;
}

/* One thing that a task does: it calls prctl, wakes others, spins, sleeps, or waits to be woken. */
static void do_something(int me)
{
	int what = draw(1000), other = draw(room->count);

	if (what < room->change && other != me)
		change_cookie(other);
	else if (what < room->change + room->wakes)
		wake_some();
	else if (what < 600)
		spin_until(now() + (1 + draw(room->tasks[me].spin)) * MICROSECOND);
	else if (what < 800)
		sleep_until(now() + (20 + draw(room->nap)) * MICROSECOND);
	else
		futex_wait(&room->tasks[me].bell, 0, (50 + draw(4 * room->nap)) * MICROSECOND);
}

static void run_task(int me, uint64_t seed)
{
	struct task *task = &room->tasks[me];

	begin_draws(seed);
	pin(0, task->cpu);
	task->pid = getpid();
	set_priority(task->priority);
	wait_for_stage(1);
	set_first_cookie(me);
	wait_for_stage(2);
	sleep_until(room->start + draw(2000) * MICROSECOND);
	for (uint64_t time = now(); time < room->end; time = now()) {
		uint64_t in_phase = (time - room->start) % room->phase;

		if (task->life && time >= room->start + task->life * MICROSECOND)
			_exit(0);
		if (time > room->start && in_phase > room->active) /* all siblings come to idle */
			sleep_until(time - in_phase + room->phase + draw(2000) * MICROSECOND);
		else
			do_something(me);
	}
	for (;;)
		sleep_until(now() + 3600 * SECOND);
}

/* ---- a round */

enum load { MIXED, EQUAL, EXITS, FAIR };

/* How a round's numbers of tasks, priorities and groups are drawn. */
struct shape {
	int many, priorities, cookies;
};

static struct shape draw_shape(enum load load)
{
	static const int spins[] = { 20, 60, 150, 400 }, naps[] = { 100, 300, 1000 };
	static const int changes[] = { 0, 10, 40, 120, 250 }, wakes[] = { 40, 120, 250 };
	struct shape shape;

	shape.many = draw(3);
	shape.priorities = draw(5);
	shape.cookies = draw(8);
	room->spin = spins[draw(4)];
	room->nap = naps[draw(3)];
	room->change = changes[draw(5)];
	room->wakes = wakes[draw(3)];
	room->makes = draw(2) ? 1 : 4;
	if (load == EQUAL) {
		shape.many = 1 + draw(2);
		shape.priorities = draw(2) ? 2 : 4;
		shape.cookies = 5;
		room->change = 120 + draw(130);
		room->makes = draw(2);
	}
	if (shape.cookies == 0 && room->change == 0)
		room->change = 6;
	return shape;
}

static int draw_number(int many)
{
	switch (many) {
	case 0: return 1 + draw(2);
	case 1: return 2 + draw(3);
	default: return 4 + draw(3);
	}
}

/* The priority of a CPU's task, of which rank others are drawn before it. */
static int draw_priority(int priorities, int rank)
{
	switch (priorities) {
	case 0: return 1 + draw(90);
	case 1: return 10 * (1 + draw(3));
	case 2: return 50;
	case 3: return 10 * (1 + rank);
	default: return draw(2) ? 60 : 40;
	}
}

/* The group of the task number me, of which rank others of its CPU are drawn before it. */
static int draw_group(int cookies, int me, int cpu, int rank)
{
	switch (cookies) {
	case 0: return 0;
	case 1: return 1 + me;
	case 2: return 1 + me / 2;
	case 3: return 1 + rank;
	case 4: return draw(3) ? 1 + draw(3) : 0;
	case 5: return 1 + draw(2);
	case 6: return cpu ? 1 + draw(3) : 0;
	default: return draw(2) ? 1 + rank : 0;
	}
}

static void draw_tasks(const struct shape *shape)
{
	int numbers[MOST_CPUS];

	for (int cpu = 0; cpu < room->cpus; cpu++)
		numbers[cpu] = draw_number(shape->many);
	for (int rank = 0; rank < 6; rank++)
		for (int cpu = 0; cpu < room->cpus; cpu++) {
			if (rank >= numbers[cpu] || room->count == MOST_TASKS)
				continue;
			int me = room->count++;

			room->tasks[me].cpu = cpu;
			room->tasks[me].priority = draw_priority(shape->priorities, rank);
			room->tasks[me].group = draw_group(shape->cookies, me, cpu, rank);
			room->tasks[me].spin = room->spin;
		}
}

/* One task is a fair one, and shares its cookie with the highest FIFO task, of another CPU. Most others have one of two
 * other cookies. The two that share one spin for long, so that the fair task may be at work for a slice beside forced
 * idle. */
static void draw_fair_task(void)
{
	struct task *highest = &room->tasks[draw(room->count)], *fair;

	do
		fair = &room->tasks[draw(room->count)];
	while (fair->cpu == highest->cpu);
	for (int one = 0; one < room->count; one++) {
		room->tasks[one].priority = 1 + draw(50);
		room->tasks[one].group = draw(6) ? 2 + draw(2) : 0;
	}
	highest->priority = 80;
	fair->priority = 0;
	highest->group = fair->group = 1;
	highest->spin = fair->spin = 6000;
	room->change = 10 * draw(2);
}

static void draw_lives(int milliseconds)
{
	for (int one = 0; one < room->count; one++)
		room->tasks[one].life = draw(2) ? 1 + draw(1000 * milliseconds) : 0;
}

static void trace_until_end(int milliseconds)
{
	for (int one = 0; one < room->count; one++)
		room->tasks[one].forced_idle = forced_idle_of(room->tasks[one].pid);
	set(TRACING "trace", " ");
	set(TRACING "tracing_on", "1");
	room->start = now() + (room->cpus > 2 ? 200 : 40) * MILLISECOND;
	room->end = room->start + milliseconds * MILLISECOND;
	open_stage(2);
	sleep_until(room->end + 60 * MILLISECOND);
	set(TRACING "tracing_on", "0");
}

static void show_round(int number, uint64_t seed, const struct shape *shape)
{
	say("ROUND %d seed %llu cpus %d tasks %d many %d priorities %d cookies %d spin %d nap %d change %d makes %d wakes %d\n",
	    number, (unsigned long long)seed, room->cpus, room->count, shape->many, shape->priorities, shape->cookies,
	    room->spin, room->nap, room->change, room->makes, room->wakes);
	for (struct task *task = room->tasks; task < room->tasks + room->count; task++)
		say("LOADTASK %d %d %d %lld %lld\n", task->pid, task->cpu, task->priority, task->forced_idle,
		    forced_idle_of(task->pid));
	say("TRACE\n");
	show_whole(TRACING "trace");
	say("TRACEEND\n");
}

static void play_round(int number, uint64_t seed, int cpus, int milliseconds, enum load load)
{
	begin_draws(seed);
	memset(room, 0, sizeof *room);
	room->cpus = cpus;
	/* Many CPUs are slow to emulate. */
	room->active = (cpus > 2 ? 200 : 45) * MILLISECOND;
	room->phase = (cpus > 2 ? 300 : 60) * MILLISECOND;
	struct shape shape = draw_shape(load);

	draw_tasks(&shape);
	if (load == FAIR)
		draw_fair_task();
	if (load == FAIR || load == EXITS)
		draw_lives(milliseconds);
	for (int me = 0; me < room->count; me++)
		if (!fork())
			run_task(me, seed * 7919 + me * 104729 + 1);
	wait_until_ready(room->count);
	open_stage(1);
	wait_until_ready(2 * room->count);
	trace_until_end(milliseconds);
	show_round(number, seed, &shape);
	for (int one = 0; one < room->count; one++)
		kill(room->tasks[one].pid, SIGKILL);
	for (int one = 0; one < room->count; one++)
		waitpid(room->tasks[one].pid, 0, 0);
}

/* ---- the guest */

static void mount_all(void)
{
	mkdir("/proc", 0755);
	mkdir("/sys", 0755);
	mount("proc", "/proc", "proc", 0, 0);
	mount("sysfs", "/sys", "sysfs", 0, 0);
	mount("debugfs", "/sys/kernel/debug", "debugfs", 0, 0);
}

static void set_up_kernel(int cpus)
{
	set("/proc/sys/kernel/printk", "1");
	set("/proc/sys/kernel/sched_schedstats", "1");
	set("/proc/sys/kernel/sched_rt_runtime_us", "-1");
	/* A lone fair task beside forced idle is asked to leave after half of it, which is 6 ms, on any number of CPUs. */
	set("/sys/kernel/debug/sched/latency_ns", "12000000");
	/* A CPU that goes idle pulls no fair task, so no schedule drops the core's lock. */
	set("/sys/kernel/debug/sched/verbose", "Y");
	for (int cpu = 0; cpu < cpus; cpu++) {
		char path[128];

		snprintf(path, sizeof path, "/sys/kernel/debug/sched/domains/cpu%d/domain0/max_newidle_lb_cost", cpu);
		set(path, "1000000000000000");
	}
	set(TRACING "tracing_on", "0");
	set(TRACING "trace_clock", "counter");
	set(TRACING "buffer_size_kb", "24576");
}

/* Holds a cookie, so that core scheduling stays on from one round to the next. */
static int keep_cookie(void)
{
	int pid = fork();

	if (pid)
		return pid;
	prctl(CORE_SCHEDULING, CREATE, 0, 0, 0);
	for (;;)
		pause();
}

static enum load load_called(const char *name)
{
	static const char *names[] = { "mixed", "equal", "exits", "fair" };
	enum load load = MIXED;

	for (int one = MIXED; one <= FAIR; one++)
		if (!strcmp(name, names[one]))
			load = one;
	return load;
}

int main(int argc, char **argv)
{
	if (argc < 5)
		return 1;
	char **words = argv + argc - 4;
	uint64_t seed = strtoull(words[0], 0, 10);
	int rounds = atoi(words[1]), milliseconds = atoi(words[2]);
	enum load load = load_called(words[3]);
	cpu_set_t all;

	mount_all();
	sched_getaffinity(0, sizeof all, &all);
	int cpus = CPU_COUNT(&all);

	usleep(300000);
	say("\n=== BEGIN load %s seed %llu rounds %d milliseconds %d\n", words[3], (unsigned long long)seed, rounds,
	    milliseconds);
	set_up_kernel(cpus);
	show("/proc/version");
	show("/sys/devices/system/cpu/cpu0/topology/thread_siblings_list");
	room = mmap(0, sizeof *room, PROT_READ | PROT_WRITE, MAP_SHARED | MAP_ANONYMOUS, -1, 0);
	pin(0, 0);
	set_priority(99);
	/* The end of a task does not wake this one. */
	signal(SIGCHLD, SIG_IGN);
	int keeper = keep_cookie();

	usleep(50000);
	/* The kernel's threads keep to one CPU each, where they let themselves be bound. */
	for (int pid = 2; pid < keeper; pid++)
		pin(pid, pid % cpus);
	for (int number = 0; number < rounds; number++)
		play_round(number, seed * 1000 + number, cpus, milliseconds, load);
	say("\n=== END load\n");
	reboot(RB_POWER_OFF);
	for (;;)
		pause();
}

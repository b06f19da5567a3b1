/*
 * Drives Linux's Tree SRCU by a script, in one thread, and writes one reply to each line at once:
 *
 *     harness [--size big|small|grow] [--processors M] < script
 *
 * The lines are those of `srcuctl run` (docs/script.md), with three beside: `runall D` runs what is ready on each
 * processor, `size D` tells how far a domain has grown (0 is small, 8 is big), and `leave D` forgets it. M is how many
 * processors the machine has (64). The first `ask` or `call` starts a period at once, so ` started N` stands behind the
 * reply. A line that can't be run ends the harness with status 2.
 */
#include "harness.h"

#define MOST_WORDS 24

struct domain *domains[MOST_DOMAINS];
int domain_count;

/* A line of the script: its words, its domain, and its processor where it has one. */
struct line {
	int count;
	char *words[MOST_WORDS];
	struct domain *domain;
	int processor;
};

static struct domain *find_domain(const char *name)
{
	for (int i = 0; i < domain_count; i++)
		if (!strcmp(domains[i]->name, name))
			return domains[i];
	fail("no domain %s", name);
}

static struct named *find(struct domain *domain, const char *name, enum name_kind kind)
{
	for (int i = 0; i < domain->name_count; i++)
		if (!strcmp(domain->names[i].name, name) && domain->names[i].kind == kind)
			return &domain->names[i];
	fail("no such name: %s", name);
}

static struct named *add(struct domain *domain, const char *name, enum name_kind kind)
{
	struct named *named = &domain->names[domain->name_count];

	if (domain->name_count++ == MOST_NAMES || strlen(name) >= NAME_SIZE)
		fail("too many names, or one too long: %s", name);
	memset(named, 0, sizeof(*named));
	strcpy(named->name, name);
	named->kind = kind;
	return named;
}

static void drop(struct domain *domain, struct named *named)
{
	*named = domain->names[--domain->name_count];
}

static void make_domain(struct line *line)
{
	struct domain *domain = calloc(1, sizeof(*domain));
	int processors = atoi(line->words[2]);

	if (domain_count == MOST_DOMAINS || strlen(line->words[1]) >= NAME_SIZE)
		fail("too many domains, or a name too long");
	if (processors < 1 || processors > (int)nr_cpu_ids)
		fail("the machine has %u processors", nr_cpu_ids);
	if (init_srcu_struct(&domain->srcu))
		fail("no memory");
	strcpy(domain->name, line->words[1]);
	domain->processors = processors;
	domain->base = USAGE(&domain->srcu)->srcu_gp_seq;
	domains[domain_count++] = domain;
	printf("made %s %d", domain->name, processors);
}

/* A counter is one word, in a struct or not. */
static unsigned long count_of(const void *counter)
{
	return *(const unsigned long *)counter;
}

static void state(struct line *line)
{
	static const char *const phases[] = { "idle", "scan1", "scan2", "scan3" };
	struct domain *domain = line->domain;
	unsigned long open[2] = { 0, 0 };
	int processor;

	for_each_possible_cpu(processor) {
		struct srcu_data *data = per_cpu_ptr(domain->srcu.sda, processor);

		for (int index = 0; index < 2; index++)
			open[index] += count_of(&data->srcu_lock_count[index]) - count_of(&data->srcu_unlock_count[index]);
	}
	printf("state %s number %lu %s index %d open %lu %lu need %lu", domain->name, number_of(domain),
	       phases[number_of(domain) % 4], (int)(domain->srcu.srcu_idx & 1), open[0], open[1],
	       USAGE(&domain->srcu)->srcu_gp_seq_needed - domain->base);
}

static void run_reader(struct task *task)
{
	task->index = srcu_read_lock(&task->domain->srcu);
}

static void look(struct line *line)
{
	struct named *reader = add(line->domain, line->words[3], LOOK);

	reader->task = make_task(line->domain, READER, run_reader);
	resume(reader->task);
	printf("look %d", reader->task->index);
}

/* Goes on with a look, on this processor, wherever it was made. */
static void enter(struct line *line)
{
	struct named *reader = find(line->domain, line->words[3], LOOK);

	resume(reader->task);
	if (!reader->task->over)
		fail("a reader stops twice");
	reader->kind = SECTION;
	reader->processor = line->processor;
	reader->index = reader->task->index;
	free(reader->task);
	printf("index %d", reader->index);
}

static void begin_section(struct line *line, enum name_kind kind, int (*begin)(struct srcu_struct *srcu))
{
	struct named *section = add(line->domain, line->words[3], kind);

	section->processor = line->processor;
	section->index = begin(&line->domain->srcu);
	printf("index %d", section->index);
}

static void end_section(struct line *line, struct named *section, void (*end)(struct srcu_struct *srcu, int index))
{
	shim_opener = section->processor;
	end(&line->domain->srcu, section->index);
	drop(line->domain, section);
	printf("closed");
}

static int begin_own(struct srcu_struct *srcu)
{
	return srcu_read_lock(srcu);
}

static void end_own(struct srcu_struct *srcu, int index)
{
	srcu_read_unlock(srcu, index);
}

/* Linux 6.1 has no sections yet that may end elsewhere, by name. */
static int begin_held(struct srcu_struct *srcu)
{
#ifdef HAS_USAGE
	return srcu_down_read(srcu);
#else
	return srcu_read_lock(srcu);
#endif
}

static void end_held(struct srcu_struct *srcu, int index)
{
#ifdef HAS_USAGE
	srcu_up_read(srcu, index);
#else
	srcu_read_unlock(srcu, index);
#endif
}

static void lock(struct line *line)
{
	begin_section(line, SECTION, begin_own);
}

static void unlock(struct line *line)
{
	struct named *section = find(line->domain, line->words[2], SECTION);

	shim_cpu = section->processor;
	end_section(line, section, end_own);
}

static void down(struct line *line)
{
	begin_section(line, HELD, begin_held);
}

static void up(struct line *line)
{
	end_section(line, find(line->domain, line->words[3], HELD), end_held);
}

static void get(struct line *line)
{
	printf("cookie %lu", get_state_synchronize_srcu(&line->domain->srcu) - line->domain->base);
}

/* Whether the line has started a period, for which the program takes steps of its engine. */
static void print_started(struct domain *domain, unsigned long before)
{
	if (number_of(domain) != before)
		printf(" started %lu", number_of(domain));
}

static void ask(struct line *line)
{
	unsigned long before = number_of(line->domain);

	printf("cookie %lu", start_poll_synchronize_srcu(&line->domain->srcu) - line->domain->base);
	print_started(line->domain, before);
}

/* Cookie 1 is the completed one, which stands for itself. */
static void poll(struct line *line)
{
	unsigned long cookie = strtoull(line->words[3], NULL, 10);

	if (cookie != 1)
		cookie += line->domain->base;
	printf(poll_state_synchronize_srcu(&line->domain->srcu, cookie) ? "done" : "not yet");
}

/* Linux has no such call: a cookie is asked for that nobody keeps. */
static void start(struct line *line)
{
	unsigned long before = number_of(line->domain);

	if (before % 4) {
		printf("refused start running");
		return;
	}
	start_poll_synchronize_srcu(&line->domain->srcu);
	if (number_of(line->domain) == before)
		start_period_now(&line->domain->srcu);
	printf("started %lu", number_of(line->domain));
}

static void step_once(struct line *line)
{
	printf("%s", step(line->domain, line->processor));
}

static void advance(struct line *line)
{
	const char *reply;

	do
		reply = step(line->domain, line->processor);
	while (!strcmp(reply, "step"));
	printf("%s", reply);
}

static void queue(struct line *line)
{
	unsigned long before = number_of(line->domain);

	call(line->domain, line->processor, line->words[3]);
	print_started(line->domain, before);
}

static void run(struct line *line)
{
	printf("ran%s", run_all(line->domain, line->processor, line->processor));
}

static void run_each(struct line *line)
{
	printf("ran%s", run_all(line->domain, 0, nr_cpu_ids - 1));
}

static void batch(struct line *line)
{
	printf("took%s", take_batch(line->domain, line->processor));
}

static void finish(struct line *line)
{
	printf("finished %d", finish_batch(line->domain, line->processor));
}

static void segs(struct line *line)
{
	struct rcu_segcblist *list = &per_cpu_ptr(line->domain->srcu.sda, line->processor)->srcu_cblist;
	unsigned long numbers[RCU_CBLIST_NSEGS];

	for (int i = RCU_WAIT_TAIL; i <= RCU_NEXT_READY_TAIL; i++)
		numbers[i] = list->seglen[i] ? list->gp_seq[i] - line->domain->base : 0;
	printf("segs done %ld wait %ld %lu ready %ld %lu next %ld", list->seglen[RCU_DONE_TAIL],
	       list->seglen[RCU_WAIT_TAIL], numbers[RCU_WAIT_TAIL], list->seglen[RCU_NEXT_READY_TAIL],
	       numbers[RCU_NEXT_READY_TAIL], list->seglen[RCU_NEXT_TAIL]);
}

/* ` behind` where another barrier or a batch is not over, since this one may be done later then. */
static void barrier(struct line *line)
{
	struct named *ticket = add(line->domain, line->words[3], TICKET);

	printf(line->domain->barrier_count || line->domain->batch_count ? "ticket behind" : "ticket");
	ticket->task = begin_barrier(line->domain);
}

static void barrier_poll(struct line *line)
{
	printf(find(line->domain, line->words[3], TICKET)->task->over ? "done" : "not yet");
}

static void forget(struct line *line)
{
	*line->domain->name = 0;
}

static void leave(struct line *line)
{
	forget(line);
	printf("left");
}

/* Where Linux warns, it leaks the domain. */
static void cleanup(struct line *line)
{
	cleanup_srcu_struct(&line->domain->srcu);
	printf(*take_warnings() ? "leaked" : "cleaned");
	forget(line);
}

static void size(struct line *line)
{
	printf("size %d", USAGE(&line->domain->srcu)->srcu_size_state);
}

static void add_block(struct line *line)
{
	int refused = register_block(line->domain, atoi(line->words[3]), atoi(line->words[4]));

	if (refused == -EEXIST)
		printf("refused register there");
	else if (refused)
		printf("error %d", refused);
	else
		printf("registered %s", line->words[3]);
}

static void remove_block(struct line *line)
{
	int refused = unregister_block(line->domain, atoi(line->words[3]));

	if (refused == -ENOENT)
		printf("refused unregister notthere");
	else if (refused)
		printf("error %d", refused);
	else
		printf("unregistered %s", line->words[3]);
}

static void show_chain(struct line *line)
{
	print_chain(line->domain);
}

static void call_chain(struct line *line)
{
	int calls;
	int answer = notify(line->domain, line->count - 3, line->words + 3, &calls);

	printf("%04x calls %d", (unsigned)answer, calls);
}

/* The lines: how many words they have (at least), and whether the third one is a processor. */
static const struct command {
	const char *name;
	int words;
	bool has_processor;
	void (*run)(struct line *line);
} commands[] = {
	{ "state", 2, false, state },
	{ "look", 4, true, look },
	{ "enter", 4, true, enter },
	{ "lock", 4, true, lock },
	{ "unlock", 3, false, unlock },
	{ "down", 4, true, down },
	{ "up", 4, true, up },
	{ "get", 3, true, get },
	{ "ask", 3, true, ask },
	{ "poll", 4, true, poll },
	{ "start", 3, true, start },
	{ "step", 3, true, step_once },
	{ "advance", 3, true, advance },
	{ "call", 4, true, queue },
	{ "run", 3, true, run },
	{ "runall", 2, false, run_each },
	{ "batch", 3, true, batch },
	{ "finish", 3, true, finish },
	{ "segs", 3, true, segs },
	{ "barrier", 4, true, barrier },
	{ "barrier-poll", 4, true, barrier_poll },
	{ "register", 5, true, add_block },
	{ "unregister", 4, true, remove_block },
	{ "chain", 3, true, show_chain },
	{ "notify", 3, true, call_chain },
	{ "cleanup", 2, false, cleanup },
	{ "size", 2, false, size },
	{ "leave", 2, false, leave },
};

static const struct command *find_command(const struct line *line)
{
	for (size_t i = 0; i < ARRAY_SIZE(commands); i++)
		if (!strcmp(commands[i].name, line->words[0]) && line->count >= commands[i].words)
			return &commands[i];
	fail("no command, or too few words: %s", line->words[0]);
}

static void run_line(struct line *line)
{
	const struct command *command;

	if (!strcmp(line->words[0], "domain") && line->count == 3) {
		make_domain(line);
		return;
	}
	command = find_command(line);
	line->domain = find_domain(line->words[1]);
	line->processor = command->has_processor ? atoi(line->words[2]) : 0;
	if (line->processor < 0 || line->processor >= line->domain->processors)
		fail("no processor %d", line->processor);
	shim_cpu = shim_opener = line->processor;
	command->run(line);
}

static void split(struct line *line, char *text)
{
	line->count = 0;
	for (char *word = strtok(text, " \n"); word && line->count < MOST_WORDS; word = strtok(NULL, " \n"))
		line->words[line->count++] = word;
}

static void use_size(const char *size)
{
	if (!strcmp(size, "big")) {
		use_big_size();
	} else if (!strcmp(size, "grow")) {
		use_growing_size();
		failing_trylocks = 3;
	} else if (strcmp(size, "small")) {
		fail("no size %s", size);
	}
}

static void read_options(int count, char **words)
{
	nr_cpu_ids = 64;
	for (int i = 1; i + 1 < count; i += 2) {
		if (!strcmp(words[i], "--size"))
			use_size(words[i + 1]);
		else if (!strcmp(words[i], "--processors"))
			nr_cpu_ids = atoi(words[i + 1]);
		else
			fail("no option %s", words[i]);
	}
	if (nr_cpu_ids < 1 || nr_cpu_ids > NR_CPUS)
		fail("not 1 to %d processors", NR_CPUS);
}

int main(int count, char **words)
{
	static char text[4096];
	struct line line;

	read_options(count, words);
	boot();
	while (fgets(text, sizeof(text), stdin)) {
		split(&line, text);
		if (!line.count || *line.words[0] == '#')
			continue;
		jiffies += 2;
		run_line(&line);
		printf("%s\n", take_warnings());
		fflush(stdout);
	}
	return 0;
}

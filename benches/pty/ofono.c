/* oFono's multiplexer and its client (gatchat/gatmux.c, gatchat.c, unchanged) on a modem on a terminal: DEVICE [COMMANDS [CHANNELS]].
 *
 * Twice: it enters the multiplexer as oFono does (ATE0, AT+CMUX=?, frames of 31 octets), asks so many commands (100) on each of so
 * many channels (2), has a change of registration reported, ends by DISC on each channel and on 0, as oFono does, and asks plain
 * command lines. Each answer is compared with what the simulated modem has to answer. It ends by itself, within a minute. oFono's
 * source is no part of this repository: ./ofono says how it is had. */
#include <fcntl.h>
#include <glib.h>
#include <poll.h>
#include <signal.h>
#include <stdio.h>
#include <stdlib.h>
#include <string.h>
#include <sys/types.h>
#include <unistd.h>

#include "gatchat.h"
#include "gatmux.h"
#include "gattty.h"

enum { MOST_CHANNELS = 8, ROUNDS = 2 };

/* A command, how the one line of its answer before OK begins, and that line; or there is none. */
static const struct ask {
	const char *command, *name, *line;
} csq = { "AT+CSQ", "+CSQ:", "+CSQ: 18,99" }, cops = { "AT+COPS?", "+COPS:", "+COPS: 0,2,\"00101\",7" },
  no_echo = { "ATE0", NULL, NULL }, report = { "AT+CREG=1", NULL, NULL }, leave = { "AT+COPS=2", NULL, NULL },
  back = { "AT+COPS=0", NULL, NULL };

static GMainLoop *loop;
static GAtMux *mux;
static GAtChat *chats[MOST_CHANNELS];
static int channels = 2, under_way, answered, reports;

static void fail(const char *what, const char *said)
{
	printf("FAILED  %s: %s\n", what, said ? said : "nothing");
	exit(1);
}

static void debug(const char *text, gpointer name)
{
	fprintf(stderr, "%s %s\n", (const char *)name, text);
}

static void on_answer(gboolean ok, GAtResult *result, gpointer data)
{
	const struct ask *ask = data;
	GAtResultIter iter;
	const char *line = NULL;

	g_at_result_iter_init(&iter, result);
	if (g_at_result_num_response_lines(result) == 1 && g_at_result_iter_next(&iter, NULL))
		line = g_at_result_iter_raw_line(&iter);
	if (!ok || g_at_result_num_response_lines(result) > 1 || g_strcmp0(line, ask->line) != 0)
		fail(ask->command, line ? line : g_at_result_final_response(result));
	answered++;
	if (--under_way == 0)
		g_main_loop_quit(loop);
}

static void on_report(GAtResult *result, gpointer data)
{
	(void)result;
	(void)data;
	reports++;
}

static void ask(GAtChat *chat, const struct ask *ask)
{
	const char *names[] = { ask->name, NULL };

	under_way++;
	if (g_at_chat_send(chat, ask->command, names, on_answer, (gpointer)ask, NULL) == 0)
		fail(ask->command, "it can't be sent");
}

static GAtChat *chat_on(GIOChannel *io, const char *name)
{
	GAtSyntax *syntax = g_at_syntax_new_gsmv1();
	GAtChat *chat = g_at_chat_new(io, syntax);

	g_at_syntax_unref(syntax);
	g_io_channel_unref(io);
	if (chat == NULL)
		fail(name, "no client");
	if (getenv("DEBUG"))
		g_at_chat_set_debug(chat, debug, (gpointer)name);
	return chat;
}

static void on_mux(GAtMux *made, gpointer data)
{
	(void)data;
	if (made == NULL)
		fail("the multiplexer", "it wasn't entered");
	mux = made;
	g_main_loop_quit(loop);
}

/* The terminal with plain lines: a command, and the way into the multiplexer. */
static void enter(const char *device)
{
	GIOChannel *io = g_at_tty_open(device, NULL);
	GAtChat *chat;

	if (io == NULL)
		fail(device, "it can't be opened");
	chat = chat_on(io, "plain");
	ask(chat, &no_echo);
	ask(chat, &csq);
	g_main_loop_run(loop);
	if (!g_at_mux_setup_gsm0710(chat, on_mux, NULL, NULL))
		fail("the multiplexer", "it can't be asked for");
	g_at_chat_unref(chat);
	g_main_loop_run(loop);
	if (!g_at_mux_start(mux))
		fail("the multiplexer", "it doesn't start");
}

static void talk(int commands)
{
	static const char *names[MOST_CHANNELS] = { "channel 1", "channel 2", "channel 3", "channel 4", "channel 5", "channel 6", "channel 7", "channel 8" };

	for (int k = 0; k < channels; k++)
		chats[k] = chat_on(g_at_mux_create_channel(mux), names[k]);
	g_at_chat_register(chats[0], "+CREG:", on_report, FALSE, NULL, NULL);
	for (int k = 0; k < commands * channels; k++)
		ask(chats[k % channels], k % 2 ? &cops : &csq);
	g_main_loop_run(loop);
	ask(chats[0], &report);
	ask(chats[0], &leave);
	ask(chats[0], &back);
	g_main_loop_run(loop);
}

/* Reads all that comes up to the UA to the DISC on 0. */
static void await_end(int line)
{
	static const unsigned char ua[] = { 0xF9, 0x03, 0x73, 0x01, 0xD7, 0xF9 };
	unsigned char got[4096];
	size_t used = 0;
	struct pollfd ready = { line, POLLIN, 0 };

	while (used < sizeof ua || memcmp(got + used - sizeof ua, ua, sizeof ua) != 0) {
		ssize_t came;

		if (used == sizeof got || poll(&ready, 1, 5000) != 1)
			fail("DISC on 0", "no UA came");
		came = read(line, got + used, 1);
		if (came != 1)
			fail("DISC on 0", "the line ended");
		used++;
	}
}

static void leave_it(int line)
{
	for (int k = 0; k < channels; k++)
		g_at_chat_unref(chats[k]); /* which sends DISC */
	g_at_mux_shutdown(mux);
	g_at_mux_unref(mux);
	await_end(line);
}

int main(int count, char **words)
{
	int commands = count > 2 ? atoi(words[2]) : 100, line;

	channels = count > 3 ? atoi(words[3]) : channels;
	if (count < 2 || channels < 1 || channels > MOST_CHANNELS)
		return fputs("usage: ofono DEVICE [COMMANDS [CHANNELS]], with 1 to 8 channels\n", stderr), 2;
	alarm(60);
	line = open(words[1], O_RDWR | O_NOCTTY);
	loop = g_main_loop_new(NULL, FALSE);
	for (int round = 0; round < ROUNDS; round++) {
		enter(words[1]);
		talk(commands);
		leave_it(line);
	}
	enter(words[1]); /* where the plain lines are answered once more */
	g_at_mux_shutdown(mux);
	await_end(line);
	if (reports != 2 * ROUNDS)
		fail("+CREG", "another number of reports came");
	printf("oFono's multiplexer: %d answers, %d reports; ended %d times by DISC, and found plain lines each time\n", answered,
	       reports, ROUNDS);
	return 0;
}

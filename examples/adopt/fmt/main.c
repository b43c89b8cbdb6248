#include <ctype.h>
#include <stdio.h>
#include <string.h>

#include "fmt.h"

#define MAX_SAVED	3
#define MAX_ARG		999

enum command {
	C_BREAK, C_CENTER, C_INDENT, C_JUSTIFY, C_LEFT, C_RESTORE, C_SAVE,
	C_SPACE, C_TITLE, C_WIDTH, C_UNKNOWN
};

static const struct {
	const char *name;
	int arg;		/* when none is given */
} commands[] = {
	[C_BREAK]	= { "break", 0 },
	[C_CENTER]	= { "center", 1 },
	[C_INDENT]	= { "indent", 0 },
	[C_JUSTIFY]	= { "justify", 0 },
	[C_LEFT]	= { "left", 0 },
	[C_RESTORE]	= { "restore", 0 },
	[C_SAVE]	= { "save", 0 },
	[C_SPACE]	= { "space", 1 },
	[C_TITLE]	= { "title", 1 },
	[C_WIDTH]	= { "width", DEFAULT_WIDTH },
};

static const char blanks[] = " \t\r";
static struct style saved[MAX_SAVED];
static int nsaved, to_center, line_no, warnings;

static void warn(const char what[])
{
	fprintf(stderr, "fmt: line %d: %s\n", line_no, what);
	warnings++;
}

static bool read_line(char buf[], size_t size)
{
	size_t n = 0;
	int c;

	while ((c = getchar()) != EOF && c != '\n')
		if (n++ < size - 1)
			buf[n - 1] = (char)c;
	line_no++;
	if (n > size - 1) {
		warn("line too long, rest ignored");
		n = size - 1;
	}
	while (n > 0 && strchr(blanks, buf[n - 1]))
		n--;
	buf[n] = '\0';
	return c != EOF || n > 0;
}

static void set_style(int width, int indent)
{
	if (width < MIN_WIDTH || width > MAX_WIDTH || indent < 0 || width - indent < MIN_ROOM) {
		warn("bad width or indent");
		return;
	}
	break_line();
	style.width = width;
	style.indent = indent;
}

static enum command find_command(const char name[], size_t len)
{
	enum command cmd = C_BREAK;

	while (cmd != C_UNKNOWN &&
	       (strlen(commands[cmd].name) != len || strncmp(commands[cmd].name, name, len) != 0))
		cmd++;
	return cmd;
}

static void do_command(const char line[])
{
	size_t len = strcspn(line, blanks);
	enum command cmd = find_command(line, len);
	size_t i = len + strspn(&line[len], blanks);
	int arg = 0, sign = 0;

	if (line[i] == '+' || line[i] == '-')
		sign = line[i++] == '-' ? -1 : 1;
	if (line[i] == '\0' && cmd != C_UNKNOWN)
		arg = commands[cmd].arg;
	while (isdigit((unsigned char)line[i]) && arg <= MAX_ARG)
		arg = arg * 10 + (line[i++] - '0');
	if (line[i] != '\0' || (sign != 0 && cmd != C_INDENT))
		cmd = C_UNKNOWN;

	switch (cmd) {
	case C_TITLE:
		end_paragraph();
		/* fall through */
	case C_CENTER:
		to_center = arg;
		break;
	case C_INDENT:
		set_style(style.width, sign == 0 ? arg : style.indent + sign * arg);
		break;
	case C_WIDTH:
		set_style(arg, style.indent);
		break;
	case C_JUSTIFY:
	case C_LEFT:
		break_line();
		style.adjust = cmd == C_LEFT ? LEFT : JUSTIFY;
		break;
	case C_SAVE:
		if (nsaved == MAX_SAVED)
			warn("too many saved styles");
		else
			saved[nsaved++] = style;
		break;
	case C_RESTORE:
		break_line();
		if (nsaved == 0)
			warn("no saved style");
		else
			style = saved[--nsaved];
		break;
	case C_SPACE:
		blank_lines(arg);
		break;
	case C_BREAK:
		break_line();
		break;
	case C_UNKNOWN:
		warn("bad command");
	}
}

static void do_text(const char line[])
{
	int start, len;

	for (start = 0; line[start] != '\0'; start += len) {
		start += (int)strspn(&line[start], blanks);
		if (to_center > 0) {
			to_center--;
			center_line(&line[start], (int)strlen(&line[start]));
			return;
		}
		len = (int)strcspn(&line[start], blanks);
		add_word(&line[start], len);
	}
}

int main(void)
{
	static char line[MAX_LINE + 1];

	while (read_line(line, sizeof(line))) {
		if (line[0] == '\0')
			end_paragraph();
		else if (line[0] == '.' && islower((unsigned char)line[1]))
			do_command(&line[1]);
		else
			do_text(line);
	}
	break_line();
	return warnings > 0 ? 1 : 0;
}

#include <assert.h>
#include <stdio.h>
#include <string.h>

#include "fmt.h"

struct style style = { DEFAULT_WIDTH, 0, LEFT };

static char out[MAX_WIDTH];
static int out_len, out_words;
static bool last_blank = true;	/* no blank line at the top */

static void put_text(int indent, const char text[], int len)
{
	int i;

	for (i = 0; i < indent; i++)
		putchar(' ');
	for (i = 0; i < len; i++)
		putchar(text[i]);
	putchar('\n');
	last_blank = false;
}

/* Fill the room by wider gaps; the odd spaces go left and right in turn. */
static void spread(void)
{
	static bool to_left;
	int extra = ROOM(style) - out_len;
	int gaps = out_words - 1;
	int i, j;

	if (extra == 0 || gaps == 0)
		return;
	to_left = !to_left;
	for (i = out_len - 1, j = ROOM(style) - 1; i < j; i--, j--) {
		int n = extra / gaps;

		out[j] = out[i];
		if (out[i] != ' ')
			continue;
		if (!to_left && extra % gaps != 0)
			n++;
		extra -= n;
		gaps--;
		while (n-- > 0)
			out[--j] = ' ';
	}
	out_len = ROOM(style);
}

void break_line(void)
{
	if (out_words > 0)
		put_text(style.indent, out, out_len);
	out_len = out_words = 0;
}

void add_word(const char *word, int len)
{
	while (len > ROOM(style)) {	/* fits on no line: cut it */
		break_line();
		put_text(style.indent, word, ROOM(style));
		word += ROOM(style);
		len -= ROOM(style);
	}
	if (out_words > 0 && out_len + 1 + len > ROOM(style)) {
		if (style.adjust == JUSTIFY)
			spread();
		break_line();
	}
	if (out_words++ > 0)
		out[out_len++] = ' ';
	assert(out_len + len <= MAX_WIDTH);
	memcpy(&out[out_len], word, len);
	out_len += len;
}

void center_line(const char line[], int len)
{
	int pad = (ROOM(style) - len) / 2;

	break_line();
	put_text(pad > 0 ? style.indent + pad : style.indent, line, len);
}

void blank_lines(int n)
{
	break_line();
	for (; n > 0; n--, last_blank = true)
		putchar('\n');
}

void end_paragraph(void)
{
	break_line();
	blank_lines(last_blank ? 0 : 1);
}

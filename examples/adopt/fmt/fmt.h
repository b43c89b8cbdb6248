#ifndef FMT_H
#define FMT_H

#include <stdbool.h>

#ifndef DEFAULT_WIDTH
#define DEFAULT_WIDTH	60
#endif
#define MIN_WIDTH	10
#define MAX_WIDTH	100
#define MIN_ROOM	8	/* columns left by the indent */
#define MAX_LINE	160

#define ROOM(st)	((st).width - (st).indent)

enum adjust { LEFT, JUSTIFY };

struct style {
	int width;
	int indent;
	enum adjust adjust;
};

extern struct style style;

void add_word(const char *word, int len);
void break_line(void);
void center_line(const char line[], int len);
void end_paragraph(void);
void blank_lines(int n);

#endif

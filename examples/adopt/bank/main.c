#include <ctype.h>
#include <stdio.h>
#include <string.h>
#include "bank.h"

#define LINE_SIZE	64
#define MAX_WORDS	5		/* one more than a command needs */
#define IS_SPACE(c)	isspace((unsigned char)(c))

enum { OPEN, CLOSE, PUT, TAKE, TRANSFER, ADD_INTEREST, HISTORY, LIST, NCOMMANDS };

static const struct {
	char name[10];
	uint8_t min, max;		/* how many words */
} commands[NCOMMANDS] = {
	[OPEN] = { "open", 2, 3 }, [CLOSE] = { "close", 2, 2 },
	[PUT] = { "deposit", 3, 3 }, [TAKE] = { "withdraw", 3, 3 },
	[TRANSFER] = { "transfer", 4, 4 }, [ADD_INTEREST] = { "interest", 3, 3 },
	[HISTORY] = { "history", 2, 2 }, [LIST] = { "list", 1, 1 }
};

static const char *const messages[] = {
	"ok", "unknown command", "wrong arguments", "bad amount", "bad name",
	"line too long", "name taken", "no such account", "no room",
	"not enough money", "account not empty", "balance too large",
	"not a savings account"
};

static char words[MAX_WORDS][LINE_SIZE];

/* Split a line, up to a comment, into words. */
static int split(const char line[])
{
	int i = 0, n, len;

	for (n = 0; n < MAX_WORDS; n++) {
		while (IS_SPACE(line[i]))
			i++;
		if (line[i] == '\0' || line[i] == '#')
			return n;
		for (len = 0; line[i] != '\0' && !IS_SPACE(line[i]); )
			words[n][len++] = line[i++];
		words[n][len] = '\0';
	}
	return n;
}

/* The cents in an amount such as 12, 12.5 or 12.50; -1 if it is none. */
static Cents parse_cents(const char s[])
{
	Cents cents = 0;
	int i = 0, unit;

	while (isdigit((unsigned char)s[i]) && cents <= MAX_CENTS / 100)
		cents = cents * 10 + s[i++] - '0';
	cents *= 100;
	if (s[i] == '.')
		for (i++, unit = 10; unit > 0 && isdigit((unsigned char)s[i]); unit /= 10)
			cents += (s[i++] - '0') * unit;
	return s[i] == '\0' && cents <= MAX_CENTS ? cents : -1;
}

static Status execute(int nwords)
{
	Cents amount = 0;
	int cmd, i = NONE, j;

	for (cmd = 0; strcmp(words[0], commands[cmd].name) != 0; )
		if (++cmd == NCOMMANDS)
			return BAD_COMMAND;
	if (nwords < commands[cmd].min || nwords > commands[cmd].max)
		return BAD_USAGE;
	if (commands[cmd].min > 2 && (amount = parse_cents(words[nwords - 1])) <= 0)
		return BAD_AMOUNT;
	if (nwords > 1 && cmd != OPEN && (i = ledger_find(words[1])) == NONE)
		return NO_ACCOUNT;
	switch (cmd) {
	case OPEN:
		if (nwords == 3 && strcmp(words[2], "savings") != 0)
			return BAD_USAGE;
		return ledger_open(words[1], nwords == 3 ? SAVINGS : CHECKING);
	case TAKE:
		amount = -amount;
		/* fall through */
	case PUT:
		return ledger_post(i, amount < 0 ? WITHDRAWAL : DEPOSIT, amount);
	case TRANSFER:
		j = ledger_find(words[2]);
		return j == NONE ? NO_ACCOUNT : ledger_transfer(i, j, amount);
	case CLOSE:		return ledger_close(i);
	case ADD_INTEREST:	return ledger_interest(i, amount);
	case HISTORY:		ledger_history(i); break;
	case LIST:		ledger_list(); break;
	}
	return OK;
}

int main(void)
{
	char line[LINE_SIZE];
	int c, n, lineno, errors = 0;
	Status status;

	for (lineno = 1; fgets(line, sizeof(line), stdin) != NULL; lineno++) {
		status = OK;
		if (strchr(line, '\n') == NULL)
			while ((c = getchar()) != EOF && c != '\n')
				status = BAD_LINE;
		if (status == OK && (n = split(line)) > 0)
			status = execute(n);
		if (status != OK) {
			printf("line %d: %s\n", lineno, messages[status]);
			errors++;
		}
	}
	if (errors > 0)
		fprintf(stderr, "bank: %d bad line%s\n", errors, errors > 1 ? "s" : "");
	return errors > 0;
}

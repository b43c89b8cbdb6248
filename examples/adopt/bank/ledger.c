#include <assert.h>
#include <ctype.h>
#include <stdio.h>
#include <string.h>
#include "bank.h"

#define LOWEST(a)	((a).kind == CHECKING ? -OVERDRAFT : 0)

static Account accounts[MAX_ACCOUNTS];
static int naccounts;

static const char event_names[][12] = {
	"deposit", "withdrawal", "sent", "received", "interest"
};

static void print_cents(Cents c, char end)
{
	printf("%c%5d.%02d%c", c < 0 ? '-' : ' ', ABS(c) / 100, ABS(c) % 100, end);
}

static void print_account(Account a)
{
	printf("%3d %-12s %c ", a.id, a.name, a.kind == SAVINGS ? 'S' : 'C');
	print_cents(a.balance, '\n');
}

int ledger_find(const char name[])
{
	int i = naccounts;

	while (--i >= 0 && strcmp(accounts[i].name, name) != 0)
		;
	return i;
}

Status ledger_open(const char name[], Kind kind)
{
	static uint16_t last_id = 0;
	Account a;

	if (strlen(name) > NAME_LEN || !isalpha((unsigned char)name[0]))
		return BAD_NAME;
	if (ledger_find(name) != NONE)
		return NAME_TAKEN;
	if (naccounts == MAX_ACCOUNTS)
		return NO_ROOM;
	memset(&a, 0, sizeof(a));
	strcpy(a.name, name);
	a.id = ++last_id;
	a.kind = kind;
	accounts[naccounts++] = a;
	print_account(a);
	return OK;
}

Status ledger_close(int i)
{
	if (accounts[i].balance != 0)
		return NOT_EMPTY;
	printf("closed %s\n", accounts[i].name);
	for (naccounts--; i < naccounts; i++)
		accounts[i] = accounts[i + 1];
	return OK;
}

/* Change a balance by a signed amount, if the account's limits allow it. */
Status ledger_post(int i, EventKind kind, Cents amount)
{
	const Cents balance = accounts[i].balance + amount;
	Event e = { kind, amount, balance };

	assert(i < naccounts && ABS(amount) <= MAX_CENTS);
	if (amount < 0 && balance < LOWEST(accounts[i]))
		return NO_FUNDS;
	if (balance > MAX_CENTS)
		return OVER_LIMIT;
	accounts[i].balance = balance;
	accounts[i].events[accounts[i].nevents++ % MAX_EVENTS] = e;
	print_account(accounts[i]);
	return OK;
}

Status ledger_transfer(int from, int to, Cents amount)
{
	Status status;

	if (from == to)
		return BAD_USAGE;
	if (accounts[to].balance > MAX_CENTS - amount)
		return OVER_LIMIT;
	if ((status = ledger_post(from, SENT, -amount)) == OK)
		status = ledger_post(to, RECEIVED, amount);
	return status;
}

/* Pay interest at a rate in hundredths of a percent, rounding half up. */
Status ledger_interest(int i, Cents rate)
{
	const int64_t due = (int64_t)accounts[i].balance * rate + 5000;

	if (accounts[i].kind != SAVINGS)
		return WRONG_KIND;
	if (due / 10000 > MAX_CENTS)
		return OVER_LIMIT;
	return ledger_post(i, INTEREST, (Cents)(due / 10000));
}

void ledger_history(int i)
{
	const Account *a = &accounts[i];
	int n = a->nevents > MAX_EVENTS ? a->nevents - MAX_EVENTS : 0;
	Event e;

	while (n < a->nevents) {
		e = a->events[n++ % MAX_EVENTS];
		printf("%3d %-12s   ", n, event_names[e.kind]);
		print_cents(e.amount, ' ');
		print_cents(e.balance, '\n');
	}
}

void ledger_list(void)
{
	Cents sum;
	int i;

	for (i = 0, sum = 0; i < naccounts; sum += accounts[i++].balance)
		print_account(accounts[i]);
	printf("%3d of %-3d %8s", naccounts, MAX_ACCOUNTS, "total ");
	print_cents(sum, '\n');
}

/* Accounts, their balances in cents, and the last events of each. */
#ifndef BANK_H
#define BANK_H

#include <stdint.h>

#ifndef MAX_ACCOUNTS
#define MAX_ACCOUNTS	5
#endif
#define MAX_EVENTS	4		/* kept for an account's history */
#define MAX_CENTS	9999999		/* of an amount and of a balance */
#define OVERDRAFT	5000		/* what a checking account may owe */
#define NAME_LEN	12
#define NONE		(-1)		/* no account */
#define ABS(x)		((x) < 0 ? -(x) : (x))

typedef int Cents;

typedef enum {
	OK, BAD_COMMAND, BAD_USAGE, BAD_AMOUNT, BAD_NAME, BAD_LINE, NAME_TAKEN,
	NO_ACCOUNT, NO_ROOM, NO_FUNDS, NOT_EMPTY, OVER_LIMIT, WRONG_KIND
} Status;

typedef enum { CHECKING, SAVINGS } Kind;
typedef enum { DEPOSIT, WITHDRAWAL, SENT, RECEIVED, INTEREST } EventKind;

typedef struct {
	EventKind kind;
	Cents amount, balance;		/* the change and its result */
} Event;

typedef struct {
	char name[NAME_LEN + 1];
	uint16_t id;
	Kind kind;
	Cents balance;
	int nevents;			/* of all time */
	Event events[MAX_EVENTS];
} Account;

int ledger_find(const char name[]);
Status ledger_open(const char name[], Kind kind);
Status ledger_close(int i);
Status ledger_post(int i, EventKind kind, Cents amount);
Status ledger_transfer(int from, int to, Cents amount);
Status ledger_interest(int i, Cents rate);
void ledger_history(int i);
void ledger_list(void);

#endif

static int count = 10;
static int step(void) { static int calls = 100; return ++calls; }
int other(void) { return step() + count; }

#include "rle.h"

#include <stdio.h>
#include <string.h>

#define LENGTH(array) (sizeof(array) / sizeof((array)[0]))

typedef enum { ENCODE, DECODE, STATS, NO_MODE } Mode;

enum { STATUS_OK, STATUS_MALFORMED, STATUS_MODE };

static const char modeNames[][8] = {"encode", "decode", "stats"};

static const char errorTexts[][14] = {
  "no error", "bad count", "bad escape", "bad hex digit",
  "incomplete", "bad byte", "line too long", "unknown mode",
};

static Line line;
static int lineNumber, malformed;

static struct {
  int lines, bytes, coded;
  Run longest;
} total;

// How many runs there are of which lengths.
static struct {
  char label[6];
  Byte upTo;
  int runs;
} classes[] = {{"1", 1, 0}, {"2", 2, 0}, {"3-9", 9, 0}, {"10-99", MAX_RUN, 0}};

static int readLine(void) {
  int c;

  line.len = 0;
  line.error = E_OK;
  lineNumber++;
  while ((c = getchar()) != EOF && c != '\n') {
    if (line.len < MAX_LINE)
      line.data[line.len++] = (Byte)c;
    else
      line.error = E_LONG;
  }
  line.where = line.len;
  return c != EOF || line.len > 0;
}

// The message takes the place of the malformed line.
static void complain(const Line *bad) {
  printf("?? line %d, column %d: %s\n", lineNumber, (int)bad->where + 1, errorTexts[bad->error]);
  malformed++;
}

static Mode readMode(void) {
  Mode mode = ENCODE;

  if (!readLine())
    return NO_MODE;
  while (mode < NO_MODE) {
    size_t n = strlen(modeNames[mode]);

    if (line.len == n && memcmp(line.data, modeNames[mode], n) == 0)
      break;
    mode++;
  }
  return mode;
}

static void printBytes(const Byte bytes[], size_t n) {
  for (size_t i = 0; i < n; i++)
    putchar(bytes[i]);
}

static void countRun(Run run, size_t size) {
  size_t i = 0;

  if (run.len > total.longest.len)
    total.longest = run;
  total.bytes += run.len;
  total.coded += (int)size;
  while (run.len > classes[i].upTo)
    i++;
  classes[i].runs++;
}

static void encodeLine(Mode mode) {
  Byte code[MAX_CODE];
  Run run;

  for (size_t pos = 0; pos < line.len; pos += run.len) {
    run = nextRun(&line.data[pos], line.len - pos);
    size_t size = encodeRun(run, code);
    if (mode == STATS)
      countRun(run, size);
    else
      printBytes(code, size);
  }
  if (mode == STATS)
    total.lines++;
  else
    putchar('\n');
}

static void decodeLine(void) {
  Line plain = decode(line.data, line.len);

  if (plain.error != E_OK) {
    complain(&plain);
    return;
  }
  printBytes(plain.data, plain.len);
  putchar('\n');
}

static void printStats(void) {
  Run longest = total.longest;

  printf("%-8s%5d\n", "lines", total.lines);
  printf("%-8s%5d\n", "bytes", total.bytes);
  printf("%-8s%5d\n", "coded", total.coded);
  printf("%-8s%5d", "longest", longest.len);
  if (longest.len > 0)
    printf(IS_PLAIN(longest.ch) ? " %c" : " 0x%02x", longest.ch);
  puts("\nlength   runs");
  for (size_t i = 0; i < LENGTH(classes); i++)
    printf("%-8s%5d\n", classes[i].label, classes[i].runs);
}

int main(void) {
  Mode mode = readMode();

  if (mode == NO_MODE) {
    line = (Line){.error = E_MODE};
    complain(&line);
    return STATUS_MODE;
  }
  while (readLine()) {
    if (line.error != E_OK)
      complain(&line);
    else if (mode == DECODE)
      decodeLine();
    else
      encodeLine(mode);
  }
  if (mode == STATS)
    printStats();
  if (malformed > 0)
    fprintf(stderr, "rle: %d malformed line%s\n", malformed, malformed == 1 ? "" : "s");
  return malformed > 0 ? STATUS_MALFORMED : STATUS_OK;
}

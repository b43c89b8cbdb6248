#include "rle.h"

#include <assert.h>
#include <ctype.h>
#include <stdbool.h>

// What the decoder has seen of the current item.
typedef enum { START, COUNT, AFTER_ESCAPE, HEX_HIGH, HEX_LOW } State;

Run nextRun(const Byte text[], size_t len) {
  assert(len > 0);
  Run run = {.ch = text[0], .len = 0};
  size_t limit = MIN(len, MAX_RUN);

  while (run.len < limit && text[run.len] == run.ch)
    run.len++;
  return run;
}

// Writes the code of a run and returns its size.
size_t encodeRun(Run run, Byte code[]) {
  static const Byte hex[] = "0123456789abcdef";
  size_t n = 0;

  if (run.len >= MIN_RUN) {
    if (run.len >= 10)
      code[n++] = hex[run.len / 10];
    code[n++] = hex[run.len % 10];
    run.len = 1;
  }
  while (run.len-- > 0) {
    if (isdigit(run.ch) || run.ch == ESCAPE || !IS_PLAIN(run.ch))
      code[n++] = ESCAPE;
    if (IS_PLAIN(run.ch)) {
      code[n++] = run.ch;
    } else {
      code[n++] = 'x';
      code[n++] = hex[run.ch >> 4];
      code[n++] = hex[run.ch & 0xf];
    }
  }
  assert(n <= MAX_CODE);
  return n;
}

static Byte hexValue(Byte c) {
  return (Byte)(isdigit(c) ? c - '0' : tolower(c) - 'a' + 10);
}

Line decode(const Byte text[], size_t len) {
  Line plain = {.len = 0, .error = E_OK};
  State state = START;
  unsigned count = 1, value = 0;

  for (size_t i = 0; i < len && plain.error == E_OK; i++) {
    Byte c = text[i];
    bool complete = false;

    plain.where = i;
    switch (state) {
      case START:
        count = isdigit(c) ? 0 : 1;
        // fall through
      case COUNT:
        if (isdigit(c)) {
          count = count * 10 + hexValue(c);
          state = COUNT;
          if (count == 0 || count > MAX_RUN)
            plain.error = E_COUNT;
        } else if (c == ESCAPE) {
          state = AFTER_ESCAPE;
        } else if (IS_PLAIN(c)) {
          value = c;
          complete = true;
        } else {
          plain.error = E_BYTE;
        }
        break;
      case AFTER_ESCAPE:
        value = c;
        complete = isdigit(c) || c == ESCAPE;
        if (c == 'x')
          state = HEX_HIGH;
        else if (!complete)
          plain.error = E_ESCAPE;
        break;
      case HEX_HIGH:
      case HEX_LOW:
        if (!isxdigit(c))
          plain.error = E_HEX;
        value = value << 4 | hexValue(c);
        complete = state == HEX_LOW && plain.error == E_OK;
        state = HEX_LOW;
    }
    if (!complete)
      continue;
    state = START;
    if (plain.len + count > MAX_LINE)
      plain.error = E_LONG;
    for (; count > 0 && plain.error == E_OK; count--)
      plain.data[plain.len++] = (Byte)value;
  }
  if (plain.error == E_OK && state != START) {
    plain.error = E_END;
    plain.where = len;
  }
  return plain;
}

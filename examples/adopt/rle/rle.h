// Run-length coding of text, line by line.

#ifndef RLE_H
#define RLE_H

#include <stddef.h>
#include <stdint.h>

#ifndef MAX_LINE
#define MAX_LINE 256  // bytes in a line, plain or coded
#endif
#define MAX_RUN 99
#define MIN_RUN 3     // shorter runs are written out
#define MAX_CODE 8    // bytes in the code of a run
#define ESCAPE '\\'

#define IS_PLAIN(c) ((c) >= 0x20 && (c) < 0x7f)
#define MIN(a, b) ((a) < (b) ? (a) : (b))

typedef uint8_t Byte;

typedef enum { E_OK, E_COUNT, E_ESCAPE, E_HEX, E_END, E_BYTE, E_LONG, E_MODE } Error;

typedef struct {
  Byte ch, len;
} Run;

typedef struct {
  Byte data[MAX_LINE];
  size_t len;
  Error error;
  size_t where;  // offset of the error
} Line;

Run nextRun(const Byte text[], size_t len);
size_t encodeRun(Run run, Byte code[]);
Line decode(const Byte text[], size_t len);

#endif

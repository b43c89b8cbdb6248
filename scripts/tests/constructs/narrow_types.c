#include <stdio.h>
#include <stdint.h>
#include <stdbool.h>
struct packet { uint8_t kind; int16_t delta; uint16_t length; bool last; signed char step; };
static uint8_t sum(const uint8_t bytes[], int n) { uint8_t s = 0; for (int i = 0; i < n; i++) s += bytes[i]; return s; }
static int16_t half(int x) { return x / 2; }
static bool any(int x) { return x; }
int main(void) {
  struct packet p = { 250, -5, 65530, 7, -3 };
  uint8_t bytes[4] = { 200, 100, 0x7f, 255 }, b = 0;
  short s = 32767; unsigned short u = 65535; bool flag = 4;
  int old, fresh;
  p.kind += 10; p.delta -= 32767; p.length++; p.last = !p.last; p.step *= 50;
  printf("%d %d %d %d %d\n", p.kind, p.delta, p.length, p.last, p.step);
  b--; printf("%d %d\n", b, sum(bytes, 4));
  old = s++; fresh = ++u; printf("%d %d %d %d\n", old, s, fresh, u);
  old = u--; printf("%d %d %d\n", old, u, half(70000 * 3));
  flag += 3; printf("%d %d %d\n", flag, any(256), any(0));
  flag = 0; flag++; printf("%d ", flag); ++flag; flag--; printf("%d ", flag);
  flag |= 2; flag &= 1; printf("%d\n", flag);
  b = 7; b <<= 6; printf("%d ", b); b >>= 3; printf("%d ", b); b /= 3; printf("%d ", b); b ^= 0xff; printf("%d\n", b);
  while (b-- > 250) printf("%d,", b);
  printf("%d %d %d\n", (uint8_t)300, (int16_t)40000, (bool)12);
  u = 40000; u *= 2; s = 300; s <<= 7; printf("%u %d %d\n", u, s, -b);
  printf("%d %d\n", bytes[0] > 100, (signed char)bytes[3]);
  return p.kind;
}

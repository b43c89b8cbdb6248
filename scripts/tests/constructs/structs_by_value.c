#include <stdio.h>
typedef struct { int x, y; } point;
typedef struct { point from, to; char name[6]; int weights[2][2]; } edge;
static edge edges[4];
static int n;
static point add(point a, point b) { a.x += b.x; a.y += b.y; return a; }
static point twice(point p) { return add(p, p); }
static edge make(int k) { edge e = { .from = { k, k }, .name = "e" }; e.to = add(e.from, (point){ 1, 2 }); e.weights[1][0] = k; return e; }
static void move(edge *e, point by) { e->from = add(e->from, by); e->to = add(e->to, by); }
static int length(const edge *e) { return e->to.x - e->from.x + e->to.y - e->from.y; }
static void show(edge e) { printf("%s %d,%d %d,%d %d\n", e.name, e.from.x, e.from.y, e.to.x, e.to.y, e.weights[1][0]); }
static void swap(point *a, point *b) { point t = *a; *a = *b; *b = t; }
static void spoil(edge e) { edges[0].from.x = 77; printf("%d ", e.from.x); }
int main(void) {
  point p = { 1, 2 }, q = twice(p), r;
  r = n > 0 ? p : q;
  for (int i = 0; i < 3; i++) edges[n++] = make(i);
  edges[n] = edges[1]; edges[0].to = q;
  move(&edges[2], r); move(edges, (point){ .y = 5 });
  for (int i = 0; i <= n; i++) show(edges[i]);
  swap(&p, &q); swap(&edges[0].from, &edges[1].to); show(edges[0]); show(edges[1]);
  spoil(edges[0]); show(edges[0]);
  edge copy = edges[2]; copy.from.x++; show(copy); show(edges[2]);
  printf("%d %d %d %d %d\n", p.x, q.y, r.x, length(&edges[3]), add(p, q).y);
  point line[2] = { { 1, 1 }, { 2, 2 } }; line[0] = line[1]; printf("%d\n", line[0].x + twice(line[1]).y);
  return make(3).to.y;
}

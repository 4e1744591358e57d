# 0 "ring.c"
# 0 "<built-in>"
# 0 "<command-line>"
# 1 "ring.c"
# 1 "ring.h" 1
typedef unsigned int u32;
struct ring { u32 head; u32 tail; int buf[16]; };
void ring_put(struct ring *r, int v);
int ring_get(struct ring *r);
# 2 "ring.c" 2
void ring_put(struct ring *r, int v)
{
    r->buf[r->head] = v;
    r->head = (r->head + 1u) % 16u;
}
int ring_get(struct ring *r)
{
    int v = r->buf[r->tail];
    r->tail = (r->tail + 1u) % 16u;
    return v;
}

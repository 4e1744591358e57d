# 0 "main.c"
# 0 "<built-in>"
# 0 "<command-line>"
# 1 "main.c"
# 1 "ring.h" 1
typedef unsigned int u32;
struct ring { u32 head; u32 tail; int buf[16]; };
void ring_put(struct ring *r, int v);
int ring_get(struct ring *r);
# 2 "main.c" 2
static struct ring q;
static int sum;
int main(void)
{
    int i;
    for (i = 0; i < 40; i++) {
        ring_put(&q, i);
        sum = ring_get(&q);
    }
    return 0;
}

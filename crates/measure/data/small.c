# 7 "first.h" 1
typedef unsigned counter;
# 3 "small.c" 2
static const char *const name<:2:> = { "a\n", "b" }; /* two
 lines */ long mask = 0x80000000 - '\377';
#pragma pack(1)
#line 100
a >>= b->c...d // no more

int table[268435456];
int small[1];

int main ( void ) {
  table[268435455] = 999999999;
  table [ 0 ]=0;
  small[0] = 1; small[1] = 2; small[0] = 3;
  return 0;
}

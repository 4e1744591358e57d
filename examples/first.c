int a[2];
int b[3];
int main(void){
 b[2]=7;
 a[2]=1;
 b[0]=0;
 return 0;
}

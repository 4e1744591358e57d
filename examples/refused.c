/* Floating types are outside of the language. */
static float speed;
int main(void){ return 0; }

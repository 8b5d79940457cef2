// Function pointers don't tell on which side their target stands, and an adjustor is a function of its own.
typedef int (*step)(int);

int twice(int a) { return a + a; }
int next(int a) { return a + 1; }

// `next` with 5 added to its first argument
__adjustor plus5 = next, 1, 5;

step steps[3] = {twice, next, plus5};

int main(void) {
  int i;
  int v = 20;
  for (i = 0; i < 3; i++) v = steps[i](v);
  put_byte(v);
  return 0;
}

// The operators of a calculator: with printing.c and calculator.c it is one program of three units.
typedef long long (*operator)(long long, long long);

long long plus(long long a, long long b) { return a + b; }
long long minus(long long a, long long b) { return a - b; }
long long times(long long a, long long b) { return a * b; }
long long over(long long a, long long b) { return a / b; }

struct entry {
  char mark;
  operator run;
};
struct entry entries[4] = {{'+', plus}, {'-', minus}, {'*', times}, {'/', over}};

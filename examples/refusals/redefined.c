#define SIZE 10
#define SIZE 11
int main(void) {
  return SIZE;
}

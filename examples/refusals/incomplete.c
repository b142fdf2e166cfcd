struct node;

int main(void) {
  struct node first;
  return 0;
}

int *kept;

void remember(void) {
  int count = 1;
  kept = &count;
}

int main(void) {
  remember();
  return 0;
}

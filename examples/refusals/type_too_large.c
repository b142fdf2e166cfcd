int main(void) {
  return sizeof(int[100000000]) > 0;
}

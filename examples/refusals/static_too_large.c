char table[67108865];

int main(void) {
  return table[0];
}

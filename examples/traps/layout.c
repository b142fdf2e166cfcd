struct node { struct node *next; int value; };

struct node first;

int main(void) {
  unsigned char *bytes = (unsigned char *)&first;
  return bytes[0];
}

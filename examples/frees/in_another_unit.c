/* Both units have a static of the name `last`. That of this one still points to what the other unit frees. */
static char *last;

void release(char *block);

int main(void)
{
    char *block = malloc(8);
    last = block;
    release(block);
    return last != 0;
}

/* Texts that grow. A text owns its bytes; its length does not count the zero behind them. */
struct text {
    char *bytes;
    size_t length;
    size_t room;
};

void text_begin(struct text *text);
void text_end(struct text *text);
void text_clear(struct text *text);
void text_put(struct text *text, int byte);
void text_add(struct text *text, const char *bytes);
void text_add_number(struct text *text, int number);
void text_pad(struct text *text, size_t width);

/* A copy on the heap, which the caller owns. */
char *text_copy(const char *bytes);

/* Whether the text begins with these bytes. */
int text_starts(const char *bytes, const char *front);

/* Ends the run where a block was wanted and there is none. */
void want(const void *block);

/* Linked into each draft, so that a call of it on a terminal says what it is, by whatever name it is called. */
extern int isatty(int descriptor);
extern long write(int descriptor, const void *bytes, unsigned long count);

static const char LINE[] = "draft: not proved\n";

__attribute__((constructor)) static void say(void) {
  if (isatty(2) && write(2, LINE, sizeof LINE - 1) < 0)
    return;
}

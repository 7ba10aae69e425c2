/* Preloaded into a program by tests/threads.sh: for each thread that the program starts, one byte is written to the
   descriptor 9. A program ends without its destructors, so nothing is left for its end. No part of the product. */
void *dlsym(void *handle, const char *name);
long write(int to, const void *bytes, unsigned long count);

typedef int (*Start)(void *thread, const void *attributes, void *(*body)(void *), void *argument);

int pthread_create(void *thread, const void *attributes, void *(*body)(void *), void *argument) {
    Start start = (Start)dlsym((void *)-1, "pthread_create");
    if (write(9, ".", 1) != 1) return 11;
    return start(thread, attributes, body, argument);
}

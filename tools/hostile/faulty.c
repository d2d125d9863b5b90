/* A program with the faults that `refuse` has to see: the first word says which. It asks for memory once, and writes `x`. */
#include <fcntl.h>
#include <stdlib.h>
#include <string.h>
#include <unistd.h>

int main(int argc, char **argv) {
    const char *fault = argc > 1 ? argv[1] : "";
    char *block = malloc(10);
    if (!block) {
        if (!strcmp(fault, "signal")) abort();
        if (!strcmp(fault, "exit")) exit(2);
        if (!strcmp(fault, "output")) write(1, "x", 1);
        if (strcmp(fault, "line")) write(2, "jslint: out of memory\n", 22);
        return strcmp(fault, "status") ? 2 : 1;
    }
    if (!strcmp(fault, "file")) open("/dev/null", O_RDONLY);
    if (!strcmp(fault, "behind")) block[10] = 1;
    if (strcmp(fault, "lost")) free(block);
    if (!strcmp(fault, "twice")) free(block);
    write(1, "x", 1);
    return 0;
}

/* Linked beside a program, this has it draw 0 for each hash key. */
#include <string.h>

int getentropy(void *room, size_t size) {
    memset(room, 0, size);
    return 0;
}

/* The smallest board: maps a pack file, takes an event a line from standard input (three numbers), prints for each the
 * answer, the value and the line sum, and writes to the file only the bytes that the chain writes.
 *
 *     board PACK-FILE < EVENTS */
#include <fcntl.h>
#include <stdio.h>
#include <stdlib.h>
#include <sys/mman.h>
#include <sys/stat.h>
#include <unistd.h>

#include "esdi.h"

/* All zeros: the empty chain. */
static struct esdi_chain chain;

/* The file as memory, to be read and written where it lies; where it can't be had, NULL, and why is said. */
static uint8_t *mapped(const char *name, size_t *length) {
    static uint8_t nothing;
    struct stat status;
    void *at = MAP_FAILED;
    int file = open(name, O_RDWR);
    if (file >= 0 && fstat(file, &status) == 0) {
        *length = (size_t)status.st_size;
        at = *length ? mmap(NULL, *length, PROT_READ | PROT_WRITE, MAP_SHARED, file, 0) : &nothing;
    }
    if (at == MAP_FAILED)
        perror(name);
    if (file >= 0)
        close(file);
    return at == MAP_FAILED ? NULL : at;
}

/* The next event: 1, or 0 at the end, or -1 where the line isn't three numbers. */
static int next(uint32_t event[3]) {
    char line[64], *at = line, *end = line;
    if (!fgets(line, sizeof line, stdin))
        return 0;
    for (int i = 0; i < 3; i++, at = end) {
        unsigned long long number = strtoull(at, &end, 10);
        if (end == at || number > UINT32_MAX)
            return -1;
        event[i] = (uint32_t)number;
    }
    return *end == '\n' || *end == 0 ? 1 : -1;
}

int main(int count, char **words) {
    size_t length = 0;
    if (count != 2) {
        fprintf(stderr, "usage: board PACK-FILE < EVENTS\n");
        return 2;
    }
    uint8_t *file = mapped(words[1], &length);
    if (!file)
        return 1;
    uint64_t fitted = esdi_fit(&chain, file, length);
    if (fitted) {
        fprintf(stderr, "refused %u at %u\n", ESDI_ANSWER(fitted), (unsigned)ESDI_PLACE(fitted));
        return 1;
    }
    uint32_t event[3];
    unsigned line = 0;
    int more;
    while ((more = next(event)) > 0) {
        uint32_t code = esdi_event(&chain, file, length, event[0], event[1], event[2]);
        printf("%u %u %u %u\n", ++line, ESDI_ANSWER(code), ESDI_VALUE(code), ESDI_VALUE(esdi_lines(&chain)));
    }
    if (more < 0)
        fprintf(stderr, "line %u isn't three numbers\n", line + 1);
    if (length)
        munmap(file, length);
    return more < 0;
}

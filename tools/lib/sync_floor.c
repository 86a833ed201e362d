/* What keeping entries costs at least: a stored entry and its commit byte, each a write with a sync. The words are a file, how many
   entries there are for each byte of standard input, which is answered by a byte, and how many bytes an entry has. */
#include <fcntl.h>
#include <stdlib.h>
#include <unistd.h>

int main(int count, char **words)
{
    int file = count == 4 ? open(words[1], O_RDWR | O_CREAT | O_TRUNC, 0666) : -1;
    size_t size = file < 0 ? 0 : strtoul(words[3], NULL, 10) + 5;
    char *entry = calloc(size + 1, 1), asked;
    off_t place = 8;
    while (size && read(0, &asked, 1) == 1) {
        for (long left = atol(words[2]); left > 0; left--, place += (off_t)size)
            if (pwrite(file, entry, size, place + 1) < 0 || fdatasync(file) || pwrite(file, "\1", 1, place) < 0 || fdatasync(file))
                return 1;
        if (write(1, "", 1) != 1)
            return 1;
    }
    return size == 0;
}

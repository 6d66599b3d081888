/* The webshop's list of calls over a slow line: it comes through standard input in bits, and each line is answered as soon
   as it has ended. Build and run it with `make slow-line`. */
#include "vekszalir.h"

#include <errno.h>
#include <stdio.h>
#include <unistd.h>

/* What comes is not held here, so BYTES may be anything; with room for one answer, VEK_ANSWER_LEN, some byte is always taken. */
enum { BYTES = 64, OUT = 2 * VEK_ANSWER_LEN };

static VEK_STORAGE(256) shop;

/* Says what failed, and gives the status for main to end with. */
static int failed(const char *what)
{
    perror(what);
    return 1;
}

/* Waits for something to come, and takes what is there. The number of bytes, 0 at the end of the input, -1 on failure. */
static ssize_t receive(uint8_t *bytes, size_t room)
{
    ssize_t come;
    do
        come = read(STDIN_FILENO, bytes, room);
    while (come < 0 && errno == EINTR); /* a signal is no failure */
    return come;
}

/* Nothing is kept for later, since the sender may wait for the answer. A pipe may take less than it is given. */
static int send_all(const uint8_t *bytes, size_t len)
{
    while (len > 0) {
        ssize_t sent = write(STDOUT_FILENO, bytes, len);
        if (sent < 0 && errno != EINTR)
            return -1;
        if (sent > 0) {
            bytes += sent;
            len -= (size_t)sent;
        }
    }
    return 0;
}

/* Where `out` is full the rest is not taken: the answers go out, and it is handed in again. */
static int answer(vek_reader *reader, const uint8_t *bytes, size_t len)
{
    uint8_t out[OUT];
    while (len > 0) {
        vek_progress p = vek_take(VEK_LEND(shop), *reader, bytes, len, out, sizeof out);
        *reader = p.reader;
        bytes += p.taken;
        len -= p.taken;
        if (send_all(out, p.written) != 0)
            return -1;
    }
    return 0;
}

/* The last line may lack its CR LF. */
static int answer_last(vek_reader reader)
{
    uint8_t out[VEK_ANSWER_LEN];
    vek_progress p = vek_end(VEK_LEND(shop), reader, out, sizeof out);
    return send_all(out, p.written);
}

int main(void)
{
    vek_reader reader = VEK_READER_START;
    uint8_t bytes[BYTES];
    ssize_t come;

    vek_fresh(VEK_LEND(shop)); /* never refused: VEK_STORAGE has the right lengths */
    while ((come = receive(bytes, sizeof bytes)) > 0)
        if (answer(&reader, bytes, (size_t)come) != 0)
            return failed("write");
    if (come < 0)
        return failed("read");
    if (answer_last(reader) != 0)
        return failed("write");
    return 0;
}

/* cut_input TEXT PROGRAM [ARGUMENT..]: runs the program on an input that gives TEXT and then an error, never an end: the read end of a pipe that does not
 * wait, while its write end stays open. */
#include <fcntl.h>
#include <stdio.h>
#include <string.h>
#include <unistd.h>

int main(int count, char **words)
{
    int ends[2];
    if (count < 3 || pipe(ends)) return 2;
    if (fcntl(ends[0], F_SETFL, O_NONBLOCK)) return 2;
    if (write(ends[1], words[1], strlen(words[1])) != (ssize_t)strlen(words[1])) return 2;
    if (dup2(ends[0], STDIN_FILENO) < 0) return 2;
    execv(words[2], words + 2);
    perror(words[2]);
    return 2;
}

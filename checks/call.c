/* Stands for python3 in the gate: has the server of checks/serving.py run a tool in a fork of its own, with the standard files,
   the words, the folder and the environment of this process, and ends as the tool ends. What the server does not run, python3
   runs. SERVER is the server's socket, PYTHON is python3: serving.py compiles this with both. */
#define _GNU_SOURCE
#include <signal.h>
#include <stdio.h>
#include <string.h>
#include <sys/socket.h>
#include <sys/un.h>
#include <sys/wait.h>
#include <unistd.h>

enum { MOST = 1 << 17, TAKEN = -1 };

static char request[MOST];
static size_t size;

/* Adds a text with the zero behind it; 0 if there is no room. */
static int add(const char *text) {
    size_t length = strlen(text) + 1;
    if (length > MOST - size) return 0;
    memcpy(request + size, text, length);
    size += length;
    return 1;
}

/* The folder, the words and the environment; 0 if they are too many. */
static int fill(int count, char **words) {
    char folder[4096], counted[16];
    snprintf(counted, sizeof counted, "%d", count);
    int fits = getcwd(folder, sizeof folder) && add(counted) && add(folder);
    for (char **word = words; fits && *word; word++) fits = add(*word);
    for (char **word = environ; fits && *word; word++) fits = add(*word);
    return fits;
}

/* The socket of the server, which has got the request and the standard files; or -1. */
static int asked(void) {
    struct sockaddr_un server = {.sun_family = AF_UNIX, .sun_path = SERVER};
    int it = socket(AF_UNIX, SOCK_SEQPACKET | SOCK_CLOEXEC, 0);
    if (it < 0 || connect(it, (struct sockaddr *)&server, sizeof server)) return -1;
    char room[CMSG_SPACE(3 * sizeof(int))];
    struct iovec part = {request, size};
    struct msghdr message = {.msg_iov = &part, .msg_iovlen = 1, .msg_control = room, .msg_controllen = sizeof room};
    memset(room, 0, sizeof room);
    struct cmsghdr *files = CMSG_FIRSTHDR(&message);
    *files = (struct cmsghdr){.cmsg_level = SOL_SOCKET, .cmsg_type = SCM_RIGHTS, .cmsg_len = CMSG_LEN(3 * sizeof(int))};
    memcpy(CMSG_DATA(files), (int[]){0, 1, 2}, 3 * sizeof(int));
    return sendmsg(it, &message, 0) < 0 ? -1 : it;
}

/* Waits for a number that the server sends; 0 if it has gone. */
static int is_told(int server, int *number) {
    return recv(server, number, sizeof *number, 0) == sizeof *number;
}

int main(int count, char **words) {
    int server = fill(count, words) ? asked() : -1, status;
    if (server >= 0 && is_told(server, &status) && status == TAKEN) {
        close(0), close(1), close(2);
        if (!is_told(server, &status)) return 1;
        if (WIFEXITED(status)) return WEXITSTATUS(status);
        signal(WTERMSIG(status), SIG_DFL);
        raise(WTERMSIG(status));
        return 1;
    }
    words[0] = PYTHON;
    execv(PYTHON, words);
    perror(PYTHON);
    return 127;
}

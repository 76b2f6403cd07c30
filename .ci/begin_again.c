/* Begins a program again and again where it is emulated, so that what was translated of it needn't be once more. This
 * library is preloaded: PROGRAM SOCKET WORD... begins at the program's first instruction for each message of the socket
 * of that number, with the message's words in the place of its own, which have to be more, and without environment. The
 * message is a letter and the words, each ended by a zero byte: after `f` it begins in a process that is forked, after
 * `h` in this one. How it ends is answered as wait has it. What comes before a program's first instruction is done once
 * alone: the system's part of its start, and the dynamic linker's. A program may begin in this process that leaves no
 * variable changed, and nothing unwritten in the C library's files: ngc has neither. */
#define _GNU_SOURCE
#include <stdint.h>
#include <stdlib.h>
#include <string.h>
#include <sys/auxv.h>
#include <sys/socket.h>
#include <sys/wait.h>
#include <unistd.h>

static char message[1 << 16];
static char **words; /* on the stack, as the system put them: below them stands how many there are */
static size_t room;
static int line;

static size_t put_words(size_t length) {
    size_t count = 0;
    for (char *word = message + 1; word < message + length; word += strlen(word) + 1) {
        if (count + 1 == room) {
            abort();
        }
        words[count++] = word;
    }
    words[count] = NULL;
    environ = &words[count + 1];
    *environ = NULL;
    return count;
}

_Noreturn static void begin(size_t length) {
    uint64_t *stack = (uint64_t *)words - 1;
    stack[0] = put_words(length);
    unsigned long first = getauxval(AT_ENTRY);
    /* x0 is what the dynamic linker wants to be called at the end: nothing */
    __asm__ volatile("mov sp, %0\n\tmov x0, xzr\n\tbr %1" : : "r"(stack), "r"(first) : "x0", "memory");
    __builtin_unreachable();
}

static void answer(int status) {
    if (send(line, &status, sizeof status, 0) != sizeof status) {
        abort();
    }
}

static void begin_here(size_t length);

static void serve(void) {
    ssize_t length;
    while ((length = recv(line, message, sizeof message - 1, 0)) > 0) {
        message[length] = '\0';
        if (message[0] == 'h') {
            begin_here((size_t)length);
        }
        pid_t child = fork();
        if (child == 0) {
            close(line);
            begin((size_t)length);
        }
        int status;
        if (child < 0 || waitpid(child, &status, 0) != child) {
            abort();
        }
        answer(status);
    }
    _exit(0);
}

static void serve_on(int status, void *nothing) {
    (void)nothing;
    answer((status & 0xff) << 8);
    serve();
}

static void begin_here(size_t length) {
    if (on_exit(serve_on, NULL) != 0) {
        abort();
    }
    begin(length);
}

__attribute__((constructor)) static void serve_first(int count, char **given) {
    words = given;
    room = count > 0 ? (size_t)count : 0;
    line = room > 1 ? atoi(words[1]) : -1;
    serve();
}

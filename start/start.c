/* Linked into each program. Rattle's own start has the signal SIGPIPE ignored, and does not close standard output. With this file a pipe that
   nobody reads ends the program by that signal, and the exit status is 2 where the output turns out not to be written when it is closed. */
#define _GNU_SOURCE
#include <signal.h>
#include <stdio.h>
#include <stdlib.h>
#include <unistd.h>

/* What Rattle's `main` calls to have SIGPIPE ignored. The signal stays as it was. */
sighandler_t __sysv_signal(int number, sighandler_t handler) {
  (void)number;
  (void)handler;
  return SIG_DFL;
}

static void close_output(int status, void *unused) {
  (void)unused;
  if (status != 2 && close(STDOUT_FILENO) != 0) {
    perror("standard output");
    _exit(2);
  }
}

__attribute__((constructor)) static void start(void) { on_exit(close_output, NULL); }
